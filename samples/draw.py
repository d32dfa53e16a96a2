#!/usr/bin/python3
"""Draws the pictures of docs/PLANNERS.md: draw.py FLAWS.gpkg CONFLICTS.gpkg FOLDER

In: the town beside this file, what `overlay-gis check` found in its parcels, and what `overlay-gis faces` tells of both layers. Out:
town.svg, town-flaws.svg and town-conflicts.svg in the folder, for the same answers always the same.
"""
import os
import sys
from html import escape

from osgeo import ogr

ogr.UseExceptions()
HERE = os.path.dirname(os.path.abspath(__file__))
COLOURS = {"flood plain": "#2f6db5", "water reserve": "#7d4aa8", "nature reserve": "#3c8d4e", "road strip": "#c8642a"}
FLAWS = {"overlap": "#c0392b", "double": "#c0392b", "gap": "#d9a300", "sliver": "#c0392b", "crosses itself": "#7d4aa8"}
PAPER, LAND, INK = "#fff", "#f4f1e8", "#555"
WIDE, EDGE, PANEL, WORDS = 860, 10, 164, 18


def rows(path):
    """The fields and the rings of each feature."""
    source = ogr.Open(path)
    found = []
    for feature in source.GetLayer(0):
        shape = ogr.ForceToMultiPolygon(feature.GetGeometryRef().Clone())
        rings = [ring.GetPoints() for polygon in shape for ring in polygon]
        found.append((feature.items(), [[point[:2] for point in ring] for ring in rings]))
    return found


class Window:
    """A part of the plane, and where it is drawn."""

    def __init__(self, west, south, east, north, left, top, wide):
        self.west, self.north, self.left, self.top, self.wide = west, north, left, top, wide
        self.scale = wide / (east - west)
        self.high = (north - south) * self.scale

    def path(self, rings):
        def place(x, y):
            return "%.1f %.1f" % (self.left + (x - self.west) * self.scale, self.top + (self.north - y) * self.scale)

        return "".join("M" + "L".join(place(x, y) for x, y in ring[:-1]) + "Z" for ring in rings)

    def shape(self, rings, fill, opacity=1.0, stroke="none", width=1.0):
        style = 'fill="%s" fill-opacity="%g" fill-rule="evenodd" stroke="%s" stroke-width="%g"' % (fill, opacity, stroke, width)
        return '<path d="%s" %s/>' % (self.path(rings), style)


def words(x, y, text):
    return '<text x="%.1f" y="%.1f" font-family="sans-serif" font-size="12" fill="%s">%s</text>' % (x, y, INK, escape(text))


def legend(names, y):
    """A square and a name for each zone."""
    marks = []
    for number, (name, colour) in enumerate(names.items()):
        x = EDGE + 150 * number
        marks += ['<rect x="%d" y="%.1f" width="11" height="11" fill="%s"/>' % (x, y - 10, colour), words(x + 16, y, name)]
    return marks


def write(path, high, marks):
    head = '<svg xmlns="http://www.w3.org/2000/svg" width="%d" height="%.0f" viewBox="0 0 %d %.0f">' % (WIDE, high, WIDE, high)
    with open(path, "w", encoding="utf-8") as file:
        file.write("\n".join([head, '<rect width="100%%" height="100%%" fill="%s"/>' % PAPER, *marks, "</svg>\n"]))


def whole(layers):
    """A window for all layers."""
    points = [point for layer in layers for _, rings in layer for ring in rings for point in ring]
    xs, ys = zip(*points)
    return Window(min(xs), min(ys), max(xs), max(ys), EDGE, EDGE, WIDE - 2 * EDGE)


def draw_town(path, parcels, zones):
    window = whole([parcels, zones])
    marks = [window.shape(rings, LAND, stroke=INK, width=0.8) for _, rings in parcels]
    marks += [window.shape(rings, COLOURS[row["zone"]], 0.3, COLOURS[row["zone"]], 1.2) for row, rings in zones]
    bottom = EDGE + window.high + WORDS
    write(path, bottom + EDGE, marks + legend(COLOURS, bottom))


def draw_conflicts(path, parcels, zones, faces):
    window = whole([parcels, zones])
    marks = [window.shape(rings, LAND, stroke=INK, width=0.8) for _, rings in parcels]
    for row, rings in faces:
        if row["a"] is None or row["b"] is None:
            continue
        for number in str(row["b"]).split(","):
            marks.append(window.shape(rings, COLOURS[zones[int(number)][0]["zone"]], 0.45, INK, 0.5))
    bottom = EDGE + window.high + WORDS
    write(path, bottom + EDGE, marks + legend(COLOURS, bottom))


def close_up(rings, number):
    """The window round what is wrong, not less than a metre and a half wide."""
    xs, ys = zip(*(point for ring in rings for point in ring))
    half = max(1.5, 1.3 * (max(xs) - min(xs)), 1.3 * (max(ys) - min(ys))) / 2
    x, y = (min(xs) + max(xs)) / 2, (min(ys) + max(ys)) / 2
    return Window(x - half, y - half, x + half, y + half, EDGE + number * (PANEL + 5), EDGE, PANEL)


def told(row):
    """What a flaw is, in a few words."""
    if row["area"] is None:
        return "%s %s" % (row["first"], row["kind"]), ""
    features = "" if row["first"] is None else " of %s and %s" % (row["first"], row["second"])
    return row["kind"] + features, "%.2f m\u00b2, %.2f m wide" % (row["area"], row["width"])


def draw_flaws(path, parcels, flaws):
    marks = ['<clipPath id="panel%d"><rect x="%d" y="%d" width="%d" height="%d"/></clipPath>' % (n, EDGE + n * (PANEL + 5), EDGE, PANEL, PANEL) for n in range(len(flaws))]
    for number, (row, rings) in enumerate(flaws):
        window = close_up(rings, number)
        inner = [window.shape(shape, LAND, 0.6, INK) for _, shape in parcels] + [window.shape(rings, FLAWS[row["kind"]], 0.8)]
        marks += ['<g clip-path="url(#panel%d)">' % number, *inner, "</g>"]
        marks += [words(window.left, EDGE + PANEL + WORDS * (line + 1), text) for line, text in enumerate(told(row))]
    write(path, EDGE + PANEL + 3 * WORDS, marks)


def main(flaws, conflicts, folder):
    parcels, zones = (rows(os.path.join(HERE, "town-%s.geojson" % name)) for name in ("parcels", "zones"))
    draw_town(os.path.join(folder, "town.svg"), parcels, zones)
    draw_flaws(os.path.join(folder, "town-flaws.svg"), parcels, rows(flaws))
    draw_conflicts(os.path.join(folder, "town-conflicts.svg"), parcels, zones, rows(conflicts))


if __name__ == "__main__":
    main(*sys.argv[1:])
