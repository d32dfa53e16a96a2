"""The report of `check`: one HTML page that opens anywhere, without a network, and can be printed. It
has what was counted, the areas, a map, and a picture for each finding."""

from __future__ import annotations

from collections import Counter
from dataclasses import dataclass
from html import escape
from typing import Iterator, Sequence

import numpy as np

from .columns import Columns, GridPolygon, Numbers, extents
from .findings import LAYER, Finding

# What is drawn at most: findings with a picture of their own, and points of the map.
PICTURES, POINTS = 200, 200_000

# Sides of the map and of a finding's picture, in pixels of the screen; how much of it a finding has.
MAP, PICTURE, SHARE = 860, 260, 0.6
LAND, INK, FOUND = "#f4f1e8", "#555", "#c0392b"

STYLE = """
body { font-family: sans-serif; max-width: 900px; margin: 2em auto; padding: 0 1em; color: #222; }
table { border-collapse: collapse; margin: 1em 0; }
th, td { text-align: left; padding: .25em .8em; border-bottom: 1px solid #ddd; }
td.number, th.number { text-align: right; }
figure { display: inline-block; width: 260px; margin: .5em .8em .5em 0; vertical-align: top; break-inside: avoid; }
figcaption { font-size: .85em; }
svg { border: 1px solid #ddd; max-width: 100%; height: auto; }
"""


@dataclass(frozen=True)
class Box:
    """An upright rectangle on the grid."""

    left: float
    low: float
    right: float
    high: float

    @staticmethod
    def round(polygons: Sequence[GridPolygon]) -> Box:
        xs, ys = zip(*(point for polygon in polygons for ring in polygon for point in ring))
        return Box(min(xs), min(ys), max(xs), max(ys))

    def square(self, share: float) -> Box:
        """A square with the same middle, of which this rectangle has such a share."""
        half = max(self.right - self.left, self.high - self.low, 2) / share / 2
        x, y = (self.left + self.right) / 2, (self.low + self.high) / 2
        return Box(x - half, y - half, x + half, y + half)


@dataclass(frozen=True)
class Drawing:
    """What a box shows, so many pixels wide."""

    box: Box
    width: float

    @property
    def scale(self) -> float:
        return self.width / max(self.box.right - self.box.left, 1)

    @property
    def height(self) -> float:
        return max(self.scale * (self.box.high - self.box.low), 1)

    def path(self, polygons: Sequence[GridPolygon], style: str) -> str:
        rings = (ring for polygon in polygons for ring in polygon)
        drawn = "".join("M" + "L".join(self.place(*point) for point in ring[:-1]) + "Z" for ring in rings)
        return f'<path d="{drawn}" fill-rule="evenodd" {style}/>'

    def place(self, x: float, y: float) -> str:
        return f"{(x - self.box.left) * self.scale:.1f} {(self.box.high - y) * self.scale:.1f}"

    def picture(self, layer: Sequence[GridPolygon], found: Sequence[GridPolygon], words: str) -> str:
        head = f'<svg viewBox="0 0 {self.width:.0f} {self.height:.0f}" width="{self.width:.0f}" height="{self.height:.0f}" role="img">'
        land = self.path(layer, f'fill="{LAND}" stroke="{INK}" stroke-width="0.7"')
        mark = self.path(found, f'fill="{FOUND}" fill-opacity="0.6" stroke="{FOUND}" stroke-width="1.5"')
        return f"{head}<title>{escape(words)}</title>{land}{mark}</svg>"


@dataclass(frozen=True)
class Layer:
    """The polygons of all features on the grid, and for each feature the box round it."""

    features: list[list[GridPolygon]]
    places: Numbers
    boxes: Numbers

    @staticmethod
    def of(columns: Columns[Numbers]) -> Layer:
        places = np.flatnonzero(np.diff(columns.features) > 0)
        starts = columns.feature_points()[:-1][places]
        (left, right), (low, high) = extents(columns.x, starts), extents(columns.y, starts)
        return Layer(columns.lists(), places, np.stack((left, low, right, high), axis=1))

    def within(self, box: Box) -> list[GridPolygon]:
        """The polygons of the features that reach a box."""
        left, low, right, high = self.boxes.T
        met = (left <= box.right) & (right >= box.left) & (low <= box.high) & (high >= box.low)
        return [polygon for place in self.places[met].tolist() for polygon in self.features[place]]


@dataclass(frozen=True)
class Report:
    """What the page has: the layer's name, how many features it has, lines about the whole, the
    findings with their polygons on the grid, if they have such, and the polygons of the layer."""

    name: str
    features: int
    lines: Sequence[str]
    square: str
    findings: Sequence[tuple[Finding, list[GridPolygon]]]
    layer: Columns[Numbers] | None

    def page(self) -> str:
        title = escape(f"Check of {self.name}")
        parts = [f"<h1>{title}</h1>", *self.summary(), *self.pictures(), *self.table()]
        head = f'<!DOCTYPE html>\n<html lang="en"><head><meta charset="utf-8"><title>{title}</title><style>{STYLE}</style></head>'
        return "\n".join([head, "<body>", *parts, "</body></html>", ""])

    def summary(self) -> Iterator[str]:
        counts = Counter(finding.kind for finding, _ in self.findings)
        yield f"<p>{self.features:,} features, {len(self.findings):,} findings.</p>"
        yield from (f"<p>{escape(line)}</p>" for line in self.lines)
        if not counts:
            return
        yield f'<table><tr><th>kind</th><th class="number">findings</th><th class="number">{escape(self.square)}</th></tr>'
        for kind, count in counts.items():
            areas = [finding.area for finding, _ in self.findings if finding.kind == kind and finding.area is not None]
            area = f"{sum(areas):,.6g}" if areas else ""
            yield f'<tr><td>{escape(kind)}</td><td class="number">{count:,}</td><td class="number">{area}</td></tr>'
        yield "</table>"

    def pictures(self) -> Iterator[str]:
        """The map, and a picture for each finding that has a place."""
        if self.layer is None or not len(self.layer.x):
            return
        layer, drawn = Layer.of(self.layer), [(finding, polygons) for finding, polygons in self.findings if polygons]
        yield "<h2>Map</h2>"
        whole = [polygon for polygons in layer.features for polygon in polygons]
        found = [polygon for _, polygons in drawn for polygon in polygons]
        yield Drawing(Box.round(whole), MAP).picture(whole if len(self.layer.x) <= POINTS else [], found, f"All findings of {self.name}")
        if drawn:
            yield "<h2>Findings</h2>"
        for finding, polygons in drawn[:PICTURES]:
            drawing = Drawing(Box.round(polygons).square(SHARE), PICTURE)
            words = escape(finding.line())
            yield f"<figure>{drawing.picture(layer.within(drawing.box), polygons, finding.line())}<figcaption>{words}</figcaption></figure>"
        if len(drawn) > PICTURES:
            yield f"<p>The first {PICTURES} of {len(drawn):,} findings are drawn; the table has all.</p>"

    def table(self) -> Iterator[str]:
        if not self.findings:
            return
        yield "<h2>All findings</h2>"
        yield "<table><tr><th>kind</th><th>features</th><th>finding</th></tr>"
        for finding, _ in self.findings:
            ids = "" if finding.kind == LAYER else ", ".join(map(str, finding.ids))
            yield f"<tr><td>{escape(finding.kind)}</td><td>{ids}</td><td>{escape(finding.line())}</td></tr>"
        yield "</table>"
