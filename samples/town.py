#!/usr/bin/env python3
"""Makes the town: town-parcels.geojson and town-zones.geojson beside this file. Always the same ones.

Parcels stand in blocks between streets and share their borders point for point, in millimetres, but for what is usual: a corner that was
measured again, a border that was, so that a strip is nobody's, two points in the wrong order, and a parcel that is there twice. Zones lie
over one another as they come: a flood plain along a brook, a water reserve, a nature reserve with a pond left out, a strip along a road.
"""
import json
import math
import os
import random

HERE = os.path.dirname(os.path.abspath(__file__))
EAST, NORTH = 412_000, 5_654_000
SYSTEM = {"type": "name", "properties": {"name": "urn:ogc:def:crs:EPSG::25832"}}
BLOCKS, ROWS, WIDE, DEEP, STREET = (3, 2), (5, 2), 18.0, 27.0, 9.0
OWNERS = ("Ahrens", "Brandt", "Claasen", "Dirks", "Ehlers", "Freese", "Gerdes", "Harms")
USES = ("dwelling", "dwelling", "garden", "meadow", "yard")


class Block:
    """Parcels in two rows, whose corners and borders are those of their neighbours."""

    def __init__(self, rng, left, bottom):
        columns, rows = ROWS
        self.rng, self.borders = rng, {}
        self.corners = {
            (i, j): (left + i * WIDE + rng.uniform(-1.5, 1.5), bottom + j * DEEP + rng.uniform(-1.5, 1.5))
            for i in range(columns + 1)
            for j in range(rows + 1)
        }

    def border(self, start, end):
        """The points from a corner up to the next one, which is left out."""
        low, high = sorted((start, end))
        if (low, high) not in self.borders:
            (px, py), (qx, qy) = self.corners[low], self.corners[high]
            at, aside = self.rng.uniform(0.3, 0.7), self.rng.uniform(-0.012, 0.012)
            self.borders[low, high] = (px + (qx - px) * at - (qy - py) * aside, py + (qy - py) * at + (qx - px) * aside)
        return [self.corners[start], self.borders[low, high]]

    def parcels(self):
        columns, rows = ROWS
        for j in range(rows):
            for i in range(columns):
                turns = [(i, j), (i + 1, j), (i + 1, j + 1), (i, j + 1)]
                yield [point for start, end in zip(turns, turns[1:] + turns[:1]) for point in self.border(start, end)]


def parcels():
    """The rings of all parcels, clean."""
    rng = random.Random("town")
    found = []
    for k in range(BLOCKS[0] * BLOCKS[1]):
        left = k % BLOCKS[0] * (ROWS[0] * WIDE + STREET)
        bottom = k // BLOCKS[0] * (ROWS[1] * DEEP + STREET)
        found += Block(rng, left, bottom).parcels()
    return found


def moved(ring, at, by):
    """The ring with some points elsewhere."""
    return [(x + by[0], y + by[1]) if k in at else (x, y) for k, (x, y) in enumerate(ring)]


def spoiled(rings):
    """The rings with what is usual: the numbers are places in the list."""
    rings = list(rings)
    rings[7] = moved(rings[7], (2,), (0.42, 0.27))  # a corner measured again
    rings[22] = moved(rings[22], (2, 3, 4), (-0.31, 0.02))  # a border measured again: a strip is left
    ring = rings[34]
    rings[34] = [*ring[:3], ring[4], ring[3], *ring[5:]]  # two points in the wrong order
    return [*rings, rings[48]]  # one is there twice


def fields(number):
    rng = random.Random("fields %d" % number)
    count = 10 * BLOCKS[0] * BLOCKS[1]
    name = "%d" % (101 + number) if number < count else "%d/1" % (101 + 48)
    return {"number": name, "owner": rng.choice(OWNERS), "use": rng.choice(USES)}


def round_about(x, y, radius, bent, corners=48):
    """A bent circle."""
    turns = [2 * math.pi * k / corners for k in range(corners)]
    return [(x + radius * (1 + bent * math.sin(3 * t)) * math.cos(t), y + radius * (1 + bent * math.cos(2 * t)) * math.sin(t)) for t in turns]


def along(points, width):
    """A strip along a line of points."""
    left, right = [], []
    for (px, py), (qx, qy) in zip(points, points[1:]):
        length = math.dist((px, py), (qx, qy))
        dx, dy = (qx - px) / length * width, (qy - py) / length * width
        left += [(px - dy, py + dx), (qx - dy, qy + dx)]
        right += [(px + dy, py - dx), (qx + dy, qy - dx)]
    return left + right[::-1]


def zones():
    """The name of each zone, the rule that it stands for, and its rings."""
    brook = [(x, 31 + 9 * math.sin(x / 38)) for x in range(-15, 321, 12)]
    upper = [(x, y + 11 + 4 * math.sin(x / 21)) for x, y in brook]
    lower = [(x, y - 12 - 3 * math.sin(x / 17)) for x, y in brook]
    return [
        ("flood plain", "no building", [upper + lower[::-1]]),
        ("water reserve", "no oil tank", [round_about(206, 88, 47, 0.11)]),
        ("nature reserve", "no clearing", [round_about(62, 84, 38, 0.16), round_about(58, 86, 11, 0.2, 16)[::-1]]),
        ("road strip", "no building", [along([(-12, 58.5), (99, 58.5), (306, 58.2)], 8.0)]),
    ]


def written(ring):
    """The points of a closed ring in metres, to the millimetre."""
    return [[round(EAST + x, 3), round(NORTH + y, 3)] for x, y in [*ring, ring[0]]]


def write(name, rows):
    """A layer, a feature a line."""
    lines = []
    for properties, rings in rows:
        geometry = {"type": "Polygon", "coordinates": [written(ring) for ring in rings]}
        lines.append(json.dumps({"type": "Feature", "properties": properties, "geometry": geometry}))
    with open(os.path.join(HERE, name), "w", encoding="ascii") as file:
        head = {"type": "FeatureCollection", "name": name.split(".")[0], "crs": SYSTEM}
        file.write(json.dumps(head)[:-1] + ', "features": [\n' + ",\n".join(lines) + "\n]}\n")


if __name__ == "__main__":
    write("town-parcels.geojson", [(fields(number), [ring]) for number, ring in enumerate(spoiled(parcels()))])
    write("town-zones.geojson", [({"zone": zone, "rule": rule}, rings) for zone, rule, rings in zones()])
