#!/usr/bin/env python3
"""The exact reference of `overlay faces`: rows by definition, on the rules of reference.py.

    reference_faces.py A [B ..] [--tile N] [--workers N] [--segments N] [--report] [--points N]

A feature is a geometry of a layer text; all segments of all features are rounded together. A feature's border is the rounded edges that
its routes have an odd number of times, and the cover set of a point the features over whose borders its parity is odd. A row is a set,
not empty, that is the cover set of the left side point of some directed rounded edge whose right one has another; its polygons are
those of the edges so directed. With --points the laws are asserted too: the areas of a feature's rows add up to its own, and each of that
many random rational points lies in the row of its cover set and in no other.
"""
from __future__ import annotations

import argparse
import random
import re
import sys
from collections.abc import Iterable, Sequence

import reference
from reference import Edge, Fault, Grid, Polygon, Rational, Ring

# Features by their numbers, ascending.
Cover = tuple[int, ...]

MOST_LAYERS = 64
MOST_IDS = 1 << 28
NAME = re.compile(rb"(?:MULTI)?POLYGON", re.IGNORECASE)


def layer_name(number: int) -> str:
    """A to Z, and then the number from 1."""
    return chr(ord("A") + number) if number < 26 else "%d" % (number + 1)


def features_of(text: bytes) -> list[list[Ring]]:
    """The rings of each feature of a layer text."""
    reference.read_layer(text)  # refuses what is no layer
    begins = [found.start() for found in NAME.finditer(text)] + [len(text)]
    return [reference.read_layer(text[begin:end]) for begin, end in zip(begins, begins[1:])]


def twice_area(polygons: Iterable[Polygon]) -> int:
    return sum(p[0] * q[1] - p[1] * q[0] for rings in polygons for ring in rings for p, q in zip(ring, ring[1:] + ring[:1]))


def undirected(directed: Iterable[Edge]) -> list[Edge]:
    return [(min(e), max(e)) for e in directed]


class Faces:
    """The layers rounded together, and their rows; the fault where they are refused."""

    def __init__(self, texts: Sequence[bytes], side: int | None = None, workers: int = 4, limit: int = reference.SEGMENT_LIMIT) -> None:
        if side is not None and not reference.LEAST_SIDE <= side <= reference.GREATEST_SIDE:
            raise Fault(6)
        if not 1 <= workers <= reference.WORKER_LIMIT:
            raise Fault(7)
        self.layers = [self.read(text, number) for number, text in enumerate(texts)]
        features = [rings for layer in self.layers for rings in layer]
        self.segments = [s for number, rings in enumerate(features) for s in reference.segments_of(rings, number)]
        self.sizes = [sum(len(reference.segments_of(rings, 0)) for rings in layer) for layer in self.layers]
        if len(self.segments) > limit:
            raise Fault(5, len(self.segments))
        self.bounds = reference.bounds_of(p for s in self.segments for p in s[:2])
        if side is not None and Grid(self.bounds, side).tiles > reference.TILE_LIMIT:
            raise Fault(8, Grid(self.bounds, side).tiles)
        self.count = len(features)
        self.round()
        self.find_rows()
        if self.ids > MOST_IDS:
            raise Fault(12, self.ids)

    def read(self, text: bytes, number: int) -> list[list[Ring]]:
        try:
            return features_of(text)
        except Fault as fault:
            fault.layer = layer_name(number)
            raise

    def round(self) -> None:
        self.hot = sorted(reference.hot_pixels(self.segments))
        self.routes = [reference.route(s, self.hot) for s in self.segments]
        counts: dict[Edge, dict[int, int]] = {}
        for s, pixels in zip(self.segments, self.routes):
            for edge in undirected(zip(pixels, pixels[1:])):
                of_feature = counts.setdefault(edge, {})
                of_feature[s[2]] = of_feature.get(s[2], 0) + 1
        assert reference.are_noded(counts), "rounded edges share more than ends"
        self.borders = [[e for e in sorted(counts) if counts[e].get(feature, 0) % 2] for feature in range(self.count)]
        self.edges = sorted(set(e for border in self.borders for e in border))

    def cover(self, z: Rational) -> Cover:
        """The cover set of a point."""
        return tuple(feature for feature in range(self.count) if reference.parity(self.borders[feature], z))

    def find_rows(self) -> None:
        """The directed edges and the polygons of each cover set that has a row."""
        directed: dict[Cover, list[Edge]] = {}
        for p, q in self.edges:
            left, right = (self.cover(z) for z in reference.side_points(p, q))
            for covered, other, edge in ((left, right, (p, q)), (right, left, (q, p))):
                if covered and covered != other:
                    directed.setdefault(covered, []).append(edge)
        self.rows = {covered: reference.polygons(sorted(edges)) for covered, edges in sorted(directed.items())}
        self.ids = sum(map(len, self.rows))

    def by_layer(self, covered: Cover) -> list[list[int]]:
        """The features of a row by their layers, each layer's from 1."""
        first, found = 0, []
        for layer in self.layers:
            found.append([feature - first + 1 for feature in covered if first <= feature < first + len(layer)])
            first += len(layer)
        return found

    def text(self) -> str:
        lines = []
        for covered, polygons in self.rows.items():
            ids = [",".join(map(str, layer)) for layer in self.by_layer(covered)]
            lines.append("\t".join(["%d" % twice_area(polygons), *ids, reference.result_text(polygons)]))
        return "".join(lines)

    def report(self, side: int | None = None) -> str:
        grid = Grid(self.bounds, side or reference.fitting_side(self.bounds))
        hot, records = [0] * grid.tiles, [0] * grid.tiles
        for c in self.hot:
            hot[grid.tile_of(c)] += 1
        for c in (c for pixels in self.routes for c in pixels):
            records[grid.tile_of(c)] += 1
        lines = ["segments " + " ".join(map(str, self.sizes)), "features " + " ".join("%d" % len(layer) for layer in self.layers),
                 "hot %d" % len(self.hot), "records %d" % sum(records), "edges %d" % len(self.edges), "rows %d" % len(self.rows),
                 "ids %d" % self.ids, "tiles %d" % grid.tiles, "remade 0"]
        lines += ["tile %d %d %d" % numbers for numbers in zip(range(grid.tiles), hot, records)]
        return "".join(line + "\n" for line in lines)

    def assert_areas(self) -> None:
        """The areas of the rows that have a feature add up to that of the feature by itself."""
        for feature, border in enumerate(self.borders):
            own = [e for p, q in border for e in ((p, q), (q, p)) if reference.parity(border, reference.side_points(*e)[0])]
            held = [polygons for covered, polygons in self.rows.items() if feature in covered]
            assert twice_area(reference.polygons(sorted(own))) == sum(map(twice_area, held)), feature
        assert all(twice_area(polygons) > 0 for polygons in self.rows.values())

    def try_points(self, count: int, rng: random.Random) -> None:
        """Random rational points off the edges lie in the row of their cover set alone."""
        written = {covered: undirected(e for rings in polygons for ring in rings for e in zip(ring, ring[1:] + ring[:1]))
                   for covered, polygons in self.rows.items()}
        spots = self.hot or [(0, 0)]
        for _ in range(count):
            n, c = rng.choice([1, 2, 3, 4, 7, 16, 97]), rng.choice(spots)
            z = (c[0] * n + rng.randint(-3 * n, 3 * n), c[1] * n + rng.randint(-3 * n, 3 * n), n)
            if not any(reference.is_on(e, z) for e in self.edges):
                covered = self.cover(z)
                assert [row for row in written if reference.parity(written[row], z)] == ([covered] if covered else []), z


def main() -> int:
    parser = argparse.ArgumentParser(usage="reference_faces.py A [B ..] [--tile N] [--workers N] [--segments N] [--report] [--points N]")
    parser.add_argument("files", nargs="+")
    for name, default in (("tile", None), ("workers", 4), ("segments", reference.SEGMENT_LIMIT), ("points", 0)):
        parser.add_argument("--" + name, type=int, default=default)
    parser.add_argument("--report", action="store_true")
    asked = parser.parse_args()
    if len(asked.files) > MOST_LAYERS:
        parser.error("at most %d layers" % MOST_LAYERS)
    texts = [reference.load(name, layer_name(number)) for number, name in enumerate(asked.files)]
    try:
        faces = Faces(texts, asked.tile, asked.workers, asked.segments)
    except Fault as fault:
        sys.stderr.write(fault.line())
        return 3
    if asked.points:
        faces.assert_areas()
        faces.try_points(asked.points, random.Random(1))
    sys.stdout.write(faces.text())
    sys.stdout.flush()
    if asked.report:
        sys.stderr.write(faces.report(asked.tile))
    return 0


if __name__ == "__main__":
    sys.exit(main())
