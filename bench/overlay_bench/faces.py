"""measures `overlay faces` beside `overlay union` of the same layers and the plain program's faces

For each kind and size: processor seconds by one worker and by four, of all three in turn, by the default plan, from files and to a
file; medians of several rounds, the ratios to union and to the plain program, and how many rows and features these have. The kinds are
maps of `speed`, `shared`, the same parcels as both layers, so that parity cancels nearly all borders, and layers of features that lie on
one another. The bytes of both programs have to be the same; where they differ the row says so, and the exit status is 1.
"""
from __future__ import annotations

import argparse
import filecmp
import os
import random
import tempfile
from collections.abc import Iterator, Sequence

from . import feature_layers, layers, maps, programs
from .speed import Series, greatest, ratio, shown

SIZES = (100_000, 1_000_000)
MAPS = ("parcels", "shared", "coast", "blobs", "tight")
CREWS = (1, 4)


def add_arguments(parser: argparse.ArgumentParser) -> None:
    kinds = (*MAPS, *feature_layers.HOSTILE)
    parser.add_argument("--kinds", nargs="+", default=list(kinds), choices=kinds, metavar="KIND", help="of: " + ", ".join(kinds))
    parser.add_argument("--sizes", nargs="+", type=int, default=SIZES, metavar="SEGMENTS", help="of maps; the others have one size each")
    parser.add_argument("--rounds", type=int, default=5)
    parser.add_argument("--seconds", type=float, default=120, help="after which a run is over")


def write_shared(segments: int, files: Sequence[str]) -> None:
    """Writes the same parcels as both layers."""
    cells = maps.cells(random.Random("shared %d" % segments), int((segments / 8) ** 0.5), 1000, 1, 0, 0)
    for name in files:
        with open(name, "w") as file:
            file.write(layers.text_of(cells))


def write(kind: str, size: int, files: Sequence[str]) -> None:
    """Writes both layers of a kind."""
    if kind in feature_layers.HOSTILE:
        feature_layers.write(kind, size, files)
    elif kind == "shared":
        write_shared(size, files)
    else:
        maps.write(kind, size, files)


def counts(path: str) -> tuple[int, int]:
    """How many rows a text has, and how many features these."""
    rows = features = 0
    with open(path, "rb") as file:
        for line in file:
            heads = line.split(b"\t")[1:-1]
            rows, features = rows + 1, features + sum(head.count(b",") + 1 for head in heads if head)
    return rows, features


class Row:
    """All three on one pair of layers."""

    def __init__(self, arguments: argparse.Namespace, folder: str, files: Sequence[str]) -> None:
        self.texts = {name: os.path.join(folder, name) for name in ("faces", "union", "plain")}
        calls = {"faces": (arguments.program, "faces"), "union": (arguments.program, "union"), "plain": (programs.plain(), "faces")}
        self.series = {
            (name, crew): Series([*call, *files, "--workers=%d" % crew], self.texts[name]) for name, call in calls.items() for crew in CREWS
        }
        self.differs = False
        for _ in range(arguments.rounds):
            for crew in CREWS:
                for name in calls:
                    self.series[name, crew].run(arguments.seconds)
                self.differs |= not self.is_over(crew) and not filecmp.cmp(self.texts["faces"], self.texts["plain"], shallow=False)

    def is_over(self, crew: int) -> bool:
        return self.series["faces", crew].is_over() or self.series["plain", crew].is_over()

    def numbers(self) -> Iterator[str]:
        for crew in CREWS:
            faces, union, plain = (self.series[name, crew].median("processor") for name in self.texts)
            yield from (shown(faces, 2), shown(union, 2), ratio(faces, union), shown(plain, 2), ratio(faces, plain))
        memory = [self.series["faces", crew].median("memory") for crew in CREWS]
        yield shown(greatest(memory), 0)
        yield from map("{:,}".format, counts(self.texts["faces"]))

    def note(self) -> str:
        failed = [series for series in self.series.values() if series.failed()]
        return " status %s" % failed[0].runs[-1].status if failed else " bytes differ" if self.differs else ""


def main(arguments: argparse.Namespace) -> int:
    programs.plain()
    wrong = False
    heads = ("faces s", "union s", "ratio", "plain s", "ratio")
    print("| kind | segments | %s | MB | rows | features of rows |" % " | ".join("%s: %s" % (crew, head) for crew in ("1 worker", "4 workers") for head in heads))
    print("|---" * (5 + len(CREWS) * len(heads)) + "|")
    with tempfile.TemporaryDirectory() as folder:
        files = [os.path.join(folder, name) for name in ("a.wkt", "b.wkt")]
        for kind in arguments.kinds:
            for size in [feature_layers.HOSTILE[kind][1]] if kind in feature_layers.HOSTILE else sorted(arguments.sizes):
                programs.apart(lambda: write(kind, size, files))
                row = Row(arguments, folder, files)
                print("| %s | %s | %s |%s" % (kind, "{:,}".format(size), " | ".join(row.numbers()), row.note()), flush=True)
                wrong |= bool(row.note())
    return int(wrong)
