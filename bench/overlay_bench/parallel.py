"""compares several workers with one, and with what is right, on layers above every threshold for threads

A call divides its work only where there is enough of it: from 1,024 vertices, 4,096 edges, 8,192 directed edges, 16,384 segments
or 131,072 bytes of a text on. Dense layers are 5,000 squares in a grid, each of which overlaps its neighbours, and 20,000
segments, most of which cross others; loose ones leave room between squares and quadrangles, so that what they cover has a border as
long. All five commands, the operations with --areas and with --covered, and faces are run by 1, 2, 3, 4 and 64 workers and by two
tile sides, each with a report: the text has to be the one of the stored checksum, the areas those that are stored, and the report
the one that one worker gives. Smaller siblings of the layers are compared with the exact references (bench/reference.py,
reference_faces.py). The exit status is 1 where anything differs.

What is stored was made by `bench/run parallel --make`, which prints both tables below. It runs the plain program (bench/plain), which is
a second program of the same rules: areas are sums over the points of its results, and layers that are read as covered have the result
that the edges of its faces bound. It first compares all of that with the exact references on the siblings.
"""
from __future__ import annotations

import argparse
import hashlib
import os
import tempfile
from collections.abc import Iterator, Sequence
from dataclasses import dataclass
from typing import Protocol

import reference
import reference_faces
from reference import Edge

from . import judges, layers, programs, rows
from .layers import Polygons
from .programs import COMMANDS, answer

CREWS = (1, 2, 3, 4, 64)
# A side, or none, and a number of workers.
PLANS = (*((None, crew) for crew in CREWS), (128, 1), (128, 4))
SQUARES = 5_000
SIBLING = 12
# the edges, and the points of a result, that the layers have to give so that threads are worth it
EDGES, POINTS = 16_384, 8_192


@dataclass(frozen=True)
class Ask:
    """What is asked of a pair of layers, and what is right: the checksum of the text, and what is told of areas."""

    command: str
    option: str
    pair: str
    text: str = ""
    areas: str = ""

    def words(self, program: str, files: Sequence[str]) -> list[str]:
        return [program, self.command, *files, "--report", *([self.option] if self.option else [])]

    def __str__(self) -> str:
        return " ".join(filter(None, (self.command, self.option, "of", self.pair, "layers")))


LAYERS: dict[str, tuple[str, str]] = {
    "dense": ("95fb86c6d6150d4e1418bfa1a0852335ae2234bb1ddd5378cc534a28b1ad3d8a", "79475bea3c18baaa39eaebd2151a2be11b823d9c8487da379b41d97df6b04f0d"),
    "loose": ("cf61819f3825cfab61e7feff7bbf27877e78a3fdb18fbefcd89f63534e51665f", "3806784d9ee9130c5783e011633cdc718fb458d0e540c331988b97db3178b317"),
}
ASKS: tuple[Ask, ...] = (
    Ask("edges", "", "dense", "9d296401fb17eb665332cddd59ef629c5fa32bb41f6b2dbdb78ae4e600d4e99d"),
    Ask("union", "", "dense", "5ee74f9c673a466bc9d2bbd9625b58e4677aa47b7346c06dc6e547b061dc9aa0"),
    Ask("intersection", "", "dense", "a5c18d49262cbf19a6c88d17fe3f52cbd082d2922681ee60c82d50073a1186d6"),
    Ask("difference", "", "dense", "c796bfbfd52eca70f06d6d90d66c501bc3fbd08a08d5b89f70f3bee5b7002c23"),
    Ask("symdifference", "", "dense", "78deda360099a558dc187f2ed9d40006f838cd73a979b9f196f163f46482b89e"),
    Ask("faces", "", "dense", "0b1e376cb6e1f3694aeab3896fb79f5a74e76f8ce12bf20b33ad2dc0b05384cd"),
    Ask("union", "--areas", "dense", "5ee74f9c673a466bc9d2bbd9625b58e4677aa47b7346c06dc6e547b061dc9aa0", "area2 558328 539837 806916\nsteps 153111 306643\n"),
    Ask("intersection", "--areas", "dense", "a5c18d49262cbf19a6c88d17fe3f52cbd082d2922681ee60c82d50073a1186d6", "area2 558328 539837 291249\nsteps 153111 306643\n"),
    Ask("difference", "--areas", "dense", "c796bfbfd52eca70f06d6d90d66c501bc3fbd08a08d5b89f70f3bee5b7002c23", "area2 558328 539837 267079\nsteps 153111 306643\n"),
    Ask("symdifference", "--areas", "dense", "78deda360099a558dc187f2ed9d40006f838cd73a979b9f196f163f46482b89e", "area2 558328 539837 515667\nsteps 153111 306643\n"),
    Ask("union", "--covered", "loose", "33bd77608dd9c978e2ac00c40ee8ef62ca80dfd2bc085d9b58fe60cd69e390c8"),
    Ask("intersection", "--covered", "loose", "b5810848dda5eaf36ffc3673c02174c8b5b60807220e79f095ed67749a46a10f"),
    Ask("difference", "--covered", "loose", "ab5918fb88bc113d22584cdfacec6e4ba522192a82b56a48cf74456b06b61e68"),
    Ask("symdifference", "--covered", "loose", "0536bcba94434222368667b894203a3e698648f324ff8e6ed5a24fb042a160f7"),
)


def asked() -> Iterator[Ask]:
    """What is asked, by its names alone: each way through the program, on the layers that give it enough to do."""
    for command in (*COMMANDS, "faces"):
        yield Ask(command, "", "dense")
    for command in reference.OPERATIONS:
        yield Ask(command, "--areas", "dense")
    for command in reference.OPERATIONS:
        yield Ask(command, "--covered", "loose")


def add_arguments(parser: argparse.ArgumentParser) -> None:
    parser.add_argument("--make", action="store_true", help="make what is stored by the plain program, and print it")
    parser.add_argument("--seconds", type=float, default=60, help="after which a run is over")


def scattered(number: int, size: int) -> int:
    """A number from 0 to below a size, the same on each machine: multiplicative hashing, Knuth 1973."""
    return (number * 2_654_435_761 % (1 << 32)) * size >> 32


def places(count: int, step: int) -> Iterator[tuple[int, int, int]]:
    """The places of a grid, numbered."""
    columns = max(1, count // 50) if count >= 100 else 6
    return ((k, step * (k % columns), step * (k // columns)) for k in range(count))


def squares(count: int, step: int, least: int, sizes: int) -> Polygons:
    """Rectangles at the places of a grid, of so many sizes from the least one on."""
    return [[layers.rectangle(x, y, least + scattered(k, sizes), least + scattered(k + 7, sizes))] for k, x, y in places(count, step)]


def crossings(count: int, step: int, reach: int) -> Polygons:
    """Quadrangles with corners within reach of the places of a grid: many of their sides cross others, some their own."""
    def near(number: int) -> int:
        return scattered(number, 2 * reach + 1) - reach

    return [[[(x + near(8 * k + 2 * corner), y + near(8 * k + 2 * corner + 1)) for corner in range(4)]] for k, x, y in places(count, step)]


def pair_of(name: str, count: int) -> tuple[Polygons, Polygons]:
    """Dense layers, in which squares overlap their neighbours and most sides cross others, or loose ones, in which a few do."""
    if name == "dense":
        return squares(count, 10, 12, 3), crossings(count, 10, 20)
    return squares(count, 20, 8, 14), crossings(count, 20, 8)


def write(folder: str, count: int, pair: str = "dense") -> list[str]:
    """Writes both layers of a pair, and gives their files."""
    files = [os.path.join(folder, "%s-%d-%s.wkt" % (pair, count, layer)) for layer in "ab"]
    for name, polygons in zip(files, pair_of(pair, count)):
        with open(name, "w") as file:
            file.write(layers.text_of(polygons, False))
    return files


def read(files: Sequence[str]) -> tuple[bytes, bytes]:
    first, second = (open(name, "rb").read() for name in files)
    return first, second


def checksum(text: bytes) -> str:
    return hashlib.sha256(text).hexdigest()


def is_above(ask: Ask, text: bytes) -> bool:
    """Whether a text has so many edges, or points, that threads are worth it."""
    return text.count(b"\n") >= EDGES if ask.command == "edges" else text.count(b",") >= POINTS


class Judge(Protocol):
    """What answers beside the program: the texts of commands, and what is told of areas."""

    def text(self, command: str) -> bytes: ...

    def areas(self, command: str) -> bytes: ...


class Exact:
    """The exact references on two small layers."""

    def __init__(self, files: Sequence[str]) -> None:
        self.arranged, self.faces = reference.Arranged(*read(files)), reference_faces.Faces(read(files))

    def text(self, command: str) -> bytes:
        return (self.faces.text() if command == "faces" else self.arranged.text(command)).encode()

    def areas(self, command: str) -> bytes:
        return self.arranged.areas(command).encode()


class Plain:
    """The plain program on two layers, by so many workers."""

    def __init__(self, files: Sequence[str], workers: int = 4) -> None:
        self.files, self.workers, self.judge = files, workers, judges.Plain(read(files))

    def text(self, command: str) -> bytes:
        return answer([programs.plain(), command, *self.files, "--workers=%d" % self.workers]).out

    def areas(self, command: str) -> bytes:
        return self.judge.areas(command)


def covered(faces: bytes, count: int, command: str) -> bytes:
    """The result of an operation on two layers of so many features each that are read as covered, by their faces: it is bounded by the
    edges of the rows in it, but for those that two of them share."""
    bounding: set[Edge] = set()
    for features, edges in rows.rows_of(faces, (count, count)):
        if reference.OPERATIONS[command](features[0] < count, features[-1] >= count):
            for p, q in edges:
                bounding ^= {(q, p) if (q, p) in bounding else (p, q)}
    return reference.result_text(reference.polygons(bounding)).encode()


def right(judge: Judge, ask: Ask, count: int) -> tuple[bytes, bytes]:
    """The text that is right, and what is told of areas."""
    if ask.option == "--covered":
        return covered(judge.text("faces"), count, ask.command), b""
    return judge.text(ask.command), judge.areas(ask.command) if ask.option else b""


class Told:
    """What was compared, and what differed."""

    def __init__(self) -> None:
        self.runs = self.wrong = 0

    def compared(self, agrees: bool, what: object) -> None:
        self.runs += 1
        if not agrees:
            self.wrong += 1
            print("%s: differs" % what, flush=True)


def make(told: Told, folder: str) -> None:
    """Prints what is right, by the plain program."""
    files = {pair: write(folder, SQUARES, pair) for pair in ("dense", "loose")}
    small = {pair: write(folder, SIBLING, pair) for pair in files}
    print("LAYERS: dict[str, tuple[str, str]] = {")
    for pair, names in files.items():
        print('    "%s": (%s),' % (pair, ", ".join('"%s"' % checksum(text) for text in read(names))))
    print("}\nASKS: tuple[Ask, ...] = (")
    for ask in asked():
        told.compared(right(Plain(small[ask.pair]), ask, SIBLING) == right(Exact(small[ask.pair]), ask, SIBLING), "the plain program on the sibling, %s" % ask)
        alone, plain, told_of = Plain(files[ask.pair], 1), Plain(files[ask.pair]), "faces" if ask.option == "--covered" else ask.command
        text, areas = right(plain, ask, SQUARES)
        told.compared(is_above(ask, text) and alone.text(told_of) == plain.text(told_of), "the plain program, %s" % ask)
        stored = ', "%s"' % areas.decode().replace("\n", "\\n") if areas else ""
        print('    Ask("%s", "%s", "%s", "%s"%s),' % (ask.command, ask.option, ask.pair, checksum(text), stored))
    print(")")


def compare(told: Told, program: str, ask: Ask, files: Sequence[str], seconds: float) -> None:
    """Compares an ask by all plans with what is right, and its report with that of one worker by the same side."""
    reports: dict[int | None, bytes] = {}
    for side, crew in PLANS:
        words = [*ask.words(program, files), *(["--tile=%d" % side] if side else []), "--workers=%d" % crew]
        got = answer(words, seconds)
        report = got.err.removesuffix(ask.areas.encode())
        is_right = got.status == 0 and checksum(got.out) == ask.text and got.err == report + ask.areas.encode()
        told.compared(is_right and report == reports.setdefault(side, report) and b"\nremade 0\n" in report, " ".join(words[1:]))


def compare_sibling(told: Told, program: str, ask: Ask, files: Sequence[str]) -> None:
    """Compares an ask by all crews with the exact references."""
    text, areas = right(Exact(files), ask, SIBLING)
    for crew in CREWS:
        words = [*ask.words(program, files), "--workers=%d" % crew]
        got = answer(words)
        told.compared(got.status == 0 and got.out == text and got.err.endswith(areas), " ".join(words[1:]))


def main(arguments: argparse.Namespace) -> int:
    told = Told()
    with tempfile.TemporaryDirectory() as folder:
        if arguments.make:
            make(told, folder)
            return int(told.wrong > 0)
        files = {pair: write(folder, SQUARES, pair) for pair in LAYERS}
        siblings = {pair: write(folder, SIBLING, pair) for pair in LAYERS}
        for pair, checksums in LAYERS.items():
            told.compared(tuple(map(checksum, read(files[pair]))) == checksums, "%s layers as they are generated" % pair)
        for ask in ASKS:
            compare(told, arguments.program, ask, files[ask.pair], arguments.seconds)
            compare_sibling(told, arguments.program, ask, siblings[ask.pair])
    print("%d comparisons of %s workers on layers of %d and %d segments; %d differ" % (told.runs, ", ".join(map(str, CREWS)), 4 * SQUARES, 4 * SQUARES, told.wrong))
    return int(told.wrong > 0)
