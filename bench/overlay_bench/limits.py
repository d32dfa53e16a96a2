"""runs the program at its limits, one past them, and on layers that were hard once, at full size

Limits: segments, tiles, workers, coordinates, lengths of texts; each is answered, and refused one past it. Within greater limits two
million different segments, and a text longer than 2^28 bytes, have answers that are known. The hard layers are run by the default plan: seconds on the clock, memory and bytes stand beside what may be expected, which is ten times what
friendly layers (parcels) take for as many records, and 1 GB. The exit status is 1 where a limit is answered otherwise, or
where a layer takes more than that.
"""
from __future__ import annotations

import argparse
import math
import os
import random
import subprocess
import tempfile
from collections.abc import Callable, Iterable, Iterator, Sequence
from dataclasses import dataclass

from . import layers, maps, programs
from .layers import Polygons, Ring, rectangle
from .programs import Answer, Tried, answer, taken

MOST_SEGMENTS, MOST_BYTES, BYTES_A_SEGMENT, LIMIT = 1_048_576, 268_435_456, 256, 268_435_456
MOST_MEGABYTES, FRIENDLY_SEGMENTS = 1024, 100_000

# Two squares, the second of which lies over the upper right corner of the first; their union, and the parts that they cover alone and both.
LOWER, UPPER = ((0, 0), (2, 0), (2, 2), (0, 2)), ((1, 1), (3, 1), (3, 3), (1, 3))
UNITED = ((0, 0), (2, 0), (2, 1), (3, 1), (3, 3), (1, 3), (1, 2), (0, 2))
LOWER_ALONE, BOTH, UPPER_ALONE = ((0, 0), (2, 0), (2, 1), (1, 1), (1, 2), (0, 2)), ((1, 1), (2, 1), (2, 2), (1, 2)), ((1, 2), (2, 2), (2, 1), (3, 1), (3, 3), (1, 3))
# How many such squares stand apart in a lattice, a column behind another: two million segments, no two with the same ends.
COUPLES, ROWS, STEP = 250_000, 500, 5


def add_arguments(parser: argparse.ArgumentParser) -> None:
    parser.add_argument("--only", nargs="+", default=[""], metavar="WORD", help="those whose names have one of these words")
    parser.add_argument("--seconds", type=float, default=120, help="after which a run is over")
    parser.add_argument("--commands", nargs="+", default=("edges", "union"), choices=programs.COMMANDS)


def is_asked(arguments: argparse.Namespace, name: str) -> bool:
    return any(word in name for word in arguments.only)


def around(radius: float, turned: Iterable[float]) -> Ring:
    return [(round(radius * math.cos(angle)), round(radius * math.sin(angle))) for angle in turned]


def fan(count: int) -> Polygons:
    """Triangles round one point, of which neighbours share a side."""
    rim = around(2_000_000, [2 * math.pi * k / count for k in range(count)])
    return [[[(0, 0), p, q]] for p, q in zip(rim, rim[1:] + rim[:1])]


def flower(count: int) -> Polygons:
    """One ring of petals at one vertex."""
    rim = around(2_000_000, [math.pi * k / count for k in range(2 * count)])
    return [[[p for tip, back in zip(rim[::2], rim[1::2]) for p in ((0, 0), tip, back)]]]


def wheel(count: int) -> Polygons:
    """A rim, and a thin triangle from the hub for each spoke."""
    rim = around(1_000_000, [2 * math.pi * (k + 0.3) / count for k in range(count)])
    return [[rim]] + [[[(0, 0), (x, y), (x + 1, y + 1)]] for x, y in rim]


def star(count: int) -> Polygons:
    """One ring of chords, each of which crosses nearly all the others, in one tile."""
    return [[around(130_000, [2 * math.pi * (k * (count // 2) % count) / count for k in range(count)])]]


def grid_of_triangles(count: int) -> Polygons:
    """Long thin triangles, half of them lying, half standing."""
    size = 40 * count
    lying = [[[(0, 40 * k), (size, 40 * k + 3), (size, 40 * k + 5)]] for k in range(count // 2)]
    return lying + [[[(y, x) for x, y in rings[0]]] for rings in lying]


def long_segments(count: int) -> Polygons:
    """Thin triangles across the whole of a map of many tiles."""
    rng, size = random.Random(3), 30_000_000
    ends = [(rng.randint(-size, size), rng.randint(-size, size)) for _ in range(2 * (count // 3))]
    return [[[p, q, (q[0] + 1, q[1] + 2)]] for p, q in zip(ends[::2], ends[1::2])]


def nested_on_a_line(count: int) -> Polygons:
    """Rings in one another that all have an edge on one line."""
    return [[rectangle(0, -k, 2 * k, 2 * k)] for k in range(1, count + 1)]


def repeated_points(count: int) -> Polygons:
    """A ring whose points are each there many times."""
    return [[[p for p in rectangle(0, 0, 9, 9) for _ in range(count // 4)]]]


HARD: dict[str, Callable[[], Polygons]] = {
    "fan of 100,000 triangles": lambda: fan(100_000),
    "flower of 100,000 petals": lambda: flower(100_000),
    "wheel of 5,000 spokes": lambda: wheel(5_000),
    "star of 501 points": lambda: star(501),
    "star of 2,001 points": lambda: star(2_001),
    "grid of 2,000 long triangles": lambda: grid_of_triangles(2_000),
    "3,000 long segments": lambda: long_segments(3_000),
    "2,000 rings on one line": lambda: nested_on_a_line(2_000),
    "1,000,000 repeated points": lambda: repeated_points(1_000_000),
    "262,144 copies of a square of the whole width": lambda: [[rectangle(-30_000_000, -30_000_000, 60_000_000, 60_000_000)]] * 262_144,
}
MAPS = {"%s, 100,000 segments" % kind: kind for kind in maps.HARD}


@dataclass
class Place:
    program: str
    folder: str

    def write(self, name: str, begin: bytes, middle: bytes = b"", times: int = 0, end: bytes = b"") -> str:
        path = os.path.join(self.folder, name)
        with open(path, "wb") as file:
            file.write(begin)
            for _ in range(times):
                file.write(middle)
            file.write(end)
        return path

    def run(self, *words: str) -> Answer:
        return answer([self.program, *words], 300)


def refused(words: bytes) -> Answer:
    return Answer(3, b"", b"overlay: %s\n" % words)


def limits(place: Place) -> Iterator[Tried]:
    """What was tried, what came, what should come."""
    square = b"POLYGON ((0 0, 4 0, 4 4, 0 4, 0 0))\n"
    nothing, one = place.write("nothing", b""), place.write("one", square)
    full = place.write("full", square * (MOST_SEGMENTS // 4))
    yield "segments", place.run("union", full, nothing), Answer(0, b"MULTIPOLYGON EMPTY\n", b"")
    triangle = place.write("triangle", b"POLYGON ((0 0, 4 0, 0 4, 0 0))\n")
    less = place.write("less", square * (MOST_SEGMENTS // 4 - 1))
    yield "one segment less", place.run("union", less, triangle).status, 0
    more = place.write("more", square * (MOST_SEGMENTS // 4 - 1) + b"POLYGON ((0 0, 4 0, 5 2, 4 4, 0 4, 0 0))\n")
    yield "one segment more", place.run("edges", nothing, more), refused(b"5 too many segments: 1048577")
    yield "both layers together", place.run("edges", one, full), refused(b"5 too many segments: 1048580")
    yield "one segment more within its limit", place.run("edges", nothing, more, "--segments=1048577").status, 0
    yield "one segment more than its limit", place.run("edges", one, full, "--segments=1048579"), refused(b"5 too many segments: 1048580")
    wide = place.write("wide", b"POLYGON ((0 0, 1048575 0, 0 1, 0 0))")
    yield "tiles", place.run("edges", wide, nothing, "--tile=16").status, 0
    wider = place.write("wider", b"POLYGON ((0 0, 1048576 0, 0 1, 0 0))")
    yield "one tile more", place.run("edges", wider, nothing, "--tile=16"), refused(b"8 too many tiles: 65537")
    yield "64 workers", place.run("edges", wide, nothing, "--tile=16", "--workers=64"), place.run("edges", wide, nothing)
    yield "65 workers", place.run("edges", wide, nothing, "--workers=65"), refused(b"7 bad number of workers")
    whole = place.write("whole", b"POLYGON ((%d %d, %d %d, %d %d, %d %d))" % (-LIMIT, -LIMIT, LIMIT, -LIMIT, LIMIT, LIMIT, -LIMIT, -LIMIT))
    line = b"MULTIPOLYGON (((%d %d, %d %d, %d %d, %d %d)))\n" % (-LIMIT, -LIMIT, LIMIT, -LIMIT, LIMIT, LIMIT, -LIMIT, -LIMIT)
    yield "coordinates", place.run("union", whole, nothing, "--tile=2097153"), Answer(0, line, b"")
    beyond = place.write("beyond", b"POLYGON ((0 0, 0 %d, 1 1, 0 0))" % (-LIMIT - 1))
    yield "one past the coordinates", place.run("union", nothing, beyond), refused(b"B: 2 number out of range at 17")


def long_texts(place: Place) -> Iterator[Tried]:
    nothing, found = place.write("nothing", b""), Answer(0, b"MULTIPOLYGON (((0 0, 4 0, 4 4, 0 4, 0 0)))\n", b"")
    square = b"POLYGON ((0 0, 4 0, 4 4, 0 4, 0 0))"
    text = place.write("long", square, b" " * 1000, (MOST_BYTES - len(square)) // 1000, b" " * ((MOST_BYTES - len(square)) % 1000))
    yield "a text as long as may be", place.run("union", text, nothing), found
    with open(text, "ab") as file:
        file.write(b" ")
    yield "one byte more", place.run("union", nothing, text), refused(b"B: 0 layer too long")
    yield "one byte more within its limit", place.run("union", nothing, text, "--segments=1048577"), found
    with open(text, "ab") as file:
        file.write(b" " * BYTES_A_SEGMENT)
    yield "one byte more than its limit", place.run("union", nothing, text, "--segments=1048577"), refused(b"B: 0 layer too long")
    yield "the same of faces", place.run("faces", nothing, text, "--segments=1048577"), refused(b"B: 0 layer too long")
    yield "the same of covered layers", place.run("union", nothing, text, "--covered", "--segments=1048577"), refused(b"B: 0 layer too long")
    text = place.write("long", b"POLYGON ((", b"0 0, " * 1000, 50_000, b"4 0, 4 4, 0 4, 0 0))")
    yield "50,000,000 repeated points", place.run("union", text, nothing), found


def far_texts(place: Place) -> Iterator[Tried]:
    """A text longer than one may be by the usual limit, of two squares: a corner of the first one is repeated nearly up to that limit,
    where blanks begin; the second one stands behind these, past the limit."""
    corner, lower, upper = b"100000000 100000000, ", b"100000004 100000000, ", b"100000004 100000004, 100000000 100000004, 100000000 100000000))"
    second = b"((100000006 100000000, 100000009 100000000, 100000009 100000003, 100000006 100000003, 100000006 100000000))"
    times = MOST_BYTES // len(corner) // 1000 - 1
    nothing, far = place.write("nothing", b""), place.write("far", b"POLYGON ((", corner * 1000, times, corner + lower + upper + b" " * 100_000 + b"POLYGON " + second)
    shapes = b"((" + corner + lower + upper, second
    union, faces = b"MULTIPOLYGON (%b, %b)\n" % shapes, b"32\t\t1\tMULTIPOLYGON (%b)\n18\t\t2\tMULTIPOLYGON (%b)\n" % shapes
    for layer, text, words in ((b"A", union, ("union", far, nothing)), (b"B", union, ("union", nothing, far)), (b"B", faces, ("faces", nothing, far))):
        yield "a text past the usual limit", place.run(*words, "--segments=1100000"), Answer(0, text, b"")
        yield "the same by the usual limit", place.run(*words), refused(layer + b": 0 layer too long")
    os.remove(far)


def at_places(shape: Sequence[tuple[int, int]]) -> Iterator[str]:
    """A polygon of this shape, which is at most 3 wide, at each place of the lattice."""
    ring = "((" + ", ".join("{%d} {%d}" % (x, 4 + y) for x, y in (*shape, shape[0])) + "))"
    for k in range(COUPLES):
        x, y = STEP * (k // ROWS), STEP * (k % ROWS)
        yield ring.format(*range(x, x + 4), *range(y, y + 4))


def rows_of_faces() -> Iterator[str]:
    """The rows of the lattice's faces: of each place what the lower square covers alone, and both; then what the upper ones cover alone."""
    for k, (alone, both) in enumerate(zip(at_places(LOWER_ALONE), at_places(BOTH)), 1):
        yield f"6\t{k}\t\tMULTIPOLYGON ({alone})\n2\t{k}\t{k}\tMULTIPOLYGON ({both})\n"
    for k, alone in enumerate(at_places(UPPER_ALONE), 1):
        yield f"6\t\t{k}\tMULTIPOLYGON ({alone})\n"


def millions(place: Place) -> Iterator[Tried]:
    """The union and the faces of two million different segments, against texts that are made with them."""
    files = [place.write(name, "".join(f"POLYGON {ring}\n" for ring in at_places(shape)).encode()) for name, shape in (("lower", LOWER), ("upper", UPPER))]
    united = ("MULTIPOLYGON (" + ", ".join(at_places(UNITED)) + ")\n").encode()
    # Twice the areas, and of each square six steps: two of its sides are crossed.
    areas = b"area2 %d %d %d\nsteps %d %d\n" % tuple(COUPLES * each for each in (8, 8, 14, 6, 6))
    asks = ("union", "", united, b""), ("union", "--areas", united, areas), ("union", "--covered", united, b""), ("faces", "", "".join(rows_of_faces()).encode(), b"")
    for command, option, text, told in asks:
        words = [command, *files, *filter(None, [option]), "--segments=2000000"]
        # The texts are long: what differs is told by the answer's beginning alone.
        got = place.run(*words)
        yield " ".join(words[:1] + words[3:]), (got.status, got.err, got.out == text, got.out[:200]), (0, told, True, text[:200])


class Friendly:
    """What parcels take for each record."""

    def __init__(self, program: str, folder: str, commands: Iterable[str]) -> None:
        self.program, self.folder = program, folder
        self.rates: dict[str, float] = {}
        self.known: dict[str, int | None] = {}
        files = [os.path.join(folder, name) for name in ("a.wkt", "b.wkt")]
        programs.apart(lambda: maps.write("parcels", FRIENDLY_SEGMENTS, files))
        records = self.records("parcels", files)
        assert records, "parcels have records"
        for command in commands:
            times = [taken([program, command, *files], os.path.join(folder, "out"), 120).clock for _ in range(5)]
            self.rates[command] = sorted(times)[2] / records

    def records(self, name: str, files: Sequence[str], seconds: float = 120) -> int | None:
        """The number of records of the layers of a name; None where the report takes too long."""
        if name not in self.known:
            self.known[name] = self.told(files, seconds)
        return self.known[name]

    def told(self, files: Sequence[str], seconds: float) -> int | None:
        try:
            run = subprocess.run([self.program, "edges", *files, "--report"], stdout=subprocess.DEVNULL, stderr=subprocess.PIPE, check=True, timeout=seconds)
        except subprocess.TimeoutExpired:
            return None
        return next(int(line.split()[1]) for line in run.stderr.splitlines() if line.startswith(b"records"))

    def seconds(self, command: str, records: int) -> float:
        """Ten times as long, and no less than a tenth of a second, which a start may take on a busy machine."""
        return max(0.1, 10 * self.rates[command] * records)


def write(name: str, files: Sequence[str]) -> None:
    """Writes the hard layers of a name; the second one is empty but for maps."""
    if name in MAPS:
        maps.write(MAPS[name], FRIENDLY_SEGMENTS, files)
        return
    for file, text in zip(files, (layers.text_of(HARD[name]()), "")):
        with open(file, "w") as written:
            written.write(text)


def hard_row(arguments: argparse.Namespace, friendly: Friendly, name: str, command: str, files: Sequence[str], output: str) -> bool:
    """Prints the row of a command on hard layers; whether it takes more than may be expected."""
    run = taken([arguments.program, command, *files], output, arguments.seconds)
    records = None if run.status is None else friendly.records(name, files, arguments.seconds)
    if records is None:
        print("| %s | %s | over | | %.0f | %d | |" % (name, command, run.memory, MOST_MEGABYTES), flush=True)
        return True
    most = friendly.seconds(command, records)
    note = " status %d" % run.status if run.status else " more than expected" if run.clock > most or run.memory > MOST_MEGABYTES else ""
    print("| %s | %s | %.2f | %.2f | %.0f | %d | %d |%s" % (name, command, run.clock, most, run.memory, MOST_MEGABYTES, os.path.getsize(output), note), flush=True)
    return bool(note)


def hard(arguments: argparse.Namespace, folder: str) -> bool:
    """Prints a row for each command on hard layers; whether one takes more than may be expected."""
    names = [name for name in (*HARD, *MAPS) if is_asked(arguments, name)]
    if not names:
        return False
    friendly, files, wrong = Friendly(arguments.program, folder, arguments.commands), [os.path.join(folder, name) for name in ("h.wkt", "i.wkt")], False
    print("| layers | command | seconds | at most | MB | at most | bytes |\n|---|---|---|---|---|---|---|", flush=True)
    for name in names:
        programs.apart(lambda: write(name, files))
        for command in arguments.commands:
            wrong |= hard_row(arguments, friendly, name, command, files, os.path.join(folder, "out"))
    return wrong


def main(arguments: argparse.Namespace) -> int:
    tried, wrong = 0, 0
    with tempfile.TemporaryDirectory() as folder:
        place = Place(arguments.program, folder)
        for found in (limits, long_texts, far_texts, millions):
            if not is_asked(arguments, found.__name__):
                continue
            for name, got, expected in found(place):
                tried += 1
                if got != expected:
                    wrong += 1
                    print("%s:\n  expected %s\n  seen     %s" % (name, expected, got), flush=True)
        if tried:
            print("%d limits tried, %d answered otherwise" % (tried, wrong))
        return int(hard(arguments, folder) or wrong > 0)
