"""What answers beside the product: the exact reference for small pairs, the plain program for large ones."""
from __future__ import annotations

import functools
import re
import subprocess
import threading
from typing import Protocol

import reference

from . import programs
from .answering import Plan, Texts
from .programs import COMMANDS, Answer

MOST_SECONDS = 300
BLANKS = bytes(byte if chr(byte) in "-0123456789" else 32 for byte in range(256))


class Judge(Protocol):
    """What says whether an answer on its texts is right."""

    name: str

    def agrees(self, wanted: Plan, got: Answer) -> bool: ...

    def is_silent(self) -> bool:
        """Whether it gave no answer, since that took too long."""
        ...


class Exact:
    """The exact reference on two texts."""

    name = "bench/reference.py"

    def __init__(self, texts: Texts) -> None:
        self.texts = texts
        self.arranged: reference.Arranged | None = None

    def answer(self, wanted: Plan) -> Answer:
        try:
            arranged = self.arranged = self.arranged or reference.Arranged(*self.texts)
            refuse(arranged, wanted.side, wanted.workers)
        except reference.Fault as fault:
            return Answer(3, b"", fault.line().encode())
        told = arranged.report(wanted.side) if wanted.report else ""
        told += arranged.areas(wanted.command) if wanted.areas else ""
        return Answer(0, arranged.text(wanted.command).encode(), told.encode())

    def agrees(self, wanted: Plan, got: Answer) -> bool:
        return got == self.answer(wanted)

    def is_silent(self) -> bool:
        return False


def refuse(arranged: reference.Arranged, side: int | None, workers: int) -> None:
    """The fault of a plan on layers that aren't refused."""
    if side is not None and not reference.LEAST_SIDE <= side <= reference.GREATEST_SIDE:
        raise reference.Fault(6)
    if not 1 <= workers <= reference.WORKER_LIMIT:
        raise reference.Fault(7)
    arranged.refuse_tiles(side)


class Pipe:
    """One process of the plain program that answers pair after pair: all five commands at once."""

    def __init__(self) -> None:
        self.process: subprocess.Popen[bytes] | None = None

    def started(self) -> subprocess.Popen[bytes]:
        if self.process is None:
            self.process = subprocess.Popen([programs.plain(), "pipe"], stdin=subprocess.PIPE, stdout=subprocess.PIPE)
        return self.process

    def answers(self, texts: Texts) -> dict[str, bytes] | None:
        """The five texts by their commands; None where the process ended, or took too long."""
        process = self.started()
        asking, answering = process.stdin, process.stdout
        assert asking is not None and answering is not None, "both are pipes"
        timer = threading.Timer(MOST_SECONDS, process.kill)
        timer.start()
        try:
            asking.write(b"%d %d\n" % tuple(map(len, texts)) + b"".join(texts))
            asking.flush()
            lengths = answering.readline().split()
            return {command: answering.read(int(length)) for command, length in zip(COMMANDS, lengths, strict=True)}
        except (OSError, ValueError):
            process.kill()
            process.wait()
            self.process = None
            return None
        finally:
            timer.cancel()


def area_of(text: bytes) -> int:
    """Twice the area of a result, whose holes turn the other way."""
    area = 0
    for ring in re.findall(rb"[-0-9][-0-9, ]*", text):
        corners = [(int(x), int(y)) for x, y in map(bytes.split, ring.split(b","))]
        area += reference.twice_area(zip(corners, corners[1:]))
    return area


class Plain:
    """The plain program on two texts that are layers: it answers the texts; what a report has to say follows from them in part."""

    name = "bench/plain"
    pipe = Pipe()

    def __init__(self, texts: Texts) -> None:
        self.texts = texts
        self.found: dict[str, bytes] | None = None

    @functools.cached_property
    def segments(self) -> list[list[reference.Segment]]:
        return [reference.segments_of([ring for _, ring in reference.read_tokens(text)[0]], layer) for layer, text in enumerate(self.texts)]

    @functools.cached_property
    def bounds(self) -> reference.Bounds:
        return reference.bounds_of(p for layer in self.segments for s in layer for p in s[:2])

    @functools.cached_property
    def box(self) -> reference.Bounds:
        """A box round all that is written, found without reading it: the bounds are in it."""
        numbers = [list(map(int, text.translate(BLANKS).split())) for text in self.texts]
        return reference.bounds_of(p for layer in numbers for p in zip(layer[::2], layer[1::2]))

    def answer(self, command: str) -> bytes | None:
        if self.found is None:
            self.found = self.pipe.answers(self.texts) or {}
        return self.found.get(command)

    def is_silent(self) -> bool:
        return self.found == {}

    def refusal(self, wanted: Plan) -> reference.Fault | None:
        if wanted.side is not None and not reference.LEAST_SIDE <= wanted.side <= reference.GREATEST_SIDE:
            return reference.Fault(6)
        if not 1 <= wanted.workers <= reference.WORKER_LIMIT:
            return reference.Fault(7)
        if wanted.side is None or reference.Grid(self.box, wanted.side).tiles <= reference.TILE_LIMIT:
            return None
        tiles = reference.Grid(self.bounds, wanted.side).tiles
        return reference.Fault(8, tiles) if tiles > reference.TILE_LIMIT else None

    def agrees(self, wanted: Plan, got: Answer) -> bool:
        refused = self.refusal(wanted)
        if refused:
            return got == Answer(3, b"", refused.line().encode())
        if (got.status, got.out) != (0, self.answer(wanted.command)):
            return False
        told = got.err
        if wanted.areas:
            areas = self.areas(wanted.command)
            if not told.endswith(areas):
                return False
            told = told.removesuffix(areas)
        return self.is_report(told, wanted) if wanted.report else told == b""

    def areas(self, command: str) -> bytes:
        """What is told of areas: each layer's is that of the difference and the intersection together, and its steps are counted by the edges."""
        twice = {name: area_of(self.answer(name) or b"") for name in reference.OPERATIONS}
        first, second = twice["difference"] + twice["intersection"], twice["union"] - twice["difference"]
        counts = [line.split()[4:] for line in (self.answer("edges") or b"").splitlines()]
        steps = tuple(sum(int(count[layer]) for count in counts) for layer in (0, 1))
        return b"area2 %d %d %d\nsteps %d %d\n" % (first, second, twice[command], *steps)

    def is_report(self, text: bytes, wanted: Plan) -> bool:
        """Whether a report has the numbers that are known, and those of its tiles add up."""
        lines = [line.split() for line in text.decode().splitlines()]
        head, tiles = lines[:6], lines[6:]
        numbers = {words[0]: words[1:] for words in head}
        known = {
            "segments": ["%d" % len(layer) for layer in self.segments],
            "hot": ["%d" % sum(int(words[2]) for words in tiles)],
            "records": ["%d" % sum(int(words[3]) for words in tiles)],
            "edges": ["%d" % (self.answer("edges") or b"").count(b"\n")],
            "tiles": ["%d" % reference.Grid(self.bounds, wanted.side or reference.fitting_side(self.bounds)).tiles],
            "remade": ["0"],
        }
        return numbers == known and [words[:2] for words in tiles] == [["tile", "%d" % k] for k in range(int(known["tiles"][0]))]
