"""sweeps over kinds of layers that are made to hurt, at all sizes of coordinates: bytes, processor time, memory and growth

Each pair of layers (`hostile_kinds`) is run by all commands and three tile sides (the default one, an eighth of the width, the whole
width as far as a side may go), by one worker. The bytes have to be the plain program's. What goes in and comes out are input segments,
records (as the plain program reports them) and output edges or points. A run may take ten times what parcels take for as much of that.
Time and memory may grow at most as its power of 1.2, from one size of a kind to the next one that has at least twice as much of it.
Less than a tenth of a second, or 64 megabytes, is no fault, and what takes more is measured up to three times. A run that takes more
processor seconds than it may (or a hundred times as long on the clock) is ended, told with its layers' name, and its kind is not tried
at greater sizes. The exit status is 1 where anything of this is not as it should be. With --only, --size and --coordinates one kind,
or one pair of layers, is tried: its layers are kept in bench/out.

With --in-turn a kind at a reach of the coordinates is run by one command and one side alone, a fifteenth of the runs. Kinds and reaches
have them in turn: each kind meets all commands and all sides over the six reaches, and so does each reach over the kinds.
"""
from __future__ import annotations

import argparse
import filecmp
import os
import shutil
import statistics
import tempfile
from collections.abc import Iterator, Mapping, Sequence
from dataclasses import dataclass, replace

from . import hostile_kinds, maps, programs, side_by_side
from .hostile_kinds import KINDS
from .programs import COMMANDS, Taken, taken

COORDINATES = (4, 8, 13, 18, 23, 28)
SIZES = (3, 30, 300, 3_000, 30_000, 200_000)
TIMES, POWER = 10, 1.2
LEAST, LEAST_MEMORY = 0.1, 64
GREATEST_SIDE = 1 << 25
# The smallest layers that once took hours, or much longer than others: kind, segments, coordinates.
FINDS = (
    ("to_and_fro", 34, 13), ("to_and_fro", 34, 28), ("slivers_at_one_tip", 60, 28), ("rectangles_on_one_base", 160, 28),
    ("confetti_on_diagonals", 2_000, 28), ("diamonds_at_one_tip", 4_000, 28), ("deep_slope", 6_000, 28),
    ("flat_zigzag", 2_000, 28), ("confetti_at_a_pencil", 30_000, 20),
)


def add_arguments(parser: argparse.ArgumentParser) -> None:
    parser.add_argument("--only", nargs="+", default=[], choices=KINDS, metavar="KIND", help="of: " + ", ".join(KINDS))
    parser.add_argument("--size", nargs="+", type=int, default=[], metavar="SEGMENTS")
    parser.add_argument("--coordinates", nargs="+", type=int, default=[], metavar="BITS", help="they reach as far as 2 to the power of it")
    of_commands = parser.add_mutually_exclusive_group()
    of_commands.add_argument("--commands", nargs="+", default=COMMANDS, choices=COMMANDS, metavar="COMMAND")
    of_commands.add_argument("--in-turn", action="store_true", help="of the commands and the sides one for each kind at each reach of the coordinates, in turn")
    parser.add_argument("--short", action="store_true", help="a share: the smallest finds, and each kind at two sizes by two commands, the default side")
    parser.add_argument("--finds", action="store_true", help="the smallest finds alone")
    parser.add_argument("--seconds", type=int, help="processor seconds after which a run is over (default 60, 5 of a short one or of the finds)")
    parser.add_argument("--minutes", type=float, default=0, help="ends after so many minutes, however many kinds are left")
    parser.add_argument("--jobs", type=int, default=1, help="processes side by side")
    parser.add_argument("--worst", type=int, default=12, help="how many kinds are shown")


@dataclass(frozen=True)
class Family:
    """A kind at one reach of the coordinates, at some sizes."""

    kind: str
    bits: int
    sizes: tuple[int, ...]
    commands: tuple[str, ...]
    sides: tuple[int | None, ...]

    def layers(self, size: int) -> str:
        return "%s, %d segments, 2^%d" % (self.kind, size, self.bits)


def sides_of(bits: int) -> tuple[int | None, ...]:
    """The default side, an eighth of the width, and the whole of it, or the greatest one there may be."""
    return None, min(max(16, 1 << bits >> 2), GREATEST_SIDE), min(max(16, (2 << bits) + 1), GREATEST_SIDE)


def families(arguments: argparse.Namespace) -> Iterator[Family]:
    sizes = tuple(sorted(arguments.size)) or SIZES
    for kind in arguments.only or KINDS:
        for bits in arguments.coordinates or COORDINATES:
            family = Family(kind, bits, sizes, tuple(arguments.commands), sides_of(bits))
            yield in_turn(family) if arguments.in_turn else family


def in_turn(family: Family) -> Family:
    """The family by one command and one side."""
    # A fifth of each of COORDINATES is one of 0 to 5; 7 and the number of combinations, 15, have no divisor in common.
    turn = 7 * list(KINDS).index(family.kind) + family.bits // 5
    command, side = (choices[turn % len(choices)] for choices in (family.commands, family.sides))
    return replace(family, commands=(command,), sides=(side,))


def finds(kinds: Sequence[str] | Mapping[str, hostile_kinds.Kind]) -> Iterator[Family]:
    """The smallest layers of these kinds that a program was seen to hang on."""
    for kind, size, bits in FINDS:
        if kind in kinds:
            yield Family(kind, bits, (size,), ("edges", "union"), (None,))


def short_families() -> Iterator[Family]:
    """The finds, each kind at the full reach, and at another one in turn."""
    yield from finds(KINDS)
    for number, kind in enumerate(KINDS):
        for bits, size in ((COORDINATES[-1], 1_000), (COORDINATES[number % len(COORDINATES)], 3_000)):
            yield Family(kind, bits, (size,), ("edges", COMMANDS[1 + number % 4]), (None,))


@dataclass
class Run:
    """What a command took on layers, seconds and megabytes; how much went in and came out, and how many times what parcels take that was.
    How much of what they may time and memory grew."""

    layers: str
    command: str
    side: int | None
    processor: float
    plain: float | None
    items: int
    times: float = 0.0
    memory: float = 0.0
    growth: float = 0.0
    memory_growth: float = 0.0
    fault: str = ""

    def __str__(self) -> str:
        side = " --tile=%d" % self.side if self.side else ""
        return "%s, %s%s: %s" % (self.layers, self.command, side, self.fault)


# The runs by which growth is told, by command and side: of a size before, with at most half as much that goes in and comes out.
Before = dict[tuple[str, int | None], Run]


def within(words: Sequence[str], output: str, seconds: int, errors: str = os.devnull) -> Taken:
    """Measures a run that may take so many processor seconds."""
    return taken(words, output, 100 * seconds, errors, seconds)


def items_of(output: str) -> int:
    """The edges, or the points and rings, of a text."""
    with open(output, "rb") as file:
        return sum(part.count(b",") + part.count(b"\n") for part in iter(lambda: file.read(1 << 20), b""))


class Judged:
    """The plain program's answers on two layers, and the number of records, once a command has told it; none where each takes too long."""

    def __init__(self, files: Sequence[str], folder: str, seconds: int) -> None:
        self.files, self.folder, self.seconds = files, folder, seconds
        self.runs: dict[str, Taken] = {}
        self.records = 0

    def output(self, command: str) -> str:
        return os.path.join(self.folder, "plain " + command)

    def run(self, command: str) -> Taken:
        if command not in self.runs:
            told = os.path.join(self.folder, "report")
            self.runs[command] = within([programs.plain(), command, *self.files, "--workers=1", "--report"], self.output(command), self.seconds, told)
            with open(told) as file:
                self.records = sum(int(line.split()[1]) for line in file if line.startswith("records")) or self.records
        return self.runs[command]


class Yardstick:
    """The processor seconds that parcels take for each of what goes in and comes out, by command."""

    def __init__(self, program: str, size: int, commands: Sequence[str], folder: str) -> None:
        files = [os.path.join(folder, name) for name in ("parcels a", "parcels b")]
        programs.apart(lambda: maps.write("parcels", size, files))
        judged = Judged(files, folder, 120)
        self.rates = {command: self.rate(program, command, judged, size) for command in commands}

    def rate(self, program: str, command: str, judged: Judged, size: int) -> float:
        judged.run(command)
        times = [taken([program, command, *judged.files, "--workers=1"], os.devnull, 120).processor for _ in range(5)]
        return statistics.median(times) / (size + judged.records + items_of(judged.output(command)))

    def times(self, run: Run) -> float:
        return run.processor / (self.rates[run.command] * run.items)


class Sweep:
    """Runs families of layers by a program."""

    def __init__(self, arguments: argparse.Namespace, yardstick: Yardstick, seconds: int) -> None:
        self.arguments, self.yardstick, self.seconds = arguments, yardstick, seconds
        self.program = arguments.program

    def family(self, family: Family) -> list[Run]:
        """All runs of a family, from its smallest size on."""
        runs: list[Run] = []
        before: Before = {}
        with tempfile.TemporaryDirectory() as folder:
            files = [os.path.join(folder, name) for name in ("a.wkt", "b.wkt")]
            for size in family.sizes:
                programs.apart(lambda: hostile_kinds.write(family.kind, size, 1 << family.bits, files))
                found = list(self.size(family, size, files, folder, before))
                runs += found
                self.keep(family, size, files, found)
                if any("over" in run.fault for run in found):
                    break
        return runs

    def keep(self, family: Family, size: int, files: Sequence[str], found: Sequence[Run]) -> None:
        """Layers that were asked for by name, or on which something is wrong, in bench/out."""
        if self.arguments.only or any(run.fault for run in found):
            texts = [open(file, "rb").read() for file in files]
            programs.keep(os.path.join(programs.OUT, "hostile"), "%s-%d-%d-" % (family.kind, size, family.bits), texts)

    def size(self, family: Family, size: int, files: Sequence[str], folder: str, before: Before) -> Iterator[Run]:
        """The runs on two layers, which `before` has then where twice as much goes in and comes out."""
        judged = Judged(files, folder, self.seconds)
        for command in family.commands:
            for side in family.sides:
                last = before.get((command, side))
                run = self.run(family.layers(size), command, side, judged, last)
                yield run
                if last is None or run.items >= 2 * last.items:
                    before[command, side] = run
                if "over" in run.fault:
                    return

    def run(self, layers: str, command: str, side: int | None, judged: Judged, before: Run | None) -> Run:
        """One run, measured again where it takes too long."""
        plain, output = judged.run(command), os.path.join(judged.folder, "found")
        words = [self.program, command, *judged.files, "--workers=1"] + (["--tile=%d" % side] if side else [])
        segments = sum(text.count(b",") for text in (open(file, "rb").read() for file in judged.files))
        found = Run(layers, command, side, self.seconds, None if plain.status is None else plain.processor, segments + judged.records)
        for _ in range(3):
            ran = within(words, output, self.seconds)
            if ran.status is None:
                found.fault = "over after %d processor seconds" % self.seconds
                return found
            found.processor, found.memory = min(found.processor, ran.processor), ran.memory
            found.items = max(1, segments + judged.records + items_of(output))
            found.fault = self.fault(found, before)
            if not found.fault:
                break
        if ran.status:
            found.fault = "status %d" % ran.status
        elif plain.status is None:
            found.fault = "the plain program is over after %d processor seconds" % self.seconds
        elif not filecmp.cmp(output, judged.output(command), shallow=False):
            found.fault = "bytes differ"
        return found

    def fault(self, run: Run, before: Run | None) -> str:
        """What is wrong with the time and the memory of a run, whose numbers are filled in."""
        run.times = self.yardstick.times(run)
        if run.processor > LEAST and run.times > TIMES:
            return "%.2f s, %.1f times what parcels take" % (run.processor, run.times)
        if before and run.items >= 2 * before.items:
            may = (run.items / before.items) ** POWER
            run.growth = run.processor / max(LEAST, before.processor) / may
            run.memory_growth = run.memory / max(LEAST_MEMORY, before.memory) / may
            if run.growth > 1:
                return "%.2f s, from %.2f s before: %.1f times what it may grow" % (run.processor, before.processor, run.growth)
            if run.memory_growth > 1:
                return "%.0f MB, from %.0f MB before: %.1f times what it may grow" % (run.memory, before.memory, run.memory_growth)
        return ""


def shown(kind: str, runs: Sequence[Run]) -> str:
    """The row of a kind: its hardest run."""
    run = max(runs, key=lambda run: ("over" in run.fault, run.times if run.processor > LEAST else 0, run.processor))
    plain = "over" if run.plain is None else "%.2f" % run.plain
    processor = "over" if "over" in run.fault else "%.2f" % run.processor
    return "| %s | %s | %s | %s | %s | %.1f | %.1f | %.0f | %.1f |" % (
        run.layers, run.command, run.side or "", processor, plain, run.times, max(run.growth for run in runs),
        max(run.memory for run in runs), max(run.memory_growth for run in runs))


def table(found: Mapping[str, Sequence[Run]], worst: int) -> None:
    """The hardest kinds."""
    print("\n| layers | command | side | processor s | plain | times parcels | growth, of what may be | MB | growth, of what may be |\n" + "|---" * 9 + "|")

    def ease(kind: str) -> float:
        return -max((("over" in run.fault) * 1000 + run.times) * (run.processor > LEAST) for run in found[kind])

    for kind in sorted(found, key=ease)[:worst]:
        print(shown(kind, found[kind]))


def main(arguments: argparse.Namespace) -> int:
    programs.plain()
    narrowed = arguments.only or arguments.size or arguments.coordinates
    if arguments.finds:
        wanted = list(finds(arguments.only or KINDS))
    else:
        wanted = list(short_families() if arguments.short and not narrowed else families(arguments))
    commands = sorted({command for family in wanted for command in family.commands})
    seconds = arguments.seconds or (5 if arguments.short or arguments.finds else 60)
    folder = tempfile.mkdtemp()
    found: dict[str, list[Run]] = {}
    try:
        yardstick = Yardstick(arguments.program, 30_000 if arguments.short or arguments.finds else 100_000, commands, folder)
        sweep = Sweep(arguments, yardstick, seconds)
        for family, result in side_by_side.results(sweep.family, wanted, arguments.jobs, arguments.minutes):
            if isinstance(result, side_by_side.Ended):
                runs = [Run(family.layers(family.sizes[0]), "all", None, 0, None, 1, fault="the comparing process ended: %s" % result)]
            else:
                runs = result
            found.setdefault(family.kind, []).extend(runs)
            for run in runs:
                if run.fault:
                    print(run, flush=True)
    finally:
        shutil.rmtree(folder, ignore_errors=True)
    table(found, arguments.worst)
    runs = [run for of_kind in found.values() for run in of_kind]
    wrong = sum(bool(run.fault) for run in runs)
    print("%d kinds, %d pairs of layers, %d runs: %d are not as they should be" % (len(found), len({run.layers for run in runs}), len(runs), wrong))
    return int(wrong > 0)
