"""measures the library for Python (and so the one for C) against the program by one worker

For each kind, size and command: processor seconds of a call of `overlay_grid`, from bytes to bytes, and of the program with
`--workers 1`, from files to a file, in turn; medians of several rounds, and the ratio. Where the bytes differ the row says so, and
the exit status is 1. The package has to be built: `python/build`.
"""
from __future__ import annotations

import argparse
import os
import statistics
import tempfile
import time
from collections.abc import Callable, Sequence

from . import answering, maps, programs
from .programs import COMMANDS

Call = Callable[[bytes, bytes], bytes]
KINDS = ("parcels", "coast", "blobs")


def add_arguments(parser: argparse.ArgumentParser) -> None:
    parser.add_argument("--kinds", nargs="+", default=KINDS, choices=maps.KINDS, metavar="KIND")
    parser.add_argument("--sizes", nargs="+", type=int, default=(10_000, 100_000), metavar="SEGMENTS")
    parser.add_argument("--commands", nargs="+", default=("edges", "intersection"), choices=COMMANDS, metavar="COMMAND")
    parser.add_argument("--rounds", type=int, default=5)


def called(call: Call, texts: Sequence[bytes]) -> tuple[bytes, float]:
    """The answer of a call, and its processor seconds."""
    start = time.process_time()
    first, second = texts
    answer = call(first, second)
    return answer, time.process_time() - start


def row(program: str, call: Call, command: str, files: Sequence[str], output: str, rounds: int) -> tuple[float, float, bool]:
    """Processor seconds of the library and of the program, and whether their bytes are the same."""
    texts = []
    for name in files:
        with open(name, "rb") as file:
            texts.append(file.read())
    ours, theirs = [], []
    for _ in range(rounds):
        answer, seconds = called(call, texts)
        ours.append(seconds)
        theirs.append(programs.taken([program, command, *files, "--workers=1"], output, 600).processor)
    with open(output, "rb") as file:
        same = file.read() == answer
    return statistics.median(ours), statistics.median(theirs), same


def main(arguments: argparse.Namespace) -> int:
    library, wrong = answering.package(), False
    print("| kind | segments | command | library: processor s | program | ratio |")
    print("|---" * 6 + "|")
    with tempfile.TemporaryDirectory() as folder:
        files = [os.path.join(folder, name) for name in ("a.wkt", "b.wkt")]
        for kind in arguments.kinds:
            for size in arguments.sizes:
                programs.apart(lambda: maps.write(kind, size, files))
                for command in arguments.commands:
                    ours, theirs, same = row(arguments.program, answering.call_of(library, command), command, files, os.path.join(folder, "out"), arguments.rounds)
                    note = "" if same else " bytes differ"
                    print("| %s | %s | %s | %.2f | %.2f | %s |%s" % (kind, "{:,}".format(size), command, ours, theirs, "%.2f" % (ours / theirs) if theirs else "", note), flush=True)
                    wrong |= not same
    return int(wrong)
