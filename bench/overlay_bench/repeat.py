"""runs one pair of layers again and again by several workers, each answer compared with that of one worker

The layers are those of `parallel`, a little above every threshold for threads. Commands, numbers of workers and sides of tiles take
turns; an answer with other bytes differs, and a run that takes longer than --seconds is taken for one that hangs. What went wrong is
kept in `bench/out/repeat`; the exit status is then 1.
"""
from __future__ import annotations

import argparse
import itertools
import tempfile

from . import endurance, parallel
from .programs import answer

RECORDED = "endurance"
COMMANDS, CREWS, SIDES = ("union", "faces", "edges"), (64, 16, 4), (None, 64, 1000)


def add_arguments(parser: argparse.ArgumentParser) -> None:
    parser.add_argument("--runs", type=int, default=10_000)
    parser.add_argument("--squares", type=int, default=2_600, help="of either layer, four segments each")
    parser.add_argument("--seconds", type=float, default=120, help="after which a run hangs")


def main(arguments: argparse.Namespace) -> int:
    counts = endurance.Counts("repeat", "%d segments a layer" % (4 * arguments.squares))
    with tempfile.TemporaryDirectory() as folder:
        files = parallel.write(folder, arguments.squares)
        alone = {command: answer([arguments.program, command, *files, "--workers=1"], arguments.seconds) for command in COMMANDS}
        ways = itertools.cycle(itertools.product(CREWS, SIDES, COMMANDS))
        for crew, side, command in itertools.islice(ways, arguments.runs):
            words = [command, *files, "--workers=%d" % crew, *(["--tile=%d" % side] if side else [])]
            got = answer([arguments.program, *words], arguments.seconds)
            counts.judge(got, got.status == 0 and got == alone[command], False, " ".join(words), files)
    return counts.end()
