"""runs the program with little address space, and as a user who may have few threads

Address space is limited in equal steps, from nothing to what all runs are content with: a run has to give the right answer, or nothing
and `overlay: 10 out of memory` with status 1. Where not even `--help` can be loaded it has only to print nothing. Threads are limited
for a user of its own, so that this part is run by root alone, and left out else: none of them is needed, so each answer has to be right.
What went wrong is kept in `bench/out/scarce`; the exit status is then 1.
"""
from __future__ import annotations

import argparse
import os
import resource
import shutil
import tempfile

from . import endurance, parallel
from .programs import Answer, answer

RECORDED = "endurance"
COMMANDS, CREWS = ("union", "faces", "edges"), (1, 4)
# A user that has no process but these runs; how many workers they have.
USER, WORKERS = 54_321, (1, 2, 3, 4, 7, 16, 33, 64)
PAGE, MEGABYTE = 1 << 12, 1 << 20


def add_arguments(parser: argparse.ArgumentParser) -> None:
    parser.add_argument("--steps", type=int, default=100, help="of the address space, for each command and number of workers")
    parser.add_argument("--squares", type=int, default=2_600, help="of either layer, four segments each")
    parser.add_argument("--only", choices=("space", "threads"))
    parser.add_argument("--commands", nargs="+", default=COMMANDS, choices=COMMANDS)
    parser.add_argument("--workers", nargs="+", type=int, default=CREWS, help="of the runs with little address space")
    parser.add_argument("--seconds", type=float, default=120, help="after which a run hangs")


def run(words: list[str], seconds: float, limit: int, most: int, user: int | None = None) -> Answer:
    """A run with a limit of the system."""
    return answer(words, seconds, preexec_fn=lambda: resource.setrlimit(limit, (most, most)), user=user)


def least(words: list[str], seconds: float) -> int:
    """The least address space with which a run answers, to a page, where more never is too little."""
    high = MEGABYTE
    while run(words, seconds, resource.RLIMIT_AS, high).status:
        high *= 2
    low = high // 2
    while high - low > PAGE:
        middle = (low + high) // 2
        low, high = (middle, high) if run(words, seconds, resource.RLIMIT_AS, middle).status else (low, middle)
    return high


def ample(words: list[str], seconds: float, right: Answer) -> int:
    """An address space with which a run gives the answer."""
    space = MEGABYTE
    while run(words, seconds, resource.RLIMIT_AS, space) != right:
        space *= 2
    return space


def space(arguments: argparse.Namespace, files: list[str], alone: dict[str, Answer]) -> int:
    """Runs with little address space; 1 where one went wrong."""
    counts = endurance.Counts("scarce", "address space")
    loaded = least([arguments.program, "--help"], arguments.seconds)
    for crew in arguments.workers:
        for command, right in alone.items():
            words = [arguments.program, command, *files, "--workers=%d" % crew]
            most = ample(words, arguments.seconds, right)
            for step in range(arguments.steps + 1):
                room = most * step // arguments.steps
                got = run(words, arguments.seconds, resource.RLIMIT_AS, room)
                may_be = got == endurance.OUT_OF_MEMORY or room < loaded and got.status != 0 and not got.out
                counts.judge(got, got == right, may_be, "%s with %d bytes of address space" % (" ".join(words[1:]), room), files)
    return counts.end()


def threads(arguments: argparse.Namespace, folder: str, files: list[str], alone: dict[str, Answer]) -> int:
    """Runs of a user who may have few threads; 1 where one went wrong."""
    counts, program = endurance.Counts("scarce", "threads"), os.path.join(folder, "overlay")
    shutil.copy(arguments.program, program)
    os.chmod(folder, 0o755)
    for workers in WORKERS:
        for command, right in alone.items():
            for most in sorted({1, 2, 3, workers // 2 + 1, workers, workers + 1, 2 * workers}):
                words = [program, command, *files, "--workers=%d" % workers]
                got = run(words, arguments.seconds, resource.RLIMIT_NPROC, most, USER)
                counts.judge(got, got == right, False, "%s as a user of %d threads" % (" ".join(words[1:]), most), files)
    return counts.end()


def main(arguments: argparse.Namespace) -> int:
    with tempfile.TemporaryDirectory() as folder:
        files = parallel.write(folder, arguments.squares)
        alone = {command: answer([arguments.program, command, *files, "--workers=1"], arguments.seconds) for command in arguments.commands}
        wrong = space(arguments, files, alone) if arguments.only != "threads" else 0
        if arguments.only == "space":
            return wrong
        if os.getuid():
            print("threads are left out: that part is run by root alone")
            return wrong
        return threads(arguments, folder, files, alone) or wrong
