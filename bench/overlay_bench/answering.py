"""What is under test: the built program, a process for each answer, or the library for Python, within this process."""
from __future__ import annotations

import argparse
import hashlib
import importlib
import os
import random
import signal
import sys
from collections.abc import Callable, Iterator
from dataclasses import dataclass
from functools import partial
from types import ModuleType
from typing import Protocol

from . import programs
from .programs import Answer


@dataclass(frozen=True)
class Plan:
    """What one command is run by. Without a side the plan is the default one; workers, report and areas are the program's alone."""

    command: str
    side: int | None
    workers: int
    report: bool
    areas: bool = False

    def words(self) -> list[str]:
        plan = [] if self.side is None else ["--tile=%d" % self.side, "--workers=%d" % self.workers]
        return plan + ["--report"] * self.report + ["--areas"] * self.areas


Texts = tuple[bytes, bytes]


class Asked(Protocol):
    """What answers: its name, and the file that it is."""

    name: str
    path: str

    def answer(self, texts: Texts, wanted: Plan) -> Answer: ...


class Program:
    """The built program, on two files."""

    name = "the program"

    def __init__(self, path: str, folder: str, seconds: float) -> None:
        self.path, self.folder, self.seconds = path, folder, seconds
        self.texts: Texts | None = None
        self.files: list[str] = []

    def write(self, texts: Texts) -> None:
        self.texts, self.files = texts, [os.path.join(self.folder, "%d%s.wkt" % (os.getpid(), layer)) for layer in "ab"]
        for name, text in zip(self.files, texts):
            with open(name, "wb") as file:
                file.write(text)

    def answer(self, texts: Texts, wanted: Plan) -> Answer:
        if texts is not self.texts:
            self.write(texts)
        return programs.answer([self.path, wanted.command, *self.files, *wanted.words()], self.seconds)


class Library:
    """The package `overlay_grid`, told as the program would tell it. A call that takes too long ends this process, by SIGALRM."""

    name = "the library"

    def __init__(self, seconds: float) -> None:
        self.package, self.seconds = package(), seconds
        self.path = os.path.join(os.path.dirname(str(self.package.__file__)), "liboverlay.so")

    def answer(self, texts: Texts, wanted: Plan) -> Answer:
        signal.setitimer(signal.ITIMER_REAL, self.seconds)
        try:
            return Answer(0, call_of(self.package, wanted.command)(*texts, side=wanted.side), b"")
        except self.package.Refused as refused:
            return Answer(3, b"", b"overlay: %s\n" % str(refused).encode())
        except self.package.OutOfMemory as fault:
            return Answer(1, b"", b"overlay: %s\n" % str(fault).encode())
        finally:
            signal.setitimer(signal.ITIMER_REAL, 0)


def call_of(library: ModuleType, command: str) -> Callable[..., bytes]:
    """The call that answers as a command of the program does, which reads layers by the even-odd rule."""
    call: Callable[..., bytes] = getattr(library, command)
    if command != "edges":
        call = partial(call, reading="parity")
    return call


def package() -> ModuleType:
    sys.path.insert(0, os.path.join(programs.ROOT, "python"))
    try:
        return importlib.import_module("overlay_grid")
    except (ImportError, OSError) as error:
        sys.exit("overlay_grid isn't built (%s): python/build" % error)


class Tested:
    """The program and, where it has a share of the work, the library."""

    def __init__(self, arguments: argparse.Namespace, folder: str, seconds: float) -> None:
        self.program = Program(arguments.program, folder, seconds)
        self.library = Library(seconds) if arguments.programs < 1 else None

    def drawn(self, rng: random.Random, share: float) -> Asked:
        """The program for that share of the pairs, by chance; the library for the others."""
        by_program = rng.random() < share
        if by_program or self.library is None:
            return self.program
        return self.library

    def lines(self, told: Callable[[str], str]) -> Iterator[str]:
        """A line for each that was asked: which file it is, and what `told` says of it."""
        for asked in (self.library, self.program):
            if asked is not None:
                with open(asked.path, "rb") as file:
                    digest = hashlib.sha256(file.read()).hexdigest()
                yield "by %s (%s, sha256 %s..): %s" % (asked.name, os.path.relpath(asked.path), digest[:16], told(asked.name))


def add_share(parser: argparse.ArgumentParser) -> None:
    parser.add_argument("--programs", type=float, default=1.0, help="the share that the program answers; the library for Python, of python/build, answers the others")
