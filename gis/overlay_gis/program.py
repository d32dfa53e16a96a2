"""Asks the proved program, or the package for Python where it is there, and says refusals in the
words of the layers."""

from __future__ import annotations

import importlib
import os
import re
import shutil
import sys
from concurrent.futures import Future, wait
from contextlib import suppress
from dataclasses import dataclass
from functools import partial
from pathlib import Path
from subprocess import Popen, TimeoutExpired
from threading import Thread
from types import ModuleType
from typing import Any, BinaryIO, Callable, Sequence, TypeVar

from .columns import Columns, Numbers
from .faults import Fault, Refusal
from .messages import waited
from .parsing import polygons_in
from .rows import Rows, rows_in
from .texts import RESULT, kind_of

T = TypeVar("T")

OPERATIONS = ("union", "intersection", "difference", "symdifference")
FACES = "faces"

# How many segments the program takes where no more are asked for, in all layers together.
SEGMENTS = 1 << 20

HINTS = {
    "0": "the layer is too large: clip it, and join the answers",
    "5": (
        f"the limit of all layers together is {SEGMENTS:,} segments: clip them, and join the"
        " answers"
    ),
    "10": "there isn't enough memory",
    "12": (
        "so many features lie on one another that their numbers alone would fill the answer: clip"
        " the layers, and join the answers"
    ),
}

# How the program names its layers.
LETTERS = "ABCDEFGHIJKLMNOPQRSTUVWXYZ"


# How the program is told of, and what is said where its answer can't be one.
PROGRAM = "overlay"
DOUBT = "is it the program that it should be?"

# How layers may be read otherwise, or what is told too, of an operation: features that overlap
# don't cancel each other; or twice the areas (AREA) and the steps of routes (STEPS).
COVERED, AREAS = "--covered", "--areas"
AREA, STEPS = "area2", "steps"

# A line of the report, but for those of tiles: a name, and the numbers behind it.
REPORTED = re.compile(r"(?!tile )([a-z]+2?)((?: \d{1,20})+)\b")
Report = dict[str, tuple[int, ...]]

TOP = Path(__file__).resolve().parents[2]


def library() -> ModuleType | None:
    """The package `overlay_grid`: an installed one, or the one beside this package, if its library
    was built. OVERLAY goes before it."""
    if os.environ.get("OVERLAY"):
        return None
    beside = str(TOP / "python")
    sys.path.append(beside)
    try:
        return importlib.import_module("overlay_grid")
    except (ImportError, OSError):
        return None
    finally:
        sys.path.remove(beside)


def located() -> str:
    """The program: what OVERLAY names, else what the path has, else what stands beside this
    package."""
    named = os.environ.get("OVERLAY") or shutil.which("overlay")
    if named:
        return named
    for place in (TOP / "crates/overlay/out/overlay", TOP / "bin/overlay"):
        if place.is_file():
            return str(place)
    raise Fault(
        PROGRAM,
        "the program isn't on the path, and OVERLAY doesn't name it; README says how it is built",
    )


@dataclass(frozen=True)
class Text:
    """A layer's text in a file of the memory, and the name by which it is told of."""

    name: str
    file: BinaryIO

    @property
    def path(self) -> str:
        """The name by which a program that was given the file opens it, each time from its
        beginning."""
        return f"/proc/self/fd/{self.file.fileno()}"


def memory(name: str) -> BinaryIO:
    """A file that lies in the memory alone, and goes when it is closed."""
    return os.fdopen(os.memfd_create(name), "w+b")


def held(file: BinaryIO) -> bytes:
    """All that a file of the memory has, of which Linux gives less than 2 GiB at a time."""
    number, at, parts = file.fileno(), 0, []
    size = os.fstat(number).st_size
    while part := os.pread(number, size - at, at):
        parts.append(part)
        at += len(part)
    return b"".join(parts)


class Asked:
    """The program at work on a command and some texts, whose answer is waited for; at the end of
    the context it has ended."""

    def __init__(self, command: str, *texts: Text, segments: int = 0, option: str = ""):
        self.command = command
        self.texts = texts
        self.out, self.told = memory("answer"), memory("report")
        words = [located(), command, *(text.path for text in texts), "--report"]
        words += ["--segments", str(segments)] if segments > SEGMENTS else []
        words += [option] if option else []
        files = [text.file.fileno() for text in self.texts]
        try:
            self.process = Popen(words, stdout=self.out, stderr=self.told, pass_fds=files)
        except OSError as error:
            raise Fault(error.filename or words[0], error.strerror) from error

    def __enter__(self) -> Asked:
        return self

    def __exit__(self, *_: object) -> None:
        self.process.kill()
        self.process.wait()
        self.out.close()
        self.told.close()

    def ended(self, seconds: float | None) -> bool:
        """Whether the program has ended after so many seconds."""
        with suppress(TimeoutExpired):
            self.process.wait(seconds)
        return self.process.returncode is not None

    def answer(self) -> tuple[bytes, Report]:
        """What the program wrote, and the numbers of its report by their names."""
        waited(f"overlay {self.command}", self.ended)
        status = self.process.returncode
        told = held(self.told).decode("utf-8", "replace").splitlines()
        if status != 0:
            raise refusal(
                told[-1] if told else f"ended with status {status} and no word", status, self.texts
            )
        numbers = (REPORTED.match(line) for line in told)
        return held(self.out), {found[1]: tuple(map(int, found[2].split())) for found in numbers if found}


def aside(call: Callable[[], T]) -> Future[T]:
    """What a call will answer or raise that is made in a thread of its own, where it keeps no
    signal from who waits. It goes on where nobody waits any more, to the end of the process at
    most."""
    made: Future[T] = Future()

    def work() -> None:
        try:
            answer = call()
        except BaseException as error:
            made.set_exception(error)
        else:
            made.set_result(answer)

    try:
        Thread(target=work, daemon=True).start()
    except RuntimeError:  # no more threads may be started
        work()
    return made


class AskedLibrary:
    """The package for Python in the program's place: it works when it is asked for the answer, and
    tells of a report the number of rows alone, or the areas and the steps."""

    def __init__(self, package: ModuleType, command: str, *texts: Text, segments: int = 0, option: str = ""):
        self.package = package
        self.command = command
        self.option = option
        self.texts = texts
        self.plan: dict[str, Any] = {"segments": segments} if segments > SEGMENTS else {}

    def __enter__(self) -> AskedLibrary:
        return self

    def __exit__(self, *_: object) -> None:
        pass

    def called(self) -> Any:
        """What the package's call answers. It gets the texts as bytes, since their files are closed
        where nobody waits any more."""
        call = getattr(self.package, call_for(self.command, self.option))
        words = [self.command] if self.option else []
        named = {**self.plan, **READINGS.get(self.option, {})}
        made = aside(partial(call, *words, *(held(text.file) for text in self.texts), **named))
        waited(f"overlay {self.command}", lambda seconds: bool(wait([made], seconds).done))
        return made.result()

    def answer(self) -> tuple[bytes, Report]:
        package = self.package
        try:
            answer = self.called()
            if self.option == AREAS:
                a, b = answer.a, answer.b
                return answer.result, {AREA: (a.twice_area, b.twice_area, answer.twice_area), STEPS: (a.steps, b.steps)}
            return answer, {"rows": (answer.count(b"\n"),)} if self.command == FACES else {}
        except package.Refused as fault:
            mark = f"{fault.layer}: " if fault.layer and not str(fault).startswith(f"{fault.layer}: ") else ""
            raise refusal(mark + str(fault), Refusal.status, self.texts) from fault
        except package.OutOfMemory as fault:
            raise refusal(str(fault), Fault.status, self.texts) from fault


# The package's calls that aren't named as the program's commands are, and those for all operations
# with an option.
CALLS = {FACES: "faces_text", COVERED: "covered_text", AREAS: "measured"}


# How those calls are told of a reading, which by itself is of what features cover.
READINGS: dict[str, dict[str, Any]] = {AREAS: {"reading": "parity"}}


def call_for(command: str, option: str) -> str:
    """The package's call for a command, or for operations with an option."""
    return CALLS.get(option or command, command)


def asked(command: str, *texts: Text, segments: int = 0, option: str = "") -> Asked | AskedLibrary:
    """A command on some texts, at which the program is at work, with room for so many segments; or
    the package, if it has the call."""
    package = library()
    if package is None or not hasattr(package, call_for(command, option)):
        return Asked(command, *texts, segments=segments, option=option)
    return AskedLibrary(package, command, *texts, segments=segments, option=option)


def refusal(line: str, status: int, texts: Sequence[Text]) -> Fault:
    """The fault that a line of the program tells."""
    words = line.removeprefix("overlay: ")
    name = PROGRAM
    for letter, text in zip(LETTERS, texts):
        if words.startswith(f"{letter}: "):
            name, words = text.name, words.removeprefix(f"{letter}: ")
            break
    hint = HINTS.get(words.partition(" ")[0])
    kind = Refusal if status == Refusal.status else Fault
    return kind(name, f"overlay says: {words}" + (f" ({hint})" if hint else ""))


def result_in(text: bytes) -> Columns[Numbers]:
    """The polygons of what the program answers to an operation, which is one whole line."""
    if kind_of(text) == RESULT and text.endswith(b"\n"):
        with suppress(Refusal):
            return polygons_in(text, PROGRAM)
    raise Fault(PROGRAM, f"its answer is no result: {DOUBT}")


def rows_of(text: bytes, layers: int) -> Rows:
    """The rows of what the program answers to `faces` of so many layers."""
    try:
        return rows_in(text, layers, PROGRAM)
    except Refusal as error:
        raise Fault(PROGRAM, f"{error.reason}: {DOUBT}") from error
