"""files, pipes and disks that fail, and every status and line that the README tells

Each check runs the built program where one thing is amiss: a full disk, a closed pipe, a call that is refused, short or
interrupted (by a library before the C library's), endless input, folders, pipes, names, command lines. What it has to answer
is written beside it. The exit status is 1 where one answers anything else.
"""
from __future__ import annotations

import argparse
import errno
import os
import subprocess
import tempfile
import threading
from collections.abc import Callable, Iterator
from typing import IO

from . import layers, programs
from .programs import Answer, Tried, answer

SQUARE = b"POLYGON ((0 0, 4 0, 4 4, 0 4, 0 0))\n"
SQUARE_EDGES = b"0 0 0 4 1 0\n0 0 4 0 1 0\n0 4 4 4 1 0\n4 0 4 4 1 0\n"
CORNER = b"POLYGON ((2 2, 6 2, 6 6, 2 6, 2 2))\n"
COMMON = b"MULTIPOLYGON (((2 2, 4 2, 4 4, 2 4, 2 2)))\n"
COMMON_REPORT = b"segments 4 4\nhot 10\nrecords 20\nedges 12\ntiles 1\nremade 0\ntile 0 10 20\n"
WRITE_FAILED, MEMORY = b"overlay: 11 write failed\n", b"overlay: 10 out of memory\n"
SIDE = "--tile=262144"
SECONDS = 60.0


def add_arguments(parser: argparse.ArgumentParser) -> None:
    parser.add_argument("--only", default="", help="the checks whose names have this word")
    parser.add_argument("--but", action="append", default=[], metavar="NAME", help="leaves this check out")


class Place:
    """A folder with some layers, and the program run in it."""

    def __init__(self, program: str, folder: str) -> None:
        self.program, self.folder, self.library = os.path.abspath(program), folder, programs.shim()
        rows = [[layers.rectangle(10 * k, 0, 5, 5)] for k in range(400)]
        texts = {"square": SQUARE, "corner": CORNER, "empty": b"", "rows": layers.text_of(rows).encode()}
        for name, text in texts.items():
            with open(self.path(name), "wb") as file:
                file.write(text)
        self.rows_union = b"MULTIPOLYGON (" + b", ".join(b"((%d 0, %d 0, %d 5, %d 5, %d 0))" % (x, x + 5, x + 5, x, x) for x in range(0, 4000, 10)) + b")\n"
        self.rows_edges = b"".join(
            b"%d 0 %d 5 1 0\n%d 0 %d 0 1 0\n%d 5 %d 5 1 0\n%d 0 %d 5 1 0\n" % (x, x, x, x + 5, x, x + 5, x + 5, x + 5) for x in range(0, 4000, 10))

    def path(self, name: str) -> str:
        return os.path.join(self.folder, name)

    def run(self, *words: str | bytes, env: dict[str, str] | None = None, stdin: IO[bytes] | None = None) -> Answer:
        return answer([self.program, *words], cwd=self.folder, env=env, stdin=stdin)

    def with_calls(self, *words: str, **rules: int | tuple[int, int]) -> Answer:
        """A run with rules for its calls; a rule is a number of a call and an error, or a number of bytes."""
        told = {name: "%d %d" % rule if isinstance(rule, tuple) else str(rule) for name, rule in rules.items()}
        return self.run(*words, env=dict(os.environ, LD_PRELOAD=self.library, **told))

    def to_file(self, name: str, *words: str) -> Answer:
        """A run whose standard output is this file: what it gave beside it."""
        with open(name, "wb") as file:
            run = subprocess.run([self.program, *words], cwd=self.folder, stdout=file, stderr=subprocess.PIPE)
        return Answer(run.returncode, b"", run.stderr)


Check = Callable[[Place], Iterator[Tried]]
CHECKS: list[Check] = []


def check(function: Check) -> Check:
    """Registers a check: it yields what it tried, what came, and what should come."""
    CHECKS.append(function)
    return function


@check
def answers(place: Place) -> Iterator[Tried]:
    yield "edges", place.run("edges", "square", "empty"), Answer(0, SQUARE_EDGES, b"")
    yield "an operation", place.run("intersection", "square", "corner"), Answer(0, COMMON, b"")
    yield "a report", place.run("intersection", "square", "corner", "--report", SIDE), Answer(0, COMMON, COMMON_REPORT)
    yield "many edges", place.run("edges", "rows", "empty"), Answer(0, place.rows_edges, b"")


@check
def command_lines(place: Place) -> Iterator[Tried]:
    helped = place.run("--help")
    yield "help", (helped.status, helped.out[:9], helped.err), (0, b"Overlays ", b"")
    yield "-h", place.run("-h").status, 0
    yield "help with a report", place.run("--help", "--report"), helped
    for word in ("Union", "UNION", "", "xor", "union "):
        yield "unknown command", place.run(word, "square", "corner"), Answer(2, b"", b"overlay: unknown command\n")
    missing, plain = b"required arguments", ("edges", "square", "corner")
    lines: list[tuple[tuple[str, ...], bytes]] = [((), missing), (("edges",), missing), (("edges", "square"), missing), (("xor", "square"), missing)]
    lines += [((*plain, "corner"), b"'corner'"), ((*plain, "--nothing"), b"'--nothing'"), ((*plain, "--report", "--report"), b"'--report'")]
    lines += [((*plain, "--tile=" + side), b"--tile") for side in ("", "x", "-1", "1.5", "4294967296", " 16", "0x10")]
    lines += [((*plain, "--workers=" + number), b"--workers") for number in ("", "x", "-1", "4294967296")]
    lines += [((*plain, "--tile"), b"--tile"), ((*plain, "--tile=16", "--tile=16"), b"--tile")]
    for words, reason in lines:
        got = place.run(*words)
        # What isn't accepted stands in the parser's first paragraph: the usage, which comes behind it, names all there is.
        told = got.err.partition(b"Usage:")[0]
        yield " ".join(words), (got.status, got.out, told[:7], reason in told, got.err.count(b"overlay: unknown")), (2, b"", b"error: ", True, 0)
    yield "a word that is not UTF-8", place.run("edges", b"\xff", "corner"), Answer(2, b"", b"overlay: a word is not UTF-8\n")
    yield "options first", place.run("--tile", "+262144", "--report", "intersection", "square", "corner"), Answer(0, COMMON, COMMON_REPORT)


@check
def refusals(place: Place) -> Iterator[Tried]:
    def refused(layer: bytes, words: bytes) -> Answer:
        return Answer(3, b"", b"overlay: " + (layer + b": " if layer else b"") + words + b"\n")

    def text(name: str, content: bytes) -> str:
        with open(place.path(name), "wb") as file:
            file.write(content)
        return name

    faults = [(b"POLYGON ((0 0, 1.5 0, 0 1, 0 0))", b"1 syntax at 16"), (b"POLYGON ((0 0", b"1 syntax at 13"), (b"POINT (1 1)", b"1 syntax at 2"),
              (b"POLYGON ((0 0, 268435457 0, 0 1, 0 0))", b"2 number out of range at 15"), (b"POLYGON ((0 0, 1 0, 0 1))", b"3 short ring at 9"),
              (b"POLYGON ((0 0, 1 0, 1 1, 0 1))", b"4 open ring at 9")]
    for content, words in faults:
        for command in programs.COMMANDS:
            yield words.decode(), place.run(command, text("bad", content), "square"), refused(b"A", words)
            yield words.decode(), place.run(command, "square", text("bad", content)), refused(b"B", words)
    yield "A before B", place.run("edges", text("bad", b"x"), text("worse", b"POLYGON x")), refused(b"A", b"1 syntax at 0")
    for side in ("0", "15", "33554433", "4294967295"):
        yield "side " + side, place.run("edges", "bad", "square", "--tile", side, "--workers=0"), refused(b"", b"6 bad tile side")
    for workers in ("0", "65", "4294967295"):
        yield "workers " + workers, place.run("edges", "bad", "square", "--tile=16", "--workers", workers), refused(b"", b"7 bad number of workers")
    wide = text("wide", b"POLYGON ((-268435456 0, 268435456 0, 0 1, -268435456 0))")
    yield "many tiles", place.run("union", wide, "square", "--tile=8192"), refused(b"", b"8 too many tiles: 65537")
    yield "as many tiles", place.run("union", wide, "empty", "--tile=8193").status, 0


@check
def files(place: Place) -> Iterator[Tried]:
    for layer, names in (("A", ("none", "square")), ("B", ("square", "none")), ("A", (".", "square")), ("B", ("square", ".")), ("A", ("", "square"))):
        unread = Answer(1, b"", b"overlay: %s: cannot read\n" % layer.encode())
        yield "no file %r %r" % names, place.run("edges", *names), unread
        yield "before a bad side", place.run("edges", *names, "--tile=3"), unread
    yield "an unknown command before files", place.run("xor", "none", "none"), Answer(2, b"", b"overlay: unknown command\n")
    yield "A before B", place.run("edges", "none", "missing"), Answer(1, b"", b"overlay: A: cannot read\n")
    for name in ("a name with spaces", "größe.wkt", "--odd"):
        with open(place.path(name), "wb") as file:
            file.write(SQUARE)
        yield name, place.run("edges", "--", name, "empty"), Answer(0, SQUARE_EDGES, b"")
    yield "the same file twice", place.run("symdifference", "square", "square"), Answer(0, b"MULTIPOLYGON EMPTY\n", b"")
    with open(place.path("dos"), "wb") as file:
        file.write(SQUARE.replace(b", ", b",\r\n\t"))
    yield "line ends of Windows", place.run("edges", "dos", "empty"), Answer(0, SQUARE_EDGES, b"")


@check
def pipes(place: Place) -> Iterator[Tried]:
    with open(place.path("rows"), "rb") as file:
        yield "standard input", place.run("edges", "/dev/stdin", "empty", stdin=file), Answer(0, place.rows_edges, b"")
    os.mkfifo(place.path("pipe"))

    def feed() -> None:
        with open(place.path("rows"), "rb") as source, open(place.path("pipe"), "wb") as pipe:
            pipe.write(source.read())

    feeder = threading.Thread(target=feed, daemon=True)
    feeder.start()
    yield "a named pipe", place.run("edges", "pipe", "empty"), Answer(0, place.rows_edges, b"")
    feeder.join(SECONDS)
    yield "the other end of a named pipe", feeder.is_alive(), False


@check
def endless_input(place: Place) -> Iterator[Tried]:
    yield "endless zeros", place.run("edges", "/dev/zero", "empty"), Answer(3, b"", b"overlay: A: 0 layer too long\n")
    yield "endless zeros", place.run("union", "square", "/dev/zero"), Answer(3, b"", b"overlay: B: 0 layer too long\n")


@check
def full_disk(place: Place) -> Iterator[Tried]:
    yield "the text", place.to_file("/dev/full", "edges", "rows", "empty"), Answer(1, b"", WRITE_FAILED)
    yield "a line", place.to_file("/dev/full", "intersection", "square", "corner"), Answer(1, b"", WRITE_FAILED)
    yield "help", place.to_file("/dev/full", "--help"), Answer(1, b"", b"")
    yield "no bytes to write", place.to_file("/dev/full", "edges", "empty", "empty"), Answer(0, b"", b"")
    with open("/dev/full", "wb") as full:
        runs: list[tuple[tuple[str, ...], int, bytes]] = [(("intersection", "square", "corner", "--report"), 1, COMMON), (("edges", "none", "square"), 1, b""), (("xor", "a", "b"), 2, b""),
                (("edges", "square", "corner", "--tile=3"), 3, b"")]
        for words, status, text in runs:
            run = subprocess.run([place.program, *words], cwd=place.folder, stdout=subprocess.PIPE, stderr=full)
            yield "no room for %s's words" % " ".join(words), (run.returncode, run.stdout), (status, text)


@check
def closed_pipe(place: Place) -> Iterator[Tried]:
    for words in (("edges", "rows", "empty"), ("intersection", "square", "corner")):
        read, write = os.pipe()
        os.close(read)
        run = subprocess.run([place.program, *words], cwd=place.folder, stdout=write, stderr=subprocess.PIPE)
        os.close(write)
        yield "a closed pipe", (run.returncode, run.stderr), (1, WRITE_FAILED)
    closed = 'exec "$@" >&-'
    run = subprocess.run(["sh", "-c", closed, "sh", place.program, "edges", "square", "empty"], cwd=place.folder, stderr=subprocess.PIPE)
    yield "a closed standard output", (run.returncode, run.stderr), (1, WRITE_FAILED)


@check
def refused_writes(place: Place) -> Iterator[Tried]:
    for number in range(1, 12):
        for error in (errno.EIO, errno.ENOSPC, errno.EAGAIN):
            got = place.with_calls("edges", "rows", "empty", SHORT_WRITE=1000, REFUSE_WRITE=(number, error))
            yield "write %d" % number, got, Answer(1, place.rows_edges[:1000 * (number - 1)], WRITE_FAILED)
    got = place.with_calls("intersection", "square", "corner", "--report", SIDE, SHORT_WRITE=20, REFUSE_WRITE=(5, errno.EIO))
    yield "the report's writes", got, Answer(1, COMMON, COMMON_REPORT[:20])


@check
def short_writes(place: Place) -> Iterator[Tried]:
    for size in (1, 7, 4096):
        yield "%d bytes" % size, place.with_calls("edges", "rows", "empty", SHORT_WRITE=size), Answer(0, place.rows_edges, b"")
    got = place.with_calls("intersection", "square", "corner", "--report", SIDE, SHORT_WRITE=1)
    yield "a report", got, Answer(0, COMMON, COMMON_REPORT)
    yield "a fault's line", place.with_calls("edges", "none", "square", SHORT_WRITE=1), Answer(1, b"", b"overlay: A: cannot read\n")


@check
def interrupted_writes(place: Place) -> Iterator[Tried]:
    for number in (1, 2, 5, 11):
        got = place.with_calls("edges", "rows", "empty", SHORT_WRITE=1000, REFUSE_WRITE=(number, errno.EINTR))
        yield "write %d" % number, got, Answer(0, place.rows_edges, b"")
    got = place.with_calls("intersection", "square", "corner", "--report", SIDE, SHORT_WRITE=20, REFUSE_WRITE=(5, errno.EINTR))
    yield "the report's writes", got, Answer(0, COMMON, COMMON_REPORT)


@check
def reads(place: Place) -> Iterator[Tried]:
    for size in (1, 7, 511):
        yield "%d bytes" % size, place.with_calls("edges", "rows", "empty", SHORT_READ=size), Answer(0, place.rows_edges, b"")
    for number in (1, 2, 7):
        got = place.with_calls("edges", "rows", "empty", SHORT_READ=1000, REFUSE_READ=(number, errno.EINTR))
        yield "an interrupted read", got, Answer(0, place.rows_edges, b"")
        got = place.with_calls("edges", "rows", "empty", SHORT_READ=1000, REFUSE_READ=(number, errno.EIO))
        yield "a reader that fails in the middle", got, Answer(1, b"", b"overlay: A: cannot read\n")
    got = place.with_calls("edges", "square", "rows", REFUSE_OPEN=(2, errno.EACCES))
    yield "a file that may not be opened", got, Answer(1, b"", b"overlay: B: cannot read\n")


@check
def memory_and_threads(place: Place) -> Iterator[Tried]:
    yield "no memory at all", place.with_calls("edges", "square", "corner", REFUSE_MALLOC=(0, errno.ENOMEM)), Answer(1, b"", MEMORY)
    for command, expected in (("edges", Answer(0, place.rows_edges, b"")), ("union", Answer(0, place.rows_union, b""))):
        for number in (0, 1, 2, 3):
            got = place.with_calls(command, "rows", "empty", "--tile=64", REFUSE_THREAD=(number, errno.EAGAIN))
            yield "a thread that can't be started", got, expected


def main(arguments: argparse.Namespace) -> int:
    tried, wrong = 0, 0
    for function in CHECKS:
        if arguments.only not in function.__name__ or function.__name__ in arguments.but:
            continue
        with tempfile.TemporaryDirectory() as folder:
            for name, got, expected in function(Place(arguments.program, folder)):
                tried += 1
                if got != expected:
                    wrong += 1
                    print("%s, %s:\n  expected %s\n  seen     %s" % (function.__name__, name, expected, got), flush=True)
    print("%d faults tried, %d answered otherwise" % (tried, wrong))
    return 1 if wrong else 0
