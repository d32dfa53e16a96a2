"""Running programs: what one answered, what it took, and the builds that comparisons need."""
from __future__ import annotations

import os
import resource
import shutil
import signal
import subprocess
import sys
import tempfile
import threading
import time
from collections.abc import Callable, Iterable, Mapping, Sequence
from dataclasses import dataclass
from typing import IO

BENCH = os.path.dirname(os.path.dirname(os.path.abspath(__file__)))
ROOT = os.path.dirname(BENCH)
BUILT = os.path.join(ROOT, "crates", "overlay", "out", "overlay")
OUT = os.path.join(BENCH, "out")
COMMANDS = ("edges", "union", "intersection", "difference", "symdifference")


@dataclass(frozen=True)
class Answer:
    """What a run gave. A status below 0 is the signal that ended it; None is a run that was ended because it took too long."""

    status: int | None
    out: bytes
    err: bytes

    def __str__(self) -> str:
        out, err = (text if len(text) <= 200 else text[:200] + b".." for text in (self.out, self.err))
        return "status %s, standard output %r, standard error %r" % (self.status, out, err)


# What was tried, what came, and what should have come.
Tried = tuple[str, object, object]


def answer(
    words: Sequence[str | bytes], seconds: float = 60.0, *, cwd: str | None = None, env: Mapping[str, str] | None = None,
    stdin: IO[bytes] | None = None, preexec_fn: Callable[[], None] | None = None, user: int | None = None,
) -> Answer:
    """Runs a command line, at most for these seconds; with a user as that one, in the group of its number alone."""
    process = subprocess.Popen(
        words, stdin=stdin, stdout=subprocess.PIPE, stderr=subprocess.PIPE, cwd=cwd, env=env, preexec_fn=preexec_fn,
        user=user, group=user, extra_groups=None if user is None else [])
    try:
        out, err = process.communicate(timeout=seconds)
        return Answer(process.returncode, out, err)
    except subprocess.TimeoutExpired:
        process.kill()
        out, err = process.communicate()
        return Answer(None, out, err)
    except BaseException:  # this process is to end, and that one with it
        process.kill()
        process.wait()
        raise


@dataclass(frozen=True)
class Taken:
    """A run's status (None where it was ended), seconds on the clock, processor seconds and greatest memory in megabytes."""

    status: int | None
    clock: float
    processor: float
    memory: float


def waited(process: subprocess.Popen[bytes], seconds: float) -> tuple[bool, resource.struct_rusage]:
    """Waits for a process, at most for these seconds: whether it was ended then, and what it used."""
    over = threading.Event()

    def end() -> None:
        over.set()
        os.kill(process.pid, signal.SIGKILL)

    timer = threading.Timer(seconds, end)
    timer.daemon = True
    timer.start()
    try:
        _, status, used = os.wait4(process.pid, 0)
    except BaseException:  # this process is to end, and that one with it
        process.kill()
        process.wait()
        raise
    finally:
        timer.cancel()
    process.returncode = os.waitstatus_to_exitcode(status)
    return over.is_set(), used


def taken(words: Sequence[str], output: str, seconds: float, errors: str = os.devnull, processor: int | None = None) -> Taken:
    """Measures a run whose standard output, and whose errors, go to files. It may be given so many whole processor seconds too."""
    limit = None if processor is None else lambda: resource.setrlimit(resource.RLIMIT_CPU, (processor, processor))
    with open(output, "wb") as out, open(errors, "wb") as err:
        start = time.monotonic()
        process = subprocess.Popen(words, stdout=out, stderr=err, preexec_fn=limit)
        is_over, used = waited(process, seconds)
        clock = time.monotonic() - start
    seconds_used = used.ru_utime + used.ru_stime
    is_over = is_over or processor is not None and process.returncode < 0 and seconds_used >= 0.9 * processor
    return Taken(None if is_over else process.returncode, clock, seconds_used, used.ru_maxrss / 1024)


def compiler_of_c() -> str:
    for name in ("cc", "clang", "gcc"):
        if shutil.which(name):
            return name
    sys.exit("no compiler for C was found (cc, clang or gcc): this step needs one")


def newer(built: str, sources: Iterable[str]) -> bool:
    return os.path.exists(built) and all(os.path.getmtime(built) > os.path.getmtime(source) for source in sources)


def plain() -> str:
    """The plain program of the same rules, compiled where its sources have changed."""
    folder, built = os.path.join(BENCH, "plain"), os.path.join(OUT, "plain")
    sources = [os.path.join(folder, name) for name in os.listdir(folder)]
    if not newer(built, sources):
        if not shutil.which("rustc"):
            sys.exit("rustc was not found: the plain program of bench/plain is compiled by it")
        # in a folder of its own and then moved, since several runs may begin at once
        os.makedirs(OUT, exist_ok=True)
        with tempfile.TemporaryDirectory(dir=OUT) as own:
            made = os.path.join(own, "plain")
            subprocess.run(["rustc", "-O", "--edition", "2021", "-C", "target-cpu=x86-64-v2", "-o", made, os.path.join(folder, "main.rs")], check=True)
            os.replace(made, built)
    return built


def shim(name: str = "calls") -> str:
    """A library of bench/shims that stands before the C library, compiled where its source has changed."""
    source, built = os.path.join(BENCH, "shims", name + ".c"), os.path.join(OUT, name + ".so")
    if not newer(built, [source]):
        os.makedirs(OUT, exist_ok=True)
        subprocess.run([compiler_of_c(), "-shared", "-fPIC", "-O1", "-o", built, source, "-ldl"], check=True)
    return built


def keep(folder: str, before: str, texts: Iterable[bytes], names: Iterable[str] = "ab") -> None:
    """Writes the texts of a difference into a folder of bench/out."""
    os.makedirs(folder, exist_ok=True)
    for layer, text in zip(names, texts):
        with open(os.path.join(folder, before + layer + ".wkt"), "wb") as file:
            file.write(text)


def apart(make: Callable[[], object]) -> None:
    """Runs a function in a process of its own: what it takes would else count as memory of programs started later."""
    child = os.fork()
    if child == 0:
        status = 1
        try:
            make()
            status = 0
        finally:
            os._exit(status)
    _, status = os.waitpid(child, 0)
    if status:
        sys.exit("a process of its own failed: " + make.__name__)
