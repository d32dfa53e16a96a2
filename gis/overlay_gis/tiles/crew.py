"""Tasks done by several processes, whose answers come in the order of the tasks."""

from __future__ import annotations

import signal
import sys
from contextlib import ExitStack, suppress
from multiprocessing import get_context
from multiprocessing.connection import Connection
from typing import Any, Callable, Iterator, Sequence, TypeVar

from ..faults import Fault
from ..messages import unheard
from ..stopping import unbroken

T = TypeVar("T")
R = TypeVar("R")


def in_order(call: Callable[[T], R], tasks: Sequence[T], workers: int) -> Iterator[R]:
    """What a call answers to each task. Each of so many processes does one task of as many, and waits
    until its answers are taken; one of them is this process, if it is alone. None goes on after the
    last answer, nor after a fault."""
    count = min(workers, len(tasks))
    if count < 2:
        for task in tasks:
            with unheard():
                made = call(task)
            yield made
        return
    with ExitStack() as held:
        ends = []
        for k in range(count):
            with unbroken():
                ends.append(begun(call, tasks[k::count], held))
        for k in range(len(tasks)):
            yield answer_of(ends[k % count])


def begun(call: Callable[[T], R], tasks: Sequence[T], held: ExitStack) -> Connection:
    """A process that does these tasks, which ends with `held`, and where its answers come."""
    context = get_context("fork")
    ours, theirs = context.Pipe(duplex=False)
    process = context.Process(target=work, args=(call, tasks, ours, theirs), daemon=True)
    process.start()
    theirs.close()
    held.callback(process.join)
    held.callback(process.terminate)
    held.callback(ours.close)
    return ours


def work(call: Callable[[T], R], tasks: Sequence[T], ours: Connection, theirs: Connection) -> None:
    """Does tasks, and hands on what comes out, until nobody takes it any more. Ctrl-C at a terminal
    reaches all processes: the one that began this one ends it."""
    for number in (signal.SIGINT, signal.SIGHUP):
        signal.signal(number, signal.SIG_IGN)
    signal.signal(signal.SIGTERM, lambda *_: sys.exit(1))
    ours.close()
    with unheard(), suppress(BrokenPipeError):
        for task in tasks:
            theirs.send(outcome(call, task))


def outcome(call: Callable[[T], R], task: T) -> R | BaseException:
    """What a call answers to a task, or what it ends with."""
    try:
        return call(task)
    except MemoryError:
        return MemoryError()
    except (Fault, OSError) as error:
        return error


def answer_of(end: Connection) -> Any:
    """The next answer of a process."""
    try:
        made = end.recv()
    except EOFError as error:
        raise Fault("a worker", "ended before its time, as where there isn't enough memory") from error
    if isinstance(made, BaseException):
        raise made
    return made
