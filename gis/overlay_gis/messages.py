"""What is said on standard error beside the answer: notes, warnings, and how far a long work is. No
text tells a password, and none has a control character, which a name in a strange file may have."""

from __future__ import annotations

import os
import re
import sys
import time
from contextlib import contextmanager, suppress
from contextvars import ContextVar
from typing import Callable, Iterable, Iterator, Protocol, TypeVar

from .faults import Fault
from .passwords import hidden
from .stopping import look

T = TypeVar("T")

# Seconds before a work counts as long, and between two words on it.
PATIENCE = 1.0
PAUSE = 0.2

# Signs of a bar.
WIDTH = 30

CONTROL = re.compile(r"[\x00-\x1f\x7f-\x9f\u2028\u2029]")


def shown(text: str) -> str:
    """The text as one line that may be shown."""
    return CONTROL.sub(lambda found: repr(found[0])[1:-1], hidden(text))


class Listener(Protocol):
    """Another program that hears what is said, in the place of standard output and standard error.
    What its calls raise ends the work, and leaves every output as it was."""

    def line(self, text: str) -> None:
        """A note, a warning, or a line of the answer."""

    def progress(self, work: str, share: float | None) -> None:
        """What is done, and how much of it is, from 0 to 1, where that is known. It is called
        several times a second."""


_listener: ContextVar[Listener | None] = ContextVar("listener", default=None)


@contextmanager
def heard_by(listener: Listener) -> Iterator[None]:
    """Within, all that this thread says goes to the listener."""
    token = _listener.set(listener)
    try:
        yield
    finally:
        _listener.reset(token)


class Nobody:
    """Hears what is said of a trial, which is nobody's answer."""

    def line(self, text: str) -> None:
        pass

    def progress(self, work: str, share: float | None) -> None:
        pass


@contextmanager
def unheard() -> Iterator[None]:
    """Within, nothing that is said is told."""
    with heard_by(Nobody()):
        yield


def tell(text: str) -> None:
    """A line of the answer, on standard output."""
    listener = _listener.get()
    if listener:
        listener.line(shown(text))
    else:
        put(f"{shown(text)}\n")


def put(text: str) -> None:
    """Writes a text to standard output, at once: what failed at the end would be told by Python."""
    if sys.stdout is None:
        raise Fault("standard output", "is closed")
    try:
        sys.stdout.write(text)
        sys.stdout.flush()
    except BrokenPipeError:
        lead_nowhere()
        raise
    except OSError as error:
        lead_nowhere()
        raise Fault("standard output", error.strerror) from error


def lead_nowhere() -> None:
    """Leads standard output to nowhere: what it still holds would fail again at the end."""
    with suppress(OSError), open(os.devnull, "wb") as nowhere:
        os.dup2(nowhere.fileno(), sys.stdout.fileno())


def say(text: str) -> None:
    listener = _listener.get()
    if listener:
        listener.line(shown(text))
    else:
        print(f"overlay-gis: {shown(text)}", file=sys.stderr)


def warn(name: str, text: str) -> None:
    say(f"{name}: warning: {text}")


def is_watched() -> bool:
    """Whether anybody hears how far a work is."""
    return _listener.get() is not None or sys.stderr.isatty()


def progress(work: str, share: float | None = None, count: int | None = None) -> None:
    """Tells a listener how far a work is, or puts it in the place of the terminal's last line; no
    work clears that."""
    listener = _listener.get()
    if listener:
        listener.progress(shown(work), share)
        return
    far = f": {100 * share:.0f}%" if share is not None else f": {count:,}" if count is not None else ""
    print(f"\r{shown(work + far)}\x1b[K", end="", file=sys.stderr, flush=True)


def bar(work: str, done: int, total: int) -> None:
    """Shows how many parts of a work are done, where somebody hears it; no work clears the line."""
    listener = _listener.get()
    if listener and work:
        listener.progress(shown(work), done / total)
    elif not listener and sys.stderr.isatty():
        filled = WIDTH * done // total if total else 0
        text = f"{shown(work)} [{'#' * filled}{'.' * (WIDTH - filled)}] {done} of {total}" if work else ""
        print(f"\r{text}\x1b[K", end="", file=sys.stderr, flush=True)


def followed(
    items: Iterable[T], label: str, total: int | None = None, size: Callable[[T], int] = lambda _: 1
) -> Iterator[T]:
    """The same items, as long as no signal ends the command. Where somebody hears it and they take
    long, it says how far they are; `size` is how much an item is."""
    watched = is_watched()
    due = time.monotonic() + PATIENCE
    told, done = False, 0
    for item in items:
        look()
        if watched:
            now = time.monotonic()
            if now >= due:
                progress(label, done / total if total else None, done)
                due, told = now + PAUSE, True
            done += size(item)
        yield item
    if told:
        progress("")


@contextmanager
def during(label: str) -> Iterator[None]:
    """Where somebody hears it, says what is done as long as it is done; no signal has ended the
    command before."""
    look()
    told = is_watched()
    if told:
        progress(label)
    try:
        yield
    finally:
        if told and _listener.get() is None:
            progress("")


def waited(label: str, ended: Callable[[float | None], bool]) -> None:
    """Waits until a work has ended, and says what is waited for; `ended` waits for so many seconds
    at most, or, without a number, to the end. A listener is told again and again, and may end the
    work."""
    with during(label):
        while not ended(PAUSE if _listener.get() else None):
            progress(label)
