"""Signals that end a command. They are raised as an exception, so that what was begun is tidied
away.

Python drops an exception that is raised while an object is let go. So a signal is kept, too, and
whoever does a part of a long work looks whether one came.
"""

from __future__ import annotations

import signal
import sys
from contextlib import contextmanager
from types import FrameType
from typing import TYPE_CHECKING, Iterator

if TYPE_CHECKING:
    from sys import UnraisableHookArgs

SIGNALS = (signal.SIGINT, signal.SIGTERM, signal.SIGHUP)


class Stopped(BaseException):
    """A signal asked the command to end."""


_ours = False  # whether signals are this command's; another program that calls it keeps its own
_came: int | None = None  # the first signal that asked the command to end
_held = False  # whether a signal that comes now is raised later


def stop(number: int, _: FrameType | None) -> None:
    """Keeps the first signal, and raises it; a second one would disturb the tidying."""
    global _came
    if _came is None:
        _came = number
        if not _held:
            look()


def look() -> None:
    """Raises `Stopped` if a signal came that asks the command to end."""
    if _came is not None:
        raise Stopped("Ctrl-C" if _came == signal.SIGINT else signal.Signals(_came).name)


@contextmanager
def unbroken() -> Iterator[None]:
    """A signal that comes within is raised at the end, so that what is begun here can be known to
    whoever tidies it away."""
    global _held
    _held = True
    try:
        yield
    finally:
        _held = False
    look()


def go_on() -> None:
    """From here on no signal of these stops the command; one that came before does."""
    for number in SIGNALS if _ours else ():
        signal.signal(number, signal.SIG_IGN)
    look()


def unraised(told: UnraisableHookArgs) -> None:
    """Says nothing of a signal that was raised where Python drops exceptions: it is kept."""
    if told.exc_type is not Stopped:
        sys.__unraisablehook__(told)


@contextmanager
def stoppable() -> Iterator[None]:
    """The signals raise `Stopped`, but for those that were ignored already, as by nohup."""
    global _ours, _came
    held = {number: signal.getsignal(number) for number in SIGNALS}
    hook, sys.unraisablehook = sys.unraisablehook, unraised
    _ours, _came = True, None
    try:
        for number, handler in held.items():
            if handler is not signal.SIG_IGN:
                signal.signal(number, stop)
        yield
        look()
    finally:
        _ours, _came = False, None
        sys.unraisablehook = hook
        for number, handler in held.items():
            signal.signal(number, handler)
