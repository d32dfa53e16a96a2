"""The verbs for other programs, which hear how far a work is and may end it."""

from __future__ import annotations

from typing import Callable, Sequence

from . import cli
from .messages import heard_by
from .stopping import Stopped


class Cancelled(Stopped):
    """The caller didn't want the work to go on."""


class Heard:
    """What is said, for two calls of another program."""

    def __init__(self, line: Callable[[str], None], progress: Callable[[str, float | None], bool]):
        self.line = line
        self.wanted = progress

    def progress(self, work: str, share: float | None) -> None:
        if not self.wanted(work, share):
            raise Cancelled("the caller")


def call(
    words: Sequence[str],
    line: Callable[[str], None] = lambda text: None,
    progress: Callable[[str, float | None], bool] = lambda work, share: True,
) -> int:
    """Does what the command does with these words, in this thread, and answers its status: 0, or 4
    where `check` found something.

    `line` gets each line that the command would print. `progress` gets what is done and how much of
    it is, from 0 to 1 or None, and answers whether to go on. Raises `faults.Fault`, of which `str`
    is the command's own line and `status` its status; `Cancelled`; and SystemExit with 2 where the
    words aren't accepted. Where anything is raised, every output is as it was. Meanwhile GDAL raises
    what fails, in all threads.
    """
    arguments = cli.parser().parse_args(list(words))
    with heard_by(Heard(line, progress)):
        return cli.answered(arguments)
