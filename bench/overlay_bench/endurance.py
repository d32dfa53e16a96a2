"""What long runs count, as a row of bench/results/endurance.tsv: a run is right, refused as it may be, over (it took too long), or differs."""
from __future__ import annotations

import collections
import os
import time
from collections.abc import Iterable

from . import programs
from .programs import Answer

HEAD = ("command", "of", "runs", "right", "refused", "differ", "over", "seconds")
MOST_KEPT = 10
OUT_OF_MEMORY = Answer(1, b"", b"overlay: 10 out of memory\n")


class Counts:
    """Judges the runs of a command, and keeps the files of the first ones that differ or are over."""

    def __init__(self, command: str, about: str):
        self.command, self.about, self.start = command, about, time.monotonic()
        self.number: collections.Counter[str] = collections.Counter()

    def judge(self, got: Answer, is_right: bool, is_refused: bool, what: str, files: Iterable[str] = ()) -> None:
        """Counts a run; `what` says how it was made, and `files` are kept where it went wrong."""
        kind = "over" if got.status is None else "right" if is_right else "refused" if is_refused else "differ"
        self.number[kind] += 1
        if kind not in ("over", "differ"):
            return
        print("%s: %s: %s" % (kind, what, got), flush=True)
        if self.wrong() <= MOST_KEPT:
            folder = os.path.join(programs.OUT, self.command, str(self.wrong()))
            texts = [open(file, "rb").read() for file in files if os.path.isfile(file)]
            programs.keep(folder, "", [*texts, what.encode(), got.out], [str(k) for k in range(len(texts))] + ["run", "answer"])

    def wrong(self) -> int:
        return self.number["differ"] + self.number["over"]

    def end(self) -> int:
        """Prints the row; 1 where a run went wrong."""
        numbers = [self.number.total(), *(self.number[kind] for kind in ("right", "refused", "differ", "over"))]
        print("| %s |\n%s|" % (" | ".join(HEAD), "|---" * len(HEAD)))
        print("| %s | %s | %s | %.0f |" % (self.command, self.about, " | ".join(map(str, numbers)), time.monotonic() - self.start), flush=True)
        return int(self.wrong() > 0)
