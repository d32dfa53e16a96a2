"""Runs whose threads are turns of one, and which refuse many requests for memory, each in a copy: bench/shims/turns.c."""
from __future__ import annotations

import os
import subprocess
import tempfile
from collections.abc import Sequence

from . import endurance, programs
from .programs import Answer

SECONDS = 60  # after which a copy is over
SEED = 1
KEPT = os.path.join(programs.OUT, "memory")


def read(path: str) -> bytes:
    with open(path, "rb") as file:
        return file.read()


def run(words: Sequence[str], right: Answer, part: int, parts: int, folder: str) -> tuple[Answer, list[int]]:
    """What the run itself gave, and its numbers."""
    rules = {"PART": part, "OF": parts, "SEED": SEED, "SECONDS": SECONDS, "KEEP": KEPT}
    paths = {name: os.path.join(folder, name) for name in ("RIGHT", "COUNTS", "out", "err")}
    with open(paths["RIGHT"], "wb") as file:
        file.write(right.out)
    with open(paths["COUNTS"], "wb"), open(paths["out"], "wb") as out, open(paths["err"], "wb") as err:
        environment = {"TURNS_" + name: str(rule) for name, rule in {**rules, **paths}.items()}
        status = subprocess.run(words, stdout=out, stderr=err, env=dict(os.environ, LD_PRELOAD=programs.shim("turns"), **environment), check=False).returncode
    return Answer(status, read(paths["out"]), read(paths["err"])), list(map(int, read(paths["COUNTS"]).split()))


def refuse(words: Sequence[str], right: Answer, files: Sequence[str], part: int, parts: int, counts: endurance.Counts) -> int:
    """Refuses one of so many parts of a command line's requests, counts what came of it, and tells how many requests there are."""
    os.makedirs(KEPT, exist_ok=True)
    what = "part %d of %d of %s" % (part, parts, " ".join(words))
    with tempfile.TemporaryDirectory() as folder:
        got, numbers = run(words, right, part, parts, folder)
    if got != right:
        counts.judge(got, False, False, what, files)
        return 0
    requests, *found = numbers
    wrong_before = counts.wrong()
    for kind, number in zip(("right", "refused", "differ", "over"), found):
        counts.number[kind] += number
    if counts.wrong() > wrong_before:
        print("%s: %d differ, %d are over: %s" % (what, found[2], found[3], os.path.relpath(KEPT)), flush=True)
        programs.keep(KEPT, "", map(read, files), map(str, range(len(files))))
    return requests
