"""What a command printed, kept in `bench/results`: its table in a file of the command's name, its last line in `runs.tsv`, each with the date, the commit, the machine's processors and the words of the command."""
from __future__ import annotations

import datetime
import os
import subprocess
import sys
from collections.abc import Callable, Sequence
from typing import TextIO, cast

from . import programs

FOLDER = os.path.join(programs.ROOT, "bench", "results")
HEAD = ("date", "commit", "processors", "words")


class Listening:
    """A stream that also keeps what goes through it."""

    def __init__(self, stream: TextIO) -> None:
        self.stream = stream
        self.text: list[str] = []

    def write(self, text: str) -> int:
        self.text.append(text)
        return self.stream.write(text)

    def flush(self) -> None:
        self.stream.flush()

    def lines(self) -> list[str]:
        return "".join(self.text).splitlines()


def cells(line: str) -> list[str]:
    return [cell.strip().replace("`", "").replace("\t", " ") for cell in line.strip().strip("|").split("|")]


def rows_of(lines: Sequence[str]) -> list[list[str]]:
    """The rows of the tables among the lines, the head of the first one before them."""
    rows = [cells(line) for line in lines if line.startswith("|") and not line.startswith("|---")]
    return rows[:1] + [row for row in rows[1:] if row != rows[0]]


def commit() -> str:
    asked = subprocess.run(["git", "-C", programs.ROOT, "describe", "--always", "--dirty"], capture_output=True, text=True, check=False)
    return asked.stdout.strip()


def append(name: str, head: Sequence[str], rows: list[list[str]]) -> None:
    """Puts rows behind those of a file, which begins with its head."""
    os.makedirs(FOLDER, exist_ok=True)
    path = os.path.join(FOLDER, name + ".tsv")
    is_new = not os.path.exists(path)
    with open(path, "a", encoding="utf-8") as file:
        for row in ([[*HEAD, *head]] if is_new else []) + rows:
            file.write("\t".join(row) + "\n")


def latest(name: str, keys: Sequence[str]) -> list[dict[str, str]]:
    """The rows of a file, each by the names of its columns, of those with the same keys the last one alone, in the order of the file."""
    path = os.path.join(FOLDER, name + ".tsv")
    if not os.path.exists(path):
        return []
    with open(path, encoding="utf-8") as file:
        head, *lines = (line.rstrip("\n").split("\t") for line in file)
    rows = [dict(zip(reversed(head), reversed((line + [""] * len(head))[:len(head)]))) for line in lines]  # of columns of one name the first, and no note behind the last
    found: dict[tuple[str, ...], dict[str, str]] = {}
    for row in rows:
        values = tuple(row[key] for key in keys)
        found.pop(values, None)
        found[values] = row
    return list(found.values())


def last_run(name: str, keys: Sequence[str]) -> list[dict[str, str]]:
    """Of these the rows of the last run that was recorded: one date, commit, machine and command."""
    rows = latest(name, keys)
    return [row for row in rows if all(row[key] == rows[-1][key] for key in HEAD)]


def without_folder(word: str) -> str:
    """A word of a command line; of a file with its whole path the name alone."""
    return os.path.basename(word) if os.path.isabs(word) else word


def keep(name: str, words: Sequence[str], lines: Sequence[str]) -> None:
    about = [datetime.date.today().isoformat(), commit(), str(os.cpu_count()), " ".join(map(without_folder, words))]
    table = rows_of(lines)
    if table:
        append(name, table[0], [about + row for row in table[1:]])
    others = [line for line in lines if line and not line.startswith("|")]
    if others:
        append("runs", ["said"], [about + [others[-1].replace("\t", " ")]])


def recorded(name: str, words: Sequence[str], call: Callable[[], int]) -> int:
    """What the call answers; what it prints is kept, if it ends by itself."""
    heard = Listening(sys.stdout)
    sys.stdout = cast(TextIO, heard)  # all that `print` asks of a stream
    try:
        answer = call()
    finally:
        sys.stdout = heard.stream
    keep(name, words, heard.lines())
    return answer
