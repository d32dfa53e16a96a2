"""counts the lines of sources, definitions and proofs, the longest clauses, and the pairs of places that repeat each other

Lines are those that aren't empty, crate by crate. A clause is what stands in the braces behind requires, ensures or invariant, its
white space folded. Pairs of places that share six or more lines are counted by the command `duplicates`, where it is on the path; it
doesn't know Rattle's endings, so it reads copies under other names.

`--bars` compares the numbers with bench/bars.tsv: the pairs that there may be at most, and the functions and lines of sources that a crate may
have where it is large (past 120 functions or 1,800 lines, it has to stand in that file). The exit status is 1 where a bar is passed. `--lower`
writes the file anew where the numbers went down.
"""
from __future__ import annotations

import argparse
import glob
import os
import re
import shutil
import subprocess
import tempfile
from collections.abc import Iterable, Iterator
from dataclasses import dataclass

from . import programs

FOLDERS = (("src", "rt", "rs"), ("specs", "antt", "hs"), ("proofs", "antt", "hs"))
FUNCTION = re.compile(r"^\s*(?:pub(?:\([^)]*\))? )?(?:unsafe )?(?:extern \"C\" )?fn \w+", re.MULTILINE)
BARS = os.path.join(programs.ROOT, "bench", "bars.tsv")
# What a crate may have without a line of its own in bars.tsv.
MOST_FUNCTIONS, MOST_LINES = 120, 1800
CLAUSE = re.compile(r"\b(?:requires|ensures|invariant)\b(?:\s+\w+)?\s*(?:=\s*)?\{")


def add_arguments(parser: argparse.ArgumentParser) -> None:
    parser.add_argument("--longest", type=int, default=3, help="how many of the longest clauses are shown")
    parser.add_argument("--bars", action="store_true", help="only compares the numbers with bench/bars.tsv")
    parser.add_argument("--lower", action="store_true", help="lowers the bars of bench/bars.tsv to the numbers as they are")


def files_of(crate: str, folder: str, ending: str) -> list[str]:
    return sorted(glob.glob(os.path.join(programs.ROOT, "crates", crate, folder, "**", "*." + ending), recursive=True))


def text_of(path: str) -> str:
    with open(path, encoding="utf-8") as file:
        return file.read()


def lines_of(crate: str, folder: str, ending: str) -> int:
    return sum(bool(line.strip()) for path in files_of(crate, folder, ending) for line in text_of(path).splitlines())


def clauses(path: str) -> Iterator[tuple[int, str]]:
    """The clauses of a source: the number of the line where each begins, and its text."""
    text = text_of(path)
    for found in CLAUSE.finditer(text):
        depth, end = 1, found.end()
        while depth:
            depth += {"{": 1, "}": -1}.get(text[end], 0)
            end += 1
        yield text.count("\n", 0, found.start()) + 1, " ".join(text[found.end():end - 1].split())


def pairs_of(crates: Iterable[str], folder: str, ending: str, known: str) -> int | None:
    """The pairs of places that repeat each other; none where the command isn't there."""
    if not shutil.which("duplicates"):
        return None
    with tempfile.TemporaryDirectory() as copies:
        for crate in crates:
            for number, path in enumerate(files_of(crate, folder, ending)):
                shutil.copy(path, os.path.join(copies, "%s-%d.%s" % (crate, number, known)))
        told = subprocess.run(["duplicates", "--repo", copies, "--seconds", "300", "--most", "1"], capture_output=True, text=True, check=True).stdout
    return 0 if told.startswith("no duplicates") else int(told.split()[0])


@dataclass(frozen=True)
class Size:
    """A crate's functions and lines of sources."""
    functions: int
    lines: int

    def is_large(self) -> bool:
        return self.functions > MOST_FUNCTIONS or self.lines > MOST_LINES


def size_of(crate: str) -> Size:
    functions = sum(len(FUNCTION.findall(text_of(path))) for path in files_of(crate, "src", "rt"))
    return Size(functions, lines_of(crate, "src", "rt"))


def measured(crates: list[str]) -> dict[tuple[str, str], int]:
    """The numbers that bars are for: pairs by folder, and functions and lines of each large crate."""
    found = {("pairs", folder): count for folder, *kind in FOLDERS if (count := pairs_of(crates, folder, *kind)) is not None}
    for crate in crates:
        size = size_of(crate)
        if size.is_large():
            found["functions", crate], found["lines", crate] = size.functions, size.lines
    return found


def read_bars() -> dict[tuple[str, str], int]:
    rows = (line.split("\t") for line in text_of(BARS).splitlines()[1:])
    return {(what, of): int(most) for what, of, most in rows}


def passed(crates: list[str]) -> int:
    """Prints each number that is past its bar, and returns how many are."""
    bars, wrong = read_bars(), 0
    usual = {"functions": MOST_FUNCTIONS, "lines": MOST_LINES}
    for (what, of), number in measured(crates).items():
        most = bars.get((what, of), usual.get(what, 0))
        if number > most:
            wrong += 1
            print("%s of %s: %d, %d at most (bench/bars.tsv)" % (what, of, number, most))
    print("bars compared: %d; passed: %d" % (len(bars), wrong))
    return int(wrong > 0)


def lower(crates: list[str]) -> int:
    """Writes the bars anew: a bar goes down to its number, and never up; a crate that is no longer large loses its bars."""
    bars = read_bars() if os.path.exists(BARS) else {}
    numbers = measured(crates)
    kept = {key: min(number, bars.get(key, number)) for key, number in numbers.items()}
    kept.update((key, most) for key, most in bars.items() if key[0] == "pairs" and key not in kept)
    with open(BARS, "w", encoding="utf-8") as file:
        file.write("what\tof\tat most\n")
        file.writelines("%s\t%s\t%d\n" % (*key, kept[key]) for key in sorted(kept))
    return 0


def main(arguments: argparse.Namespace) -> int:
    crates = sorted(os.listdir(os.path.join(programs.ROOT, "crates")))
    if arguments.lower:
        return lower(crates)
    if arguments.bars:
        return passed(crates)
    counts = [[lines_of(crate, folder, ending) for folder, ending, _ in FOLDERS] for crate in crates]
    print("| crate | src | specs | proofs | functions |\n|---|---|---|---|---|")
    for crate, count in zip(crates, counts):
        print("| `%s` | %s |" % (crate, " | ".join(map("{:,}".format, (*count, size_of(crate).functions)))))
    functions = sum(size_of(crate).functions for crate in crates)
    print("| all | %s |" % " | ".join(map("{:,}".format, (*map(sum, zip(*counts)), functions))))
    pairs = [pairs_of(crates, *folder) for folder in FOLDERS]
    print("| pairs that repeat each other | %s |" % " | ".join("not counted" if count is None else str(count) for count in pairs))
    found = [(len(text), path, line) for crate in crates for path in files_of(crate, "src", "rt") for line, text in clauses(path)]
    for length, path, line in sorted(found, reverse=True)[:arguments.longest]:
        print("a clause of %d characters: %s:%d" % (length, os.path.relpath(path, programs.ROOT), line))
    return 0
