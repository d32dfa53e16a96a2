"""counts the requests for memory of `gather` with an empty and with a full book, on the row of chain_gather_tests

A copy of that crate gets four tests more: what goes before `gather`, and that with `gather`, for either book. Each is run by `rt try`
with its N-th request refused; the least N with which it passes is one more than the number of its requests. Exit status 1 where a
full book doesn't save requests. Needs the kit's `rt`.
"""
from __future__ import annotations

import argparse
import os
import re
import shutil
import subprocess
import sys
import tempfile

from .programs import ROOT

CALL = "    gather(own, book, &grid, &bins, &segments)\n"
TEST = """
#[test]
fn {name}(rt: HostRuntime) -> Result<(), Fail> {{
    let _answer = {call}::<Brand, _>(&rt, rt.alloc(), rt.alloc(), Blank::new(1), {posted}, &ROW)?;
    Ok(())
}}
"""
BOOKS = (("empty", 0), ("full", 4))


def with_tests(text: str) -> str:
    """The tests' text with the four tests in place of its own."""
    start = text.index("fn gathered<")
    gathered = text[start:text.index("\n}\n", start) + 3]
    assert gathered.count(CALL) == 1
    before = gathered.replace("fn gathered<", "fn prepared<").replace(CALL, "    Ok(book)\n")
    before = before.replace("Result<Rounded<A>, NoMemory>", "Result<Book<Piece<A>, L, A>, NoMemory>")
    assert before.count("Book<Piece<A>, L, A>") == 1
    text = text[:text.index("#[test]\n")] + before
    for book, posted in BOOKS:
        for call in ("prepared", "gathered"):
            text += TEST.format(name="%s_with_%s_book" % (call, book), call=call, posted=posted)
    return text


def copied(folder: str) -> str:
    """A copy of the repository's crates, the tests of gathering exchanged; the folder of chain_gather_tests."""
    shutil.copy(os.path.join(ROOT, "crates.txt"), folder)
    shutil.copytree(os.path.join(ROOT, "crates"), os.path.join(folder, "crates"), ignore=shutil.ignore_patterns("out", "must-fail"))
    crate = os.path.join(folder, "crates", "chain_gather_tests")
    path = os.path.join(crate, "src", "gathering.rt")
    with open(path) as file:
        text = with_tests(file.read())
    with open(path, "w") as file:
        file.write(text)
    return crate


def passing(crate: str, refused: int) -> set[str]:
    """The tests that pass where this request is refused."""
    run = subprocess.run(["rt", "try", "--test", "--fail-alloc", str(refused)], cwd=crate, stdout=subprocess.PIPE, stderr=subprocess.STDOUT, text=True)
    told: dict[str, str] = dict(re.findall(r"^test gathering::(\w+) \.\.\. (\w+)$", run.stdout, re.M))
    if len(told) != 4:
        sys.exit("the tests did not run:\n" + run.stdout)
    return {name for name, outcome in told.items() if outcome == "ok"}


def requests(crate: str) -> dict[str, int]:
    """The number of requests of each test: the greatest whose refusal makes it fail."""
    answers: dict[int, set[str]] = {}

    def passes(name: str, refused: int) -> bool:
        if refused not in answers:
            answers[refused] = passing(crate, refused)
        return name in answers[refused]

    counts = {}
    for book, _ in BOOKS:
        for call in ("prepared", "gathered"):
            name = "%s_with_%s_book" % (call, book)
            low, high = 0, 1024
            assert passes(name, high)
            while high - low > 1:
                middle = (low + high) // 2
                low, high = (low, middle) if passes(name, middle) else (middle, high)
            counts[name] = low
    return counts


def add_arguments(parser: argparse.ArgumentParser) -> None:
    pass


def main(arguments: argparse.Namespace) -> int:
    with tempfile.TemporaryDirectory() as folder:
        counts = requests(copied(folder))
    made = {book: counts["gathered_with_%s_book" % book] - counts["prepared_with_%s_book" % book] for book, _ in BOOKS}
    for book, count in made.items():
        print("%s book: %d requests by gather, the %d-th refused changes nothing" % (book, count, count + 1))
    return 0 if 0 < made["full"] < made["empty"] else 1
