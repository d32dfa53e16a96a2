"""reports what the documents name and the repository doesn't have: paths, lemmas, calls and definitions, lemma files of geom that PROOFS leaves out, lines and sentences longer than they may be, and what is made of bench/results or of the sources and isn't the same any more

Whatever stands between backquotes in a text of Markdown is looked at. A path stands below the root or below a crate, with or without its
ending; `File.lemma` is a lemma of a file of that name; in CONTRACTS, MAP and PROOFS each longer word has to stand somewhere in crates/.
A line of Markdown has at most 100 columns, but for tables, code, and what can't be broken: a link, a path, what is quoted.
A sentence has at most 30 words, as `sentences` counts them; each one that has more is a fault, with a line of its own.
README's table of other tools is made of peers.tsv, docs/speed.svg of peers.tsv and speed.tsv, and docs/BELIEVED.md of the sources:
`--write` makes them anew.
Each fault is printed on a line, and the exit status is 1 where there is one.
"""
from __future__ import annotations

import argparse
import glob
import os
import re
from collections.abc import Iterator

from . import believed, compared, plot, programs, sentences

QUOTED = re.compile(r"`([^`\n]+)`")
PATH = re.compile(r"[\w.*-]*(/[\w.*-]+)+/?")
LEMMA = re.compile(r"(?:proofs/)?([A-Z]\w*)\.(\w+)")
# Documents in which each longer word is one of the code.
OF_CODE = ("CONTRACTS.md", "MAP.md", "PROOFS.md")
MOST_COLUMNS = 100
# What stays on one line: a word, what is quoted, a link.
UNBROKEN = re.compile(r"(?:`[^`]*`|\[[^]]*\]\([^)]*\)|[^\s`[]|[`[])+")
MADE = ("/out/", "out/", "File.", "NAME", "common_ground", "a/b", "/vsicurl/")
# The first table below this line is README's of other tools.
COMPARED = re.compile(r"(?<=\n## Compared\n)((?:(?:[^|#\n].*)?\n)*)(?:\|.*\n)+")


def add_arguments(parser: argparse.ArgumentParser) -> None:
    parser.add_argument("--write", action="store_true", help="makes README's table of other tools, docs/speed.svg and docs/BELIEVED.md anew")


def text_of(path: str) -> str:
    with open(path, encoding="utf-8") as file:
        return file.read()


class Sources:
    """The files of the crates, their words, and their paths."""

    def __init__(self) -> None:
        found = glob.glob("crates/**/*", recursive=True) + glob.glob("*/**/*", recursive=True)
        self.files = {path: text_of(path) for path in found if path.endswith((".rt", ".antt")) and "/out/" not in path}
        self.words = {word for text in self.files.values() for word in re.findall(r"\w+", text)}
        self.words |= {part for path in found for name in path.split("/") for part in re.findall(r"\w+", name)}

    def has_path(self, path: str) -> bool:
        places = [before + path for before in ("", "crates/", "docs/", "crates/*/", "crates/*/specs/", "crates/*/proofs/", "gis/")]
        return any(glob.glob(place + ending) for place in places for ending in ("", ".antt", ".rt"))

    def has_lemma(self, file: str, lemma: str) -> bool:
        """`File.lemma`; also a call of a type, and the name of a file."""
        of_file = [text for path, text in self.files.items() if os.path.basename(path) == file + ".antt"]
        return lemma in ("antt", "rt") and bool(of_file) or any(re.search(r"\b%s\b" % lemma, text) for text in of_file or self.files.values())


def missing(document: str, sources: Sources) -> Iterator[str]:
    """What a document names and the sources don't have."""
    of_code = os.path.basename(document) in OF_CODE
    for quoted in QUOTED.findall(text_of(document)):
        if any(made in quoted for made in MADE):
            continue
        if lemma := of_code and LEMMA.fullmatch(quoted):
            if not sources.has_lemma(*lemma.groups()) and not sources.has_path(quoted):
                yield quoted
        elif PATH.fullmatch(quoted):
            if not sources.has_path(quoted):
                yield quoted
        elif of_code:
            yield from (word for word in re.findall(r"[A-Za-z_]\w{3,}", quoted) if word not in sources.words)


def long_lines(document: str) -> Iterator[int]:
    """The numbers of the lines that are too long and could be broken; code is indented or fenced."""
    fenced = False
    for number, line in enumerate(text_of(document).splitlines(), 1):
        fenced ^= line.startswith("```")
        if len(line) > MOST_COLUMNS and not fenced and not line.startswith(("|", "    ")):
            if max(map(len, UNBROKEN.findall(line))) <= MOST_COLUMNS:
                yield number


def unlisted() -> list[str]:
    """The files of lemmas of geom that PROOFS doesn't list."""
    listed = text_of("docs/PROOFS.md").partition("## Lemmas of geom\n")[2].partition("\n---")[0]
    names = [os.path.basename(path)[:-5] for path in glob.glob("crates/geom/proofs/*.antt")]
    return [name for name in sorted(names) if name != "Lib" and "`%s`" % name not in listed]


def made() -> Iterator[tuple[str, str]]:
    """What is made of recorded results or of the sources: each file, and its text as it should be."""
    table = "".join(line + "\n" for line in compared.table())
    yield "README.md", COMPARED.sub(lambda found: found[1] + table, text_of("README.md"))
    yield os.path.relpath(plot.PICTURE), plot.picture()
    yield believed.PAGE, believed.page()


def stale() -> Iterator[str]:
    """The files that aren't as they are made."""
    return (path for path, wanted in made() if not os.path.exists(path) or text_of(path) != wanted)


def write() -> None:
    for path, wanted in made():
        with open(path, "w", encoding="utf-8") as file:
            file.write(wanted)


def faults(documents: list[str]) -> Iterator[str]:
    """A line for each fault of the documents."""
    sources = Sources()
    yield from ("%s isn't as it is made: bench/run documents --write" % path for path in stale())
    for document in documents:
        yield from ("%s: %s isn't there" % (document, name) for name in missing(document, sources))
        yield from ("%s: line %d has more than %d columns" % (document, number, MOST_COLUMNS) for number in long_lines(document))
    yield from sentences.faults(".")
    yield from ("docs/PROOFS.md: %s of crates/geom/proofs isn't listed" % name for name in unlisted())


def main(arguments: argparse.Namespace) -> int:
    os.chdir(programs.ROOT)
    if arguments.write:
        write()
    documents, wrong = sentences.documents("."), 0
    for fault in faults(documents):
        wrong += 1
        print(fault)
    print("%d documents read; faults found: %d" % (len(documents), wrong))
    return int(wrong > 0)
