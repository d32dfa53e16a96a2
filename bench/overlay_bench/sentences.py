"""finds the sentences of more than 30 words in the texts of Markdown

A text is a paragraph, an item of a list, a heading or a cell of a table. Blocks of code, fences and pictures are left out. What is
quoted as code counts as one word, and a link as the words that it shows. A sentence ends with its text, or with a full stop, a question
mark or an exclamation mark before white space. Two points in a row and the point after an initial or an abbreviation end none.
A colon or a semicolon ends none either. `bench/run documents` counts what `faults` finds.
"""
from __future__ import annotations

import glob
import os
import re
from collections.abc import Iterator
from typing import NamedTuple

MOST_WORDS = 30
SHOWN_WORDS = 8

FENCE = re.compile(r"\s*(```|~~~)")
ITEM = re.compile(r"^\s*(?:[-*+]|\d+[.)])\s+(?:\[[ x]\]\s+)?")
HEADING = re.compile(r"^#+\s+")
RULE = re.compile(r"[\s|:*_-]+$")
CODE_INDENT = "    "

COMMENT = re.compile(r"<!--.*?-->", re.DOTALL)
QUOTED = re.compile(r"``.+?``|`[^`]*`", re.DOTALL)
PICTURE = re.compile(r"!\[[^]]*\]\([^)]*\)")
LINK = re.compile(r"\[([^]]*)\](?:\([^)]*\)|\[[^]]*\])")
BAR = re.compile(r"(?<!\\)\|")

# What stands for a piece of quoted code: one word, after which a sentence may end.
CODE_WORD = "Code"
ABBREVIATIONS = ("e.g.", "i.e.", "etc.", "cf.", "vs.")
WORD = re.compile(r"\S*\w\S*")
CLOSING = "\"')]*_"


class Text(NamedTuple):
    """A paragraph, an item, a heading or a cell, and the line on which it begins."""

    line: int
    words: str


def documents(root: str) -> list[str]:
    """The texts of Markdown below a folder, without what was built."""
    patterns = ("**/*.md", ".github/**/*.md")
    found = {path for pattern in patterns for path in glob.glob(pattern, root_dir=root, recursive=True)}
    return sorted(path for path in found if "out" not in path.split(os.sep))


def without_code(source: str) -> Iterator[tuple[int, str]]:
    """The numbered lines of a source; a line of a block of code is empty."""
    fenced, in_text = False, False
    for number, line in enumerate(source.splitlines(), 1):
        if FENCE.match(line):
            fenced, in_text = not fenced, False
        is_code = fenced or FENCE.match(line) or (not in_text and line.startswith(CODE_INDENT))
        yield number, "" if is_code else line
        # The lines of a paragraph or of an item may be indented; those after an empty line are code.
        in_text = bool(line.strip()) and not is_code


def cells(line: str) -> list[str]:
    """The cells of a row of a table, in which a bar within quoted code parts nothing."""
    kept = QUOTED.sub(CODE_WORD, line.strip())
    return [cell.strip() for cell in BAR.split(kept.strip("|"))]


def texts(source: str) -> Iterator[Text]:
    """The texts of a source of Markdown, in order."""
    start, lines = 0, list[str]()
    for number, line in without_code(COMMENT.sub(lambda found: "\n" * found[0].count("\n"), source)):
        is_row = line.lstrip().startswith("|")
        begins = not line.strip() or is_row or HEADING.match(line) or ITEM.match(line)
        if begins and lines:
            yield Text(start, " ".join(lines))
            lines = []
        if is_row:
            yield from (Text(number, cell) for cell in cells(line) if cell and not RULE.match(cell))
        elif line.strip() and not RULE.match(line):
            start = start if lines else number
            lines.append(ITEM.sub("", HEADING.sub("", line)).strip())
    if lines:
        yield Text(start, " ".join(lines))


def ends_sentence(word: str) -> bool:
    """Whether a word is the last one of a sentence."""
    bare = word.rstrip(CLOSING)
    is_initial = re.fullmatch(r"[(\"']*[A-Z]\.", bare)
    return bare.endswith((".", "?", "!")) and not bare.endswith("..") and not is_initial and bare.lstrip("(") not in ABBREVIATIONS


def sentences(text: str) -> Iterator[list[str]]:
    """The words of each sentence of a text."""
    plain = LINK.sub(r"\1", PICTURE.sub("", QUOTED.sub(CODE_WORD, text)))
    words: list[str] = []
    for word in plain.split():
        if WORD.fullmatch(word):
            words.append(word)
        if ends_sentence(word):
            yield words
            words = []
    yield words


def faults(root: str) -> list[str]:
    """A line for each sentence that is too long: its document, the line of its text, its words' number, and its first ones."""
    found = []
    for document in documents(root):
        with open(os.path.join(root, document), encoding="utf-8") as file:
            source = file.read()
        for text in texts(source):
            for words in sentences(text.words):
                if len(words) > MOST_WORDS:
                    shown = " ".join(words[:SHOWN_WORDS])
                    found.append("%s:%d: a sentence of %d words: %s .." % (document, text.line, len(words), shown))
    return found
