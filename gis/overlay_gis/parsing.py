"""Texts of the program read by whole arrays.

A text is cut into tokens: brackets, commas, and words between them. The innermost pairs of brackets
are rings. What a ring holds has to be points, two numbers each with a comma between two points; and
what is left of the text, with one letter for each word and none for what a ring holds, has to be a
text of polygons.
"""

from __future__ import annotations

import re
from dataclasses import dataclass
from typing import Iterator

import numpy as np

from .columns import Bytes, Columns, GridPoint, Mask, Numbers, offsets
from .faults import Refusal
from .plain_texts import columns_in

SPACE, WORD, COMMA, OPEN, CLOSE = range(5)
KNOWN = {SPACE: b" \t\n\r\v\f", COMMA: b",", OPEN: b"(", CLOSE: b")"}
NEW_LINE, MINUS, ZERO = b"\n-0"

# A number of more digits is off the grid.
DIGITS = 9

# A text without the points of its rings, which are R here; P is polygon, M is multipolygon, E is
# empty, X another word.
WORDS = {b"polygon": b"P", b"multipolygon": b"M", b"empty": b"E"}
NAMES = b"PM"
BODY = rb"\(R(?:,R)*\)"
LAYER = re.compile(rb"(?:[PM]E|P%b|M\(%b(?:,%b)*\))*" % (BODY, BODY, BODY))

SIGNS = b" X,()".ljust(256)  # of what has no letter, by its kind
RING, OPENING = b"R("

EDGE_LINE = re.compile(rb"\s*(?:-?\d{1,%d}\s+){5}-?\d{1,%d}\s*" % (DIGITS, DIGITS))


def table(kinds: dict[int, bytes], other: int) -> bytes:
    """For each byte what it is."""
    made = bytearray([other]) * 256
    for kind, signs in kinds.items():
        for sign in signs:
            made[sign] = kind
    return bytes(made)


KINDS = table(KNOWN, WORD)
BLANKED = table({sign: bytes([sign]) for sign in b"-0123456789"}, ord(" "))


@dataclass(frozen=True)
class Tokens:
    """What the tokens of a text are, and where each begins and ends."""

    text: bytes
    kinds: Bytes
    starts: Numbers
    ends: Numbers

    def rings(self) -> tuple[Numbers, Numbers]:
        """The tokens that open and close rings: brackets with no bracket between them."""
        brackets = np.flatnonzero(self.kinds >= OPEN)
        kinds = self.kinds[brackets]
        pairs = np.flatnonzero((kinds[:-1] == OPEN) & (kinds[1:] == CLOSE))
        return brackets[pairs], brackets[pairs + 1]

    def letter(self, k: int) -> int:
        """The letter of a word; it may not follow a bracket without a space."""
        at, end = int(self.starts[k]), int(self.ends[k])
        glued = self.text[at - 1 : at] == KNOWN[CLOSE]
        return ord("X") if glued else ord(WORDS.get(self.text[at:end].lower(), b"X"))

    def numbers(self, words: Numbers) -> Numbers | None:
        """The numbers that these words are, where no other word of the text has a digit; nothing if
        one is no number, or a longer one."""
        if not len(words):
            return words
        text = np.frombuffer(self.text, np.uint8)
        starts, ends = self.starts[words], self.ends[words]
        lengths = ends - starts - (text[starts] == MINUS)
        # a byte below 0 comes out as one above 9
        digits = np.count_nonzero(text - np.uint8(ZERO) < 10)
        if lengths.min() < 1 or lengths.max() > DIGITS or digits != lengths.sum():
            return None
        return np.fromstring(self.text.translate(BLANKED), np.int64, sep=" ")


def tokens_of(text: bytes) -> Tokens:
    kinds = np.frombuffer(text.translate(KINDS), np.uint8)
    words = np.concatenate(([False], kinds == WORD, [False]))
    marks = kinds > WORD
    starts = np.flatnonzero((words[1:-1] & ~words[:-2]) | marks)
    ends = np.flatnonzero((words[1:-1] & ~words[2:]) | marks) + 1
    return Tokens(text, kinds[starts], starts, ends)


def skeleton_of(tokens: Tokens, opening: Numbers, inside: Mask) -> Bytes:
    """The signs of a text without what its rings hold."""
    signs = np.frombuffer(bytearray(tokens.kinds.tobytes().translate(SIGNS)), np.uint8)
    signs[opening] = RING
    outside = np.flatnonzero((tokens.kinds == WORD) & ~inside)
    signs[outside] = list(map(tokens.letter, outside.tolist()))
    return signs[~inside]


def points_in(tokens: Tokens, inside: Mask) -> tuple[Numbers, Numbers] | None:
    """x and y of the points in the rings, which are two words each with a comma or the ring's end
    behind; nothing if one isn't."""
    held = np.flatnonzero(inside)
    if len(held) % 3:
        return None
    first, second, end = held.reshape(-1, 3).T
    kinds = tokens.kinds
    if (kinds[first] != WORD).any() or (kinds[second] != WORD).any() or (kinds[end] == WORD).any():
        return None
    numbers = tokens.numbers(held.reshape(-1, 3)[:, :2].ravel())
    return None if numbers is None else (numbers[0::2], numbers[1::2])


def polygons_in(text: bytes, name: str) -> Columns[Numbers]:
    """The polygons of a layer text or of a result, each a feature."""
    return geometries_in(text, name).apart()


def geometries_in(text: bytes, name: str) -> Columns[Numbers]:
    """The geometries of a layer text or of a result, each a feature, as the program numbers
    them."""
    plain = columns_in(text)
    return geometries_by_tokens(text, name) if plain is None else plain


def geometries_by_tokens(text: bytes, name: str) -> Columns[Numbers]:
    """The same, of any text."""
    tokens = tokens_of(text)
    opening, closing = tokens.rings()
    steps = np.zeros(len(tokens.kinds) + 1, np.int8)
    steps[opening + 1], steps[closing + 1] = 1, -1
    inside = np.cumsum(steps[:-1], dtype=np.int8).astype(bool)
    signs = skeleton_of(tokens, opening, inside)
    if not LAYER.fullmatch(signs.tobytes()):
        raise Refusal(
            name,
            (
                "is no text of polygons on the grid; overlay tells where the fault is, and"
                " overlay-gis explain shows it"
            ),
        )
    points = points_in(tokens, inside)
    if points is None:
        raise Refusal(name, f"has a point that is not two whole numbers of at most {DIGITS} digits")
    rings = np.flatnonzero(signs == RING)
    first = np.flatnonzero(signs[rings - 1] == OPENING)
    names = np.flatnonzero((signs == NAMES[0]) | (signs == NAMES[1]))
    return Columns(
        *points,
        offsets((closing - opening) // 3),
        np.append(first, len(rings)),
        np.append(np.searchsorted(rings[first], names), len(first)),
        np.arange(1, len(names) + 1),
    )


@dataclass(frozen=True)
class Edge:
    """A rounded edge, its lesser end first, and how often it occurs in either layer."""

    p: GridPoint
    q: GridPoint
    counts: tuple[int, int]


EDGE = 6  # numbers of an edge: its ends, and how often it occurs in either layer


def edge_rows(text: bytes, name: str) -> Numbers:
    """The edges of a text, a row for each."""
    tokens = tokens_of(text)
    lines = np.flatnonzero(np.frombuffer(text, np.uint8) == NEW_LINE)
    count = len(lines) + (not text.endswith(b"\n") and bool(text))
    held = np.bincount(np.searchsorted(lines, tokens.starts), minlength=count)
    numbers = tokens.numbers(np.arange(len(tokens.kinds)))
    if (held != EDGE).any() or numbers is None:
        line = wrong_line(text)
        raise Refusal(name, f"line {line} is no edge of six whole numbers")
    return numbers.reshape(-1, EDGE)


def wrong_line(text: bytes) -> int:
    """The number of the first line that is no edge."""
    lines = enumerate(text.split(b"\n"), 1)
    return next(number for number, line in lines if not EDGE_LINE.fullmatch(line))


def edges(rows: Numbers) -> Iterator[Edge]:
    """The same edges one by one."""
    for a, b, c, d, first, second in rows.tolist():
        yield Edge((a, b), (c, d), (first, second))
