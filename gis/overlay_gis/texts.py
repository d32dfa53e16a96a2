"""The program's texts, all on the integer grid: which kinds there are, and layers as texts.
`parsing` reads texts."""

from __future__ import annotations

import re
from itertools import pairwise
from typing import BinaryIO, Iterator

import numpy as np

from .columns import Columns, Numbers
from .digits import WORD, points_text, word_of
from .faults import Fault, Refusal

LAYERS, EDGES, RESULT = "layer", "edges", "result"

# How many features, and how many points of them, are brought to text at a time.
FEATURES, POINTS = 1 << 13, 1 << 16

BYTE_ORDER_MARK = b"\xef\xbb\xbf"

EMPTY = b"POLYGON EMPTY\n"

# How a row of faces begins: twice its area, the features of each layer, and its polygons.
FACES = re.compile(rb"\d+(?:\t[\d,]*)+\tMULTIPOLYGON ")

# A feature of one polygon, one of several, and none; what stands before the points of either, and
# behind their last bracket.
ONE, MANY, NONE = range(3)
OPENINGS = (b"POLYGON ((", b"MULTIPOLYGON (((", b"")
CLOSINGS = (b")\n", b"))\n")

# What stands behind a ring's bracket: before the polygon's next ring, before the feature's next
# polygon, and at the end of a feature, of either kind, before a feature of each kind or none. In the
# meantime there is a letter for it.
BEHIND = [b", (", b"), ((", *(closing + opening for closing in CLOSINGS for opening in OPENINGS)]
RING, POLYGON = 0, 1
FEATURES_BEHIND = np.arange(2, len(BEHIND)).reshape(len(CLOSINGS), len(OPENINGS))
LETTERS = b"abcdefgh"
WORDS = np.array([word_of(bytes([ord(")"), letter])) for letter in LETTERS], WORD)


def text_of(path: str) -> bytes:
    """A file's text, without the byte order mark that some editors put before it."""
    try:
        with open(path, "rb") as file:
            text = file.read()
    except OSError as error:
        raise Fault(path, error.strerror) from error
    return checked(text, path)


def checked(text: bytes, name: str) -> bytes:
    """The same, if it is a text at all, without a byte order mark."""
    try:
        text.isascii() or text.decode("utf-8")
    except UnicodeDecodeError as error:
        raise Refusal(name, "is no text") from error
    return text.removeprefix(BYTE_ORDER_MARK)


def kind_in(text: bytes, name: str) -> str:
    """The kind of a file's text. Rows of faces are refused: they name features of layers that the
    file doesn't have."""
    if FACES.match(text):
        raise Refusal(
            name, "has the rows that overlay faces prints: overlay-gis faces writes a file of them, from the layers"
        )
    return kind_of(text)


def kind_of(text: bytes) -> str:
    """A text of edges begins with a number; a result is one line as the program writes it; all else
    is a layer."""
    if re.match(rb"\s*-?\d", text):
        return EDGES
    if re.fullmatch(rb"MULTIPOLYGON (?:EMPTY|\(\(\(-?\d[^\n]*\)\)\))\n?", text):
        return RESULT
    return LAYERS


def write_polygons(out: BinaryIO, layer: Columns[Numbers]) -> None:
    """Writes the polygons of each feature, which are in grid units, as a line of a layer text, so
    that the program numbers features as they stand here."""
    for block in layer.blocks(FEATURES):
        for part in in_runs(block):
            out.writelines(lines_of(part) if len(part.x) else [EMPTY] * len(part.ids))


def in_runs(layer: Columns[Numbers]) -> Iterator[Columns[Numbers]]:
    """The same features: by turns some that have polygons, and some that have none."""
    empty = np.diff(layer.features) == 0
    if not empty.any():
        yield layer
        return
    changes = np.flatnonzero(empty[1:] != empty[:-1]) + 1
    for at, end in pairwise([0, *changes.tolist(), len(empty)]):
        yield layer.part(at, end)


def lines_of(layer: Columns[Numbers]) -> Iterator[bytes]:
    """The lines of features that all have polygons: the points of all rings, with a letter behind
    each ring, in the place of which what stands behind the ring is put then."""
    kinds = np.where(np.diff(layer.features) > 1, MANY, ONE)
    letters = np.full(len(layer.rings) - 1, RING)
    letters[layer.polygons[1:] - 1] = POLYGON
    letters[layer.polygons[layer.features[1:]] - 1] = FEATURES_BEHIND[kinds, np.append(kinds[1:], NONE)]
    behind = np.full(len(layer.x), word_of(b", "), WORD)
    behind[layer.rings[1:] - 1] = WORDS[letters]
    blocks = [slice(at, at + POINTS) for at in range(0, len(layer.x), POINTS)]
    text = b"".join([points_text(layer.x[block], layer.y[block], behind[block]) for block in blocks])
    for letter in np.unique(letters).tolist():
        text = text.replace(LETTERS[letter : letter + 1], BEHIND[letter])
    yield OPENINGS[kinds[0]]
    yield text
