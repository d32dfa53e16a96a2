"""Texts just as the program writes them, read in few passes. What is written in another way is left
to `parsing`, which knows all of the grammar.

Of a text without its digits and signs, a ring of n points is a bracket, a space, n - 1 times a comma
and two spaces, and a bracket. So all of these may go where the rest is a text of rings of one space;
and how long a ring was tells its points.
"""

from __future__ import annotations

import re

import numpy as np

from .columns import Bytes, Columns, Numbers, offsets

# What a number has; and what is left of a ring's points but for the first one.
SIGNS, MORE = b"-0123456789", b",  "

BODY = rb"\(\( \)(?:, \( \))*\)"
FORM = re.compile(rb"(?:POLYGON %b\n|MULTIPOLYGON \(%b(?:, %b)*\)\n)*" % (BODY, BODY, BODY))

NAME_END, OPEN, CLOSE, SPACE, MINUS, ZERO = b"N() -0"

# A number has a digit more where it reaches one of these; one that reaches the last one is too long.
POWERS = [10**k for k in range(1, 10)]

BLANKED = bytes(sign if sign in SIGNS else SPACE for sign in range(256))


def columns_in(text: bytes) -> Columns[Numbers] | None:
    """The geometries of a text, each a feature; nothing where it isn't written as the program would,
    or has an empty geometry."""
    if not text.endswith(b"\n"):
        return None
    bare = text.translate(None, SIGNS)
    form = bare.replace(MORE, b"")
    if not FORM.fullmatch(form) or text.count(b", ") != bare.count(b","):
        return None
    lengths = lengths_of(text, bare, len(form))
    numbers = None if lengths is None else numbers_of(text, 2 * int(lengths.sum()), len(text) - len(bare))
    if lengths is None or numbers is None:
        return None
    signs = np.frombuffer(form, np.uint8)
    rings = np.flatnonzero((signs[:-1] == SPACE) & (signs[1:] == CLOSE))
    first = signs[rings - 2] == OPEN
    begun = rings[first]
    features = (signs[begun - 3] == OPEN) | (signs[begun - 4] == NAME_END)
    return Columns(
        numbers[0::2],
        numbers[1::2],
        offsets(lengths),
        np.append(np.flatnonzero(first), len(rings)),
        np.append(np.flatnonzero(features), len(begun)),
        np.arange(1, int(np.count_nonzero(features)) + 1),
    )


def lengths_of(text: bytes, bare: bytes, left: int) -> Numbers | None:
    """How many points each ring has, if nothing but these was left out on the way to the form, which
    has so many bytes, and the text has no number elsewhere."""
    signs = np.frombuffer(bare, np.uint8)
    opens, closes = np.flatnonzero(signs == OPEN), np.flatnonzero(signs == CLOSE)
    opening, closing = np.flatnonzero(signs[opens + 1] == SPACE), np.flatnonzero(signs[closes - 1] == SPACE)
    if len(opening) != len(closing):
        return None
    inside = closes[closing] - opens[opening] - 1
    whole = places_of(text, CLOSE)[closing] - places_of(text, OPEN)[opening] - 1
    if (inside - 1).sum() != len(bare) - left or (whole - inside).sum() != len(text) - len(bare):
        return None
    lengths: Numbers = inside // len(MORE) + 1
    return lengths


def places_of(text: bytes, sign: int) -> Numbers:
    return np.flatnonzero(np.frombuffer(text, np.uint8) == sign)


def numbers_of(text: bytes, count: int, width: int) -> Numbers | None:
    """All numbers of a text, if they are so many, and as long together, each written without a sign
    or a digit that it doesn't need."""
    if b"-" in text and not are_signs(np.frombuffer(text, np.uint8)):
        return None
    numbers = np.fromstring(text.translate(BLANKED), np.int64, sep=" ")
    if len(numbers) != count or not -POWERS[-1] < numbers.min(initial=0) <= numbers.max(initial=0) < POWERS[-1]:
        return None
    sizes = np.abs(numbers).astype(np.uint32)
    digits = count + sum(int(np.count_nonzero(sizes >= power)) for power in POWERS[:-1])
    return numbers if digits + int(np.count_nonzero(numbers < 0)) == width else None


def are_signs(text: Bytes) -> bool:
    """Whether each minus stands where a number begins."""
    places = np.flatnonzero(text == MINUS)
    before, behind = text[places - 1], text[places + 1]
    # a byte below 0 comes out as one above 9
    return bool((((before == SPACE) | (before == OPEN)) & (behind - np.uint8(ZERO) < 10)).all())
