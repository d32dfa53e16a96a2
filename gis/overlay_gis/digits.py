"""Points of the grid as text, for whole arrays of them."""

from __future__ import annotations

from typing import Any

import numpy as np

from .columns import Mask, Numbers

# Numbers are written four digits at a time, which lie as one word of a row. The row's last word is
# what stands behind the number.
GROUP, DIGITS = 10_000, 4
WORD = np.dtype(np.uint32)
Words = np.ndarray[Any, np.dtype[np.uint32]]
FOURS = (np.arange(GROUP)[:, np.newaxis] // [1000, 100, 10, 1] % 10 + ord("0")).astype(np.uint8).view(WORD)[:, 0]

# A number has a digit more where it reaches one of these, up to the greatest below 2^32.
POWERS = [10**k for k in range(1, 10)]

# How many bytes stand behind the y of a point.
BEHIND = 2

MINUS = ord("-")


def word_of(text: bytes) -> int:
    """A text of up to four bytes as one word."""
    return int(np.frombuffer(text.ljust(WORD.itemsize), WORD)[0])


def bytes_from(groups: int) -> Mask:
    """For an x and for a y, and for each byte at which its text may begin, which bytes of its row
    are text."""
    width = groups * DIGITS
    place = np.arange(width + WORD.itemsize)
    ends = np.repeat([width + 1, width + BEHIND], width)
    starts = np.tile(np.arange(width), 2)
    return (place >= starts[:, np.newaxis]) & (place < ends[:, np.newaxis])


def rows_of(size: Words, groups: int, behind: Words) -> Words:
    """A row for each number, x and y by turns, with its digits; `size` are the numbers without
    their signs, `behind` what stands behind each y."""
    rows = np.empty((len(size), groups + 1), WORD)
    for k in reversed(range(groups)):
        more = size // WORD.type(GROUP)
        rows[:, k] = FOURS[size - more * GROUP]
        size = more
    rows[0::2, groups], rows[1::2, groups] = word_of(b" "), behind
    return rows


def points_text(x: Numbers, y: Numbers, behind: Words) -> bytes:
    """The text of all points, whose coordinates are below 2^32 in size: `x y`, and two bytes of the
    word that is to stand behind."""
    numbers = np.empty(2 * len(x), np.int64)
    numbers[0::2], numbers[1::2] = x, y
    size, below = np.abs(numbers).astype(np.uint32), numbers < 0
    groups = 2 if size.max(initial=0) < POWERS[6] else 3
    first = np.full(len(numbers), groups * DIGITS - 1, np.uint8) - below
    for power in POWERS:
        first -= size >= power
    rows = rows_of(size, groups, behind).view(np.uint8)
    rows[below, first[below]] = MINUS
    first[1::2] += groups * DIGITS
    return rows[np.take(bytes_from(groups), first, axis=0)].tobytes()
