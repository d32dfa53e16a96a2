"""What tasks tell of layers that none of them has whole: areas by parity, and how long segments
are."""

from __future__ import annotations

from collections import Counter, defaultdict
from itertools import chain
from typing import Sequence

import numpy as np

from .columns import HALF, Floats
from .frame import LIMIT
from .sections import Values

# Lengths are told by classes: of each twofold length there are so many. Of a class the number is
# told, how many there are, and how long they are together.
CLASSES = 64
Counts = list[tuple[int, int, float]]


def twice_area(directed: Values) -> int:
    """Twice the area on the left of directed edges that close, or what a part of them has of it."""
    ax, ay, bx, by = (directed[name].astype(np.int64) for name in ("ax", "ay", "bx", "by"))
    products = ax * by - bx * ay
    high, low = int((products >> HALF).sum()), int((products & ((1 << HALF) - 1)).sum())
    return (high << HALF) + low


def lengths_of(lines: Values) -> Floats:
    found: Floats = np.hypot(*(lines[end].astype(np.float64) - lines[start] for start, end in (("ax", "bx"), ("ay", "by"))))
    return found


def borders(lines: Values) -> Values:
    """Of lines those that are there an odd number of times, each once: by parity the others are no
    borders."""
    starts, ends = (((lines[x].astype(np.int64) + LIMIT) << 30) + lines[y] + LIMIT for x, y in (("ax", "ay"), ("bx", "by")))
    order = np.lexsort((ends, starts))
    starts, ends = starts[order], ends[order]
    firsts = np.flatnonzero(np.append(True, (starts[1:] != starts[:-1]) | (ends[1:] != ends[:-1]))[: len(lines)])
    odd = np.diff(firsts, append=len(lines)) % 2 == 1
    found: Values = lines[order[firsts[odd]]]
    return found


def by_class(lengths: Floats) -> Counts:
    """The lengths of segments by their classes."""
    lengths = lengths[lengths > 0]
    classes = np.floor(CLASSES * np.log2(lengths)).astype(np.int64)
    counts, sums = np.bincount(classes), np.bincount(classes, lengths)
    there = np.flatnonzero(counts)
    return list(zip(there.tolist(), counts[there].tolist(), sums[there].tolist()))


def longest(parts: Sequence[Counts], count: int) -> float:
    """The length of so many segments, the longest ones of all parts, or a little more."""
    total, left = 0.0, count
    for number, there, length in sorted(together(parts), reverse=True):
        if there >= left:
            return total + min(length, left * 2 ** ((number + 1) / CLASSES))
        total, left = total + length, left - there
    return total


def together(parts: Sequence[Counts]) -> Counts:
    """The same of all parts together."""
    counts, lengths = Counter[int](), defaultdict[int, float](float)
    for number, there, length in chain.from_iterable(parts):
        counts[number] += there
        lengths[number] += length
    return [(number, there, lengths[number]) for number, there in counts.items()]
