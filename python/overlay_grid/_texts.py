"""Texts of polygons whose coordinates are decimals: brought to the grid, and answers back from it.

Each number is replaced and all else stays, so that the library finds what is wrong with a text, and `place` tells where that stood.
"""

from __future__ import annotations

import re
from array import array
from bisect import bisect_left
from math import isfinite
from typing import Iterable, List, Optional, Sequence, Tuple

from ._faults import Refusal, Refused
from ._grid import LIMIT, OFF_THE_GRID, Box, Frame, no_room_for

NUMBER = re.compile(rb"(?<![^\s(),])([-+]?(?:\d+(?:\.\d*)?|\.\d+)(?:[eE][-+]?\d+)?)(?![^\s(),])")
WHOLE = re.compile(r"(-?\d+)")


def has_several(text: bytes) -> bool:
    """Whether a text may have several geometries: each begins by a word in which `polygon` stands once.

    >>> has_several(b"MultiPolygon EMPTY"), has_several(b"polygon empty POLYGON EMPTY")
    (False, True)
    """
    return text.lower().count(b"polygon") > 1


class Text:
    """A layer's text, and its numbers: x and y by turns, where it is a text of polygons at all. Of a list of texts it tells where each
    of them begins; each has a polygon or a multipolygon, and they stand one behind another on lines of their own."""

    def __init__(self, text: bytes, layer: str, starts: Sequence[int] = ()) -> None:
        self.layer = layer
        self.starts = starts
        self.several = has_several(text)
        self.pieces: List[bytes] = NUMBER.split(text)
        self.values = array("d", map(float, self.pieces[1::2]))
        self.made = self.pieces

    def has_several(self) -> bool:
        """Whether the layer may have several features."""
        return self.several

    def box(self) -> Optional[Box]:
        """The box of all points; a number that floating-point numbers have no room for is refused."""
        if not isfinite(sum(self.values)):
            for number, value in enumerate(self.values):
                if not isfinite(value):
                    raise self.out_of_range(number, "is no finite number")
        if len(self.values) < 2:
            return None
        x, y = self.values[0::2], self.values[1::2]
        return Box(min(x), min(y), max(x), max(y))

    def off_grid(self, frame: Frame) -> Optional[Refused]:
        """The refusal of the first number that lies off a grid; nothing where none does."""
        for number, value in enumerate(self.values):
            if abs(frame[number % 2].exact(value)) > LIMIT:
                return self.out_of_range(number, OFF_THE_GRID)
        return None

    def farthest(self) -> float:
        """The greatest absolute value of a number."""
        return max(max(self.values), -min(self.values)) if self.values else 0.0

    def no_room(self, box: Box) -> Refused:
        """The refusal of the farthest number, where no grid of the unit has room for a box of all layers."""
        reach = self.farthest()
        return self.out_of_range(next(k for k, value in enumerate(self.values) if abs(value) == reach), no_room_for(reach, box))

    def out_of_range(self, number: int, reason: str) -> Refused:
        """The refusal of a number, by its place among all."""
        place = sum(map(len, self.pieces[: 2 * number + 1]))
        return self.refused("2 number out of range", Refusal.NUMBER_RANGE, place, f": {reason}")

    def refused(self, words: str, number: int, place: int, more: str = "") -> Refused:
        """The refusal of what stands at a place of the text as it came."""
        feature, offset = self.feature_at(place)
        layer = self.layer if feature is None else f"{self.layer}: feature {feature}"
        return Refused(f"{layer}: {words} at {offset}{more}", number, self.layer, offset, None, feature)

    def feature_at(self, place: int) -> Tuple[Optional[int], int]:
        """Which of a list's texts has a place, and where in it that is. What stands where a text begins is that the one before ended."""
        if not self.starts:
            return None, place
        feature = max(1, bisect_left(self.starts, place))
        first, *after = self.starts[feature - 1 : feature + 1]
        return feature, min([place, *(start - 1 for start in after)]) - first

    def text(self, frame: Frame) -> bytes:
        """The text on the grid."""
        across, up = (axis.rounded(self.values[k::2]) for k, axis in enumerate(frame))
        return self.with_numbers(across, up)

    def without_numbers(self) -> bytes:
        """The text with 0 for each number."""
        count = len(self.values)
        return self.with_numbers([0] * (count - count // 2), [0] * (count // 2))

    def with_numbers(self, across: Iterable[int], up: Iterable[int]) -> bytes:
        """The text with other numbers."""
        self.made = list(self.pieces)
        self.made[1::4] = [b"%d" % number for number in across]
        self.made[3::4] = [b"%d" % number for number in up]
        return b"".join(self.made)

    def place(self, offset: int) -> int:
        """Where in the text as it came that stood which is now at a place."""
        at = 0
        for k, (was, now) in enumerate(zip(self.pieces, self.made)):
            if offset < len(now):
                return at if k % 2 else at + offset
            at, offset = at + len(was), offset - len(now)
        return at


def placed(text: str, frame: Frame) -> str:
    """A text of polygons of the grid in the reference system's units, exactly."""
    pieces = WHOLE.split(text)
    for k, axis in enumerate(frame):
        pieces[2 * k + 1 :: 4] = [axis.told(int(number)) for number in pieces[2 * k + 1 :: 4]]
    return "".join(pieces)
