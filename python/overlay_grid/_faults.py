"""Exceptions of the package, and what a refusal is."""

from __future__ import annotations

import enum
from typing import Optional, Tuple, Type


class Refusal(enum.IntEnum):
    """Why an input is refused."""

    LAYER_TOO_LONG = 0
    SYNTAX = 1
    NUMBER_RANGE = 2
    SHORT_RING = 3
    OPEN_RING = 4
    TOO_MANY_SEGMENTS = 5
    BAD_SIDE = 6
    TOO_MANY_TILES = 8
    TOO_MANY_IDS = 12


class Refused(ValueError):
    """The input is refused.

    number: why, as the program prints it.
    layer: "A" or "B", or what further layers of `faces` are called: "C" to "Z", and then "27" and on; None where it is not about one.
    feature: which text of a layer that is a list of texts, from 1, or None.
    offset: where in the layer, or in that text, in bytes from 0, or None.
    count: how many segments, tiles or features of rows, or None.

    >>> import overlay_grid
    >>> try:
    ...     overlay_grid.union("POLYGON ((0 0, 1.5 0, 0 1, 0 0))", "")
    ... except overlay_grid.Refused as refused:
    ...     print(refused, refused.number.name, refused.layer, refused.offset)
    A: 1 syntax at 16 SYNTAX A 16
    """

    def __init__(
        self,
        words: str,
        number: int,
        layer: Optional[str],
        offset: Optional[int],
        count: Optional[int],
        feature: Optional[int] = None,
    ) -> None:
        super().__init__(words)
        self.number = Refusal(number)
        self.layer = layer
        self.offset = offset
        self.count = count
        self.feature = feature

    def __reduce__(self) -> "Tuple[Type[Refused], Tuple[str, int, Optional[str], Optional[int], Optional[int], Optional[int]]]":
        return type(self), (str(self), int(self.number), self.layer, self.offset, self.count, self.feature)


class GeometryError(ValueError):
    """A geometry is refused.

    reason: why, in words.
    layer: "A" or "B", or what further layers are called; of data frames "df1", "df2" or "df".
    feature: the number of the geometry in its layer, from 1.
    part: the number of the polygon in the geometry, from 1, or None where it is not about one.

    >>> import overlay_grid
    >>> polygon, line = bytes.fromhex("010300000000000000"), bytes.fromhex("010200000000000000")
    >>> try:
    ...     overlay_grid.union([polygon, line], [])
    ... except overlay_grid.GeometryError as error:
    ...     print(error, "|", error.layer, error.feature, error.part)
    A: feature 2: a LineString is no polygon | A 2 None
    """

    def __init__(self, reason: str, layer: str, feature: int, part: Optional[int] = None) -> None:
        polygon = "" if part is None else f", polygon {part}"
        super().__init__(f"{layer}: feature {feature}{polygon}: {reason}")
        self.reason = reason
        self.layer = layer
        self.feature = feature
        self.part = part

    def __reduce__(self) -> "Tuple[Type[GeometryError], Tuple[str, str, int, Optional[int]]]":
        return type(self), (self.reason, self.layer, self.feature, self.part)


class OutOfMemory(MemoryError):
    """Memory ran out during the call."""
