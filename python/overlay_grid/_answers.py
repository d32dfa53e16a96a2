"""Rows of faces as they are answered."""

from __future__ import annotations

from typing import Any, List, NamedTuple, Optional

from ._drawing import html_of, named, svg_of
from ._rows import Ids


def features_in(ids: Ids) -> List[str]:
    """The features of each layer, in words."""
    return named([", ".join(map(str, numbers)) or "none" for numbers in ids])


class Row(NamedTuple):
    """All points that just the same features cover: twice their area, in grid units; for each layer the numbers of these features,
    from 1 and ascending; and the points as one MULTIPOLYGON text. Notebooks draw it.

    >>> Row(2, ((1,), ()), "MULTIPOLYGON (((0 0, 1 0, 1 1, 0 1, 0 0)))").twice_area / 2
    1.0
    """

    twice_area: int
    ids: Ids
    wkt: str

    def _repr_svg_(self) -> Optional[str]:
        return svg_of(self.wkt)

    def _repr_html_(self) -> str:
        return html_of(self.wkt, f"area {self.twice_area / 2}", *features_in(self.ids))


class Face(NamedTuple):
    """All points that just the same features cover, of layers on a grid whose unit is not 1: their area, in square units of the
    coordinates; for each layer the numbers of these features, from 1 and ascending; and the points, of the first layer's kind.
    Notebooks draw it.

    >>> Face(0.5, ((1,), ()), "MULTIPOLYGON (((0 0, 1 0, 1 1, 0 1, 0 0)))").area
    0.5
    """

    area: float
    ids: Ids
    geometry: Any

    def _repr_svg_(self) -> Optional[str]:
        return svg_of(self.geometry)

    def _repr_html_(self) -> str:
        return html_of(self.geometry, f"area {self.area}", *features_in(self.ids))
