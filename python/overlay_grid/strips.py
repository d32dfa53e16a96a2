"""Rounding and labelling a map that is too large for one process: strip by strip of columns, in as many processes as one likes.

Strips are cut out of the plane by whole numbers that ascend, the cuts: strip s has the columns x of which s cuts are not greater than x, so
that there is one strip more than cuts. Any cuts give the same edges. The calls take and answer arrays of numpy whose items are the structs
of include/overlay.h (`LINE`, `OPEN`, `CARRIED`, `COUNTED`, `DIRECTED`), and these arrays are all that goes from one call to another, or one
process to another:

1. `scatter`, of each part of a layer: for each strip its lines that reach it
2. `round_strip`, of each strip with all of its lines: the edges inside it, and the lines that cross its borders
3. `bridge`, from the last strip to the first: the edges across the border on the right of each
4. `merge`, of each strip: both as one array

The arrays of 4, one strip behind another, are the edges that `overlay_grid.edges` tells of the whole layers, in the same order. What
bounds the result of an operation is told by strips, too, from the first strip on:

5. `labels`, of each strip: the directed edges along its own edges, by these and those that come in from the left
6. `going_on`, of the same: the edges that come into the next strip

The arrays of 5 together have each edge of the rings of the whole layers' result, once. Its polygons are made by ranges of strips, first of
one strip each, and then of two that touch, until one has all strips:

7. `closed`, of each range with the directed edges that have a column of it: those that no other strip has to do with, and the open ones
8. `polygons`, of what is closed there
9. `written`, of the polygons of all ranges, those that begin in a strip: the same in order

A wider range has what comes into its first strip, and what is open in both of its ranges. The polygons of 9, one strip behind another, are
the result's, in their order.

The calls test what they are handed, but none can know of a line that is missing. `edges` makes the first four calls for all strips, and
`directed_edges` the first six, with a file for each array in a folder, one after another or by an executor: one of concurrent.futures, or
what `Client.get_executor()` of Dask gives, over many machines.

>>> import tempfile
>>> import overlay_grid
>>> from overlay_grid import strips
>>> square = [0, 0, 4, 0, 4, 4, 0, 4, 0, 0]
>>> with tempfile.TemporaryDirectory() as folder:
...     for found in strips.edges([strips.Part(0, square, [0, 5])], [2], folder):
...         print(found[["px", "py", "qx", "qy", "in_a"]].tolist())
[(0, 0, 0, 4, 1), (0, 0, 4, 0, 1), (0, 4, 4, 4, 1)]
[(4, 0, 4, 4, 1)]
>>> triangle = [1, 1, 3, 1, 3, 3, 1, 1]
>>> with tempfile.TemporaryDirectory() as folder:
...     parts = [strips.Part(0, square, [0, 5]), strips.Part(1, triangle, [0, 4])]
...     for found in strips.directed_edges(overlay_grid.Operation.INTERSECTION, parts, [2], folder):
...         print(found.tolist())
[(1, 1, 3, 1), (3, 3, 1, 1)]
[(3, 1, 3, 3)]
>>> two = [(0, 0, 1, 0), (0, 1, 0, 0), (0, 5, 3, 5), (0, 6, 0, 5), (1, 0, 0, 1), (3, 5, 0, 6)]  # the edges of two triangles
>>> found = strips.closed([2], 0, 1, two)
>>> found.closed.tolist()
[(0, 0, 1, 0), (0, 1, 0, 0), (1, 0, 0, 1)]
>>> later = strips.polygons(strips.closed([2], 0, 2, found.open).closed)
>>> later.coordinates.tolist()
[0, 5, 3, 5, 0, 6, 0, 5]
>>> strips.written([later, strips.polygons(found.closed)]).coordinates.tolist()
[0, 0, 1, 0, 0, 1, 0, 0, 0, 5, 3, 5, 0, 6, 0, 5]
"""

from __future__ import annotations

import ctypes
import os
import secrets
from contextlib import suppress
from functools import partial
from itertools import accumulate
from typing import Any, Iterator, List, NamedTuple, Optional, Sequence, Tuple

from ._calls import CALLS, Operation
from ._library import ANSWERED, NO_MEMORY, SMALL, Columns, ColumnsAnswer, StripAnswer, library
from ._faults import OutOfMemory
from ._optional import module

__all__ = [
    "CARRIED",
    "COUNTED",
    "DIRECTED",
    "LINE",
    "OPEN",
    "Bridged",
    "Closed",
    "Part",
    "Polygons",
    "Rounded",
    "StripError",
    "bridge",
    "closed",
    "directed_edges",
    "edges",
    "going_on",
    "labels",
    "merge",
    "polygons",
    "round_strip",
    "scatter",
    "written",
]

numpy: Any = module("numpy")

# A segment, its lesser end (by x, then by y) first; layer 0 is the first one.
LINE = numpy.dtype([(name, "<u4") for name in ("number", "layer")] + [(name, "<i4") for name in ("ax", "ay", "bx", "by")])
# A line that crosses a border of a strip, and its pixel in the strip that is nearest to that border, if it has one there.
OPEN = numpy.dtype([(name, "<u4") for name in ("number", "layer", "has_pixel")] + [(name, "<i4") for name in "xy"])
# A line that crosses the border on the left of a strip, and its first pixel behind that border.
CARRIED = numpy.dtype([("number", "<u4"), ("x", "<i4"), ("y", "<i4")])
# A rounded edge, its lesser end first, and how many segments of either layer run along it.
COUNTED = numpy.dtype([(name, "<i4") for name in ("px", "py", "qx", "qy")] + [(name, "<u4") for name in ("in_a", "in_b")])
# An edge of a result, from a to b: the result lies on its left.
DIRECTED = numpy.dtype([(name, "<i4") for name in ("ax", "ay", "bx", "by")])

REASONS = {
    2: "coordinate out of range",
    3: "ring of fewer than four points",
    4: "open ring",
    13: "odd number of coordinates",
    15: "bad offset of polygons",
    16: "bad offset of rings",
    18: "bad item",
    19: "contradicts another array",
}


class StripError(ValueError):
    """An array is refused.

    reason: why, in words.
    array: which one of those that were handed in, from 0; 3 are the cuts.
    item: the number of its item, from 0; of a part the number of its point, ring or offset, and of polygons that of one or of an offset.
    """

    def __init__(self, reason: str, array: int, item: int) -> None:
        super().__init__(f"array {array}, item {item}: {reason}")
        self.reason = reason
        self.array = array
        self.item = item

    def __reduce__(self) -> Tuple[Any, ...]:
        return type(self), (self.reason, self.array, self.item)


class Part(NamedTuple):
    """Rings of a layer, 0 or 1: x and y of all points by turns, in grid units, and where each ring begins among the points, and the last
    one ends. A ring's last point is its first."""

    layer: int
    coordinates: Any
    rings: Any


class Rounded(NamedTuple):
    """The edges inside a strip, and the lines that cross the border on its left, and that on its right."""

    inner: Any
    left: Any
    right: Any


class Bridged(NamedTuple):
    """The edges from a strip to later ones, and what is carried over the border on its left."""

    across: Any
    carried: Any


class Closed(NamedTuple):
    """Of the directed edges of a range of strips those that are closed there, and the open ones whose lesser end lies there."""

    closed: Any
    open: Any


class Polygons(NamedTuple):
    """Polygons as columns, in the layout of GeoArrow: x and y of all points by turns, in grid units, where each ring begins among the points, and
    where each polygon begins among the rings, and the last ones end. A ring's last point is its first, and a polygon's shell stands before its
    holes."""

    coordinates: Any
    rings: Any
    polygons: Any


def answered(call: Any, given: Sequence[Any], kinds: Sequence[Any], lengths: Sequence[int]) -> List[Any]:
    """What a call puts into rooms of these kinds. Lengths are a guess: where it is too small, all is made again."""
    answer = StripAnswer()
    while True:
        rooms = [numpy.empty(length, kind) for kind, length in zip(kinds, lengths)]
        call(*given, *(word for room in rooms for word in passed(room)), ctypes.byref(answer))
        lengths = (answer.first, answer.second, answer.third)
        if answer.status != SMALL:
            break
    if answer.status == ANSWERED:
        return [room[:length] for room, length in zip(rooms, lengths)]
    if answer.status == NO_MEMORY:
        raise OutOfMemory("memory ran out during the call")
    raise StripError(REASONS.get(answer.number, "no such strip, layer or operation"), answer.part, answer.detail)


def passed(values: Any) -> Tuple[int, int]:
    return values.ctypes.data, len(values)


def of(kind: Any, values: Any) -> Any:
    """An array as the library takes it, which has to stay where it is meanwhile."""
    return numpy.ascontiguousarray(values, kind)


def scatter(cuts: Any, part: Part, first: int) -> List[Any]:
    """For each strip the lines of a part of a layer that reach it. The part's segments are numbered from `first` on: give each part as many
    numbers as it has points, so that no two segments of both layers have one."""
    borders, coordinates, rings = of("<i4", cuts), of("<i4", part.coordinates), of("<u4", part.rings)
    whole, one = numpy.array([0, len(rings) - 1], "<u4"), numpy.array([0, 1], "<u4")
    columns = Columns(*(word for values in (coordinates, rings, whole, one) for word in passed(values)))
    given = (*passed(borders), part.layer, first, ctypes.byref(columns))
    lines, begins = answered(library.overlay_strip_scatter, given, (LINE, "<u4"), (len(coordinates), len(borders) + 2))
    return [lines[at:past] for at, past in zip(begins, begins[1:])]


def round_strip(cuts: Any, strip: int, lines: Any) -> Rounded:
    """What a strip has of all lines that reach it, which ascend by their numbers."""
    borders, held = of("<i4", cuts), of(LINE, lines)
    guess = (2 * len(held) + 16, len(held), len(held))
    return Rounded(*answered(library.overlay_strip_round, (*passed(borders), strip, *passed(held)), (COUNTED, OPEN, OPEN), guess))


def bridge(rounded: Rounded, carried: Optional[Any] = None) -> Bridged:
    """The edges from a strip to later ones, by what is carried over the border on its right; of the last strip nothing is."""
    left, right, held = of(OPEN, rounded.left), of(OPEN, rounded.right), of(CARRIED, [] if carried is None else carried)
    given = (*passed(left), *passed(right), *passed(held))
    return Bridged(*answered(library.overlay_strip_bridge, given, (COUNTED, CARRIED), (len(right), len(left))))


def merge(inner: Any, across: Any) -> Any:
    """All edges whose lesser end lies in a strip, ascending."""
    first, second = of(COUNTED, inner), of(COUNTED, across)
    given = (*passed(first), *passed(second))
    return answered(library.overlay_strip_edges, given, (COUNTED,), (len(first) + len(second),))[0]


def changing(found: Any) -> Any:
    """Of edges those with an odd count in some layer. Labels need no others."""
    return found[(found["in_a"] | found["in_b"]) % 2 == 1]


def labels(operation: Operation, own: Any, crossing: Optional[Any] = None) -> Any:
    """The directed edges of the result of an operation along a strip's own edges, ascending by start, then by end, by these edges and those
    that come into the strip; nothing comes into the first one."""
    mine, held = of(COUNTED, own), of(COUNTED, [] if crossing is None else crossing)
    given = (CALLS[operation], *passed(held), *passed(mine))
    return answered(library.overlay_strip_labels, given, (DIRECTED,), (len(mine),))[0]


def going_on(cuts: Any, strip: int, own: Any, crossing: Optional[Any] = None) -> Any:
    """The edges that come into the strip behind this one: of its own, and of those that come into it, those that end behind it."""
    borders, mine, held = of("<i4", cuts), of(COUNTED, own), of(COUNTED, [] if crossing is None else crossing)
    given = (*passed(borders), strip, *passed(held), *passed(mine))
    return answered(library.overlay_strip_going_on, given, (COUNTED,), (len(mine) + len(held),))[0]


def closed(cuts: Any, first: int, past: int, known: Any) -> Closed:
    """Parts directed edges (`DIRECTED`), which ascend: all those with a column of the strips from `first` to before `past`. One that has a
    column of another strip, too, is open, and so is each that is tied to an open one: edges that leave one vertex, one that leaves the end
    of the other, or one that is the nearest below the start of the other where both go to the right. What is closed closes by itself."""
    borders, held = of("<i4", cuts), of(DIRECTED, known)
    given = (*passed(borders), first, past, *passed(held))
    return Closed(*answered(library.overlay_strip_closed, given, (DIRECTED, DIRECTED), (len(held), len(held))))


def polygons(directed: Any) -> Polygons:
    """The polygons of directed edges (`DIRECTED`), which ascend: of those of all strips, brought in order, or of what is `closed`."""
    held = of(DIRECTED, directed)
    most = len(held) // 3  # rings: each has three edges or more
    rooms = Polygons(numpy.empty(2 * (len(held) + most), "<i4"), numpy.empty(most + 1, "<u4"), numpy.empty(most + 1, "<u4"))
    return filled(library.overlay_polygons, [held], rooms, "edges that don't close")


def written(parts: Sequence[Polygons]) -> Polygons:
    """The polygons of several ranges together, in the order of their first vertices: of those that begin in a strip, or of all of them. No two
    have one shell. What is refused is told by its number in the columns of all parts, one behind another."""
    held = [Polygons(of("<i4", part.coordinates), of("<u4", part.rings), of("<u4", part.polygons)) for part in parts]
    if any(len(part.coordinates) % 2 for part in held):
        raise StripError(REASONS[13], 0, 0)
    given = Polygons(
        numpy.concatenate([numpy.empty(0, "<i4"), *(part.coordinates for part in held)]),
        joined([part.rings for part in held], [len(part.coordinates) // 2 for part in held], REASONS[16]),
        joined([part.polygons for part in held], [len(part.rings) - 1 for part in held], REASONS[15]),
    )
    return filled(library.overlay_strip_write, given, Polygons(*map(numpy.empty_like, given)), "shell of another polygon")


def joined(offsets: Sequence[Any], counts: Sequence[int], reason: str) -> Any:
    """The offsets of several parts as those of one. Those of a part begin at 0, and end at its count."""
    found, place, before = [numpy.zeros(1, "<u4")], 0, 0
    for held, count in zip(offsets, counts):
        if len(held) == 0 or held[0] != 0:
            raise StripError(reason, 0, place)
        place += len(held) - 1
        if held[-1] != count:
            raise StripError(reason, 0, place)
        found.append(held[1:].astype("<i8") + before)
        before += count
    return of("<u4", numpy.concatenate(found))


def filled(call: Any, given: Sequence[Any], rooms: Polygons, contradiction: str) -> Polygons:
    """What a call puts into rooms for polygons, which are large enough."""
    answer = ColumnsAnswer()
    call(*(word for values in (*given, *rooms) for word in passed(values)), ctypes.byref(answer))
    if answer.status == NO_MEMORY:
        raise OutOfMemory("memory ran out during the call")
    if answer.status != ANSWERED:
        raise StripError(contradiction if answer.number == 19 else REASONS[answer.number], answer.part, answer.detail)
    lengths = (answer.coordinates, answer.rings, answer.polygons)
    return Polygons(*(room[:length] for room, length in zip(rooms, lengths)))


def put(folder: str, name: str, values: Any) -> None:
    """Writes an array, so that its file is there whole or not at all: a task that runs twice writes the same one again."""
    beside = os.path.join(folder, f".{name}.{secrets.token_hex(8)}.partial")  # processes of two containers may have one number
    try:
        with open(beside, "xb") as file:
            numpy.save(file, values, allow_pickle=False)
        os.replace(beside, os.path.join(folder, name))
    except BaseException:
        with suppress(OSError):
            os.unlink(beside)
        raise


def got(folder: str, name: str) -> Any:
    return numpy.load(os.path.join(folder, name), allow_pickle=False)


def scattered(folder: str, cuts: Any, number: int, part: Part, first: int) -> None:
    for strip, lines in enumerate(scatter(cuts, part, first)):
        put(folder, f"lines.{strip}.{number}", lines)


def rounded(folder: str, cuts: Any, parts: int, strip: int) -> None:
    lines = [got(folder, f"lines.{strip}.{number}") for number in range(parts)]
    for name, values in round_strip(cuts, strip, numpy.concatenate([*lines, numpy.empty(0, LINE)]))._asdict().items():
        put(folder, f"{name}.{strip}", values)


def bridged(folder: str, strips: int) -> None:
    carried = None
    for strip in reversed(range(strips)):
        across, carried = bridge(Rounded(None, got(folder, f"left.{strip}"), got(folder, f"right.{strip}")), carried)
        put(folder, f"across.{strip}", across)


def merged(folder: str, strip: int) -> Any:
    return merge(got(folder, f"inner.{strip}"), got(folder, f"across.{strip}"))


def kept(folder: str, strip: int) -> None:
    put(folder, f"own.{strip}", changing(merged(folder, strip)))


def gone_on(folder: str, cuts: Any) -> None:
    crossing = numpy.empty(0, COUNTED)
    for strip in range(len(cuts) + 1):
        put(folder, f"crossing.{strip}", crossing)
        crossing = going_on(cuts, strip, got(folder, f"own.{strip}"), crossing)


def labelled(operation: Operation, folder: str, strip: int) -> Any:
    return labels(operation, got(folder, f"own.{strip}"), got(folder, f"crossing.{strip}"))


def round_all(parts: Sequence[Part], cuts: Any, folder: str, made: Any) -> None:
    """Writes what `merge` needs of each strip."""
    firsts = list(accumulate((len(part.coordinates) // 2 for part in parts), initial=0))
    list(made(partial(scattered, folder, cuts), range(len(parts)), parts, firsts))
    list(made(partial(rounded, folder, cuts, len(parts)), range(len(cuts) + 1)))
    bridged(folder, len(cuts) + 1)


def edges(parts: Sequence[Part], cuts: Any, folder: str, executor: Optional[Any] = None) -> Iterator[Any]:
    """The rounded edges of all parts together, an array for each strip, in their order.

    folder: where the files go, which all processes see; they stay there. Nobody else may use it meanwhile.
    executor: what makes the calls of a step at once, by its `map`; without one they are made one after another.
    """
    made = map if executor is None else executor.map
    round_all(parts, cuts, folder, made)
    yield from made(partial(merged, folder), range(len(cuts) + 1))


def directed_edges(
    operation: Operation, parts: Sequence[Part], cuts: Any, folder: str, executor: Optional[Any] = None
) -> Iterator[Any]:
    """The directed edges of the result of an operation on both layers, an array for each strip: those along its own edges, ascending by start,
    then by end. Layers are read by parity: features that overlap cancel each other.

    folder, executor: as of `edges`.
    """
    made = map if executor is None else executor.map
    round_all(parts, cuts, folder, made)
    list(made(partial(kept, folder), range(len(cuts) + 1)))
    gone_on(folder, cuts)
    yield from made(partial(labelled, operation, folder), range(len(cuts) + 1))
