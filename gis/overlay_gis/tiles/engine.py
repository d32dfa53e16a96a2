"""What the program answers to `faces` of layers on the grid of a zoom."""

from __future__ import annotations

from contextlib import ExitStack

import numpy as np

from ..columns import Columns, Numbers
from ..faults import Fault, Refusal
from ..frame import LIMIT
from ..program import DOUBT, FACES, PROGRAM, asked, rows_of
from ..questions import text_of
from ..rows import Rows


def check_room(name: str, layer: Columns[Numbers]) -> None:
    """Refuses what reaches beyond the limits of the program's grid."""
    farthest = max(int(np.abs(at).max(initial=0)) for at in (layer.x, layer.y))
    if farthest > LIMIT:
        reason = "a feature reaches beyond the limits of its grid, 2^28 units each way: make lower zooms, or cut it"
        raise Refusal(name, reason)


def rows_for(name: str, *layers: Columns[Numbers]) -> Rows:
    """The rows of faces of layers, each point of which is within the program's limits; `name` is what
    is told of where the program refuses one."""
    for layer in layers:
        check_room(name, layer)
    with ExitStack() as held:
        texts = [text_of(name, layer) for layer in layers]
        for text in texts:
            held.callback(text.file.close)
        points = sum(len(layer.x) for layer in layers)
        question = asked(FACES, *texts, segments=points)
        with question:
            answer, report = question.answer()
    rows = rows_of(answer, len(layers))
    for members, layer in zip(rows.members, layers):
        if members.places.min(initial=0) < 0 or members.places.max(initial=-1) >= len(layer.ids):
            raise Fault(PROGRAM, f"its answer tells of a feature that no layer has: {DOUBT}")
    if points and report.get("rows", ())[:1] != (len(rows.twice),):
        raise Fault(PROGRAM, f"its answer hasn't the rows that its report tells: {DOUBT}")
    return rows
