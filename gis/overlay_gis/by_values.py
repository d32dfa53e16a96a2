"""Rows of faces by the values of their features, rather than by the features themselves."""

from __future__ import annotations

from typing import Sequence

import numpy as np

from .columns import Numbers, offsets
from .fields import Kept, told_apart
from .merging import Groups, merged
from .messages import during
from .rows import Members, Rows


def of_classes(members: Members, classes: Numbers) -> Members:
    """For each row the classes that its features have, each once and ascending."""
    count = int(classes.max(initial=0)) + 1
    found = np.unique(members.owners() * count + classes[members.places])
    return Members(offsets(np.bincount(found // count, minlength=len(members.starts) - 1)), found % count)


def alike(members: Sequence[Members]) -> tuple[Numbers, list[int]]:
    """For each row the number of its group, which are all rows with the same members, and the first
    row of each group."""
    starts, bytes_of = [held.starts.tolist() for held in members], [memoryview(held.places.tobytes()) for held in members]
    width = np.dtype(np.int64).itemsize
    keys = [
        tuple(bytes(held[at[k] * width : at[k + 1] * width]) for held, at in zip(bytes_of, starts))
        for k in range(len(starts[0]) - 1)
    ]
    return told_apart(keys)


def united(rows: Rows, held: Sequence[Kept], asked: Sequence[Kept | None]) -> tuple[Rows, list[Kept]]:
    """The rows united whose features have the same values in the layers for which fields are asked,
    and in the others are the same; and what is kept of each layer, which is these values where
    fields are asked."""
    members, kept = [], []
    for of_layer, layer, by in zip(rows.members, held, asked):
        if by is None:
            members.append(of_layer)
            kept.append(layer)
        else:
            classes, firsts = told_apart(by.values)
            members.append(of_classes(of_layer, classes))
            kept.append(Kept(by.name, by.fields, None, [by.values[k] for k in firsts]))
    group, firsts = alike(members)
    groups = Groups(np.arange(len(group)), group, len(firsts))
    first = np.zeros(len(group), bool)
    first[firsts] = True
    with during("uniting rows"):
        shapes = merged(rows.shapes, groups)
    return Rows(groups.sums(rows.twice), [of_layer.chosen(first) for of_layer in members], shapes), kept
