"""Cutting down what differs."""
from __future__ import annotations

from collections.abc import Callable
from typing import Protocol, TypeVar

Some = TypeVar("Some", bound="Cuttable")


class Cuttable(Protocol):
    """A list or a string of bytes: what has parts that can be put together again."""

    def __len__(self) -> int: ...

    def __getitem__(self: Some, part: slice, /) -> Some: ...

    def __add__(self: Some, other: Some, /) -> Some: ...


def cut(items: Some, differs: Callable[[Some], bool]) -> Some:
    """A shorter sequence that still differs: long runs of items are left out first, single ones last."""
    step = max(1, len(items) // 2)
    while step:
        at = 0
        while at < len(items):
            fewer = items[:at] + items[at + step:]
            if differs(fewer):
                items = fewer
            else:
                at += step
        step //= 2
    return items
