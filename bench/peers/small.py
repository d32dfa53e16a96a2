#!/usr/bin/python3
"""Small calls of bench/run bridge from Python: small.py overlay|shapely A B [FOLDER of overlay_grid] intersects the polygons of two files,
line by line, and prints a line `name, microseconds a call, area, how many failed`."""
from __future__ import annotations

import sys
import time
from collections.abc import Callable, Sequence
from typing import TypeVar

from shapely import wkt
from shapely.geometry.base import BaseGeometry

Layer = TypeVar("Layer")
Result = TypeVar("Result")


def lines(path: str) -> list[str]:
    with open(path, encoding="ascii") as file:
        return file.read().splitlines()


def told(name: str, call: Callable[[Layer, Layer], Result], pairs: Sequence[tuple[Layer, Layer]], area: Callable[[Result], float]) -> None:
    """Times the calls alone; a call that raises has failed."""
    found: list[Result] = []
    failed, start = 0, time.process_time()
    for first, second in pairs:
        try:
            found.append(call(first, second))
        except Exception:
            failed += 1
    seconds = time.process_time() - start
    print("%s\t%.2f\t%.1f\t%d" % (name, 1e6 * seconds / len(pairs), sum(map(area, found)), failed))


def area(shape: BaseGeometry) -> float:
    return float(shape.area)


def area_of(text: str) -> float:
    return area(wkt.loads(text))


tool, first, second = sys.argv[1:4]
texts = list(zip(lines(first), lines(second)))
if tool == "overlay":
    sys.path.insert(0, sys.argv[4])
    import overlay_grid

    told("overlay, by Python, text to text", overlay_grid.intersection, texts, area_of)
else:
    shapes = [(wkt.loads(a), wkt.loads(b)) for a, b in texts]
    told("Shapely", lambda a, b: a.intersection(b), shapes, area)
    told("Shapely, text to text", lambda a, b: str(wkt.loads(a).intersection(wkt.loads(b)).wkt), texts, area_of)
