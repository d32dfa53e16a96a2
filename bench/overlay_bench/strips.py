"""runs overlay-gis on large GeoPackages by strips and in one process, and measures time and memory

A map is a square of blocks with the same two layers, each moved: parcels against zones, 100,000 segments together, in two
GeoPackages. Strips are done by workers of this machine. Where one process is asked too, on one thread of the library's, it has to
have the same rows. The exit status is 1 where it hasn't, or where a run fails.
"""
from __future__ import annotations

import argparse
import importlib
import json
import os
import random
import re
import sqlite3
import struct
import subprocess
import tempfile
from typing import Any

from . import maps, programs
from .large import BLOCK, places
from .layers import Pair, Polygons
from .programs import Taken, taken

GIS = os.path.join(programs.ROOT, "gis", "overlay-gis")
HEAD = ("segments", "MB of GeoPackages", "operation", "polygons", "workers: clock s", "processor s of their tasks", "MB of one", "one process: clock s", "MB")
TOLD = re.compile(r"workers took up to ([\d,]+) MB, and all ([\d,.]+) s of processors")


def add_arguments(parser: argparse.ArgumentParser) -> None:
    parser.add_argument("--blocks", type=int, nargs="+", default=(10, 100), help="how many blocks a map has")
    parser.add_argument("--operations", nargs="+", default=("union", "symdifference"), help="which operations are done")
    parser.add_argument("--workers", type=int, default=4, help="how many workers there are")
    parser.add_argument("--alone", type=int, default=100, help="up to how many blocks one process is asked too")
    parser.add_argument("--seconds", type=float, default=1800, help="after which a run is over")


def empty(file: str, folder: str) -> None:
    """A GeoPackage with a layer of polygons that has none."""
    source = os.path.join(folder, "empty.geojson")
    with open(source, "w", encoding="ascii") as text:
        json.dump({"type": "FeatureCollection", "features": []}, text)
    options = ["-nln", "layer", "-nlt", "POLYGON", "-a_srs", "EPSG:25832", "-lco", "SPATIAL_INDEX=NO", "-lco", "GEOMETRY_NAME=geom"]
    subprocess.run(["ogr2ogr", "-f", "GPKG", file, source, *options], check=True)


def kind_of(points: int) -> Any:
    """A polygon of one ring, as a GeoPackage has it."""
    head = [("magic", "S2"), ("form", "<u2"), ("system", "<i4"), ("order", "u1"), ("kind", "<u4"), ("rings", "<u4"), ("points", "<u4")]
    return importlib.import_module("numpy").dtype([*head, ("ring", "<f8", (points, 2))])


def packed(block: Polygons) -> list[Any]:
    """The polygons of a block, those of so many points together."""
    numpy = importlib.import_module("numpy")
    by_points: dict[int, list[Any]] = {}
    for (ring,) in block:
        by_points.setdefault(len(ring) + 1, []).append([*ring, ring[0]])
    found = []
    for points, rings in by_points.items():
        made = numpy.zeros(len(rings), kind_of(points))
        made["magic"], made["form"], made["system"] = b"GP", struct.unpack("<H", bytes([0, 1]))[0], 25832
        made["order"], made["kind"], made["rings"], made["points"], made["ring"] = 1, 3, 1, points, rings
        found.append(made)
    return found


def write(block: Polygons, blocks: int, file: str, folder: str) -> None:
    """A GeoPackage of the block's polygons, moved to each place."""
    empty(file, folder)
    numpy, parts = importlib.import_module("numpy"), packed(block)
    with sqlite3.connect(file) as into:
        for (name,) in into.execute("select name from sqlite_master where type = 'trigger' and tbl_name = 'layer'").fetchall():
            into.execute(f'drop trigger "{name}"')
        into.execute("pragma synchronous = off")
        for way in places(blocks):
            for made in parts:
                moved = made.copy()
                moved["ring"] += numpy.array(way)
                size, text = moved.itemsize, moved.tobytes()
                into.executemany("insert into layer (geom) values (?)", ((text[at : at + size],) for at in range(0, len(text), size)))
        into.execute("update gpkg_ogr_contents set feature_count = (select count(*) from layer)")
    into.close()


def has_same_rows(first: str, second: str) -> bool:
    """Whether the layers of two files have the same rows."""
    with sqlite3.connect(first) as one, sqlite3.connect(second) as other:
        names = [held.execute("select table_name from gpkg_contents").fetchone()[0] for held in (one, other)]
        rows = [held.execute(f'select * from "{name}" order by 1') for held, name in zip((one, other), names)]
        while (found := rows[0].fetchmany(10000)) == rows[1].fetchmany(10000):
            if not found:
                return True
    return False


def polygons_in(file: str) -> int:
    with sqlite3.connect(file) as held:
        (name,) = held.execute("select table_name from gpkg_contents").fetchone()
        (count,) = held.execute(f'select count(*) from "{name}"').fetchone()
    return int(count)


def run(arguments: argparse.Namespace, operation: str, files: list[str], output: str, *words: str) -> tuple[Taken, str]:
    """A run of overlay-gis on the grid of whole coordinates, and what it tells."""
    told = output + ".told"
    asked = [GIS, "run", operation, *files, "-o", output, "--overwrite", "--parity", "--grid", "1", "--origin", "0,0", *words]
    found = taken(asked, os.devnull, arguments.seconds, told)
    with open(told, encoding="utf-8") as text:
        return found, text.read()


def row(arguments: argparse.Namespace, folder: str, files: list[str], blocks: int, segments: int, operation: str) -> bool:
    """Prints the row of an operation; whether it went wrong."""
    size = sum(map(os.path.getsize, files)) / 1e6
    by_strips, alone = (os.path.join(folder, f"{name}.gpkg") for name in ("strips", "alone"))
    many, told = run(arguments, operation, files, by_strips, "--engine", "dask", f"--workers={arguments.workers}")
    found = TOLD.search(told)
    if many.status != 0 or not found:
        print(f"{operation} of {blocks} blocks by strips: status {many.status}\n{told}", flush=True)
        return True
    memory, seconds = (word.replace(",", "") for word in found.groups())
    clock, taken_alone, wrong = "", "", False
    if blocks <= arguments.alone:
        one, told = run(arguments, operation, files, alone, f"--segments={segments}")
        clock, taken_alone = f"{one.clock:.1f}", f"{one.memory:.0f}"
        wrong = one.status != 0 or not has_same_rows(by_strips, alone)
    cells = (f"{segments:,}", f"{size:,.0f}", operation, f"{polygons_in(by_strips):,}", f"{many.clock:.1f}", seconds, memory, clock, taken_alone)
    print("| %s |" % " | ".join(cells), flush=True)
    if wrong:
        print(f"{operation} of {blocks} blocks: other rows, or none, in one process\n{told}", flush=True)
    return wrong


def of_blocks(arguments: argparse.Namespace, pair: Pair, blocks: int) -> bool:
    """Prints the rows of a map; whether one went wrong."""
    segments = blocks * sum(len(ring) for layer in pair for rings in layer for ring in rings)
    with tempfile.TemporaryDirectory() as folder:
        files = [os.path.join(folder, name) for name in ("a.gpkg", "b.gpkg")]
        for layer, file in zip(pair, files):
            write(layer, blocks, file, folder)
        return any([row(arguments, folder, files, blocks, segments, operation) for operation in arguments.operations])


def main(arguments: argparse.Namespace) -> int:
    print("| %s |\n%s|" % (" | ".join(HEAD), "|---" * len(HEAD)), flush=True)
    pair = maps.parcels(random.Random(1), BLOCK)
    return int(any([of_blocks(arguments, pair, blocks) for blocks in arguments.blocks]))
