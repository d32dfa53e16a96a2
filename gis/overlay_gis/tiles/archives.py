"""Files of tiles: MBTiles 1.3, PMTiles 3, and folders of z/x/y.pbf with a TileJSON 3 beside them.

Tiles are packed by gzip in all of them. What is written depends on the tiles and on the facts alone,
so the same tiles are the same bytes.
"""

from __future__ import annotations

import gzip
import json
import sqlite3
import struct
import zlib
from contextlib import closing, contextmanager
from dataclasses import dataclass
from hashlib import sha256
from itertools import accumulate
from pathlib import Path
from typing import IO, Any, Callable, Iterator, NamedTuple, Sequence

from ..faults import Fault, Refusal
from .mvt import BITS, packed, varint
from .world import Tile, degrees

MBTILES, PMTILES, METADATA = ".mbtiles", ".pmtiles", "metadata.json"

# What tells in a file of tiles how it was made.
OPTIONS = "overlay-gis"

# What a file that is broken ends a reader with.
BROKEN = (sqlite3.Error, ValueError, KeyError, IndexError, EOFError, struct.error, zlib.error)

# How a file of SQLite says that it is one of MBTiles.
APPLICATION = 0x4D504258

# A PMTiles file begins with a head of so many bytes, and it and the root of the directory have so many
# at most; so many entries a leaf of the directory has first.
HEAD, HEAD_AND_ROOT, LEAF = struct.Struct("<7sB11Q6B4iB2i"), 16384, 4096
MARK, GZIP, OF_VECTORS = b"PMTiles", 2, 1


@dataclass(frozen=True)
class Facts:
    """What a file tells of its tiles: its name; their zooms; the box of all layers, in metres; the
    layers as TileJSON has them; and the options by which they were made."""

    name: str
    zooms: range
    box: tuple[float, float, float, float]
    layers: Sequence[dict[str, Any]]
    options: dict[str, Any]

    @property
    def bounds(self) -> list[float]:
        """West, south, east and north in degrees."""
        left, low, right, high = self.box
        return [round(side, 7) for side in (*degrees(left, low), *degrees(right, high))]

    @property
    def center(self) -> list[float]:
        west, south, east, north = self.bounds
        return [round((west + east) / 2, 7), round((south + north) / 2, 7), self.zooms[0]]

    def vector_layers(self) -> dict[str, Any]:
        return {"vector_layers": list(self.layers), OPTIONS: self.options}


class Store:
    """Tiles in a file of their own, until it is known in which order they are wanted."""

    def __init__(self, file: IO[bytes]):
        self.file = file
        self.places: dict[Tile, tuple[int, int]] = {}

    def add(self, tile: Tile, data: bytes) -> None:
        self.places[tile] = self.file.seek(0, 2), len(data)
        self.file.write(data)

    def ordered(self, key: Callable[[Tile], Any] = lambda tile: tile) -> Iterator[tuple[Tile, bytes]]:
        """The tiles in the order of a key."""
        for tile in sorted(self.places, key=key):
            at, size = self.places[tile]
            self.file.seek(at)
            yield tile, self.file.read(size)


def write(path: Path, tiles: Store, facts: Facts) -> None:
    """Writes tiles to a file, or else to a folder, as the name's ending says."""
    try:
        {MBTILES: write_mbtiles, PMTILES: write_pmtiles}.get(path.suffix, write_folder)(path, tiles, facts)
    except sqlite3.Error as error:
        raise Fault(path.name, f"can't be written: {error}") from error


@contextmanager
def readable(name: str) -> Iterator[None]:
    """A file of tiles that is broken is a fault within."""
    try:
        yield
    except BROKEN as error:
        raise Fault(name, f"can't be read as tiles: {error}") from error


def tiles_in(path: Path) -> Iterator[tuple[Tile, bytes]]:
    """The tiles that a file or a folder has."""
    return {MBTILES: mbtiles_in, PMTILES: pmtiles_in}.get(path.suffix, folder_in)(path)


def options_in(path: Path) -> dict[str, Any] | None:
    """The options by which tiles were made, where the file or the folder tells."""
    try:
        held = {MBTILES: facts_of_mbtiles, PMTILES: facts_of_pmtiles}.get(path.suffix, facts_of_folder)(path)
    except (OSError, *BROKEN):
        return None
    options = held.get(OPTIONS) if isinstance(held, dict) else None
    return options if isinstance(options, dict) else None


def write_mbtiles(path: Path, tiles: Store, facts: Facts) -> None:
    """A database of SQLite, whose rows are counted from the bottom."""
    texts = {
        "name": facts.name,
        "format": "pbf",
        "type": "overlay",
        "bounds": ",".join(map(str, facts.bounds)),
        "center": ",".join(map(str, facts.center)),
        "minzoom": str(facts.zooms[0]),
        "maxzoom": str(facts.zooms[-1]),
        "json": json.dumps(facts.vector_layers()),
    }
    with closing(sqlite3.connect(path, isolation_level=None)) as held:
        for setting in ("synchronous=OFF", "journal_mode=OFF", f"application_id={APPLICATION}"):
            held.execute(f"PRAGMA {setting}")
        held.execute("BEGIN")
        held.execute("CREATE TABLE metadata (name text, value text)")
        held.execute("CREATE TABLE tiles (zoom_level integer, tile_column integer, tile_row integer, tile_data blob)")
        held.executemany("INSERT INTO metadata VALUES (?, ?)", texts.items())
        rows = ((tile.zoom, tile.x, flipped(tile.zoom, tile.y), data) for tile, data in tiles.ordered())
        held.executemany("INSERT INTO tiles VALUES (?, ?, ?, ?)", rows)
        held.execute("CREATE UNIQUE INDEX tile_index ON tiles (zoom_level, tile_column, tile_row)")
        held.execute("COMMIT")


def flipped(zoom: int, row: int) -> int:
    """A row counted from the other end."""
    return (1 << zoom) - 1 - row


def mbtiles_in(path: Path) -> Iterator[tuple[Tile, bytes]]:
    with closing(sqlite3.connect(f"{path.absolute().as_uri()}?mode=ro", uri=True)) as held:
        for zoom, x, y, data in held.execute("SELECT zoom_level, tile_column, tile_row, tile_data FROM tiles"):
            yield Tile(zoom, x, flipped(zoom, y)), data


def facts_of_mbtiles(path: Path) -> Any:
    with closing(sqlite3.connect(f"{path.absolute().as_uri()}?mode=ro", uri=True)) as held:
        (text,) = held.execute("SELECT value FROM metadata WHERE name = 'json'").fetchone() or ("{}",)
        return json.loads(text)


def tile_json(facts: Facts) -> dict[str, Any]:
    return {
        "tilejson": "3.0.0",
        "name": facts.name,
        "tiles": ["{z}/{x}/{y}.pbf"],
        "format": "pbf",
        "bounds": facts.bounds,
        "center": facts.center,
        "minzoom": facts.zooms[0],
        "maxzoom": facts.zooms[-1],
        **facts.vector_layers(),
    }


def write_folder(path: Path, tiles: Store, facts: Facts) -> None:
    """A file z/x/y.pbf for each tile, with rows from the top, and metadata.json."""
    path.mkdir()
    for tile, data in tiles.ordered():
        place = path / f"{tile}.pbf"
        place.parent.mkdir(parents=True, exist_ok=True)
        place.write_bytes(data)
    (path / METADATA).write_text(json.dumps(tile_json(facts), indent=1) + "\n", "utf-8")


def folder_in(path: Path) -> Iterator[tuple[Tile, bytes]]:
    for place in path.glob("*/*/*.pbf"):
        zoom, x, y = place.relative_to(path).with_suffix("").parts
        yield Tile(int(zoom), int(x), int(y)), place.read_bytes()


def facts_of_folder(path: Path) -> Any:
    return json.loads((path / METADATA).read_text("utf-8"))


class Entry(NamedTuple):
    """Of a directory: the number of a tile; how many tiles from there on have the same bytes, or 0 for a
    part of the directory; and where these bytes are."""

    number: int
    run: int
    at: int
    size: int


def numbered(tile: Tile) -> int:
    """The number of a tile in PMTiles: all tiles of lower zooms come before, and those of a zoom are in
    the order of Hilbert's curve."""
    zoom, x, y = tile
    number = ((1 << 2 * zoom) - 1) // 3
    for k in reversed(range(zoom)):
        side = 1 << k
        right, down = x >> k & 1, y >> k & 1
        number += side * side * ((3 * right) ^ down)
        x, y = x & side - 1, y & side - 1
        if not down:
            x, y = (side - 1 - y, side - 1 - x) if right else (y, x)
    return number


def tile_of(number: int) -> Tile:
    """The tile of a number."""
    zoom = next(zoom for zoom in range(32) if ((1 << 2 * zoom + 2) - 1) // 3 > number)
    place = number - ((1 << 2 * zoom) - 1) // 3
    x = y = 0
    for k in range(zoom):
        side = 1 << k
        quarter = place >> 2 * k & 3
        right, down = quarter >> 1, (quarter ^ quarter >> 1) & 1
        if not down:
            x, y = (side - 1 - y, side - 1 - x) if right else (y, x)
        x, y = x + side * right, y + side * down
    return Tile(zoom, x, y)


def directory(entries: Sequence[Entry]) -> bytes:
    """Entries as bytes: their numbers as steps, their runs, their sizes and their places, 0 for one that
    comes right behind the one before."""
    steps = [one.number - before for one, before in zip(entries, [0, *(one.number for one in entries)])]
    ends = [-1, *(one.at + one.size for one in entries)]
    places = [0 if one.at == end else one.at + 1 for one, end in zip(entries, ends)]
    numbers = [len(entries), *steps, *(one.run for one in entries), *(one.size for one in entries), *places]
    return packed(b"".join(map(varint, numbers)))


def entries_in(data: bytes) -> list[Entry]:
    """The entries of a directory's bytes."""
    numbers, number, shift = [], 0, 0
    for byte in gzip.decompress(data):
        number |= (byte & 127) << shift
        shift += BITS
        if byte < 128:
            numbers.append(number)
            number = shift = 0
    count = numbers[0]
    steps, runs, sizes, places = (numbers[1 + k * count : 1 + (k + 1) * count] for k in range(4))
    at: list[int] = []
    for k, place in enumerate(places):
        at.append(place - 1 if place else at[-1] + sizes[k - 1])
    return list(map(Entry, accumulate(steps), runs, at, sizes))


def placed(tiles: Store, out: IO[bytes]) -> tuple[list[Entry], int, int]:
    """Writes the tiles, equal ones once; answers the entries, the number of different tiles and how many
    bytes these have."""
    entries: list[Entry] = []
    known: dict[bytes, int] = {}
    size = 0
    for tile, data in tiles.ordered(numbered):
        mark = sha256(data).digest()
        if mark not in known:
            known[mark] = size
            size += out.write(data)
        one = Entry(numbered(tile), 1, known[mark], len(data))
        last = entries[-1] if entries else None
        if last and (last.at, last.number + last.run) == (one.at, one.number):
            entries[-1] = last._replace(run=last.run + 1)
        else:
            entries.append(one)
    return entries, len(known), size


def directories(entries: Sequence[Entry]) -> tuple[bytes, bytes]:
    """The root of a directory, which has all entries, or else those of its leaves; and these."""
    root, leaves, width = directory(entries), b"", LEAF
    while len(root) > HEAD_AND_ROOT - HEAD.size:
        made = [(entries[k].number, directory(entries[k : k + width])) for k in range(0, len(entries), width)]
        ends = [0, *accumulate(len(leaf) for _, leaf in made)]
        root = directory([Entry(number, 0, at, len(leaf)) for (number, leaf), at in zip(made, ends)])
        leaves = b"".join(leaf for _, leaf in made)
        width *= 2
    return root, leaves


def write_pmtiles(path: Path, tiles: Store, facts: Facts) -> None:
    """A head, the root of the directory, metadata, the leaves of the directory, and all tiles in the
    order of their numbers."""
    aside = path.with_suffix(".data")
    with open(aside, "w+b") as data:
        entries, different, size = placed(tiles, data)
        root, leaves = directories(entries)
        text = packed(json.dumps({"name": facts.name, "type": "overlay", **facts.vector_layers()}).encode())
        lengths = [len(root), len(text), len(leaves), size]
        parts = [number for pair in zip(accumulate([HEAD.size, *lengths[:-1]]), lengths) for number in pair]
        counts = (len(tiles.places), len(entries), different)
        *bounds, x, y = (round(10**7 * side) for side in (*facts.bounds, *facts.center[:2]))
        first, last = facts.zooms[0], facts.zooms[-1]
        head = HEAD.pack(MARK, 3, *parts, *counts, 1, GZIP, GZIP, OF_VECTORS, first, last, *bounds, facts.center[2], x, y)
        with open(path, "wb") as out:
            out.write(head + root + text + leaves)
            data.seek(0)
            while part := data.read(1 << 20):
                out.write(part)
    aside.unlink()


def parts_of(path: Path) -> Iterator[bytes]:
    """The root of a PMTiles file, its metadata, the leaves of its directory, and its tiles."""
    with open(path, "rb") as file:
        mark, version, *held = HEAD.unpack(file.read(HEAD.size))
        if (mark, version) != (MARK, 3):
            raise ValueError("another mark")
        for at, size in zip(held[0:8:2], held[1:8:2]):
            file.seek(at)
            part = file.read(size)
            if len(part) < size:
                raise ValueError("it is cut short")
            yield part


def pmtiles_in(path: Path) -> Iterator[tuple[Tile, bytes]]:
    root, _, leaves, data = parts_of(path)
    entries = entries_in(root)
    while any(one.run == 0 for one in entries):
        parts = [[one] if one.run else entries_in(leaves[one.at : one.at + one.size]) for one in entries]
        entries = [one for part in parts for one in part]
    for one in entries:
        for number in range(one.number, one.number + one.run):
            yield tile_of(number), data[one.at : one.at + one.size]


def facts_of_pmtiles(path: Path) -> Any:
    parts = parts_of(path)
    next(parts)
    return json.loads(gzip.decompress(next(parts)))


def check_kind(name: str, path: Path) -> None:
    """Refuses to replace a folder that has more than tiles, or a folder by a file."""
    if path.suffix in (MBTILES, PMTILES):
        if path.is_dir():
            raise Refusal(name, "is a folder, and no file of tiles")
    elif path.exists() and not (path.is_dir() and all(is_of_tiles(held.name) for held in path.iterdir())):
        raise Refusal(name, "is there, and is no folder that has tiles alone")


def is_of_tiles(name: str) -> bool:
    """Whether a folder of tiles has something of that name."""
    return name == METADATA or name.isdigit()
