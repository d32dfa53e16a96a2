"""Arrays in files, by which the tasks of one run tell one another what they have found.

A file is written beside its place and renamed, so it is there whole or not at all, and a task that
runs twice writes it twice. It has the number of the plan that it belongs to, its own name, a
checksum of each array, and a note: what its maker has to tell beside. A file that is cut off,
changed, of another plan or under another name is refused by name; whoever made it makes it again.

    magic, length of the table, checksum of plan and table      32 bytes
    table, as JSON: name, note, kinds of arrays, their count, and their bytes in all
    index, ascending: of each array the digest of its key, its kind, length, place and checksum
    the arrays

A file may have an array for each of many strips, of which a task wants one: it searches the index,
and reads that one alone. An array's checksum is also of what tells it from all others, so that the
index needs none.
"""

from __future__ import annotations

import json
import os
from bisect import bisect_left
from contextlib import suppress
from dataclasses import dataclass
from hashlib import blake2b
from io import BufferedReader
from itertools import chain
from secrets import token_hex
from struct import Struct
from typing import Any, Iterable, Iterator, Mapping, Sequence

import numpy as np

Kind = np.dtype[Any]
Values = np.ndarray[Any, Kind]

MAGIC = b"overlay1"
HEAD = Struct("<8sQ16s")
ENTRY = Struct("<16s3Q8x16s")
DIGEST = 16

# Arrays begin at multiples of so many bytes, so that they can be read where they lie.
ALIGNED = 16

# How much of a file is looked at at a time.
CHUNK = 1 << 20


class Spoiled(Exception):
    """A file isn't what its maker wrote."""

    def __init__(self, name: str, reason: str):
        super().__init__(name, reason)
        self.name = name
        self.reason = reason


def digest_of(*parts: Any, more: Iterable[Any] = ()) -> bytes:
    found = blake2b(digest_size=DIGEST)
    for part in chain(parts, more):
        found.update(part)
    return found.digest()


def kind_of(told: Any) -> Kind:
    """The kind of values that a table tells: numbers, or records of named numbers."""
    held: Any = told if isinstance(told, str) else [(name, kind) for name, kind in told]
    return np.dtype(held)


def told_kind(kind: Kind) -> Any:
    return kind.str if kind.names is None else [(name, kind[name].str) for name in kind.names]


def bytes_of(values: Values) -> memoryview:
    """The bytes of an array, where they lie."""
    return (values.view(np.uint8) if len(values) else np.zeros(0, np.uint8)).data


@dataclass(frozen=True)
class Section:
    """Where an array lies in its file."""

    key: str
    kind: Kind
    length: int
    place: int
    checksum: bytes

    @property
    def size(self) -> int:
        return self.length * self.kind.itemsize


@dataclass(frozen=True)
class Table:
    """What a file tells of itself; its index begins at `base`."""

    note: Any
    kinds: Sequence[Kind]
    count: int
    base: int

    @property
    def arrays(self) -> int:
        """Where the arrays begin."""
        return self.base + self.count * ENTRY.size


def places_of(arrays: Sequence[Values]) -> list[int]:
    """Where arrays lie behind one another, and where the last one ends."""
    places, at = [], 0
    for values in arrays:
        at += -at % ALIGNED if len(values) else 0
        places.append(at)
        at += values.nbytes
    return [*places, at]


@dataclass(frozen=True)
class Folder:
    """Where the files of a plan lie, which all who take part see."""

    path: str
    plan: str

    def place(self, name: str) -> str:
        return os.path.join(self.path, name)

    def put(self, name: str, note: Any, **arrays: Values) -> None:
        """Writes a file of these arrays."""
        held = {key: np.ascontiguousarray(values) for key, values in arrays.items()}
        *places, size = places_of(list(held.values()))
        kinds = list(dict.fromkeys(values.dtype for values in held.values()))
        told = {"name": name, "note": note, "kinds": list(map(told_kind, kinds)), "count": len(held), "size": size}
        text = json.dumps(told).encode()
        text += b" " * (-(HEAD.size + len(text)) % ALIGNED)
        beside = self.place(f".{name}.{token_hex(8)}.partial")  # processes of two machines may have one number
        try:
            with open(beside, "xb") as file:
                file.write(HEAD.pack(MAGIC, len(text), digest_of(self.plan.encode(), text)))
                file.write(text)
                file.writelines(self.index(name, held, kinds, places))
                base = file.tell()
                for values, place in zip(held.values(), places):
                    file.write(bytes(base + place - file.tell()))
                    file.write(bytes_of(values))
            os.replace(beside, self.place(name))
        except BaseException:
            with suppress(OSError):
                os.unlink(beside)
            raise

    def index(self, name: str, held: Mapping[str, Values], kinds: Sequence[Kind], places: Sequence[int]) -> list[bytes]:
        """The index of a file of arrays of these kinds, at these places."""
        found = []
        for (key, values), place in zip(held.items(), places):
            checksum = self.checksum(name, key, values.dtype, len(values), [bytes_of(values)])
            found.append(ENTRY.pack(digest_of(key.encode()), kinds.index(values.dtype), len(values), place, checksum))
        return sorted(found)

    def checksum(self, name: str, key: str, kind: Kind, length: int, parts: Iterable[Any]) -> bytes:
        """The checksum of an array of a file, whose bytes are given in parts."""
        told = json.dumps([self.plan, name, key, told_kind(kind), length])
        return digest_of(told.encode(), more=parts)

    def table(self, file: BufferedReader, name: str) -> Table:
        """What an open file tells of itself."""
        head = file.read(HEAD.size)
        if len(head) < HEAD.size:
            raise Spoiled(name, "is cut off")
        magic, length, checksum = HEAD.unpack(head)
        if magic != MAGIC:
            raise Spoiled(name, "is no file of this program")
        if length > os.fstat(file.fileno()).st_size:
            raise Spoiled(name, "is cut off")
        text = file.read(length)
        if digest_of(self.plan.encode(), text) != checksum:
            raise Spoiled(name, "is of another plan, or was changed")
        told = json.loads(text)
        if told["name"] != name:
            raise Spoiled(name, f"is {told['name']} under another name")
        found = Table(told["note"], list(map(kind_of, told["kinds"])), told["count"], HEAD.size + length)
        if os.fstat(file.fileno()).st_size != found.arrays + told["size"]:
            raise Spoiled(name, "is cut off, or longer than it was")
        return found

    def opened(self, name: str) -> BufferedReader:
        try:
            return open(self.place(name), "rb")
        except FileNotFoundError as error:
            raise Spoiled(name, "isn't there") from error

    def told(self, name: str) -> Any:
        """What a file's maker has to tell."""
        with self.opened(name) as file:
            return self.table(file, name).note

    def note(self, name: str) -> Any:
        """The same; nothing where the file isn't there, or isn't of this plan."""
        with suppress(Spoiled):
            return self.told(name)
        return None

    def got(self, name: str, *keys: str) -> list[Values]:
        """These arrays of a file, each as it was written."""
        with self.opened(name) as file:
            table = self.table(file, name)
            return [self.array(file, name, section_of(file, name, table, key)) for key in keys]

    def lying(self, name: str, *keys: str) -> list[Values]:
        """The same, read where they lie, when they are looked at."""
        with self.opened(name) as file:
            table = self.table(file, name)
            return [self.mapped(file, name, section_of(file, name, table, key)) for key in keys]

    def array(self, file: BufferedReader, name: str, section: Section) -> Values:
        values = np.empty(section.length, section.kind)
        file.seek(section.place)
        if file.readinto(bytes_of(values)) != section.size:
            raise Spoiled(name, "is cut off")
        self.check(name, section, [bytes_of(values)])
        return values

    def mapped(self, file: BufferedReader, name: str, section: Section) -> Values:
        self.check(name, section, chunks(file, section.place, section.size))
        if not section.length:
            return np.empty(0, section.kind)
        return np.memmap(file, section.kind, "r", section.place, (section.length,))

    def check(self, name: str, section: Section, parts: Iterable[Any]) -> None:
        """Refuses an array that has other bytes than its maker wrote."""
        if self.checksum(name, section.key, section.kind, section.length, parts) != section.checksum:
            raise Spoiled(name, f"was changed in {section.key}")

    def remove(self, name: str) -> None:
        with suppress(FileNotFoundError):
            os.unlink(self.place(name))


def section_of(file: BufferedReader, name: str, table: Table, key: str) -> Section:
    """Where an array of a file lies, by the index."""

    def entry(k: int) -> bytes:
        return os.pread(file.fileno(), ENTRY.size, table.base + k * ENTRY.size)

    wanted = digest_of(key.encode())
    told = entry(bisect_left(range(table.count), wanted, key=entry))
    if len(told) == ENTRY.size and told.startswith(wanted):
        _, kind, length, place, checksum = ENTRY.unpack(told)
        if kind < len(table.kinds):
            found = Section(key, table.kinds[kind], length, table.arrays + place, checksum)
            if found.place + found.size <= os.fstat(file.fileno()).st_size:
                return found
    raise Spoiled(name, f"was changed in {key}")


def chunks(file: BufferedReader, place: int, size: int) -> Iterator[bytes]:
    """So many bytes of a file, piece by piece."""
    file.seek(place)
    while size > 0 and (part := file.read(min(size, CHUNK))):
        size -= len(part)
        yield part
