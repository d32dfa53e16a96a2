"""Outputs that are there whole, or else as they were: they are made in a folder beside their place,
and put there at the end."""

from __future__ import annotations

import os
import re
from contextlib import AbstractContextManager, ExitStack, contextmanager, suppress
from dataclasses import dataclass
from pathlib import Path
from stat import S_ISREG
from typing import Iterable, Iterator, TypeVar

from .faults import Fault, Refusal
from .scratch import REPLACED, scratch
from .stopping import go_on

# What the file of that ending may have beside it: parts of its format, and what readers would take
# for a part of a new file, as an index or a journal of the old one.
JOURNALS = ("-journal", "-wal", "-shm")
COMPANIONS = {
    ".shp": (".shx", ".dbf", ".prj", ".cpg", ".qix", ".sbn", ".sbx", ".idm", ".ind", ".qpj"),
    ".dbf": (".prj", ".cpg", ".qix", ".sbn", ".sbx", ".idm", ".ind", ".qpj"),
    ".tab": (".dat", ".map", ".id", ".ind"),
    ".mif": (".mid",),
    ".gml": (".xsd", ".gfs"),
}
JOURNALLED = (".gpkg", ".sqlite", ".db", ".mbtiles")

# How GDAL names a file inside an archive, and a file by the driver that reads it.
ARCHIVED = re.compile(r"(?:/vsi\w+/)+")
BY_DRIVER = re.compile(r"[A-Za-z]\w+:(.+?)(?::[^:/]*)?")

LONGEST = 4096  # bytes of a path, as Linux has it

T = TypeVar("T")

Identity = tuple[int, int]  # a file's device and its number there


def state_of(path: Path) -> list[tuple[int, int, int]]:
    """What tells whether a file was changed: of itself, and of its journal of what isn't in it yet, as
    a GeoPackage may have one."""
    found = []
    for place in (str(path), f"{path}-wal"):
        with suppress(OSError, ValueError):  # it isn't there, or its name is none
            found.append(os.stat(place))
    return [(held.st_ino, held.st_size, held.st_mtime_ns) for held in found if held.st_size and S_ISREG(held.st_mode)]


@dataclass(frozen=True)
class Target:
    """Where an output goes: the path as it was named, and the file to which that leads; whether
    something that is there is replaced; and the files that aren't, since the command reads them."""

    name: str
    path: Path
    overwrite: bool
    inputs: frozenset[Identity]

    def companions(self) -> list[Path]:
        return companions(self.path)

    def shares(self, other: Path) -> bool:
        """Whether one of both may be a part of the other."""
        return self.path in companions(other) or other in self.companions()

    def check(self, place: Path) -> None:
        """Refuses to replace an input, or what is there without leave."""
        told = self.name if place == self.path else str(place)
        if identity(place) in self.inputs:
            raise Refusal(told, "is an input")
        if os.path.lexists(place) and not self.overwrite:
            raise Refusal(told, "is there already; --overwrite replaces it")


def companions(path: Path) -> list[Path]:
    """What a file may have beside it."""
    ending = path.suffix.lower()
    beside = [path.with_suffix(other) for other in COMPANIONS.get(ending, ())]
    journals = JOURNALS if ending in JOURNALLED else ()
    return beside + [path.with_name(path.name + end) for end in journals]


def identity(path: Path) -> Identity | None:
    """What tells whether two paths lead to one file; nothing where no file is."""
    try:
        found = path.stat()
    except (OSError, ValueError):
        return None
    return found.st_dev, found.st_ino


def paths_of(name: str) -> Iterator[Path]:
    """The file that GDAL or the user names so, and the folders or the archive in which it lies."""
    archived, by_driver = ARCHIVED.match(name), BY_DRIVER.fullmatch(name)
    texts = [name]
    if archived:
        texts.append(name[archived.end() :].lstrip("{").replace("}/", "/"))
    if by_driver:
        texts.append(by_driver[1])
    for text in texts:
        if len(text) <= LONGEST:  # else it is no path, but the data itself
            path = Path(os.path.abspath(text))
            yield from (path, *path.parents)


def target_of(name: str, overwrite: bool, inputs: Iterable[str]) -> Target:
    """The place of an output, which is looked at before any work is done."""
    with_paths = (identity(path) for given in inputs for path in paths_of(given))
    path = Path(os.path.realpath(name))
    target = Target(name, path, overwrite, frozenset(found for found in with_paths if found))
    if not path.parent.is_dir():
        raise Fault(name, "its folder isn't there")
    for place in (path, *target.companions()):
        target.check(place)
    return target


@dataclass(frozen=True)
class Drafts:
    """Outputs that are made together: the folders of those that are files, and what else ends with
    them, as a transaction. `folders` tidies away, `last` ends it."""

    folders: ExitStack
    last: ExitStack
    made: list[tuple[Path, Target]]
    others: list[object]

    def folder(self, target: Target) -> Path:
        """A folder for everything that an output consists of."""
        try:
            folder = self.folders.enter_context(scratch(target.path.parent))
        except OSError as error:
            raise Fault(target.name, f"can't be written beside: {error.strerror}") from error
        self.made.append((folder, target))
        return folder

    def within(self, other: AbstractContextManager[T]) -> T:
        """Begins what ends when all files are in place, and which takes them back by raising."""
        self.others.append(other)
        return self.last.enter_context(other)

    def in_one_step(self) -> bool:
        """Whether there is but one file, and nothing beside it."""
        return len(self.made) == 1 and not self.others


@contextmanager
def drafts() -> Iterator[Drafts]:
    """Outputs that are put in place at the end, all of them or none.

    Until then what is there is as it was. The folders go whatever happens, but for a kill that no
    program hears of: that leaves them to the next run.
    """
    with ExitStack() as folders, ExitStack() as last:
        held = Drafts(folders, last, [], [])
        yield held
        with in_place(held):
            last.close()


@contextmanager
def draft(target: Target) -> Iterator[Path]:
    """A folder for everything that one output consists of."""
    with drafts() as held, blamed(target):
        yield held.folder(target)


@contextmanager
def blamed(target: Target) -> Iterator[None]:
    """What the system can't do within is the target's fault."""
    try:
        yield
    except OSError as error:
        raise Fault(target.name, error.strerror) from error


@contextmanager
def in_place(held: Drafts) -> Iterator[None]:
    """Puts all parts in their places, and what was there back if that fails, or what is done
    within. From the first step on no signal stops it."""
    asked = []
    for folder, target in held.made:
        with blamed(target):
            asked.append((target, moves(folder, target, held.in_one_step())))
    go_on()
    with ExitStack() as back:
        for target, steps in asked:
            with blamed(target):
                carry_out(steps, back)
        yield
        back.pop_all()
    for _, target in held.made:
        with blamed(target):
            sync(target.path.parent)


def moves(folder: Path, target: Target, in_one_step: bool) -> dict[Path, Path]:
    """Where to each part goes, and before that each old one; all that is new is on the disk then. A
    single file changes in one step; several do one after another, and the one by which readers find
    the others goes first and comes last."""
    parts = sorted(folder.iterdir(), key=lambda part: (part.name == target.path.name, part.name))
    places = [target.path.parent / part.name for part in parts]
    stale = [place for place in {target.path, *target.companions(), *places} if os.path.lexists(place)]
    for place in stale:
        target.check(place)
    for part in folder.rglob("*"):
        sync(part)
    if in_one_step and places == [target.path] and not target.path.is_dir() and set(stale) <= {target.path}:
        return dict(zip(parts, places))
    stale.sort(key=lambda place: place != target.path)
    aside = folder / REPLACED
    aside.mkdir()
    return {**{old: aside / old.name for old in stale}, **dict(zip(parts, places))}


def carry_out(steps: dict[Path, Path], back: ExitStack) -> None:
    """Moves the files, and has `back` move them back."""
    for source, place in steps.items():
        os.replace(source, place)
        back.callback(os.replace, place, source)


def sync(path: Path) -> None:
    """Has the system write to its disk what a file has, or which names a folder has."""
    number = os.open(path, os.O_RDONLY)
    try:
        # some file systems can't for folders
        with suppress(*((OSError,) if path.is_dir() else ())):
            os.fsync(number)
    finally:
        os.close(number)
