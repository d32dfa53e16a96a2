"""Hidden folders for what a run makes before its output is whole. They go with the run; one that a
kill left is taken away by the next run that makes one beside it."""

from __future__ import annotations

import fcntl
import os
import shutil
import time
from contextlib import contextmanager, suppress
from pathlib import Path
from tempfile import TemporaryDirectory
from typing import Iterator

PREFIX, SUFFIX = ".overlay-gis-", ".partial"

# Seconds for which a folder counts as new: whoever made it may not have locked it yet.
NEW = 60

# Where parts of an old output lie while new ones take their places.
REPLACED = "replaced"


@contextmanager
def locked(folder: Path) -> Iterator[bool]:
    """Whether this process has the folder's lock within, which one alone can have, as long as it
    runs. A file system without locks gives none."""
    number = os.open(folder, os.O_RDONLY | os.O_DIRECTORY)
    try:
        try:
            fcntl.flock(number, fcntl.LOCK_EX | fcntl.LOCK_NB)
        except OSError:
            yield False
        else:
            yield True
    finally:
        os.close(number)


def sweep(place: Path) -> None:
    """Takes away the folders there whose runs have ended without doing so, but none that holds parts
    of an old output: a kill while parts change places leaves them nowhere else."""
    for left in place.glob(f"{PREFIX}*{SUFFIX}"):
        with suppress(OSError):
            if time.time() - left.stat().st_mtime > NEW and not any((left / REPLACED).glob("*")):
                with locked(left) as has_ended:
                    if has_ended:
                        shutil.rmtree(left, ignore_errors=True)


@contextmanager
def scratch(place: Path) -> Iterator[Path]:
    """A folder at that place for as long as it is needed."""
    sweep(place)
    with TemporaryDirectory(prefix=PREFIX, suffix=SUFFIX, dir=place) as made, locked(Path(made)):
        yield Path(made)
