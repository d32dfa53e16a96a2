"""What ends a command: one line with the name of what was at fault, and the reason."""

from __future__ import annotations

FAILED = 1
REFUSED = 3
FOUND = 4


class Fault(Exception):
    """A file, a program or an output failed. Exit status 1."""

    status = FAILED

    def __init__(self, name: str, reason: object):
        super().__init__(name, reason)
        self.name = name
        self.reason = " ".join(str(reason).split())

    def __str__(self) -> str:
        return f"{self.name}: {self.reason}"


class OutOfMemory(Fault):
    """There isn't enough memory. Exit status 1."""

    def __init__(self) -> None:
        super().__init__("overlay-gis", "out of memory")

    def __str__(self) -> str:
        return self.reason


def not_there(error: ImportError) -> Fault:
    """The fault that a package isn't there."""
    return Fault(
        str(error.name),
        (
            "can't be imported; Debian and Ubuntu have it by: apt-get install python3-gdal"
            " python3-shapely"
        ),
    )


class Refusal(Fault):
    """The input can be read, and can't be answered as it was asked. Exit status 3."""

    status = REFUSED
