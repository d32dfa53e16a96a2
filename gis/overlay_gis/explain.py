"""explain: where in a text a refusal's offset is."""

from __future__ import annotations

from argparse import ArgumentParser, Namespace

from . import options
from .faults import Fault, Refusal
from .messages import tell

EXAMPLE = "overlay-gis explain parcels.wkt 1017    # after: overlay: A: 1 syntax at 1017"

# Lines shown before and behind the place, and bytes of a line to either side.
LINES = 2
REACH = 36

BYTE_ORDER_MARKS = {b"\xef\xbb\xbf": "UTF-8", b"\xff\xfe": "UTF-16", b"\xfe\xff": "UTF-16"}


def add_arguments(parser: ArgumentParser) -> None:
    parser.add_argument(
        "text", metavar="TEXT", type=options.given, help="the file that overlay refused"
    )
    parser.add_argument(
        "offset",
        metavar="OFFSET",
        type=int,
        help="the number behind `at` in the refusal, in bytes from 0",
    )


def shown(line: bytes, start: int, end: int) -> str:
    """Bytes of a line as one sign each, so that columns are counted right."""
    return "".join(chr(byte) if 32 <= byte < 127 else " " if byte == 9 else "?" for byte in line[start:end])


def place(data: bytes, offset: int) -> tuple[int, int]:
    """The line and the column of an offset, both from 1."""
    return data.count(b"\n", 0, offset) + 1, offset - (data.rfind(b"\n", 0, offset) + 1) + 1


def words_on(data: bytes, offset: int) -> str:
    mark = next((name for mark, name in BYTE_ORDER_MARKS.items() if data.startswith(mark)), None)
    if offset == len(data):
        return "the end of the text, before it was complete"
    if offset < 3 and mark:
        return f"a byte order mark of {mark}: save the text without it, as ASCII"
    byte = data[offset]
    return f"the byte {chr(byte)!r}" if 32 <= byte < 127 else f"the byte {byte}"


def lines_round(data: bytes, offset: int) -> list[str]:
    line, column = place(data, offset)
    lines = data.split(b"\n")
    start = max(0, column - 1 - REACH)
    told = []
    for number in range(max(1, line - LINES), min(len(lines), line + LINES) + 1):
        text = lines[number - 1].rstrip(b"\r")
        first = start if number == line else 0
        before, behind = "..." if first else "   ", "..." if len(text) > first + 2 * REACH else ""
        told.append(
            f"{number:>7} | {before}{shown(text, first, first + 2 * REACH)}{behind}".rstrip()
        )
        if number == line:
            told.append(" " * (7 + 3 + 3 + column - 1 - start) + "^")
    return told


def main(arguments: Namespace) -> int:
    try:
        with open(arguments.text, "rb") as file:
            data = file.read()
    except OSError as error:
        raise Fault(arguments.text, error.strerror) from error
    if not 0 <= arguments.offset <= len(data):
        raise Refusal(arguments.text, f"has {len(data)} bytes, so no offset {arguments.offset}")
    line, column = place(data, arguments.offset)
    tell(f"{arguments.text}: line {line}, column {column}: {words_on(data, arguments.offset)}")
    for told in lines_round(data, arguments.offset):
        tell(told)
    return 0
