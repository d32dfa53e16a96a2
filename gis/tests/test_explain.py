"""explain: line, column and the lines round an offset."""

import subprocess
from pathlib import Path

import pytest

TEXT = "POLYGON ((0 0, 4 0, 4 4, 0 0))\nPOLYGON ((0 0, 4.5 0, 4 4, 0 0))\r\nPOLYGON EMPTY\n"


def test_the_place_that_the_program_tells(gis, program):
    Path("a.wkt").write_bytes(TEXT.encode())
    told = subprocess.run([program, "union", "a.wkt", "/dev/null"], stderr=subprocess.PIPE, check=False).stderr.decode()
    assert told == "overlay: A: 1 syntax at 47\n"
    answer = gis("explain", "a.wkt", "47")
    lines = answer.out.splitlines()
    assert answer.status == 0 and lines[0] == "a.wkt: line 2, column 17: the byte '.'"
    assert lines[2][lines[3].index("^")] == "." and "4.5" in lines[2]
    assert lines[1].endswith("POLYGON ((0 0, 4 0, 4 4, 0 0))") and lines[4].endswith("POLYGON EMPTY")


def test_the_end_of_a_text(gis):
    Path("a.wkt").write_bytes(b"POLYGON ((0 0")
    assert gis("explain", "a.wkt", "13").out.startswith(
        "a.wkt: line 1, column 14: the end of the text, before it was complete"
    )


@pytest.mark.parametrize(
    "head, words", [(b"\xef\xbb\xbf", "a byte order mark of UTF-8"), (b"\xff\xfe", "a byte order mark of UTF-16")]
)
def test_byte_order_marks(gis, head, words):
    Path("a.wkt").write_bytes(head + b"POLYGON EMPTY")
    assert words in gis("explain", "a.wkt", "0").out


def test_a_long_line_is_cut(gis):
    Path("a.wkt").write_bytes(b"POLYGON ((" + b"0 0, " * 100_000 + b"x))")
    lines = gis("explain", "a.wkt", "500010").out.splitlines()
    assert max(map(len, lines)) < 100 and lines[1][lines[2].index("^")] == "x"


@pytest.mark.parametrize("offset", ["-1", "3"])
def test_offsets_outside(gis, offset):
    Path("a.wkt").write_bytes(b"ab")
    answer = gis("explain", "a.wkt", "--", offset) if offset < "0" else gis("explain", "a.wkt", offset)
    assert answer.status == 3 and f"a.wkt: has 2 bytes, so no offset {offset}" in answer.err


def test_no_file(gis):
    assert gis("explain", "none.wkt", "0").err == "overlay-gis: none.wkt: No such file or directory\n"
