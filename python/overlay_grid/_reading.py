"""How layers are read whose features overlap."""

from __future__ import annotations

from typing import Literal

Reading = Literal["covered", "parity"]

# A point lies in a layer where one of its features at least covers it; or where an odd number of them does.
COVERED: Reading = "covered"
PARITY: Reading = "parity"


def is_covered(reading: str) -> bool:
    """Whether layers are to be read as covered; another word than those of the readings is refused.

    >>> is_covered("covered"), is_covered("parity")
    (True, False)
    """
    if reading not in (COVERED, PARITY):
        raise ValueError(f"reading: {reading!r} is neither {COVERED!r} nor {PARITY!r}")
    return reading == COVERED
