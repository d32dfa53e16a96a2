"""Rounding onto the grid on whole arrays, exactly: the nearest grid point, halves upward and to the
right.

With ε = 2^-53 and the grid's unit u and origin o, the wanted number is floor(S) for
S = (v - o) / u + 1/2.

1. o is held as the floating-point numbers h next to it and l next to o - h, which leave at most ε
   |l|; 1 / u as i next to it.
2. s = ((v - h) - l) · i + 1/2: four operations and these two constants, each off by at most ε of
   what it gives. With W = (|v - h| + |l|) / u, s is off from S by less than 6 ε W + ε and terms in
   ε²: less than 8 ε (W + 1).
3. Where no whole number is as near to s as that, floor(s) is floor(S). The others go by whole
   numbers, in Python.
"""

from __future__ import annotations

from dataclasses import dataclass
from fractions import Fraction
from functools import cached_property
from math import lcm
from typing import Callable

import numpy as np

from .columns import POINTS, Floats, Mask, Numbers
from .faults import Refusal

# 8 ε.
SHARE = 2.0**-50

# 1 / u has the error that step 2 counts only where it is a normal number.
LEAST_NORMAL = float(np.finfo(np.float64).tiny)

# Up to this, floating-point numbers have all whole numbers.
WHOLE = 1 << 53


@dataclass(frozen=True)
class Axis:
    """One axis of a grid: the coordinate that becomes 0, and the unit."""

    origin: Fraction
    unit: Fraction

    def estimate(self, values: Floats) -> tuple[Floats, Mask]:
        """For each number the whole number next to it as floating-point numbers tell, and whether
        that is known to be right."""
        try:
            high = float(self.origin)
            low = float(self.origin - Fraction(high))
            inverse = float(1 / self.unit)
        except OverflowError:
            return np.zeros_like(values), np.zeros(len(values), bool)
        guess = values - high
        farthest = max(guess.max(initial=0.0), -guess.min(initial=0.0))
        bound = SHARE * ((farthest + abs(low)) * inverse + 1)
        guess -= low
        guess *= inverse
        guess += 0.5
        room = np.rint(guess)
        room -= guess
        sure = (np.abs(room, out=room) > bound) & (inverse >= LEAST_NORMAL)
        return np.floor(guess, out=guess), sure

    @cached_property
    def exact(self) -> Callable[[float], int]:
        """The call that gives the whole number next to a number, by whole numbers alone."""
        p, q = self.unit.numerator, self.unit.denominator
        e, f = (self.origin / self.unit - Fraction(1, 2)).as_integer_ratio()
        k, l, m = q * f, p * e, p * f

        def place(value: float) -> int:
            a, b = value.as_integer_ratio()
            return (a * k - b * l) // (b * m)

        return place

    def rounded(self, values: Floats) -> Numbers:
        """The whole numbers next to some numbers that the grid has room for."""
        found = np.empty(len(values), np.int64)
        for at in range(0, len(values), POINTS):
            found[at : at + POINTS] = self.rounded_together(values[at : at + POINTS])
        return found

    def rounded_together(self, values: Floats) -> Numbers:
        guess, sure = self.estimate(values)
        doubtful = np.flatnonzero(~sure)
        guess[doubtful] = 0  # which may be more than a whole number holds
        found = guess.astype(np.int64)
        found[doubtful] = list(map(self.exact, values[doubtful].tolist()))
        return found

    @cached_property
    def ratio(self) -> tuple[int, int, int]:
        """p, e and q, for which the grid point k has the coordinate (k p + e) / q."""
        q = lcm(self.unit.denominator, self.origin.denominator)
        return int(self.unit * q), int(self.origin * q), q

    def place(self, number: int) -> float:
        """The floating-point number next to the exact coordinate of a grid point."""
        p, e, q = self.ratio
        try:
            return (number * p + e) / q
        except OverflowError as error:
            raise Refusal("the grid", f"its coordinate {number} stands for a place beyond all floating-point numbers") from error

    def placed(self, numbers: Numbers) -> Floats:
        """The same for many: a quotient of whole numbers up to 2^53 is rounded once, as it is
        here."""
        p, e, q = self.ratio
        greatest = int(np.abs(numbers).max(initial=0)) * p + abs(e)
        if max(greatest, p, q) <= WHOLE:
            return (numbers * p + e) / q
        return np.array(list(map(self.place, numbers.tolist())), np.float64)
