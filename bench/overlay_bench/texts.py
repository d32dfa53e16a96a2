"""compares the answers to broken layer texts with the exact reference: the refusal, its number and its offset

Texts are made valid, then cut off, with bytes exchanged, dropped or put in, and with tokens exchanged, and run by `edges` as
either layer, the other one being empty or valid. A text that is accepted has to give the reference's edges. One that differs
is kept in bench/out with its number and its seed, cut down to a small one that still differs, and the exit status is 1. A share of
the texts (--programs) is run by the program, the others by the library for Python.
"""
from __future__ import annotations

import argparse
import os
import random
import re
import tempfile
import time
from collections import Counter
from collections.abc import Sequence

import reference

from . import answering, programs, side_by_side
from .answering import Asked, Plan, Texts
from .cutting import cut
from .programs import Answer

LIMIT = reference.COORDINATE_LIMIT
TOKEN = re.compile(rb"[A-Za-z]+|-?[0-9]+|[ \t\r\n]+|.", re.S)
STRANGE = b" \t\r\n(),-+.0123456789eEpPmMyYlLzZ\x00\x0b\x0c\x7f\xc8\xef\xff"
PLAN = Plan("edges", 2_097_153, 1, False)  # a side that the whole range can be answered by
MOST = 20


def add_arguments(parser: argparse.ArgumentParser) -> None:
    side_by_side.add_arguments(parser, "texts", 2000)
    answering.add_share(parser)


class Maker:
    """Texts by chance."""

    def __init__(self, rng: random.Random) -> None:
        self.rng = rng

    def cased(self, word: bytes) -> bytes:
        return bytes(self.rng.choice([c, c + 32]) for c in word) if self.rng.random() < 0.3 else word

    def space(self, least: int = 0) -> bytes:
        count = least if self.rng.random() < 0.6 else self.rng.randint(least, least + 2)
        return bytes(self.rng.choice(b"  \t\r\n") for _ in range(count))

    def number(self, value: int) -> bytes:
        zeros = b"0" * self.rng.choice([1, 2, 9, 40]) if self.rng.random() < 0.05 else b""
        minus = value < 0 or (value == 0 and self.rng.random() < 0.1)
        return (b"-" if minus else b"") + zeros + b"%d" % abs(value)

    def coordinate(self) -> int:
        chance = self.rng.random()
        if chance < 0.93:
            return self.rng.randint(-9, 9)
        if chance < 0.97:
            return self.rng.choice([-LIMIT, LIMIT, LIMIT - 1])
        if chance < 0.99:
            return self.rng.choice([LIMIT + 1, -LIMIT - 1])
        return self.rng.choice([2**31, 2**31 - 1, 2**32 + 3, 10**20, -(2**32), 2**64, -(2**63) - 1])

    def listed(self, items: Sequence[bytes]) -> bytes:
        text = b"(" + self.space()
        for number, item in enumerate(items):
            text += (self.space() + b"," + self.space() if number else b"") + item
        return text + self.space() + b")"

    def ring(self) -> bytes:
        points = [(self.coordinate(), self.coordinate()) for _ in range(self.rng.choice([1, 2, 3, 3, 3, 4, 5]))]
        if self.rng.random() < 0.2:
            points.append(points[-1])
        if self.rng.random() < 0.93:
            points.append(points[0])
        return self.listed([self.number(x) + self.space(1) + self.number(y) for x, y in points])

    def body(self) -> bytes:
        return self.listed([self.ring() for _ in range(self.rng.choice([1, 1, 2, 3]))])

    def geometry(self) -> bytes:
        chance = self.rng.random()
        word = self.cased(b"POLYGON" if chance < 0.65 else b"MULTIPOLYGON")
        if chance < 0.08 or chance > 0.94:
            return word + self.space(1) + self.cased(b"EMPTY")
        if chance < 0.65:
            return word + self.space() + self.body()
        return word + self.space() + self.listed([self.body() for _ in range(self.rng.choice([1, 2, 3]))])

    def layer(self) -> bytes:
        text = self.space()
        for number in range(self.rng.choice([0, 1, 1, 1, 2, 3])):
            text += (self.space(1) if number else b"") + self.geometry()
        return text + self.space()

    def broken(self, text: bytes) -> bytes:
        kind, at, byte = self.rng.randrange(6), self.rng.randrange(len(text) + 1), bytes([self.rng.choice(STRANGE)])
        if kind == 0:
            return text[:at]
        if kind == 1:
            return text[:at] + byte + text[at + 1:]
        if kind == 2:
            return text[:at] + byte + text[at:]
        if kind == 3:
            return text[:at] + text[at + 1:]
        tokens = TOKEN.findall(text)
        if kind == 4 or not tokens:
            return b"".join(tokens[k] for k in range(len(tokens)) if k != at % max(1, len(tokens)))
        i, j = self.rng.randrange(len(tokens)), self.rng.randrange(len(tokens))
        tokens[i], tokens[j] = tokens[j], tokens[i]
        return b"".join(tokens)


def made(number: int, seed: int) -> tuple[Texts, random.Random]:
    """Both texts, one that is mostly broken beside nothing or one that may be; and chance for what else is drawn."""
    rng = random.Random(seed * 1_000_003 + number)
    maker = Maker(rng)
    text = maker.layer()
    for _ in range(rng.choice([0, 1, 1, 2])):
        text = maker.broken(text)
    other = rng.choice([b"", b"", b"POLYGON ((0 0, 5 1, 1 5, 0 0))", maker.layer()])
    return (text, other) if rng.random() < 0.5 else (other, text), rng


def expected(texts: Texts) -> Answer:
    try:
        return Answer(0, reference.Arranged(*texts, PLAN.side).text("edges").encode(), b"")
    except reference.Fault as fault:
        return Answer(3, b"", fault.line().encode())


class Bench:
    def __init__(self, arguments: argparse.Namespace, folder: str) -> None:
        self.arguments, self.tested = arguments, answering.Tested(arguments, folder, 60)

    def one(self, number: int) -> tuple[str, str, str | None]:
        """Who was asked for one pair of texts, the kind of answer, and where it was kept if it differs."""
        texts, rng = made(number, self.arguments.seed)
        asked, wanted = self.tested.drawn(rng, self.arguments.programs), expected(texts)
        kept = None if asked.answer(texts, PLAN) == wanted else self.keep(number, texts, asked)
        return asked.name, re.sub(rb"overlay: ([AB]: )?(\d).*\n", rb"\2", wanted.err).decode() or "accepted", kept

    def cut_down(self, texts: Texts, asked: Asked) -> Texts:
        """Smaller texts that still differ."""
        def differs(first: bytes, second: bytes) -> bool:
            return asked.answer((first, second), PLAN) != expected((first, second))

        first, second = texts
        first = cut(first, lambda fewer: differs(fewer, second))
        return first, cut(second, lambda fewer: differs(first, fewer))

    def keep(self, number: int, texts: Texts, asked: Asked | None = None) -> str:
        folder = os.path.join(programs.OUT, "text-%d-%d" % (self.arguments.seed, number))
        programs.keep(folder, "", texts)
        if asked is not None:
            programs.keep(folder, "small-", self.cut_down(texts, asked))
        return os.path.relpath(folder)

    def ended(self, number: int) -> tuple[str, str, str | None]:
        """The same of a text whose process ended in the middle."""
        texts, rng = made(number, self.arguments.seed)
        return self.tested.drawn(rng, self.arguments.programs).name, "an ended process", self.keep(number, texts)


def main(arguments: argparse.Namespace) -> int:
    kinds: Counter[str] = Counter()
    asked: Counter[str] = Counter()
    wrong, start = 0, time.monotonic()
    numbers = range(arguments.first, arguments.first + arguments.texts)
    with tempfile.TemporaryDirectory() as folder:
        bench = Bench(arguments, folder)
        for number, result in side_by_side.results(bench.one, numbers, arguments.jobs, arguments.minutes):
            name, kind, kept = bench.ended(number) if isinstance(result, side_by_side.Ended) else result
            asked[name] += 1
            kinds[kind] += 1
            if kept:
                wrong += 1
                print("text %d differs: %s" % (number, kept), flush=True)
            if wrong == MOST:
                break
        for line in bench.tested.lines(lambda name: "%d texts" % asked[name]):
            print(line)
    print("%d texts from number %d, seed %d, in %.0f s: %d accepted, %s; %d differ" % (
        sum(kinds.values()), arguments.first, arguments.seed, time.monotonic() - start, kinds["accepted"],
        ", ".join("%d refused by %s" % (kinds[kind], kind) for kind in sorted(kinds) if kind != "accepted"), wrong))
    return 1 if wrong else 0
