"""What the program is asked about layers on a grid, and what its answers have to be."""

from __future__ import annotations

from contextlib import ExitStack, contextmanager
from dataclasses import dataclass
from typing import Iterator, Sequence

from .columns import Columns, Numbers
from .faults import Fault, Refusal
from .layers import Source, Survey
from .program import (
    AREA,
    COVERED,
    DOUBT,
    FACES,
    PROGRAM,
    STEPS,
    Asked,
    AskedLibrary,
    Report,
    Text,
    asked,
    memory,
    result_in,
    rows_of,
)
from .rings import Gridded
from .rows import Rows
from .stopping import unbroken
from .texts import checked, write_polygons


@dataclass(frozen=True)
class Layer:
    """A layer on the grid, what its features are, and its text."""

    source: Source
    seen: Survey
    grid: Gridded
    text: Text


@dataclass(frozen=True)
class Measures:
    """Twice the area of a layer as it was rounded with another one, and how many steps the routes
    of its segments have: one, and one more for each pixel that a segment is led through."""

    twice: int
    steps: int


@dataclass(frozen=True)
class Question:
    """A command on some layers, at which the program is at work."""

    command: str
    layers: Sequence[Layer]
    asked: Asked | AskedLibrary

    def answer(self) -> tuple[bytes, Report]:
        """What the program answers, and the numbers that it tells."""
        text, report = self.asked.answer()
        try:
            text = checked(text, PROGRAM)
        except Refusal as error:
            raise Fault(PROGRAM, f"its answer is no text: {DOUBT}") from error
        if not text and not self.may_be_nothing(report):
            raise Fault(PROGRAM, f"answered nothing, with status 0: {DOUBT}")
        return text, report

    def may_be_nothing(self, report: Report) -> bool:
        """Whether the empty text can be the answer: to `faces`, where there are no segments, or
        where it tells no rows."""
        if self.command != FACES:
            return False
        return not any(layer.grid.segments for layer in self.layers) or report.get("rows") == (0,)

    def result(self) -> Columns[Numbers]:
        """The polygons that the program answers to an operation."""
        return result_in(self.answer()[0])

    def measured(self) -> tuple[Columns[Numbers], list[Measures]]:
        """The polygons that the program answers to an operation, and what became of both layers."""
        text, report = self.answer()
        result = result_in(text)
        areas, steps = report.get(AREA, ()), report.get(STEPS, ())
        if (len(areas), len(steps)) != (3, 2):
            raise Fault(PROGRAM, f"its report doesn't tell the areas of two layers: {DOUBT}")
        return result, list(map(Measures, areas, steps))

    def rows(self) -> Rows:
        """The rows that the program answers to `faces`, of which it tells the number."""
        text, report = self.answer()
        rows = rows_of(text, len(self.layers))
        wanted = [len(layer.grid.layer.ids) for layer in self.layers]
        for held, count in zip(rows.members, wanted):
            if held.places.min(initial=0) < 0 or held.places.max(initial=-1) >= count:
                raise Fault(PROGRAM, f"its answer tells of a feature that no layer has: {DOUBT}")
        told = report.get("rows", ())[:1]
        if len(rows.twice) != sum(told):
            raise Fault(
                PROGRAM,
                f"has {len(rows.twice)} rows, and its report {told[0] if told else 'none'}: {DOUBT}",
            )
        return rows


@dataclass(frozen=True)
class Questions:
    """Asks the program, as long as `room` is open; `none` is the text of no layer."""

    none: Text
    room: ExitStack

    def ask(self, command: str, layers: Sequence[Layer], option: str = "") -> Question:
        """Asks the program, which begins at once: for the faces of all these layers, or else on two
        layers, or on one and an empty one, with an option."""
        texts = [layer.text for layer in layers]
        if command != FACES:
            texts = (texts + [self.none, self.none])[:2]
        return self.begun(command, texts, layers, sum(layer.grid.segments for layer in layers), option)

    def begun(self, command: str, texts: Sequence[Text], layers: Sequence[Layer], segments: int, option: str) -> Question:
        """A question on these texts, which have the layers and so many segments."""
        with unbroken():
            begun = asked(command, *texts, segments=segments, option=option)
            self.room.enter_context(begun)
        return Question(command, layers, begun)

    def beyond(self, shapes: Columns[Numbers], layer: Layer) -> Question:
        """Asks for what some shapes on the grid have beyond all that a layer's features cover."""
        text = text_of("shapes", shapes)
        self.room.callback(text.file.close)
        return self.begun("difference", [text, layer.text], [layer], layer.grid.segments + len(shapes.x), COVERED)


@contextmanager
def questions() -> Iterator[Questions]:
    """Within, the program may be asked; at the end no run of it goes on."""
    with ExitStack() as room:
        yield Questions(Text("none", memory("none")), room)


def text_of(name: str, layer: Columns[Numbers]) -> Text:
    """A layer's text in the memory."""
    file = memory("layer")
    write_polygons(file, layer)
    file.flush()
    return Text(name, file)
