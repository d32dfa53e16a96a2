"""The tasks of a map by strips. Each reads files of other tasks and writes one, by a call of the
proved library; it may run on any machine that sees the folder, twice, or at once with itself.

    read       features of a part                  -> its points, and what is told of them
    scatter    read                                -> on the grid: its segments, for each strip they reach
    round      scatter of all parts                -> edges inside a strip, what crosses its borders
    bridge     round, bridge of the next strip     -> edges to later strips, what goes on to the left
    edges      round, bridge                       -> edges that begin in a strip, but for those that bound nothing
    come       come, edges of the strip before     -> edges that come into a strip from the left
    labels     come, edges                         -> directed edges of the answer along those of a strip
    reach      reach, labels of the strip before   -> directed edges that come into a strip from the left
    close      reach, labels                       -> polygons that are closed in a strip, edges that are open
    join       reach, close or join of both halves -> the same of two spans as one, up to that of all strips
    write      close, join of all that have it     -> polygons that begin in a strip, in their order
"""

from __future__ import annotations

import time
from functools import partial
from typing import Any, Callable, NamedTuple

import numpy as np

from . import gdal_state
from .columns import Columns, Mask
from .faults import Fault, Refusal
from .layers import Kind
from .messages import unheard
from .rings import gridded
from .sections import Folder, Spoiled, Values
from .strip_library import operation, strips
from .strip_measures import borders, by_class, lengths_of, twice_area
from .strip_plan import Plan, Span, Work, sampled, spans_of
from .strip_polygons import Polygons
from .surveys import NAMED
from .vanishing import vanished

# The parts of a layer that is read, and the polygons of an answer.
COLUMNS = ("x", "y", "rings", "polygons", "features", "ids")


class Step(NamedTuple):
    """A task: what it does, and of which part or strip."""

    phase: str
    number: int

    @property
    def file(self) -> str:
        return f"{self.phase}.{self.number}"


# How a task ended: it is done; the layers are refused; something failed; a file that it read isn't
# what its maker wrote.
DONE, REFUSED, FAILED, SPOILED = "done", "refused", "failed", "spoiled"


class Outcome(NamedTuple):
    """How a task ended: its note, if it is done, else a name and a reason; the most bytes that its
    process has had so far, and how many seconds of a processor it took."""

    step: Step
    kind: str
    note: Any = None
    name: str = ""
    reason: str = ""
    memory: int = 0
    seconds: float = 0.0


def carried_out(work: Work, step: Step, *before: Outcome) -> Outcome:
    """Does a task, unless it was done already, or one that it needs has failed."""
    for outcome in before:
        if outcome.kind != DONE:
            return outcome._replace(step=step, memory=0, seconds=0.0)
    began = time.thread_time()
    ended = partial(Outcome, step)
    with unheard(), gdal_state.of_a_verb(), np.errstate(all="ignore"):
        try:
            found = ended(DONE, done(work, step))
        except Spoiled as spoiled:
            found = ended(SPOILED, None, spoiled.name, spoiled.reason)
        except Refusal as refusal:
            found = ended(REFUSED, None, refusal.name, refusal.reason)
        except Fault as fault:
            found = ended(FAILED, None, fault.name, fault.reason)
        except strips().StripError as error:
            found = ended(FAILED, None, step.file, f"the library refuses its files: {error}")
        except MemoryError:
            found = ended(FAILED, None, step.file, "out of memory: a smaller --memory makes smaller strips")
        except OSError as error:
            found = ended(FAILED, None, error.filename or work.folder, str(error.strerror))
    return found._replace(memory=most_memory(), seconds=time.thread_time() - began)


def done(work: Work, step: Step) -> Any:
    """The note of a task's file, which is made if it isn't there."""
    folder = folder_of(work, step.phase)
    note = folder.note(step.file)
    if note is None:
        note, arrays = PHASES[step.phase](work, step.number)
        folder.put(step.file, note, **arrays)
    return note


def folder_of(work: Work, phase: str) -> Folder:
    return work.read if phase == READ else work.held


def most_memory() -> int:
    """The most bytes that this process has had so far."""
    with open("/proc/self/status", encoding="ascii") as file:
        return next((1024 * int(line.split()[1]) for line in file if line.startswith("VmHWM:")), 0)


Made = tuple[Any, dict[str, Values]]  # a task's note, and the arrays of its file


def planned(work: Work) -> Plan:
    assert work.plan is not None
    return work.plan


def read(work: Work, number: int) -> Made:
    layer, first, last = work.reading.parts[number]
    held = work.reading.inputs[layer]
    seen = held.part(first, last).survey()
    held.check()
    found = seen.sound
    box = seen.box(held.name)
    note = {
        "features": seen.features,
        "points": len(found.x),
        "rings": len(found.rings) - 1,
        "area": seen.area(),
        "box": box and [box.left, box.low, box.right, box.high, box.farthest],
        "deep": seen.deep,
        "kinds": {kind.name: seen.of(kind)[: NAMED + 1] for kind in Kind if kind != Kind.SOUND},
        "names": seen.names[:1],
        "sample": sampled(found.x, found.rings, number).tolist(),
    }
    return note, {key: getattr(found, key) for key in COLUMNS}


def scatter(work: Work, number: int) -> Made:
    plan = planned(work)
    grid = gridded(Columns(*work.read.got(f"read.{number}", *COLUMNS)), 0.0, plan.frame)
    layer, gone = grid.layer, vanished(grid.layer)
    points = np.stack((layer.x, layer.y), axis=1).astype("<i4").ravel()
    part = strips().Part(work.reading.parts[number].layer, points, layer.rings)
    lines = strips().scatter(plan.cuts, part, plan.firsts[number])
    moves = grid.moves
    note = {
        "segments": grid.segments,
        "polygons": grid.polygons,
        "closed": grid.closed[: NAMED + 1],
        "dropped": grid.dropped[: NAMED + 1],
        "gone": gone[: NAMED + 1],
        "gone_count": len(gone),
        "moves": [moves.vertices, moves.moved, moves.mean * moves.moved, moves.greatest],
        "twice": grid.twice_area(),
    }
    return note, {str(strip): held for strip, held in enumerate(lines)}


def round_strip(work: Work, strip: int) -> Made:
    plan = planned(work)
    lines = [work.held.got(f"scatter.{number}", str(strip))[0] for number in range(len(work.reading.parts))]
    all_lines = np.concatenate([np.empty(0, strips().LINE), *lines])
    del lines
    found = strips().round_strip(plan.cuts, strip, all_lines)
    here = all_lines[np.searchsorted(plan.cuts, all_lines["ax"], "right") == strip]
    of_layers = [here[here["layer"] == layer] for layer in range(len(COUNTS))]
    note = {
        "lengths": [by_class(lengths_of(held)) for held in of_layers],
        "borders": [by_class(lengths_of(borders(held))) for held in of_layers],
    }
    return note, found._asdict()


def bridge(work: Work, strip: int) -> Made:
    carried = None
    if strip + 1 < planned(work).strips:
        (carried,) = work.held.got(f"bridge.{strip + 1}", "carried")
    left, right = work.held.got(f"round.{strip}", "left", "right")
    found = strips().bridge(strips().Rounded(None, left, right), carried)
    return {}, found._asdict()


def edges(work: Work, strip: int) -> Made:
    (inner,), (across,) = work.held.got(f"round.{strip}", "inner"), work.held.got(f"bridge.{strip}", "across")
    found = strips().merge(inner, across)
    note = {"edges": len(found), "steps": [int(found[name].sum(dtype=np.int64)) for name in COUNTS]}
    return note, {"own": strips().changing(found)}


def come(work: Work, strip: int) -> Made:
    """The first strip has none."""
    found = np.empty(0, strips().COUNTED)
    if strip:
        (coming,), (own,) = work.held.got(f"come.{strip - 1}", "come"), work.held.got(f"edges.{strip - 1}", "own")
        found = strips().going_on(planned(work).cuts, strip - 1, own, coming)
    return {}, {"come": found}


def labels(work: Work, strip: int) -> Made:
    plan = planned(work)
    (coming,), (own,) = work.held.got(f"come.{strip}", "come"), work.held.got(f"edges.{strip}", "own")
    found = strips().labels(operation(plan.operation), own, coming)
    alone = (strips().labels(operation("union"), of_layer(own, name), of_layer(coming, name)) for name in COUNTS)
    twice = list(map(twice_area, alone))
    return {"edges": len(found), "twice": twice}, {"directed": found, "over": found[are_over(work, strip, found)]}


def of_layer(edges: Values, name: str) -> Values:
    """The edges that a layer has an odd number of times, as if there were no other layer."""
    found: Values = edges[edges[name] % 2 == 1]
    for other in COUNTS:
        if other != name:
            found[other] = 0
    return found


def reach(work: Work, strip: int) -> Made:
    """The first strip has none."""
    found = np.empty(0, strips().DIRECTED)
    if strip:
        (coming,), (over,) = work.held.got(f"reach.{strip - 1}", "reach"), work.held.got(f"labels.{strip - 1}", "over")
        found = np.concatenate([coming[are_over(work, strip - 1, coming)], over])
    return {"edges": len(found)}, {"reach": found}


def are_over(work: Work, strip: int, directed: Values) -> Mask:
    """Which edges go over the border on the right of a strip."""
    found: Mask = np.searchsorted(planned(work).cuts, np.maximum(directed["ax"], directed["bx"]), "right") > strip
    return found


def known_to(work: Work, strip: int, *own: tuple[Step, str]) -> Values:
    """Directed edges in order: those that come into a strip, and others, which begin there or later, by
    the tasks that have told them."""
    parts = (work.held.got(step.file, key)[0] for step, key in ((Step("reach", strip), "reach"), *own))
    return in_order(np.concatenate(list(parts)))


def in_order(directed: Values) -> Values:
    """Directed edges by their starts, then by their ends."""
    found: Values = directed[np.lexsort([directed[name] for name in ("by", "bx", "ay", "ax")])]
    return found


def close(work: Work, strip: int) -> Made:
    return closed(work, Span(strip, strip + 1), (Step("labels", strip), "directed"))


def join(work: Work, number: int) -> Made:
    span = span_of(work, number)
    return closed(work, span, *((step_of(work, half), "open") for half in span.halves))


def span_of(work: Work, number: int) -> Span:
    """What a join has."""
    strip_count = planned(work).strips
    return spans_of(strip_count)[strip_count + number]


def step_of(work: Work, number: int) -> Step:
    """What closes the edges of the span with this number."""
    strip_count = planned(work).strips
    return Step("close", number) if number < strip_count else Step("join", number - strip_count)


def closed(work: Work, span: Span, *own: tuple[Step, str]) -> Made:
    """Of the edges that a span knows: the polygons of the closed ones, for each strip those whose first
    vertex lies there, and the open ones."""
    cuts = planned(work).cuts
    edges, still_open = strips().closed(cuts, span.first, span.past, known_to(work, span.first, *own))
    made = Polygons(*strips().polygons(edges))
    note = {"edges": len(edges), "polygons": made.total, "open": len(still_open)}
    arrays = {}
    for strip, held in enumerate(made.parted(cuts[span.first : span.past - 1]), span.first):
        arrays.update({f"{key}.{strip}": values for key, values in held._asdict().items()})
    return note, {**arrays, "open": still_open}


def write(work: Work, strip: int) -> Made:
    keys = [f"{key}.{strip}" for key in Polygons._fields]
    made = [Polygons(*work.held.got(step.file, *keys)) for step in needs(work, Step("write", strip))]
    found = Polygons(*strips().written(made))
    return {"polygons": found.total}, found._asdict()


# Of an edge how often each layer has it.
COUNTS = ("in_a", "in_b")

READ = "read"
PHASES: dict[str, Callable[[Work, int], Made]] = {
    READ: read,
    "scatter": scatter,
    "round": round_strip,
    "bridge": bridge,
    "edges": edges,
    "come": come,
    "labels": labels,
    "reach": reach,
    "close": close,
    "join": join,
    "write": write,
}


def needs(work: Work, step: Step) -> list[Step]:
    """The tasks whose files a task reads."""
    phase, number = step
    last = work.plan is not None and number + 1 == work.plan.strips
    if phase == "scatter":
        return [Step(READ, number)]
    if phase == "round":
        return [Step("scatter", part) for part in range(len(work.reading.parts))]
    if phase == "bridge":
        return [Step("round", number)] + ([] if last else [Step("bridge", number + 1)])
    if phase == "edges":
        return [Step("round", number), Step("bridge", number)]
    if phase in ("come", "reach"):
        own = {"come": "edges", "reach": "labels"}[phase]
        return [Step(phase, number - 1), Step(own, number - 1)] if number else []
    if phase == "labels":
        return [Step("come", number), Step("edges", number)]
    if phase == "close":
        return [Step("reach", number), Step("labels", number)]
    if phase == "join":
        span = span_of(work, number)
        return [Step("reach", span.first), *(step_of(work, half) for half in span.halves)]
    if phase == "write":
        spans = spans_of(planned(work).strips)
        return [step_of(work, k) for k, span in enumerate(spans) if span.first <= number < span.past]
    return []


def steps(work: Work, phase: str) -> list[Step]:
    """The tasks of a phase, in the order in which they are wanted: none needs a later one."""
    if phase in (READ, "scatter"):
        return [Step(phase, number) for number in range(len(work.reading.parts))]
    count = planned(work).strips
    if phase == "join":
        return [Step(phase, number) for number in range(count - 1)]
    found = [Step(phase, strip) for strip in range(count)]
    return found[::-1] if phase in ("round", "bridge", "edges") else found
