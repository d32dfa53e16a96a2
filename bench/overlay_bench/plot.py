"""draws docs/speed.svg from bench/results: time against size for each kind of map, and for other tools beside overlay

On the left what `bench/run --record speed` measured (`union` by one worker), on the right what `bench/run --record peers` did (`common`
on the clean map): processor seconds against segments, both by powers of ten. The latest row of each kind and size counts, and of
tools the last run, so that no line of theirs joins different programs. The drawing has no date and no chance in it: the same tables give
the same bytes. With `--by PROGRAM` it also draws docs/picture.svg and docs/fill-rules.svg, from what that program answers.
"""
from __future__ import annotations

import argparse
import math
import os
from collections.abc import Callable
from dataclasses import dataclass

from . import compared, peer_tools, programs, results, rule_pictures
from .maps import HARD

PICTURE = os.path.join(programs.ROOT, "docs", "speed.svg")
HIGH, TOP, WIDE, NAMES, GAP = 330, 46, 230, 130, 70
# Each series has a colour of its own class; those that are looked for are drawn thick.
COLOURS = {"map": "#2b6cb0", "hard": "#b7791f", "peer": "#718096", "ours": "#2b6cb0"}


@dataclass(frozen=True)
class Series:
    name: str
    kind: str
    points: tuple[tuple[float, float], ...]


def add_arguments(parser: argparse.ArgumentParser) -> None:
    parser.add_argument("--output", default=PICTURE)
    parser.add_argument("--by", metavar="PROGRAM", help="also draws the pictures of the rules, by this program")


def number(text: str) -> float | None:
    try:
        return float(text.replace(",", "")) or None
    except ValueError:
        return None


def series(rows: list[dict[str, str]], name: str, seconds: str, kind: Callable[[str], str]) -> list[Series]:
    """The points of each name, those that weren't measured left out."""
    found: dict[str, list[tuple[float, float]]] = {}
    for row in rows:
        size, taken = number(row["segments"]), number(row[seconds])
        if size and taken:
            found.setdefault(row[name], []).append((size, taken))
    return [Series(name, kind(name), tuple(sorted(points))) for name, points in sorted(found.items())]


def kinds() -> list[Series]:
    rows = [row for row in results.latest("speed", ("kind", "segments", "command")) if row["command"] == "union"]
    return series(rows, "kind", "1 worker: processor s", lambda name: "hard" if name in HARD else "map")


def tools() -> list[Series]:
    rows = [row for row in results.last_run("peers", ("tool", "map", "segments", "job")) if (row["map"], row["job"]) == ("clean", "common")]
    rows = [row for row in rows if row["answers"] == "yes" and "," not in row["tool"] and row["tool"] != peer_tools.Faces.name]
    rows = [{**row, "processor s": "%.3f" % compared.without_start(row)} for row in rows]
    return series(rows, "tool", "processor s", lambda name: "ours" if name == "overlay" else "peer")


def powers(values: list[float]) -> range:
    """The powers of ten round the values."""
    low, high = math.floor(math.log10(min(values))), math.ceil(math.log10(max(values)))
    return range(low, max(high, low + 1) + 1)


def told(power: int) -> str:
    return "{:,}".format(10 ** power) if power >= 0 else "%.*f" % (-power, 10.0 ** power)


def apart(heights: list[float], least: float) -> list[float]:
    """The heights, from the least one on moved so far that names don't lie over one another, and all within the panel."""
    order, found = sorted(range(len(heights)), key=lambda k: (heights[k], k)), list(heights)
    for before, k in zip(order, order[1:]):
        found[k] = max(found[k], found[before] + least)
    room = float(TOP + HIGH)
    for k in reversed(order):
        found[k] = min(found[k], room)
        room = found[k] - least
    return found


def panel(title: str, drawn: list[Series], left: float, missing: str) -> list[str]:
    lines = ['<text x="%d" y="18" class="title">%s</text>' % (left, title)]
    if not drawn:
        return lines + ['<text x="%d" y="%d">%s</text>' % (left, TOP + 20, missing)]
    across, up = powers([x for one in drawn for x, _ in one.points]), powers([y for one in drawn for _, y in one.points])

    def at_x(value: float) -> float:
        return left + WIDE * (math.log10(value) - across[0]) / (across[-1] - across[0])

    def at_y(value: float) -> float:
        return TOP + HIGH - HIGH * (math.log10(value) - up[0]) / (up[-1] - up[0])

    for power in across:
        x = at_x(10.0 ** power)
        lines += ['<path class="grid" d="M%.1f %dV%d"/>' % (x, TOP, TOP + HIGH), '<text x="%.1f" y="%d" text-anchor="middle">%s</text>' % (x, TOP + HIGH + 16, told(power))]
    for power in up:
        y = at_y(10.0 ** power)
        lines += ['<path class="grid" d="M%.1f %.1fh%d"/>' % (left, y, WIDE), '<text x="%.1f" y="%.1f" text-anchor="end">%s</text>' % (left - 6, y + 4, told(power))]
    places = apart([at_y(one.points[-1][1]) for one in drawn], 13)
    for one, place in zip(drawn, places):
        end = at_x(one.points[-1][0])
        lines.append('<path class="%s" d="M%s"/>' % (one.kind, "L".join("%.1f %.1f" % (at_x(x), at_y(y)) for x, y in one.points)))
        lines += ['<circle class="%s" cx="%.1f" cy="%.1f" r="2"/>' % (one.kind, at_x(x), at_y(y)) for x, y in one.points]
        lines.append('<path class="lead" d="M%.1f %.1fL%.1f %.1f"/>' % (end + 3, at_y(one.points[-1][1]), left + WIDE + 14, place))
        lines.append('<text x="%.1f" y="%.1f" class="name-%s">%s</text>' % (left + WIDE + 17, place + 4, one.kind, one.name))
    return lines


def picture() -> str:
    """The whole drawing."""
    wide, high, second = 2 * (WIDE + NAMES) + 2 * GAP, TOP + HIGH + 44, 2 * GAP + WIDE + NAMES
    style = ["text{font:11px sans-serif;fill:#222}", ".title{font-weight:bold;font-size:12px}", ".grid{stroke:#ddd}", ".lead{stroke:#ccc;fill:none}"]
    for kind, colour in COLOURS.items():
        style.append("path.%s{stroke:%s;fill:none;stroke-width:%s}circle.%s{fill:%s}.name-%s{fill:%s}" % (kind, colour, "2.5" if kind == "ours" else "1.3", kind, colour, kind, colour))
    about = "processor seconds against segments: kinds of maps, and other tools"
    lines = ['<svg xmlns="http://www.w3.org/2000/svg" viewBox="0 0 %d %d" width="%d" height="%d" role="img" aria-label="%s">' % (wide, high, wide, high, about)]
    lines += ["<style>%s</style>" % "".join(style), '<path d="M0 0h%dv%dH0z" fill="#fff"/>' % (wide, high)]
    lines += panel("overlay union, one worker, by kind of map", kinds(), GAP, "not recorded: bench/run --record speed")
    lines += panel("common area of a clean town, by tool", tools(), second, "not recorded: bench/run --record peers")
    for left, what in ((GAP, "segments of both layers"), (second, "segments of either layer")):
        lines.append('<text x="%d" y="%d" text-anchor="middle">%s</text>' % (left + WIDE / 2, TOP + HIGH + 34, what))
        lines.append('<text x="%d" y="%d">processor seconds</text>' % (left - 30, TOP - 12))
    return "\n".join([*lines, "</svg>", ""])


def main(arguments: argparse.Namespace) -> int:
    drawn = picture()
    with open(arguments.output, "w", encoding="utf-8") as file:
        file.write(drawn)
    made = [arguments.output, *(rule_pictures.write(arguments.by) if arguments.by else [])]
    for path in made:
        print("%s: %d bytes" % (os.path.relpath(path), os.path.getsize(path)))
    return 0
