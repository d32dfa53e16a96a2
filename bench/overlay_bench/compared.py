"""README's table of other tools: the largest maps of the last run that bench/results/peers.tsv has."""
from __future__ import annotations

import re

from . import peer_tools, results

HEAD = ("raw map", "1 and 4 threads", "timed", "CPU time", "from text to text")
# What a tool answers with its layers made valid stands in the tool's own row.
VALID = ", made valid"
NOT_RUN = "not run: "
NONE = "–"

Row = dict[str, str]


def number(text: str) -> float:
    return float(text or 0)


def largest(rows: list[Row]) -> list[Row]:
    """The rows of the largest maps of each kind."""
    most = max((number(row["segments"]) for row in rows), default=0)
    return [row for row in rows if number(row["segments"]) == most]


def answers(rows: list[Row]) -> bool:
    """Whether all jobs on raw maps have the area that they should, but for a millionth."""
    raw = [row for row in rows if row["map"] == "raw"]
    return bool(raw) and all(row["answers"] == "yes" and abs(number(row["area off"])) <= 1 for row in raw)


def on_raw_map(rows: list[Row], valid: list[Row]) -> str:
    """What a tool does on a map with dirt."""
    raw = [row for row in rows if row["map"] == "raw"]
    faults = [re.sub(r"^status -?\d+: ", "", row["answers"]) for row in raw if row["answers"] != "yes"]
    off = max((number(row["area off"]) for row in raw), key=abs, default=0.0)
    if faults:
        late = re.match(peer_tools.OVER + r" within (\d+) ", faults[0])
        found = "no answer in %s s" % late[1] if late else "error"
    elif not raw:
        return NONE
    elif abs(off) > 1:
        found = "%s %.2g%% of the area" % ("loses" if off < 0 else "adds", abs(off) / 10_000)
    else:
        found = "right area"
    if found == "right area" or not answers(valid):
        return found
    return found + "; right if made valid"


def common_of(rows: list[Row]) -> Row:
    """What two clean layers have in common."""
    return next((row for row in rows if (row["map"], row["job"], row["answers"]) == ("clean", "common", "yes")), {})


def without_start(row: Row) -> float:
    """The processor seconds of a row without those of the start."""
    return max(number(row.get("processor s", "")) - number(row.get("start s", "")), 0.0)


def ratio(seconds: float, ours: float) -> str:
    return "%.1f" % (seconds / ours) if seconds and ours else NONE


def threads(own: Row) -> str:
    """Whether one thread writes the bytes of several."""
    if not own:
        return NONE
    return own["1 and N threads"] or ("1 thread" if number(own["threads"]) <= 1 else NONE)


def named(tool: str, version: str) -> str:
    """The tool's version, and how it was asked."""
    name, _, asked = tool.partition(", ")
    found = version.partition(", ")[0] + (", " + asked if asked else "")
    return "**%s**" % found if name == "overlay" else found


def cells(tool: str, rows: dict[str, list[Row]], ours: float) -> list[str]:
    found = rows[tool]
    own = common_of(found)
    whole = without_start(own) if own.get("timed") == peer_tools.TEXTS else number(own.get("text to text s", ""))
    raw = on_raw_map(found, rows.get(tool + VALID, []))
    return [named(tool, found[-1]["version"]), raw, threads(own), own.get("timed") or NONE, ratio(without_start(own), ours), ratio(whole, ours)]


def not_run(found: dict[str, list[Row]]) -> list[list[str]]:
    """The tools that weren't there, by the reasons."""
    reasons: dict[str, list[str]] = {}
    for tool, rows in found.items():
        if rows[-1]["answers"].startswith(NOT_RUN) and ", " not in tool and tool != peer_tools.Faces.name:
            reasons.setdefault(re.split("[:,] ", rows[-1]["answers"].removeprefix(NOT_RUN))[0], []).append(tool)
    return [[", ".join(tools), NOT_RUN + reason, *[NONE] * (len(HEAD) - 1)] for reason, tools in reasons.items()]


def table() -> list[str]:
    """The table's lines; without recorded rows its head alone."""
    found: dict[str, list[Row]] = {}
    for row in results.last_run("peers", ("tool", "map", "segments", "job")):
        found.setdefault(row["tool"], []).append(row)
    run = {tool: largest(rows) for tool, rows in found.items() if not rows[-1]["answers"].startswith(NOT_RUN)}
    ours = without_start(common_of(run.get(peer_tools.Overlay.name, [])))
    lines = [cells(tool, run, ours) for tool in run if not tool.endswith(VALID) and tool != peer_tools.Faces.name]
    lines.sort(key=lambda row: not row[0].startswith("**"))
    size = max((number(row["segments"]) for rows in run.values() for row in rows), default=0)
    head, *rest = ["|%s|" % "|".join(line) for line in (["%s segments a layer" % format(int(size), ","), *HEAD], *lines, *not_run(found))]
    return [head, "|---" * (1 + len(HEAD)) + "|", *rest]
