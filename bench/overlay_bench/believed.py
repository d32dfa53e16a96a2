"""makes docs/BELIEVED.md, the definitions that the contracts of the public calls rest on

Who trusts a contract has to read the definitions that it names, and those that these name, and no others: all else in `specs` and `proofs`
stands between one proof and the next. The definitions are followed by name and by import, from the clauses of each call. `bench/run documents`
compares the page with the sources.
"""
from __future__ import annotations

import argparse
import glob
import os
import re
from collections.abc import Iterable, Iterator
from dataclasses import dataclass, field

from . import programs

PAGE = "docs/BELIEVED.md"
WORD = re.compile(r"[A-Za-z_][\w']*")
USE = re.compile(r"(?:pub )?use ([\w.]+)\.\{([^}]*)\}")
GHOST_USE = re.compile(r"ghost use ([\w.]+)\.\{([^}]*)\}")
KIND = re.compile(r"(?:abbrev|unfoldable|pub|record|data)\b")
HEAD = re.compile(r"(?:(?:abbrev|unfoldable|pub|record|data) )+([A-Za-z_][\w']*)(?: :| [({])")


@dataclass(frozen=True)
class Group:
    """Calls that one sentence introduces, each as a file of crates and a name."""
    title: str
    calls: tuple[tuple[str, str], ...]


GROUPS = (
    Group("Rounded edges", (("engine/src/engine.rt", "edges"), ("noding_law/src/lib.rt", "rounded_edges_are_noded"))),
    Group("Results as text", (
        ("engine/src/engine.rt", "run"), ("engine/src/laws.rt", "result_text_is_one"), ("points_law/src/parity.rt", "text_has_parity"))),
    Group("Areas of a result", (("engine/src/measured_run.rt", "run_measured_within"), ("engine/src/laws.rt", "measures_tell"))),
    Group("Layers read as covered", (("engine/src/covered_run.rt", "run_covered_within"), ("cover_law/src/laws.rt", "cover_is_exact"))),
    Group("Faces with their features", (("engine/src/faces_run.rt", "faces_within"), ("engine/src/laws.rt", "faces_tell"))),
    Group("Results as columns", (
        ("engine/src/columns_run.rt", "run_columns_within"), ("engine/src/columns_pairs.rt", "run_pairs_alone_within"),
        ("engine/src/faces_columns.rt", "faces_columns_alone"))),
)

Name = tuple[str, str]


@dataclass
class Module:
    """A file of definitions: the text and the number of lines of each, and from where the other names come."""
    path: str
    definitions: dict[str, tuple[str, int]] = field(default_factory=dict)
    imports: dict[str, str] = field(default_factory=dict)


def text_of(path: str) -> str:
    with open(path, encoding="utf-8") as file:
        return file.read()


def names_in(listed: str) -> Iterator[str]:
    return (name.strip().split(" as ")[-1] for name in listed.split(","))


def end_of(lines: list[str], start: int) -> int:
    """The line behind a definition, which ends at an empty line, a comment or the next definition."""
    end = start + 1
    while end < len(lines) and lines[end].strip() and not lines[end].startswith("--") and not KIND.match(lines[end]):
        end += 1
    return end


def read(path: str) -> Module:
    module, lines, at = Module(path), text_of(path).splitlines(), 0
    while at < len(lines):
        if found := USE.match(lines[at]):
            module.imports.update(dict.fromkeys(names_in(found[2]), found[1]))
        elif found := HEAD.match(lines[at]):
            end = end_of(lines, at)
            module.definitions[found[1]] = (" ".join(lines[at:end]), end - at)
            at = end
            continue
        at += 1
    return module


class Definitions:
    """All definitions of the crates, by the module that has each."""

    def __init__(self) -> None:
        self.modules: dict[str, Module] = {}
        for path in glob.glob("crates/*/specs/**/*.antt", recursive=True):
            _, crate, _, *rest = path.split("/")
            self.modules["Rattle.%s.specs.%s" % (crate, ".".join(rest)[:-len(".antt")])] = read(path)

    def __len__(self) -> int:
        return sum(len(module.definitions) for module in self.modules.values())

    def named_by(self, name: Name) -> Iterator[Name]:
        """The names that stand in a definition, each with the module that it comes from."""
        module = self.modules[name[0]]
        for word in set(WORD.findall(module.definitions[name[1]][0])):
            if word in module.definitions and word != name[1]:
                yield name[0], word
            elif word in module.imports:
                yield module.imports[word], word

    def below(self, start: Iterable[Name]) -> set[Name]:
        """The definitions that these names rest on, and the names themselves."""
        found: set[Name] = set()
        open_names = list(start)
        while open_names:
            name = open_names.pop()
            if name not in found and name[0] in self.modules and name[1] in self.modules[name[0]].definitions:
                found.add(name)
                open_names += self.named_by(name)
        return found

    def of_call(self, path: str, call: str) -> set[Name]:
        """The definitions that the clauses of a call rest on."""
        text = text_of("crates/" + path)
        head = re.search(r"pub fn %s\b.*?\n\{|pub fn %s\b[^{}]*(?:\{[^{}]*\}[^{}]*)*\{\}" % (call, call), text, re.DOTALL)
        if head is None:
            raise ValueError("crates/%s has no call %s" % (path, call))
        uses = {word: found[1] for found in GHOST_USE.finditer(text) for word in names_in(found[2])}
        return self.below((uses[word], word) for word in set(WORD.findall(head[0])) if word in uses)

    def lines(self, names: Iterable[Name]) -> int:
        return sum(self.modules[module].definitions[word][1] for module, word in names)


def table(known: Definitions, groups: list[tuple[Group, set[Name]]]) -> Iterator[str]:
    yield "| calls | definitions | lines | files | not in the rows above |"
    yield "|---|---|---|---|---|"
    above: set[Name] = set()
    for group, names in groups:
        calls = ", ".join("`%s`" % call for _, call in group.calls)
        files = len({module for module, _ in names})
        yield "| %s: %s | %d | %d | %d | %d |" % (group.title, calls, len(names), known.lines(names), files, len(names - above))
        above |= names


def listed(known: Definitions, names: set[Name]) -> Iterator[str]:
    """The definitions by crate and file, each crate under a heading."""
    crate = ""
    for path, module in sorted((known.modules[module].path, module) for module in {module for module, _ in names}):
        if path.split("/")[1] != crate:
            crate = path.split("/")[1]
            yield "\n### %s\n" % crate
            yield "| file | definitions |\n|---|---|"
        words = sorted(word for at, word in names if at == module)
        yield "| [`%s`](../%s) | %s |" % (path.split("/specs/")[1], path, ", ".join("`%s`" % word for word in words))


def page() -> str:
    """The text of docs/BELIEVED.md; run at the root of the repository."""
    known = Definitions()
    groups = [(group, set[Name]().union(*(known.of_call(*call) for call in group.calls))) for group in GROUPS]
    every = set[Name]().union(*(names for _, names in groups))
    lines = [
        "# What has to be believed", "",
        "A contract says what a call promises, in the words of definitions. Whoever trusts a call has to",
        "read its contract and the definitions below, and nothing else: the prover has checked that the",
        "code meets them. What is trusted beside them stands in [README](../README.md).", "",
        "`bench/run believed --write` makes this page: it follows the names in the clauses of each call",
        "through the folders `specs`, by their imports. `bench/run documents` compares it with the sources.", "",
        "These calls rest on %d definitions in %d lines of %d files." % (len(every), known.lines(every), len({module for module, _ in every})),
        "The other %s definitions in `specs` serve proofs alone: a mistake in one of them can make a proof" % format(len(known) - len(every), ","),
        "fail, and cannot make a contract say something else.", "",
        *table(known, groups), "",
        "A definition that comes from the kit (lists, numbers, `Result`) isn't counted.", "",
        "## The definitions, file by file", *listed(known, every),
    ]
    return "\n".join(lines) + "\n"


def add_arguments(parser: argparse.ArgumentParser) -> None:
    parser.add_argument("--write", action="store_true", help="writes docs/BELIEVED.md, in place of printing it")


def main(arguments: argparse.Namespace) -> int:
    os.chdir(programs.ROOT)
    if arguments.write:
        with open(PAGE, "w", encoding="utf-8") as file:
            file.write(page())
    else:
        print(page(), end="")
    return 0
