"""builds the commands from the crates' sources by rustc, with nothing proved: to measure a change before it is proved

What contracts say is left out of the sources, and each crate becomes a module of one Rust program. Files of `bench/unproved` stand for
Rattle's std (`kit.rs`), for `itoa`, and for what needs its ledgers and its `rayon`; the program takes files, `--workers=N`, `--tile=SIDE`,
`--segments=N`, `--report`, `--areas` and `--covered`, and is no answer to trust: it is for comparing bytes and times. It needs `rustc`, whose lanes are
unstable still.
"""
from __future__ import annotations

import argparse
import os
import re
import subprocess
from collections.abc import Iterable, Iterator

from . import programs

SHIMS = os.path.join(programs.BENCH, "unproved")
CRATES = (
    "hands", "range_sort", "geom", "crossing", "noding_law", "points_law", "cover_law", "feature_links", "cover_sets", "wkt", "faces_text", "box_lanes", "grid",
    "tile_book", "hot_region", "strips_law", "distinct", "distinct_law", "routing", "linking", "label_sweep", "polygonize", "rows", "covered", "columns",
    "layers", "results", "engine")
HEAD = "#![feature(portable_simd)]\n#![allow(warnings)]\n"
PRELUDE = "use crate::kit::prelude::*;\n"
TOKEN = re.compile(r'//[^\n]*|b?"(?:\\.|[^"\\])*"|b?\'(?:\\.[^\']*|[^\'\\])\'|\w+|\s+|.', re.DOTALL)
CLOSING = {"{": "}", "(": ")", "[": "]"}
PLACES = (
    (r"(?<![\w:])std::", "crate::kit::"),
    (r"pub\(crate\)", "pub"),
    (r"fn fmt<W: fmt::Write>", "fn fmt"),
    (r"fmt::Formatter<W>", "fmt::Formatter"),
    (r"\.collect\((?=\w)", ".collect_in("),
    (r"\]\.sort\((?=\w)", "].sort_in("),
    (r"use thiserror::Error;", ""),
)


def add_arguments(parser: argparse.ArgumentParser) -> None:
    parser.add_argument("--out", default=os.path.join(programs.OUT, "unproved"), help="the program that is built (default: bench/out/unproved)")


def past_group(tokens: list[str], at: int) -> int:
    """The place behind the bracket that closes the one at a place."""
    depth = 0
    while True:
        depth += (tokens[at] in CLOSING) - (tokens[at] in CLOSING.values())
        at += 1
        if not depth:
            return at


def past_ghost(tokens: list[str], at: int) -> int:
    """The place behind a ghost item or field."""
    while tokens[at] not in (";", ",", "}"):
        at = past_group(tokens, at) if tokens[at] in CLOSING else at + 1
    return at + (tokens[at] != "}")


def past_clause(tokens: list[str], at: int) -> int | None:
    """The place behind the clause of a contract that may begin at a place: a word, perhaps a name, and braces."""
    words = [place for place in range(at + 1, min(at + 5, len(tokens))) if not tokens[place].isspace()][:2]
    opening = next((place for place in words if tokens[place] == "{"), None)
    return None if opening is None else past_group(tokens, opening)


def past_model(tokens: list[str], at: int) -> int | None:
    """The place behind an impl of Model that may begin at a place."""
    opening = tokens.index("{", at)
    return past_group(tokens, opening) if "Model" in tokens[at:opening] else None


def attribute(text: str) -> str:
    """An attribute as Rust knows it: without tactics, texts of errors, and derives of Rattle's."""
    if "derive" in text:
        names = [name for name in re.findall(r"\w+", text.partition("(")[2]) if name not in ("Drop", "Error")]
        return "#[derive(%s)]" % ", ".join(names)
    return "" if re.match(r"#!|#\[\s*(?:tactic|error)\b", text) else text


def kept(tokens: list[str]) -> Iterator[str]:
    """What Rust knows of a source."""
    at = 0
    while at < len(tokens):
        token, past = tokens[at], None
        if token == "ghost":
            past = past_ghost(tokens, at)
        elif token in ("requires", "ensures"):
            past = past_clause(tokens, at)
        elif token == "impl":
            past = past_model(tokens, at)
        elif token == "#" and tokens[at + 1] in ("[", "!"):
            past = past_group(tokens, tokens.index("[", at))
            yield attribute("".join(tokens[at:past]))
        if past is None:
            yield "" if token.startswith("//") else token
            past = at + 1
        at = past


def rust_of(text: str, crate: str) -> str:
    """The Rust of a crate's source, as a module below that of the crate."""
    rust = "".join(kept(TOKEN.findall(text)))
    rust = re.sub(r"(?<![\w:])crate::", "crate::%s::" % crate, rust)
    for other in (*CRATES, "itoa"):
        if other != crate:
            rust = re.sub(r"(?<![\w:.])%s::" % other, "crate::%s::" % other, rust)
    for found, put in PLACES:
        rust = re.sub(found, put, rust)
    return rust


def read(path: str) -> str:
    with open(path, encoding="utf-8") as file:
        return file.read()


def shim(*names: str) -> str:
    """A file of `bench/unproved`, without its head, so that it may stand anywhere."""
    return re.sub(r"^//!.*$", "", read(os.path.join(SHIMS, *names)), flags=re.MULTILINE)


def write(path: str, text: str) -> None:
    os.makedirs(os.path.dirname(path), exist_ok=True)
    with open(path, "w", encoding="utf-8") as file:
        file.write(text)


def modules(crate: str) -> Iterator[tuple[str, str]]:
    """The modules of a crate, each with its Rust."""
    folder = os.path.join(programs.ROOT, "crates", crate, "src")
    for name in sorted(os.listdir(folder)):
        module, _, _ = name.partition(".")
        is_replaced = os.path.exists(os.path.join(SHIMS, crate, module + ".rs"))
        text = shim(crate, module + ".rs") if is_replaced else rust_of(read(os.path.join(folder, name)), crate)
        yield "mod" if module == "lib" else module, PRELUDE + text


def write_program(folder: str, crates: Iterable[str]) -> str:
    """Writes the Rust program into a folder, and answers its main file."""
    declared = []
    for crate in crates:
        for module, text in modules(crate):
            write(os.path.join(folder, crate, module + ".rs"), text)
        declared.append("pub mod %s;\n" % crate)
    for module in ("kit", "itoa"):
        write(os.path.join(folder, module + ".rs"), shim(module + ".rs"))
        declared.append("pub mod %s;\n" % module)
    source = os.path.join(folder, "main.rs")
    write(source, HEAD + shim("macros.rs") + "".join(declared) + shim("main.rs"))
    return source


def main(arguments: argparse.Namespace) -> int:
    source = write_program(arguments.out + ".src", CRATES)
    words = ["rustc", "--edition", "2021", "-O", "-g", "-C", "codegen-units=1", "-C", "target-cpu=x86-64-v2", source, "-o", arguments.out]
    status = subprocess.run(words, env={**os.environ, "RUSTC_BOOTSTRAP": "1"}, check=False).returncode
    if not status:
        print("built, with nothing proved: %s" % os.path.relpath(arguments.out))
    return status
