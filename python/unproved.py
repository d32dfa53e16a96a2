"""Makes a wheel of the package from the crates' sources by rustc, with NOTHING PROVED, for who wants to look: unproved.py FOLDER

Its version ends in `+unproved`, and `overlay_grid.__proved__` is False in it. The sources become Rust as those of `bench/run unproved` do.
"""

from __future__ import annotations

import os
import re
import shutil
import subprocess
import sys
import tempfile
from pathlib import Path
from typing import Iterator, List

HERE = os.path.dirname(os.path.abspath(__file__))
sys.path.insert(0, os.path.join(os.path.dirname(HERE), "bench"))

from overlay_bench import unproved  # noqa: E402

# The crates of the library for C that the program has no need of, and a stand-in for the crate of which they have blocks of memory.
CRATES = ("phases", "parts_law", "strip_polygons", "polygon_order", "overlay_c")
BUMPALO = """
use crate::kit::alloc::{AllocError, Allocator};

pub struct Bump<A>(::std::marker::PhantomData<A>);

impl<A> Bump<A> {
    pub fn new(_alloc: A) -> Self {
        Bump(::std::marker::PhantomData)
    }

    pub fn try_with_capacity(_alloc: A, _size: usize) -> Result<Self, AllocError> {
        Ok(Bump(::std::marker::PhantomData))
    }
}

impl<A> Allocator for &Bump<A> {}
"""

# Slices of what C passes, which may be no address where they are empty.
SLICES = """
pub unsafe fn shared<'a, T>(first: *const T, length: usize) -> &'a [T] {
    if length == 0 { &[] } else { unsafe { ::std::slice::from_raw_parts(first, length) } }
}

pub unsafe fn unique<'a, T>(first: *mut T, length: usize) -> &'a mut [T] {
    if length == 0 { &mut [] } else { unsafe { ::std::slice::from_raw_parts_mut(first, length) } }
}
"""

# By this call the package knows what it has.
MARK = '#[unsafe(no_mangle)]\npub extern "C" fn overlay_unproved() {}\n'

CALL = re.compile(r'pub extern "C" fn (\w+)\s*\(([^{]*?)\)\s*(->\s*\w+)?\s*\{')
SLICE = re.compile(r"&(mut )?\[(.*)\]")

# Each of them is put in place of another text, which has to be there.
VERSION = (os.path.join("overlay_grid", "__init__.py"), r'(__version__ = "[\d.]+)"', r'\1+unproved"')
WORDS = ("pyproject.toml", "by a proved library", "by a library of which NOTHING IS PROVED")


def parameters(text: str) -> Iterator[List[str]]:
    """The name and the type of each parameter."""
    for parameter in re.split(r",(?![^<(\[]*[>)\]])", text):
        if parameter.strip():
            yield [part.strip() for part in parameter.split(":", 1)]


def c_call(found: "re.Match[str]") -> str:
    """The beginning of a call as C makes it: a slice comes as a pointer and a length, and no allocator comes.

    >>> c_call(CALL.search('pub extern "C" fn size(heap: Global, a: &[u8], b: &Odd) -> usize {'))
    'pub extern "C" fn size(a: *const u8, a_length: usize, b: &Odd) -> usize { let heap = Global; let a = unsafe { crate::slices::shared(a, a_length) };'
    """
    name, text, answer = found.groups()
    taken, made = [], []
    for word, kind in parameters(text):
        is_slice = SLICE.fullmatch(kind)
        if kind == "Global":
            made.append(f"let {word} = Global;")
        elif is_slice:
            call, pointer = ("unique", "*mut") if is_slice[1] else ("shared", "*const")
            taken += [f"{word}: {pointer} {is_slice[2]}", f"{word}_length: usize"]
            made.append(f"let {word} = unsafe {{ crate::slices::{call}({word}, {word}_length) }};")
        else:
            taken.append(f"{word}: {kind}")
    return " ".join([f'pub extern "C" fn {name}({", ".join(taken)})', *([answer] if answer else []), "{", *made])


def library_rust(text: str) -> str:
    """The Rust of a source of the library for C, in which crates that the program hasn't are named as the others are."""
    for crate in (*CRATES, "bumpalo"):
        text = re.sub(r"(?<![\w:.])%s::" % crate, f"crate::{crate}::", text)
    text = CALL.sub(c_call, text)
    # without blocks of memory there is one way for layers of any size
    return text.replace("&block", "Global").replace("if are_few(a, b) {", "if are_few(a, b) && false {")


def read(path: str) -> str:
    with open(path, encoding="utf-8") as file:
        return file.read()


def write_library(folder: str) -> str:
    """Writes the library's Rust into a folder, and answers its main file."""
    below = [name for name in unproved.CRATES if name not in CRATES]
    main = read(unproved.write_program(folder, (*below, *CRATES)))
    for crate in CRATES:
        for name in os.listdir(os.path.join(folder, crate)):
            path = os.path.join(folder, crate, name)
            unproved.write(path, library_rust(read(path)))
    unproved.write(os.path.join(folder, "bumpalo.rs"), BUMPALO)
    unproved.write(os.path.join(folder, "slices.rs"), SLICES)
    modules = "".join(re.findall(r"^pub mod \w+;\n", main, re.MULTILINE)) + "pub mod bumpalo;\npub mod slices;\n"
    path = os.path.join(folder, "lib.rs")
    unproved.write(path, unproved.HEAD + unproved.shim("macros.rs") + modules + MARK)
    return path


def make_library(path: str, folder: str) -> None:
    """Makes the shared object, by way of a folder."""
    words = ["rustc", "--edition", "2021", "-O", "-C", "codegen-units=8", "-C", "target-cpu=x86-64-v2", "-C", "strip=symbols", "--crate-type", "cdylib"]
    subprocess.run([*words, write_library(folder), "-o", path], env={**os.environ, "RUSTC_BOOTSTRAP": "1"}, check=True)


def put(folder: str, name: str, old: str, new: str) -> None:
    """Puts a text in place of another one, once."""
    text, count = re.subn(old, new, read(os.path.join(folder, name)))
    if count != 1:
        raise ValueError(f"{name} has {count} times {old}")
    unproved.write(os.path.join(folder, name), text)


def make_wheel(source: str, folder: str) -> None:
    """Makes the wheel of a package's folder by hatchling, or where that isn't there by pip, which fetches it."""
    hatchling = shutil.which("hatchling")
    words = [hatchling, "build", "-t", "wheel", "-d", folder] if hatchling else [sys.executable, "-m", "pip", "wheel", "--no-deps", "-w", folder, "."]
    subprocess.run(words, cwd=source, check=True)
    for wheel in Path(folder).glob("overlay_grid-*+unproved-*.whl"):
        wheel.chmod(0o644)


def main() -> int:
    if len(sys.argv) != 2:
        print(str(__doc__).splitlines()[0], file=sys.stderr)
        return 2
    if not shutil.which("rustc"):
        print("python/build: there is no rustc (apt-get install rustc, or rustup.rs)", file=sys.stderr)
        return 1
    made = os.path.abspath(sys.argv[1])
    with tempfile.TemporaryDirectory() as folder:
        source = os.path.join(folder, "python")
        shutil.copytree(HERE, source, ignore=shutil.ignore_patterns("*.so", "__pycache__", "tests", "dist"))
        put(source, *VERSION)
        put(source, *WORDS)
        try:
            make_library(os.path.join(source, "overlay_grid", "liboverlay.so"), os.path.join(folder, "rust"))
            make_wheel(source, made)
        except subprocess.CalledProcessError as error:
            print(f"python/build: {error.cmd[0]} ended with status {error.returncode}, and there is no wheel", file=sys.stderr)
            return 1
    print(f"made in {os.path.relpath(made)}, with NOTHING PROVED")
    return 0


if __name__ == "__main__":
    sys.exit(main())
