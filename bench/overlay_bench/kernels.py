"""times single calls against the same in plain Rust: crossings, lanes, or the reading of texts

A program that calls the crates is proved and built in a folder of its own, from copies of the crates and of what earlier
checks kept of them; bench/kernels has its source (ending in .txt, so that no gate takes it for a crate) and the plain loops,
compiled for the same processor. Printed are, for each loop, the milliseconds of the fastest round of several runs; where both
have a loop of one name the sums of their answers have to agree. Needs the kit's `rt`, and `rustc`.
"""
from __future__ import annotations

import argparse
import os
import random
import re
import shutil
import subprocess
import sys
import tempfile
from collections.abc import Sequence

from . import layers, programs
from .layers import Polygons

KERNELS = {
    "crossings": ("geom", "lane_tests", "tiling", "crossing", "tile_book", "box_lanes", "hot_region", "hot_pixel", "routing"),
    "lanes": ("geom", "lane_tests", "tiling"),
    "reading": ("geom", "wkt"),
}
# What a loop is compared with, where the plain one has another name.
COUNTERPARTS = {"check_layer": "parse", "read_layer": "parse"}


def add_arguments(parser: argparse.ArgumentParser) -> None:
    parser.add_argument("kernel", choices=KERNELS)
    parser.add_argument("--runs", type=int, default=5, help="of which the fastest round counts")
    parser.add_argument("--megabytes", type=int, default=20, help="the size of the text that is read")


def squares(megabytes: int) -> str:
    """One MULTIPOLYGON of random squares over the whole range."""
    rng, length = random.Random(7), 0
    polygons: Polygons = []
    while length < megabytes * 1_000_000:
        x, y, side = rng.randint(-256_000_000, 256_000_000), rng.randint(-256_000_000, 256_000_000), rng.randint(1, 11_200_000)
        polygons.append([layers.rectangle(x, y, side, side)])
        length += len(layers.polygon_text(polygons[-1])) + 2
    return layers.text_of(polygons, together=True)


def build(kernel: str, folder: str) -> tuple[str, str]:
    """The plain program, and the one over the crates."""
    source = os.path.join(programs.BENCH, "kernels", kernel)
    plain, speed = os.path.join(folder, "plain"), os.path.join(folder, "crates", "speed")
    subprocess.run(["rustc", "-O", "--edition", "2021", "-C", "target-cpu=x86-64-v2", "-o", plain, source + ".rs"], check=True)
    with open(os.path.join(programs.ROOT, "crates.txt")) as file:
        listed = {re.split("[ :]", line)[0]: line for line in file}
    for crate in KERNELS[kernel]:
        shutil.copytree(os.path.join(programs.ROOT, "crates", crate), os.path.join(folder, "crates", crate), ignore=shutil.ignore_patterns("must-fail"))
    os.makedirs(os.path.join(speed, "src"))
    shutil.copy(source + ".rt.txt", os.path.join(speed, "src", "main.rt"))
    with open(os.path.join(folder, "crates.txt"), "w") as file:
        file.write("".join(listed[crate] for crate in KERNELS[kernel]) + "speed: %s\n" % " ".join(KERNELS[kernel]))
    subprocess.run(["git", "init", "-q"], cwd=folder, check=True)
    built = subprocess.run(["rt", "run"], cwd=speed, stdout=subprocess.PIPE, stderr=subprocess.STDOUT, text=True)
    if built.returncode:
        sys.exit(built.stdout)
    return plain, os.path.join(speed, "out", "speed")


def fastest(words: Sequence[str], runs: int) -> dict[str, tuple[int, str]]:
    """For each loop the least microseconds, and the sum of its answers."""
    best: dict[str, tuple[int, str]] = {}
    for _ in range(runs):
        for line in subprocess.run(words, check=True, stdout=subprocess.PIPE, text=True).stdout.splitlines():
            name, micros, total = line.split()
            best[name] = min(best.get(name, (int(micros), total)), (int(micros), total))
    return best


def main(arguments: argparse.Namespace) -> int:
    with tempfile.TemporaryDirectory() as folder:
        os.chmod(folder, 0o711)
        files = []
        if arguments.kernel == "reading":
            files = [os.path.join(folder, "layer.wkt")]
            with open(files[0], "w") as file:
                file.write(squares(arguments.megabytes))
        plain, overlay = build(arguments.kernel, folder)
        theirs, ours = fastest([plain, *files], arguments.runs), fastest([overlay, *files], arguments.runs)
    print("| kernel | loop | overlay, ms | plain Rust, ms | ratio |\n|---|---|---|---|---|")
    wrong = False
    for name, (micros, total) in ours.items():
        other = theirs.get(COUNTERPARTS.get(name, name))
        if other is None:
            print("| %s | `%s` | %.1f | | |" % (arguments.kernel, name, micros / 1000))
            continue
        wrong |= name in theirs and other[1] != total
        print("| %s | `%s` | %.1f | %.1f | %.2f |" % (arguments.kernel, name, micros / 1000, other[0] / 1000, micros / other[0]))
    if wrong:
        print("the answers differ")
    return int(wrong)
