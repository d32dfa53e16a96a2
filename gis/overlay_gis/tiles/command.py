"""The verb `tiles`: its command line, what it refuses, and where its tiles go."""

from __future__ import annotations

import re
from argparse import ArgumentParser, ArgumentTypeError, Namespace
from tempfile import TemporaryFile
from typing import Sequence

from .. import __version__, options
from ..faces import named
from ..faults import Refusal
from ..fields import NAMES, check_fields
from ..layers import Source, files_of
from ..messages import during, say
from ..surveys import names_of
from ..whole import Target, draft, target_of
from . import archives
from .archives import Facts, Store
from .changed import differing, reached
from .coarse import Detail
from .drawing import Drawn, Fields, Read, read
from .making import Plan, Wanted, make, map_of
from .world import EXTENT, GREATEST, Tile

EXAMPLE = "overlay-gis tiles parcels.gpkg -o parcels.mbtiles --zooms 10-16 --keep number,owner"

ZOOMS = re.compile(r"([0-9]+)(?:-([0-9]+))?")
TILE = re.compile(r"([0-9]+)/([0-9]+)/([0-9]+)")
NUMBERS, NONE = "numbers", "none"


def zooms(text: str) -> range:
    """A zoom, or a range of zooms, as it was asked for."""
    found = ZOOMS.fullmatch(text)
    first, last = (int(found[1]), int(found[2] or found[1])) if found else (1, 0)
    if not 0 <= first <= last <= GREATEST:
        raise ArgumentTypeError(f"{text} is no zoom or range of zooms from 0 to {GREATEST}, as 6-14")
    return range(first, last + 1)


def zoom(text: str) -> int:
    """A zoom as it was asked for."""
    if "-" in text:
        raise ArgumentTypeError(f"{text} is no zoom from 0 to {GREATEST}")
    return zooms(text)[0]


def buffer(text: str) -> int:
    """Units beyond a tile's border as they were asked for: less than half a tile."""
    if not text.isascii() or not text.isdigit() or int(text) >= EXTENT // 2:
        raise ArgumentTypeError(f"{text} is no whole number from 0 to {EXTENT // 2 - 1}")
    return int(text)


def limit(text: str) -> int:
    """The most bytes of a tile as they were asked for; 0 for any number."""
    return 0 if text == NONE else options.memory(text)


def tiles(text: str) -> list[Tile]:
    """Tiles as they were asked for."""
    found = [TILE.fullmatch(word.strip()) for word in text.split(",")]
    made = [Tile(*map(int, one.groups())) for one in found if one]
    if len(made) < len(found) or not all(tile.zoom <= GREATEST and max(tile.x, tile.y) < 1 << tile.zoom for tile in made):
        raise ArgumentTypeError(f"{text} names no tiles as ZOOM/COLUMN/ROW,..")
    return made


def add_arguments(parser: ArgumentParser) -> None:
    parser.add_argument(
        "layers",
        metavar="LAYER",
        type=options.text,
        nargs="+",
        help=f"the layers, which are rounded together: {options.LAYER}",
    )
    parser.add_argument(
        "-o",
        "--out",
        metavar="OUT",
        type=options.text,
        required=True,
        help="NAME.mbtiles, NAME.pmtiles, or else a folder for z/x/y.pbf",
    )
    parser.add_argument("--overwrite", action="store_true", help="replaces OUT where it is there already")
    parser.add_argument(
        "--zooms", metavar="Z-Z", type=zooms, required=True, help=f"one zoom or a range, from 0 to {GREATEST}"
    )
    add_fields(parser)
    add_detail(parser)
    add_tiles(parser)
    parser.add_argument(
        "--system",
        metavar="SYSTEM",
        type=options.text,
        help="the reference system of layers that name none, as EPSG:25832",
    )
    options.add_segments(parser)
    parser.add_argument(
        "--workers",
        metavar="N",
        type=options.count,
        default=1,
        help="how many processes cut and pack tiles (default: 1)",
    )


def add_fields(parser: ArgumentParser) -> None:
    for option, words in (
        ("--keep", "fields that features have in tiles"),
        ("--by", "a feature for each set of values of these fields, which it has"),
    ):
        parser.add_argument(
            option,
            metavar="[NAME:]FIELD,..",
            type=options.of_first,
            action="append",
            default=[],
            help=(
                f"{words}, of the first layer or of that one, as b:rule; may be given several times;"
                f" {options.IN_QUOTES}"
            ),
        )
    parser.add_argument(
        "--ids",
        choices=[NUMBERS, NONE],
        default=NUMBERS,
        help=(
            "the ids of features: their numbers, or with --by that of the first one with these values"
            " (default), or none"
        ),
    )


def add_detail(parser: ArgumentParser) -> None:
    parser.add_argument(
        "--buffer",
        metavar="UNITS",
        type=buffer,
        default=64,
        help=f"how far polygons go on beyond a tile, which has {EXTENT} units a side (default: 64)",
    )
    parser.add_argument(
        "--simplify",
        metavar="UNITS",
        type=options.size,
        default=4.0,
        help="how far a border may move so that it needs fewer points (default: 4; 0: none does)",
    )
    parser.add_argument(
        "--small",
        metavar="UNITS",
        type=options.size,
        default=16.0,
        help=(
            "a piece of fewer square units goes to the neighbour with the longest common border"
            " (default: 16; 0: none does)"
        ),
    )
    parser.add_argument(
        "--full",
        metavar="ZOOM",
        type=zoom,
        help="from this zoom on neither is done (default: the greatest one)",
    )


def add_tiles(parser: ArgumentParser) -> None:
    parser.add_argument(
        "--only",
        metavar="ZOOM/COLUMN/ROW,..",
        type=tiles,
        help="makes these tiles alone, and puts them into OUT where that is there",
    )
    parser.add_argument(
        "--changed",
        metavar="OLD",
        type=options.text,
        help="the first layer as it was when OUT was made: makes what has to differ, and puts it into OUT",
    )
    parser.add_argument(
        "--tile-limit",
        metavar="SIZE",
        type=limit,
        default=500_000,
        help="the most bytes of a packed tile, or none (default: 500KB)",
    )


def plan_of(arguments: Namespace) -> Plan:
    wanted: range = arguments.zooms
    return Plan(
        wanted,
        wanted[-1] if arguments.full is None else arguments.full,
        arguments.buffer,
        Detail(arguments.simplify, arguments.small),
        arguments.ids == NUMBERS,
        arguments.tile_limit,
    )


def check_arguments(arguments: Namespace) -> None:
    """Refuses what can't be asked for together."""
    if len(arguments.layers) > len(NAMES):
        raise Refusal("tiles", f"takes {len(NAMES)} layers at most, and {len(arguments.layers)} are named")
    if arguments.only and arguments.changed:
        raise Refusal("--only", "names tiles, and --changed finds them: one of both is enough")
    if arguments.changed and arguments.by:
        raise Refusal("--changed", "goes by the numbers of features, and --by makes others of them")
    if not all(tile.zoom in arguments.zooms for tile in arguments.only or ()):
        raise Refusal("--only", f"names a tile of a zoom that isn't among {told(arguments.zooms)}")


def told(wanted: range) -> str:
    return f"{wanted[0]}-{wanted[-1]}"


def fields_asked(arguments: Namespace) -> list[Fields]:
    """The fields of each layer."""
    keep, by = named(arguments, "--keep", arguments.keep), named(arguments, "--by", arguments.by)
    for name, kept, classes in zip(NAMES, keep, by):
        if kept and classes:
            raise Refusal(f"--by {name}:{','.join(classes)}", "its features have these values alone: no others are kept")
    return [Fields(kept or classes, bool(classes)) for kept, classes in zip(keep, by)]


def target_for(arguments: Namespace, sources: Sequence[Source]) -> Target:
    """Where tiles go, if they may."""
    into = bool(arguments.only or arguments.changed)
    files = files_of(sources) + ([arguments.changed] if arguments.changed else [])
    target = target_of(arguments.out, arguments.overwrite or into, files)
    if target.path.suffix not in ("", archives.MBTILES, archives.PMTILES):
        ways = f"{archives.MBTILES} or {archives.PMTILES}, or to a folder without an ending"
        raise Refusal(arguments.out, f"tiles go to a file whose name ends in {ways}")
    archives.check_kind(target.name, target.path)
    if arguments.changed and not target.path.exists():
        raise Refusal(arguments.out, "isn't there: --changed makes the tiles in it what they should be")
    return target


def read_all(arguments: Namespace, sources: Sequence[Source], fields: Sequence[Fields]) -> list[Read]:
    """The layers, which have names of their own and no more segments than are asked for."""
    layers = [read(source, wanted, arguments.system) for source, wanted in zip(sources, fields)]
    if len({layer.drawn.name for layer in layers}) < len(layers):
        raise Refusal(names_of(sources), "would be layers of one name: that of a file, or |layername=, tells them apart")
    most = options.segments(arguments)
    if sum(layer.segments for layer in layers) > most:
        reason = f"more than {most:,} segments, the limit of all layers together: ask for more by --segments"
        raise Refusal(names_of(sources), reason)
    for layer, source in zip(layers, sources):
        below = [number for number in layer.drawn.ids if number < 0]
        if below and arguments.ids == NUMBERS:
            reason = f"feature {below[0]}: no tile has room for a number below 0; --ids none leaves them out"
            raise Refusal(source.name, reason)
    return layers


def options_of(arguments: Namespace, plan: Plan, layers: Sequence[Drawn], fields: Sequence[Fields]) -> dict[str, object]:
    """What makes tiles what they are, beside the layers."""
    return {
        "version": __version__,
        "layers": [layer.name for layer in layers],
        "fields": [list(wanted.names) for wanted in fields],
        "by": [wanted.by for wanted in fields],
        "ids": arguments.ids,
        "zooms": told(plan.zooms),
        "buffer": plan.buffer,
        "simplify": plan.detail.simplify,
        "small": plan.detail.small,
        "full": plan.full,
    }


def check_options(target: Target, wanted: dict[str, object]) -> None:
    """Refuses to put tiles among others that were made by other options."""
    found = archives.options_in(target.path)
    if found is None:
        raise Refusal(target.name, "doesn't tell by which options it was made, so no tiles can be put into it")
    for name, value in wanted.items():
        if found.get(name) != value:
            reason = f"was made with another {name}, {found.get(name)}, and not {value}: make all of it anew"
            raise Refusal(target.name, reason)


def wanted_by(arguments: Namespace, plan: Plan, layer: Read, fields: Fields) -> Wanted:
    """The tiles that are asked for."""
    if arguments.only:
        return {zoom: frozenset((x, y) for z, x, y in arguments.only if z == zoom) for zoom in plan.zooms}
    if not arguments.changed:
        return dict.fromkeys(plan.zooms)
    old = read(Source(arguments.changed), fields, arguments.system)
    numbers, comparable = differing(layer, old)
    say(f"{arguments.changed}: {len(numbers):,} features differ")
    local = [zoom for zoom in plan.zooms if comparable and plan.is_full(zoom)]
    return {zoom: reached((layer, old), numbers, zoom, plan.buffer) if zoom in local else None for zoom in plan.zooms}


def keep_others(target: Target, store: Store, wanted: Wanted) -> None:
    """Takes the tiles over that aren't made anew."""
    with archives.readable(target.name):
        for tile, data in archives.tiles_in(target.path):
            places = wanted[tile.zoom]
            if places is not None and (tile.x, tile.y) not in places:
                store.add(tile, data)


def main(arguments: Namespace) -> int:
    check_arguments(arguments)
    plan, fields = plan_of(arguments), fields_asked(arguments)
    sources = [Source(name) for name in arguments.layers]
    target = target_for(arguments, sources)
    for source, wanted in zip(sources, fields):
        check_fields(source, wanted.names)
    layers = read_all(arguments, sources, fields)
    drawn = map_of(layers)
    made_by = options_of(arguments, plan, drawn.layers, fields)
    into = bool(arguments.only or arguments.changed) and target.path.exists()
    if into:
        check_options(target, made_by)
    places = wanted_by(arguments, plan, layers[0], fields[0])
    told_layers = [layer.told(plan.zooms) for layer in drawn.layers]
    facts = Facts(target.path.stem, plan.zooms, drawn.box(), told_layers, made_by)
    with draft(target) as folder, TemporaryFile(dir=folder) as file:
        store = Store(file)
        if into:
            keep_others(target, store, places)
        make(drawn, plan, places, arguments.workers, store)
        with during(f"writing {target.name}"):
            archives.write(folder / target.path.name, store, facts)
    say(f"{arguments.out}: {len(store.places):,} tiles")
    return 0
