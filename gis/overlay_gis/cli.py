"""The command `overlay-gis` and its verbs."""

from __future__ import annotations

import re
import sys
from argparse import Action, ArgumentParser, Namespace, RawDescriptionHelpFormatter
from functools import partial
from importlib import import_module
from types import ModuleType
from typing import Any, NoReturn, Sequence

import numpy as np
from osgeo import gdal

from . import __version__, gdal_state, messages
from .faults import FAILED, Fault, OutOfMemory, not_there
from .gdal_errors import told_as
from .stopping import Stopped, stoppable

# What each verb does; the verb itself, in a file of that name, is there when it is asked for.
VERBS = {
    "run": "does one set operation on two layers",
    "faces": (
        "tells which features of all layers lie on one another: a row for each set of features that"
        " cover some points together"
    ),
    "dissolve": "unites the features of a layer, or those with equal values of some fields",
    "check": (
        "tells what is wrong with a layer: failed reads, invalid rings, points off the limits,"
        " overlaps, gaps, slivers"
    ),
    "tiles": "makes vector tiles of layers, whose polygons are valid and share their borders",
    "to-grid": "writes layers as texts on the integer grid, with a frame that leads back",
    "from-grid": "writes a result, a layer text or an edges text of the grid as a layer",
    "show": "draws layers, edges texts and results of the grid over one another",
    "explain": "shows the place of a text that a refusal tells",
}

# The option of an origin, also where it is cut short, and a number below 0.
ORIGIN = re.compile(r"--or(i(g(in?)?)?)?")
NEGATIVE = re.compile(r"-\.?[0-9]")

STATUSES = """exit status: 0 answered, 1 a file, the program or an output failed, 2 the command line is not
accepted, 3 the input is refused, 4 check found something

The program is what OVERLAY names. Where it names none, the package overlay_grid is asked in its place,
if it is there; else the program is `overlay` on the path, or what stands beside this tool."""


class Parser(ArgumentParser):
    """Says what is wrong with a command line without the passwords that it has."""

    def error(self, message: str) -> NoReturn:
        super().error(messages.shown(message))

    def print_help(self, file: Any = None) -> None:
        if file is None:
            messages.put(self.format_help())
        else:
            super().print_help(file)


class VerbParser(Parser):
    """Reads what stands behind a verb, of whose words it knows when it is asked."""

    verb = ""

    def parse_known_args(self, args: Any = None, namespace: Any = None) -> tuple[Any, list[str]]:
        if self.verb:
            self.learn(verb_of(self.verb))
        return super().parse_known_args(joined(args or ()), namespace)

    def learn(self, verb: ModuleType) -> None:
        self.verb = ""
        self.epilog = f"example:\n  {verb.EXAMPLE}"
        verb.add_arguments(self)
        self.set_defaults(main=verb.main)


def joined(words: Sequence[str]) -> list[str]:
    """The same words. An origin that begins with a minus sign, as -100,0, is one word with its option:
    else it would be taken for another one."""
    made: list[str] = []
    for word in words:
        if made and ORIGIN.fullmatch(made[-1]) and NEGATIVE.match(word):
            made[-1] += f"={word}"
        else:
            made.append(word)
    return made


def verb_of(name: str) -> ModuleType:
    """The module of a verb, each of which takes its time to be there."""
    try:
        return import_module(f".{name.replace('-', '_')}", __package__)
    except ImportError as error:
        raise not_there(error) from error


class Versions(Action):
    """Tells the versions of all that is used."""

    def __call__(self, parser: ArgumentParser, *_: object) -> NoReturn:
        import shapely  # which takes as long as some runs, so it waits until it is needed

        try:
            from shapely import geos_version
        except ImportError:  # Shapely 1.8
            from shapely.geos import geos_version
        geos = ".".join(map(str, geos_version))
        told = f"GDAL {gdal.__version__}, Shapely {shapely.__version__}, GEOS {geos}"
        messages.tell(f"{parser.prog} {__version__} ({told})")
        parser.exit()


def parser() -> ArgumentParser:
    top = Parser(
        prog="overlay-gis",
        description="Brings map data to the integer grid of `overlay`, and its answers back.",
        epilog=STATUSES,
        formatter_class=RawDescriptionHelpFormatter,
    )
    top.add_argument(
        "--version", action=Versions, nargs=0, help="show program's version number and exit"
    )
    verbs = top.add_subparsers(dest="verb", metavar="VERB", required=True, parser_class=VerbParser)
    for name, words in VERBS.items():
        told = verbs.add_parser(
            name,
            help=words,
            description=f"{words[0].upper()}{words[1:]}.",
            formatter_class=RawDescriptionHelpFormatter,
        )
        told.verb = name
    return top


def answered(arguments: Namespace) -> int:
    """The status of a verb that was done; what fails is a fault."""
    try:
        # A sum that is too large for floating-point numbers is told as what it is, inf.
        with gdal_state.of_a_verb(), np.errstate(all="ignore"), told_as(partial(Fault, "GDAL")):
            return int(arguments.main(arguments))
    except ImportError as error:
        raise not_there(error) from error
    except BrokenPipeError:
        raise
    except OSError as error:
        raise Fault(error.filename or "a temporary file", error.strerror or error) from error
    except MemoryError as error:
        raise OutOfMemory() from error
    except SystemError as error:  # which GDAL's bindings raise where a broken file gives them no text
        raise Fault("GDAL", f"can't say what it read: {error.__cause__ or error}") from error


def main(words: list[str] | None = None) -> int:
    try:
        arguments = parser().parse_args(words)
        with stoppable():
            return answered(arguments)
    except Fault as fault:
        messages.say(str(fault))
        return fault.status
    except BrokenPipeError:
        sys.stderr.close()
        return FAILED
    except Stopped as signal:
        messages.say(f"stopped by {signal}: no output was written or changed")
        return FAILED
