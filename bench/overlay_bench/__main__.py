"""`bench/run NAME ..`: runs the module of that name; each has `add_arguments(parser)` and `main(arguments)`, and its first line says what it does; `RECORDED` names its file of results where that isn't its own."""
from __future__ import annotations

import argparse
import importlib
import os
import sys

from . import programs, results

NAMES = ("compare", "rows", "texts", "memory", "faults", "workers", "parallel", "repeat", "scarce", "changing", "limits", "hostile", "speed", "large", "strips", "faces", "library", "laws", "requests", "kernels", "unproved", "peers", "capabilities", "bridge", "unrepaired", "plot", "sizes", "believed", "documents")
WITHOUT_PROGRAM = ("laws", "requests", "strips", "kernels", "unproved", "plot", "sizes", "believed", "documents")


def main() -> int:
    parser = argparse.ArgumentParser(prog="bench/run", description="Measurements and comparisons of the built program.")
    parser.add_argument("--record", action="store_true", help="keep what is printed in bench/results")
    commands = parser.add_subparsers(dest="name", metavar="NAME", required=True)
    modules = {name: importlib.import_module("overlay_bench." + name) for name in NAMES}
    for name, module in modules.items():
        summary, _, more = (module.__doc__ or "").partition("\n")
        command = commands.add_parser(name, help=summary, description=summary + more, formatter_class=argparse.RawDescriptionHelpFormatter)
        if name not in WITHOUT_PROGRAM:
            command.add_argument("--program", default=programs.BUILT, help="the program (default: the built one)")
        module.add_arguments(command)
    arguments = parser.parse_args()
    is_making = getattr(arguments, "make", False)
    if arguments.name not in WITHOUT_PROGRAM and not is_making and arguments.program == programs.BUILT and not os.access(programs.BUILT, os.X_OK):
        sys.exit("%s is not built: cd crates/overlay && rt run -- --help" % os.path.relpath(programs.BUILT))

    def call() -> int:
        status: int = modules[arguments.name].main(arguments)
        return status

    return results.recorded(getattr(modules[arguments.name], "RECORDED", arguments.name), sys.argv[2:], call) if arguments.record else call()


sys.exit(main())
