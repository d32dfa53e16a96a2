"""Gives the wheel the tag of what its shared object asks of the C library: python/build has to have made that."""

from __future__ import annotations

import os
import re
import subprocess
from typing import Any

from hatchling.builders.hooks.plugin.interface import BuildHookInterface

# The oldest C library that wheels are made for.
OLDEST = 17


class WheelTag(BuildHookInterface):
    """No code of the package depends on Python's version, and the shared object on Linux and the processor."""

    def initialize(self, version: str, build_data: dict[str, Any]) -> None:
        built = os.path.join(self.root, "overlay_grid", "liboverlay.so")
        if not os.path.exists(built):
            raise FileNotFoundError(f"{built}: python/build makes it")
        asked = subprocess.run(["objdump", "-T", built], stdout=subprocess.PIPE, text=True, check=True).stdout
        minor = max([OLDEST, *map(int, re.findall(r"\bGLIBC_2\.(\d+)", asked))])
        build_data["pure_python"] = False
        build_data["tag"] = f"py3-none-manylinux_2_{minor}_x86_64"
