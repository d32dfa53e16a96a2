"""tiles: polygon layers as vector tiles whose polygons fit together."""

from .command import EXAMPLE, add_arguments, main

__all__ = ["EXAMPLE", "add_arguments", "main"]
