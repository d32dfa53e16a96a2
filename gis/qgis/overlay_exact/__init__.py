"""Exact overlay of polygon layers in QGIS: a provider for Processing whose algorithms are the verbs
of `overlay-gis`."""

from __future__ import annotations

from typing import Any


def classFactory(iface: Any) -> Any:
    """What QGIS calls to have the plugin."""
    from .plugin import OverlayPlugin

    return OverlayPlugin()
