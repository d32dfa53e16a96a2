"""The plugin: it brings the provider to Processing, and takes it away again."""

from __future__ import annotations

from qgis.core import QgsApplication

from .provider import OverlayProvider


class OverlayPlugin:
    def initProcessing(self) -> None:
        """What `qgis_process` calls, which has no windows."""
        self.provider = OverlayProvider()
        QgsApplication.processingRegistry().addProvider(self.provider)

    def initGui(self) -> None:
        self.initProcessing()

    def unload(self) -> None:
        QgsApplication.processingRegistry().removeProvider(self.provider)
