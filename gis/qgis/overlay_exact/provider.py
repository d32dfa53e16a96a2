"""The provider: its algorithms, and the setting that names the command."""

from __future__ import annotations

import os

from processing.core.ProcessingConfig import ProcessingConfig, Setting
from qgis.core import QgsProcessingProvider
from qgis.PyQt.QtGui import QIcon

from .check import Check
from .command import SETTING
from .dissolve import Dissolve
from .faces import Faces
from .overlay import Overlay

ICON = os.path.join(os.path.dirname(__file__), "icon.svg")


class OverlayProvider(QgsProcessingProvider):
    def id(self) -> str:
        return "overlay_exact"

    def name(self) -> str:
        return "Overlay (exact)"

    def icon(self) -> QIcon:
        return QIcon(ICON)

    def svgIconPath(self) -> str:
        return ICON

    def supportsNonFileBasedOutput(self) -> bool:
        return False

    def load(self) -> bool:
        ProcessingConfig.settingIcons[self.name()] = self.icon()
        told = "The command overlay-gis (empty: it is looked for)"
        ProcessingConfig.addSetting(Setting(self.name(), SETTING, told, "", valuetype=Setting.FILE))
        ProcessingConfig.readSettings()
        self.refreshAlgorithms()
        return True

    def unload(self) -> None:
        ProcessingConfig.removeSetting(SETTING)

    def loadAlgorithms(self) -> None:
        for algorithm in (Overlay, Faces, Dissolve, Check):
            self.addAlgorithm(algorithm())
