"""The algorithm check: what is wrong with a layer: overlaps, gaps, and what else a pass over it
finds."""

from __future__ import annotations

from typing import Any

from qgis.core import QgsProcessingOutputBoolean

from .algorithm import INPUT, OUTPUT, TEXTS, Call, VerbAlgorithm

SOUND = "SOUND"

# Sizes that tell what is found.
SIZES = {
    "GAP_WIDTH": ("--gap-width", "Gaps are narrower than (empty: 1, or 0.00001 degrees)"),
    "GAP_AREA": ("--gap-area", "Or smaller than (empty: the square of these)"),
    "SLIVER_WIDTH": ("--sliver-width", "Slivers are narrower than (empty: a tenth of these)"),
}

# The status by which the command tells that it found something.
FOUND = 4


class Check(VerbAlgorithm):
    NAME, TITLE = "check", "Check a layer for overlaps and gaps"
    TAGS = ("overlaps", "gaps", "slivers", "topology", "validity")
    RESULT = "Overlaps and gaps"
    STATUSES = (0, FOUND)
    TEXTS = {**SIZES, **TEXTS}
    HELP = (
        "What is wrong with a layer: a row for each set of features that overlap, with their "
        "numbers, for each gap, which is a hole of all features together that is narrow or small, "
        "and for each feature that is wrong by itself: without a geometry, with a ring that is open "
        "or crosses itself. The field kind is overlap, double, gap, sliver and so on, and finding "
        "has the words; a width is twice the area divided by the length of the border."
        "\n\nThe log lists these, and points off the limits."
    )

    def initAlgorithm(self, configuration: Any = None) -> None:
        super().initAlgorithm(configuration)
        self.addOutput(QgsProcessingOutputBoolean(SOUND, "Whether nothing was found"))

    def add_inputs(self) -> None:
        self.add_layer(INPUT, "Layer")

    def words(self, call: Call) -> list[str]:
        return ["check", call.hand(INPUT).name]

    def results(self, output: str, status: int) -> dict[str, Any]:
        return {OUTPUT: output, SOUND: status != FOUND}
