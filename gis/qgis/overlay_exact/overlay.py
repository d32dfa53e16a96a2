"""The algorithm overlay: one set operation on two layers."""

from __future__ import annotations

from qgis.core import QgsProcessingParameterBoolean, QgsProcessingParameterEnum

from .algorithm import INPUT, INPUT_FIELDS, OVERLAY, OVERLAY_FIELDS, Call, VerbAlgorithm
from .inputs import words_of

OPERATION, COVERED = "OPERATION", "COVERED"

# As the command names them, and as the user is asked.
OPERATIONS = {
    "intersection": "Intersection",
    "union": "Union",
    "difference": "Difference: the first layer without the second",
    "symdifference": "Symmetric difference: what just one layer has",
}


class Overlay(VerbAlgorithm):
    NAME, TITLE = "overlay", "Overlay of two layers"
    TAGS = ("intersection", "union", "difference", "clip", "erase")
    HELP = (
        "A set operation on two polygon layers: the polygons of the result, with their areas."
        "\n\nWhere fields are kept, the result is the rows of the algorithm Faces that the "
        "operation has, with the fields as a_FIELD and b_FIELD."
        "\n\nA layer is all that its features cover. Where no fields are kept, it may be read by "
        "parity instead, so that where two of its features overlap is outside."
    )

    def add_inputs(self) -> None:
        self.addParameter(QgsProcessingParameterEnum(OPERATION, "Operation", list(OPERATIONS.values()), defaultValue=0))
        self.add_layer(INPUT, "First layer")
        self.add_fields(INPUT_FIELDS, "Fields of the first layer to keep", INPUT)
        self.add_layer(OVERLAY, "Second layer")
        self.add_fields(OVERLAY_FIELDS, "Fields of the second layer to keep", OVERLAY)
        self.addParameter(
            QgsProcessingParameterBoolean(
                COVERED, "Overlaps within a layer don't cancel", defaultValue=True
            )
        )

    def words(self, call: Call) -> list[str]:
        layers = [call.hand(INPUT, INPUT_FIELDS), call.hand(OVERLAY, OVERLAY_FIELDS)]
        reading = [] if call.truth(COVERED) else ["--parity"]
        return ["run", list(OPERATIONS)[call.choice(OPERATION)], *words_of(layers), *reading]
