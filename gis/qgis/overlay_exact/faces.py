"""The algorithm faces: which features of one layer or several cover what."""

from __future__ import annotations

from qgis.core import QgsProcessing, QgsProcessingParameterBoolean, QgsProcessingParameterMultipleLayers

from .algorithm import INPUT, INPUT_FIELDS, OVERLAY, OVERLAY_FIELDS, PARTS, Call, VerbAlgorithm
from .inputs import words_of

LAYERS, ALL_FIELDS = "LAYERS", "ALL_FIELDS"


class Faces(VerbAlgorithm):
    NAME, TITLE = "faces", "Faces: which features cover what"
    TAGS = ("identity", "intersection", "union", "overlaps", "flat")
    RESULT = "Faces"
    HELP = (
        "All points that just the same features cover are one row. The field a has the numbers of "
        "the first layer's features that cover it, b those of the second one's, and so on, with "
        "commas between; area is its area. The fields that are kept are named a_FIELD, b_FIELD; "
        "where several features of a layer cover a row, their values are texts with commas "
        "between."
        "\n\nIntersection: the rows with a and b. Identity: those with a. Union: all. Overlaps "
        "within a layer: those with several numbers."
    )

    def add_inputs(self) -> None:
        self.add_layer(INPUT, "First layer (a)")
        self.add_fields(INPUT_FIELDS, "Fields of the first layer to keep", INPUT)
        self.add_layer(OVERLAY, "Second layer (b)", optional=True)
        self.add_fields(OVERLAY_FIELDS, "Fields of the second layer to keep", OVERLAY)
        told = "Further layers (c, d, ..)"
        self.addParameter(QgsProcessingParameterMultipleLayers(LAYERS, told, QgsProcessing.TypeVectorPolygon, optional=True))
        self.addParameter(
            QgsProcessingParameterBoolean(
                ALL_FIELDS, "Keep all fields of further layers", defaultValue=False
            )
        )
        self.add_parts()

    def words(self, call: Call) -> list[str]:
        layers = [call.hand(INPUT, INPUT_FIELDS)]
        layers += [call.hand(OVERLAY, OVERLAY_FIELDS)] if call.given(OVERLAY) else []
        layers += call.hand_all(LAYERS, call.truth(ALL_FIELDS))
        return ["faces", *words_of(layers), *(["--parts"] if call.truth(PARTS) else [])]
