"""The algorithm dissolve: the features of a layer united, all of them or those of equal values."""

from __future__ import annotations

from .algorithm import INPUT, PARTS, Call, VerbAlgorithm
from .inputs import listed

FIELD = "FIELD"


class Dissolve(VerbAlgorithm):
    NAME, TITLE = "dissolve", "Dissolve on a grid"
    TAGS = ("union", "unite", "merge", "aggregate")
    RESULT = "Dissolved"
    HELP = (
        "Unites all features of a layer, or those that have the same values in some fields: a"
        " feature for each value, with the value, the number of features and the area. All is"
        " rounded once, so that neighbours keep their common borders."
    )

    def add_inputs(self) -> None:
        self.add_layer(INPUT, "Layer")
        self.add_fields(FIELD, "Fields whose values tell what is united (empty: all)", INPUT)
        self.add_parts()

    def words(self, call: Call) -> list[str]:
        layer = call.hand(INPUT, FIELD)
        by = ["--by", listed(layer.fields)] if layer.fields else []
        return ["dissolve", layer.name, *by, *(["--parts"] if call.truth(PARTS) else [])]
