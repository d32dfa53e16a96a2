"""What all algorithms have in common: layers, a grid, an output file, and the command that does the
work."""

from __future__ import annotations

import os
from tempfile import TemporaryDirectory
from typing import Any, Iterator, Mapping, Sequence

from qgis.core import (
    QgsProcessing,
    QgsProcessingAlgorithm,
    QgsProcessingContext,
    QgsProcessingException,
    QgsProcessingFeatureSource,
    QgsProcessingFeatureSourceDefinition,
    QgsProcessingFeedback,
    QgsProcessingParameterBoolean,
    QgsProcessingParameterFeatureSource,
    QgsProcessingParameterField,
    QgsProcessingParameterString,
    QgsProcessingParameterVectorDestination,
    QgsProcessingUtils,
    QgsVectorLayer,
)

from . import command
from .inputs import Handed, Inputs, refuse_input

# Parameters, which are named as those of QGIS's own algorithms are.
INPUT, INPUT_FIELDS, OVERLAY, OVERLAY_FIELDS = "INPUT", "INPUT_FIELDS", "OVERLAY", "OVERLAY_FIELDS"
PARTS, OUTPUT = "PARTS", "OUTPUT"

# Parameters that are texts or nothing: the command's options, and what the user is asked.
Texts = Mapping[str, tuple[str, str]]
TEXTS = {
    "GRID": ("--grid", "Grid unit (empty: 0.001, or 0.000001 degrees)"),
    "SEGMENTS": ("--segments", "Most segments of all layers together (--segments; empty: 1048576)"),
}

ON_A_GRID = (
    "\n\nCorners and crossings are rounded to a grid: a corner moves by at most 0.71 grid units. "
    "No layer has to be valid. Layers have one reference system, and the output has it too."
)


class Call:
    """One run of an algorithm: what its parameters are, and the layers that are handed over."""

    def __init__(self, algorithm: VerbAlgorithm, parameters: dict[str, Any], inputs: Inputs):
        self.algorithm = algorithm
        self.parameters = parameters
        self.inputs = inputs
        self.context = context = inputs.context
        self.output: str = algorithm.parameterAsOutputLayer(parameters, OUTPUT, context)

    def text(self, name: str) -> str:
        return str(self.algorithm.parameterAsString(self.parameters, name, self.context)).strip()

    def truth(self, name: str) -> bool:
        return bool(self.algorithm.parameterAsBoolean(self.parameters, name, self.context))

    def choice(self, name: str) -> int:
        return int(self.algorithm.parameterAsEnum(self.parameters, name, self.context))

    def given(self, name: str) -> bool:
        return self.parameters.get(name) not in (None, "")

    def hand(self, name: str, fields: str = "") -> Handed:
        """Hands over the layer that a parameter names, with the fields that another one names."""
        source = self.algorithm.parameterAsSource(self.parameters, name, self.context)
        if source is None:
            raise QgsProcessingException(self.algorithm.invalidSourceError(self.parameters, name))
        refuse_input(self.output, self.layer(name))
        kept = self.algorithm.parameterAsFields(self.parameters, fields, self.context) if fields else []
        return self.inputs.add(source, kept)

    def layer(self, name: str) -> QgsVectorLayer | None:
        """The layer that a parameter names, which may name a selection of it."""
        value = self.parameters.get(name)
        whole = value.source if isinstance(value, QgsProcessingFeatureSourceDefinition) else value
        return self.algorithm.parameterAsVectorLayer({name: whole}, name, self.context)

    def hand_all(self, name: str, with_fields: bool) -> Iterator[Handed]:
        """Hands over all layers that a parameter names."""
        for layer in self.algorithm.parameterAsLayerList(self.parameters, name, self.context):
            refuse_input(self.output, layer)
            yield self.inputs.add(QgsProcessingFeatureSource(layer, self.context), layer.fields().names() if with_fields else [])


class VerbAlgorithm(QgsProcessingAlgorithm):
    """An algorithm that is a verb of the command: it has parameters, and the words that the command
    is called by."""

    NAME = TITLE = HELP = ""
    TAGS: Sequence[str] = ()
    RESULT = "Result"
    STATUSES: Sequence[int] = (0,)
    TEXTS: Texts = TEXTS

    def name(self) -> str:
        return self.NAME

    def displayName(self) -> str:
        return self.TITLE

    def shortHelpString(self) -> str:
        return self.HELP + ON_A_GRID

    def tags(self) -> list[str]:
        return [*self.TAGS, "overlay", "exact", "grid"]

    def createInstance(self) -> VerbAlgorithm:
        return type(self)()

    def initAlgorithm(self, configuration: Any = None) -> None:
        self.add_inputs()
        for name, (_, told) in self.TEXTS.items():
            self.addParameter(QgsProcessingParameterString(name, told, optional=True))
        self.addParameter(QgsProcessingParameterVectorDestination(OUTPUT, self.RESULT, QgsProcessing.TypeVectorPolygon))

    def add_layer(self, name: str, told: str, optional: bool = False) -> None:
        self.addParameter(QgsProcessingParameterFeatureSource(name, told, [QgsProcessing.TypeVectorPolygon], optional=optional))

    def add_fields(self, name: str, told: str, layer: str) -> None:
        self.addParameter(
            QgsProcessingParameterField(name, told, parentLayerParameterName=layer, allowMultiple=True, optional=True)
        )

    def add_parts(self) -> None:
        self.addParameter(QgsProcessingParameterBoolean(PARTS, "Each polygon by itself", defaultValue=False))

    def add_inputs(self) -> None:
        raise NotImplementedError

    def words(self, call: Call) -> list[str]:
        """The verb, its layers, which are handed over, and its options."""
        raise NotImplementedError

    def results(self, output: str, status: int) -> dict[str, Any]:
        return {OUTPUT: output}

    def processAlgorithm(
        self, parameters: dict[str, Any], context: QgsProcessingContext, feedback: QgsProcessingFeedback
    ) -> dict[str, Any]:
        with TemporaryDirectory(dir=QgsProcessingUtils.tempFolder()) as folder:
            call = Call(self, parameters, Inputs(folder, context, feedback))
            words = [*self.words(call), "-o", os.path.abspath(call.output), "--overwrite"]
            words += [f"{option}={call.text(name)}" for name, (option, _) in self.TEXTS.items() if call.text(name)]
            status = 0 if feedback.isCanceled() else command.run(words, folder, feedback, self.STATUSES)
        return {} if feedback.isCanceled() else self.results(call.output, status)
