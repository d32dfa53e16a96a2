"""Layers as QGIS shows them, as files that the command reads: each is a GeoPackage in a folder that
goes at the end.

So a layer is what the user sees, wherever it is kept: with its filter, selection, edits that aren't
saved, joined fields and the reference system that was set in QGIS. Features keep their numbers.
"""

from __future__ import annotations

import os
import re
from pathlib import Path
from typing import Any, NamedTuple, Sequence

from osgeo import gdal, ogr, osr
from qgis.core import (
    QgsCoordinateReferenceSystem,
    QgsFeature,
    QgsFeatureRequest,
    QgsMapLayer,
    QgsProcessingContext,
    QgsProcessingException,
    QgsProcessingFeatureSource,
    QgsProcessingFeedback,
    QgsProviderRegistry,
)

from .columns import column_of, names_apart, put

# The columns of the GeoPackage that no field of a layer is named as; no reader asks for an index.
OPTIONS = ["FID=overlay_exact_number", "GEOMETRY_NAME=overlay_exact_shape", "SPATIAL_INDEX=NO"]

# What a layer's name may have in a file's, and how much of it.
STRANGE = re.compile(r"[^\w .-]")
LONGEST = 60


class Handed(NamedTuple):
    """A layer that was handed over: what the command calls it, its file's name in the folder, and
    the fields that it has there."""

    letter: str
    name: str
    fields: Sequence[str]


class Inputs:
    """The layers that are handed over, each in a folder of its letter: a, b and so on, as the
    command calls them."""

    def __init__(self, folder: str, context: QgsProcessingContext, feedback: QgsProcessingFeedback):
        self.folder = folder
        self.context = context
        self.feedback = feedback
        self.count = 0

    def add(self, source: QgsProcessingFeatureSource, fields: Sequence[str] = ()) -> Handed:
        """Writes the features of a source with these fields."""
        letter = chr(ord("a") + self.count)
        name = f"{letter}/{STRANGE.sub('_', source.sourceName())[:LONGEST] or letter}.gpkg"
        os.mkdir(os.path.join(self.folder, letter))
        self.count += 1
        self.feedback.setProgressText(f"reading {source.sourceName()}")
        places = [place_of(field, source) for field in fields]
        names = names_apart([source.fields().at(k).name() for k in places])
        try:
            self.fill(source, places, names, name)
        except RuntimeError as error:  # what GDAL raises where another plugin has it raise
            raise QgsProcessingException(f"{name}: {error}") from error
        return Handed(letter, name, names)

    def fill(self, source: QgsProcessingFeatureSource, places: Sequence[int], names: Sequence[str], name: str) -> None:
        dataset = ogr.GetDriverByName("GPKG").CreateDataSource(os.path.join(self.folder, name))
        layer = made(made(dataset, name).CreateLayer(Path(name).stem, system_of(source.sourceCrs()), ogr.wkbUnknown, OPTIONS), name)
        for k, called in zip(places, names):
            refuse(layer.CreateField(column_of(source.fields().at(k), called)), name)
        dataset.StartTransaction()
        request = QgsFeatureRequest().setSubsetOfAttributes(list(places))
        total = max(source.featureCount(), 1)
        for count, feature in enumerate(source.getFeatures(request, QgsProcessingFeatureSource.FlagSkipGeometryValidityChecks)):
            if self.feedback.isCanceled():
                break
            self.feedback.setProgress(100 * count / total)
            refuse(layer.CreateFeature(handed(feature, places, layer, name)), f"{name}: feature {feature.id()}")
        refuse(dataset.CommitTransaction(), name)


def handed(feature: QgsFeature, places: Sequence[int], layer: ogr.Layer, name: str) -> ogr.Feature:
    """A feature of QGIS as one of a layer of the GeoPackage, with its number."""
    held = ogr.Feature(layer.GetLayerDefn())
    held.SetFID(feature.id())
    if feature.hasGeometry():
        geometry = ogr.CreateGeometryFromWkb(bytes(feature.geometry().asWkb()))
        held.SetGeometryDirectly(made(geometry, f"{name}: feature {feature.id()}"))
    for column, k in enumerate(places):
        put(held, column, feature.attribute(k))
    return held


def system_of(system: QgsCoordinateReferenceSystem) -> osr.SpatialReference | None:
    """A reference system of QGIS as GDAL has it, with x first; nothing where there is none."""
    if not system.isValid():
        return None
    found = osr.SpatialReference()
    found.SetFromUserInput(system.toWkt(QgsCoordinateReferenceSystem.WKT_PREFERRED_GDAL))
    found.SetAxisMappingStrategy(osr.OAMS_TRADITIONAL_GIS_ORDER)
    return found


def made(what: Any, name: str) -> Any:
    """What GDAL has made, if it has."""
    refuse(what is None, name)
    return what


def refuse(status: int | bool, name: str) -> None:
    """Tells what GDAL says, if that isn't that all is well."""
    if status:
        raise QgsProcessingException(f"{name}: {gdal.GetLastErrorMsg()}")


def place_of(field: str, source: QgsProcessingFeatureSource) -> int:
    """Which field of a source it is."""
    place: int = source.fields().lookupField(field)
    if place < 0:
        raise QgsProcessingException(
            f"{source.sourceName()}: has no field {field}, but"
            f" {', '.join(source.fields().names()) or 'none'}"
        )
    return place


def words_of(layers: Sequence[Handed]) -> list[str]:
    """The words of the command that name layers, and the fields of them that are kept."""
    kept = [keep(layer.letter) + listed(layer.fields) for layer in layers if layer.fields]
    return [*(layer.name for layer in layers), *kept]


def listed(fields: Sequence[str]) -> str:
    """The names of fields as the command takes them: in quotes, with those that they have doubled, as
    in CSV."""
    return ",".join('"' + field.replace('"', '""') + '"' for field in fields)


def keep(letter: str) -> str:
    """The option for the fields of a layer that are kept, which the first two have one of their own
    for."""
    return f"--keep-{letter}=" if letter in "ab" else f"--keep={letter}:"


def file_of(layer: QgsMapLayer) -> str:
    """The file that a layer is read from, if it is one."""
    parts = QgsProviderRegistry.instance().decodeUri(layer.providerType(), layer.source())
    return parts.get("path") or ""


def refuse_input(output: str, layer: QgsMapLayer | None) -> None:
    """An output may replace what is there, but no input."""
    source = file_of(layer) if layer else ""
    if os.path.exists(output) and os.path.exists(source) and os.path.samefile(output, source):
        raise QgsProcessingException(f"{output}: is an input")
