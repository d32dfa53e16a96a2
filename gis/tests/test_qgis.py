"""The plugin for QGIS, by `qgis_process` from a profile of its own, and by PyQGIS; both without a
screen."""

import json
import os
import shutil
import subprocess
from pathlib import Path

import pytest
from osgeo import ogr
from shapely.geometry import box

from conftest import EAST, NORTH, UTM, read, write

PLUGIN = Path(__file__).resolve().parents[1] / "qgis" / "overlay_exact"
PYTHON = "/usr/bin/python3"
QGIS_PYTHON = "/usr/share/qgis/python"

# Debian's wrapper of the name qgis_process asks for a file that its package doesn't have.
PROCESS = shutil.which("qgis_process.bin") or shutil.which("qgis_process")
LACKING = not (PROCESS and os.path.isdir(QGIS_PYTHON))

pytestmark = pytest.mark.skipif(LACKING, reason="QGIS isn't there, and its plugin was not tried (apt-get install qgis)")


def square(x, y, side=4):
    return box(EAST + x, NORTH + y, EAST + x + side, NORTH + y + side)


@pytest.fixture
def home(tmp_path):
    """A home with a profile that has the plugin, linked from here and enabled."""
    made = tmp_path / "home"
    profile = made / ".local/share/QGIS/QGIS3/profiles/default"
    (profile / "python/plugins").mkdir(parents=True)
    made.chmod(0o700)
    (profile / "python/plugins/overlay_exact").symlink_to(PLUGIN)
    (profile / "QGIS").mkdir()
    (profile / "QGIS/QGIS3.ini").write_text("[PythonPlugins]\noverlay_exact=true\n")
    return made


@pytest.fixture
def environment(home, program):
    path = f"{QGIS_PYTHON}:{QGIS_PYTHON}/plugins:{PLUGIN.parent}"
    return {
        **{"PATH": "/usr/bin:/bin", "LC_ALL": "C.UTF-8", "QT_QPA_PLATFORM": "offscreen", "PYTHONPATH": path},
        **{"HOME": str(home), "TMPDIR": str(home), "XDG_RUNTIME_DIR": str(home), "OVERLAY": program, "PYTHONDONTWRITEBYTECODE": "1"},
    }


@pytest.fixture
def process(environment, tmp_path):
    """Runs an algorithm by qgis_process, and answers its results."""

    def call(name, **parameters):
        words = [f"{key}={value}" for key, values in parameters.items() for value in (values if isinstance(values, list) else [values])]
        done = subprocess.run(
            [PROCESS, "--json", "run", f"overlay_exact:{name}", "--", *words],
            cwd=tmp_path, env=environment, capture_output=True, text=True, check=False,
        )
        assert done.returncode == 0, done.stderr
        return json.loads(done.stdout)["results"]

    return call


BEGIN = """
import json, os, time
from qgis.core import *
from qgis.PyQt.QtCore import QVariant
application = QgsApplication([], False)
application.initQgis()
import processing
from processing.core.Processing import Processing
from processing.core.ProcessingConfig import ProcessingConfig
Processing.initialize()
from overlay_exact import classFactory
plugin = classFactory(None)
plugin.initProcessing()

class Log(QgsProcessingFeedback):
    def __init__(self, until=None):
        super().__init__()
        self.said, self.until = [], until
    def pushInfo(self, text):
        self.said.append(text)
        if text == self.until: self.cancel()
    def pushWarning(self, text): self.said.append("! " + text)
    def setProgressText(self, text): self.said.append("> " + text)
    def reportError(self, text, fatal=False): self.said.append("!! " + text)

def layer(path, name):
    made = QgsVectorLayer(path, name, "ogr")
    assert made.isValid()
    QgsProject.instance().addMapLayer(made)
    return made

def run(name, log=None, **parameters):
    parameters.setdefault("OUTPUT", "TEMPORARY_OUTPUT")
    try:
        return processing.run("overlay_exact:" + name, parameters, feedback=log or Log())
    except QgsProcessingException as error:
        return str(error)

def system(path):
    return QgsVectorLayer(path, "layer", "ogr").crs().toProj()

def rows(results, *fields):
    assert isinstance(results, dict), results
    features = QgsVectorLayer(results["OUTPUT"], "rows", "ogr").getFeatures()
    return sorted(tuple(str(feature[field]) for field in fields) + (feature.geometry().area(),) for feature in features)
"""

END = """
plugin.unload()
application.exitQgis()
"""


@pytest.fixture
def pyqgis(environment, tmp_path):
    """Runs lines in QGIS's Python, and answers the value that they leave in `answer`."""

    def call(lines):
        script = f"{BEGIN}\n{lines}\nprint('\\n' + json.dumps(answer))\n{END}"
        done = subprocess.run([PYTHON, "-c", script], cwd=tmp_path, env=environment, capture_output=True, text=True, check=False)
        assert done.returncode == 0, done.stderr
        return json.loads([line for line in done.stdout.splitlines() if line][-1])

    return call


@pytest.fixture
def layers(tmp_path):
    """Two parcels side by side, and a zone over a half of each and beyond."""
    parcels = write(tmp_path / "parcels.gpkg", [square(0, 0), square(4, 0)], fields={"owner": ["Ada", "Bo"], "share": [1, 2]})
    zones = write(tmp_path / "zones.gpkg", [square(2, 2)], fields={"name": ["wood"]})
    return parcels, zones


def area(path):
    return sum(shape.area for shape, _ in read(path))


def test_by_qgis_process(process, layers, tmp_path):
    parcels, zones = layers
    assert process("overlay", OPERATION=2, INPUT=parcels, OVERLAY=zones, OUTPUT="out.shp") == {"OUTPUT": "out.shp"}
    assert area(tmp_path / "out.shp") == 24
    process("faces", INPUT=parcels, INPUT_FIELDS=["owner", "share"], OVERLAY=zones, OVERLAY_FIELDS="name", OUTPUT="out.gpkg")
    fields = ("a", "b", "a_owner", "a_share", "b_name", "area")
    assert {(*map(row.get, fields), shape.area) for shape, row in read(tmp_path / "out.gpkg")} == {
        ("1", None, "Ada", 1, None, 12, 12),
        ("2", None, "Bo", 2, None, 12, 12),
        ("1", "1", "Ada", 1, "wood", 4, 4),
        ("2", "1", "Bo", 2, "wood", 4, 4),
        (None, "1", None, None, "wood", 8, 8),
    }
    assert process("check", INPUT=parcels, OUTPUT="out.gpkg") == {"OUTPUT": "out.gpkg", "SOUND": True}
    assert read(tmp_path / "out.gpkg") == []


def test_overlay(pyqgis, layers, tmp_path):
    """Each operation; and a layer of which two features overlap, united with itself, as covered and
    by parity."""
    double = write(tmp_path / "double.gpkg", [square(0, 0), square(2, 0)])
    assert pyqgis(f"""
asked = [{{"OPERATION": k, "INPUT": {layers[0]!r}, "OVERLAY": {layers[1]!r}}} for k in range(4)]
asked += [{{"OPERATION": 1, "INPUT": {double!r}, "OVERLAY": {double!r}, "COVERED": covered}} for covered in (True, False)]
answer = [sum(row[-1] for row in rows(run("overlay", **words))) for words in asked]
""") == [8, 40, 24, 32, 24, 16]


def test_faces(pyqgis, layers, tmp_path):
    """Of one layer without a system, and of three: the third one is c, and keeps all its fields
    where that is asked for."""
    lanes = write(tmp_path / "lanes.shp", [square(0, 0, 1)], fields={"name": ["lane"]})
    double = write(tmp_path / "double.geojson", [square(0, 0), square(2, 0)], srs=None)
    alone, three = pyqgis(f"""
three = run("faces", INPUT={layers[0]!r}, OVERLAY={layers[1]!r}, LAYERS=[{lanes!r}], ALL_FIELDS=True, PARTS=True)
answer = [rows(run("faces", INPUT={double!r}), "a"), rows(three, "a", "b", "c", "c_name")]
""")
    assert alone == [["0", 8], ["0,1", 8], ["1", 8]]
    assert ["1", "NULL", "0", "lane", 1] in three and len(three) == 6


def test_overlay_with_fields(pyqgis, layers):
    """The rows of faces that the operation has."""
    words = f'INPUT={layers[0]!r}, OVERLAY={layers[1]!r}, INPUT_FIELDS=["owner"], OVERLAY_FIELDS=["name"]'
    common, first = pyqgis(f"answer = [rows(run('overlay', OPERATION=k, {words}), 'a_owner', 'b_name') for k in (0, 2)]")
    assert common == [["Ada", "wood", 4], ["Bo", "wood", 4]] and first == [["Ada", "NULL", 12], ["Bo", "NULL", 12]]


def test_dissolve(pyqgis, tmp_path):
    shapes = [square(0, 0), square(2, 2), square(20, 0)]
    parcels = write(tmp_path / "parcels.gpkg", shapes, fields={"owner": ["Ada", "Ada", "Bo"], "share": [1, 1, 2]})
    by_owner, whole, parts = pyqgis(f"""
answer = [rows(run("dissolve", INPUT={parcels!r}, FIELD=["owner", "share"]), "owner", "share", "features")]
answer += [rows(run("dissolve", INPUT={parcels!r}, PARTS=parts)) for parts in (False, True)]
""")
    assert by_owner == [["Ada", "1", "2", 28], ["Bo", "2", "1", 16]] and whole == [[44]] and parts == [[16], [28]]


def test_fields_with_commas_and_quotes(pyqgis, tmp_path):
    names = ["x,y", 'the "old" one']
    a = write(tmp_path / "a.gpkg", [square(0, 0)], fields={names[0]: ["Ada"], names[1]: ["Bo"]})
    united, faces = pyqgis(f"""
answer = [rows(run("dissolve", INPUT={a!r}, FIELD={names}), *{names})]
answer += [rows(run("faces", INPUT={a!r}, INPUT_FIELDS={names}, LAYERS=[{a!r}], ALL_FIELDS=True), *["a_" + name for name in {names}])]
""")
    assert united == faces == [["Ada", "Bo", 16]]


def test_check(pyqgis, tmp_path):
    """Two squares that overlap by 1 metre, and a frame of which the hole is 2 metres wide."""
    frame = square(20, 0, 12).difference(square(25, 5, 2))
    town = write(tmp_path / "town.gpkg", [square(0, 0), square(3, 0), frame])
    usual, wide, fault = pyqgis(f"""
log, answer = Log(), []
for width in ("", "3", "wide"):
    results = run("check", log, INPUT={town!r}, GAP_WIDTH=width)
    answer.append([results["SOUND"], rows(results, "kind", "first"), log.said] if isinstance(results, dict) else results)
""")
    assert usual[:2] == [False, [["overlap", "1", 4]]] and "a/town.gpkg: features 1 and 2: overlap by 4 m²" in usual[2]
    assert wide[:2] == [False, [["gap", "NULL", 4], ["overlap", "1", 4]]]
    assert "argument --gap-width: wide is no number" in fault


def test_systems_and_formats(pyqgis, tmp_path):
    """The output has the layers' system, in each format; a grid of degrees is chosen for
    degrees."""
    near = write(tmp_path / "near.gpkg", [box(10, 50, 10.00004, 50.00004)], srs="EPSG:4326")
    own = write(tmp_path / "own.gpkg", [square(0, 0)], srs="+proj=tmerc +lon_0=8.5 +x_0=412000 +ellps=bessel +units=m")
    answer = pyqgis(f"""
answer = []
for path in {[near, own]!r}:
    for ending in ("gpkg", "shp", "fgb"):
        results = run("overlay", INPUT=path, OVERLAY=path, OUTPUT=f"out.{{ending}}")
        answer.append([system(path), system(results["OUTPUT"]), rows(results)[0][0]])
""")
    assert all("+proj=" in wanted and wanted == got for wanted, got, _ in answer)
    assert [whole for *_, whole in answer] == [pytest.approx(1.6e-9, rel=1e-3)] * 3 + [16] * 3


def test_faults_in_the_commands_own_words(pyqgis, layers, tmp_path):
    parcels, zones = layers
    before, far = Path(zones).read_bytes(), write(tmp_path / "far.gpkg", [square(0, 0)], srs="EPSG:25833")
    no_number, system, ending, field, segments, *inputs = pyqgis(f"""
parcels, zones = {parcels!r}, {zones!r}
answer = [run("overlay", INPUT=parcels, OVERLAY=zones, GRID="nought"), run("overlay", INPUT=parcels, OVERLAY={far!r})]
answer += [run("check", INPUT=parcels, OUTPUT="out.xyz"), run("faces", INPUT=parcels, INPUT_FIELDS=["rent"])]
answer += [run("dissolve", INPUT=parcels, SEGMENTS="7")]
for name in (zones, zones + "|layername=zones"):
    answer += [run("overlay", INPUT=parcels, OVERLAY=name, OUTPUT=zones), run("faces", INPUT=parcels, LAYERS=[name], OUTPUT=zones)]
""")
    assert "nought is no decimal number" in no_number
    assert "b/far.gpkg: has EPSG:25833, and a/parcels.gpkg has EPSG:25832: bring one into the other's" in system
    assert "parcels: has no field rent, but fid, owner, share" in field
    assert "more than 7 segments" in segments
    assert "out.xyz: no driver of this GDAL writes files that end in .xyz" in ending
    assert all("zones.gpkg: is an input" in fault for fault in inputs)
    assert Path(zones).read_bytes() == before


def test_layers_as_qgis_shows_them(pyqgis, layers, tmp_path):
    """Numbers, filter, selection, edits, joined fields, and layers that no file has."""
    parcels = write(tmp_path / "town.shp", [square(8 * k, 0) for k in range(4)], fields={"owner": ["Ada", "Bo", "Cy", "Di"]})
    answer = pyqgis(f"""
parcels, answer = layer({parcels!r}, "the town's: |layername=parcels"), {{}}
def asked(**more):
    return rows(run("faces", **{{"INPUT": parcels, "INPUT_FIELDS": ["owner"], **more}}), "a", "a_owner")
answer["all"] = asked()
parcels.setSubsetString("owner > 'B'")
answer["filter"] = asked()
parcels.setSubsetString("")
parcels.selectByIds([2, 3])
answer["selection"] = asked(INPUT=QgsProcessingFeatureSourceDefinition(parcels.id(), True))
answer["refused"] = run("faces", INPUT=QgsProcessingFeatureSourceDefinition(parcels.id(), True), OUTPUT={parcels!r})
parcels.startEditing()
parcels.deleteFeatures([0, 1, 2])
answer["edits"] = asked()
parcels.rollBack()
parcels.addExpressionField("lower(owner)", QgsField("low", QVariant.String))
answer["field"] = rows(run("faces", INPUT=parcels, INPUT_FIELDS=["low"]), "a", "a_low")
memory = QgsVectorLayer("Polygon?crs=EPSG:25832&field=fid:integer&field=Geom:string", "m", "memory")
made = QgsFeature(memory.fields())
made.setGeometry(QgsGeometry.fromWkt("POLYGON ((0 0, 4 0, 4 4, 0 4, 0 0))"))
made.setAttributes([7, "x"])
memory.dataProvider().addFeatures([made])
answer["memory"] = rows(run("faces", INPUT=memory, INPUT_FIELDS=["fid", "Geom"]), "a", "a_fid", "a_Geom")
""")
    owners = [["0", "Ada", 16.0], ["1", "Bo", 16.0], ["2", "Cy", 16.0], ["3", "Di", 16.0]]
    assert answer["all"] == owners and answer["filter"] == owners[1:]
    assert "town.shp: is an input" in answer["refused"]
    assert answer["selection"] == owners[2:] and answer["edits"] == owners[3:]
    assert answer["field"] == [[number, owner.lower(), whole] for number, owner, whole in owners]
    assert answer["memory"] == [["1", "7", "x", 16.0]]


def test_values_are_kept_as_qgis_shows_them(process, pyqgis, tmp_path):
    """Milliseconds, objects and lists, bytes, numbers of 64 bits, nothing and no sign, and two fields
    of one name but for the case."""
    corners = [[0, 0], [4, 0], [4, 4], [0, 4], [0, 0]]
    words = {"moment": "2024-02-29T12:34:56.789", "day": "2024-02-29", "time": "12:30:00.250", "tags": ["x", "é"], "lots": [1, 2**62 + 1]}
    words |= {"facts": {"x": [1, None]}, "large": 2**62 + 1, "sound": True, "share": 0.1, "none": None, "empty": "", "name": "a", "Name": "b"}
    fields = [{**words, "other": "x"}, {**words, "moment": "2024-02-29T12:34:56.250"}]
    shapes = [{"type": "Polygon", "coordinates": [[[x + 8 * k, y] for x, y in corners]]} for k in range(2)]
    features = [{"type": "Feature", "properties": held, "geometry": shape} for held, shape in zip(fields, shapes)]
    (tmp_path / "a.geojson").write_text(json.dumps({"type": "FeatureCollection", "features": features}))
    process("faces", INPUT="a.geojson", INPUT_FIELDS=list(words), OUTPUT="out.gpkg")
    source = ogr.Open(str(tmp_path / "out.gpkg"))
    first, second = source.GetLayer(0)
    shown = {name: first[f"a_{name}"] for name in words if name != "Name"}
    lists = {name: json.loads(shown.pop(name)) for name in ("tags", "lots", "facts")}
    assert lists == {name: words[name] for name in lists}
    assert shown == {**{name: words[name] for name in shown}, "moment": "2024/02/29 12:34:56.789", "day": "2024/02/29", "sound": 1}
    assert first["a_Name_"] == "b" and second["a_moment"] == "2024/02/29 12:34:56.250"
    process("dissolve", INPUT="a.geojson", FIELD=["moment", "day"], OUTPUT="days.gpkg")
    assert [fields["features"] for _, fields in read(tmp_path / "days.gpkg")] == [1, 1]
    assert pyqgis("""
from qgis.PyQt.QtCore import QByteArray
memory = QgsVectorLayer("Polygon?crs=EPSG:25832&field=raw:binary&field=name:string(3)&field=Name_:string", "m", "memory")
made = QgsFeature(memory.fields())
made.setGeometry(QgsGeometry.fromWkt("POLYGON ((0 0, 4 0, 4 4, 0 4, 0 0))"))
made.setAttributes([QByteArray.fromHex(b"00ff"), "abc", None])
memory.dataProvider().addFeatures([made])
results = run("faces", INPUT=memory, INPUT_FIELDS=["raw", "name", "Name_"], OUTPUT="out.gpkg")
(feature,) = QgsVectorLayer(results["OUTPUT"], "rows", "ogr").getFeatures()
answer = [bytes(feature["a_raw"]).hex(), feature["a_name"], feature["a_Name_"] == NULL, feature.fields().field("a_name").length()]
""") == ["00ff", "abc", True, 3]


def test_a_system_that_was_set_in_qgis(pyqgis, layers, tmp_path):
    bare = write(tmp_path / "bare.gpkg", [square(2, 2)], srs=None)
    answer = pyqgis(f"""
parcels, bare = layer({layers[0]!r}, "parcels"), layer({bare!r}, "bare")
bare.setCrs(QgsCoordinateReferenceSystem())
answer = [run("overlay", INPUT=parcels, OVERLAY=bare)]
bare.setCrs(QgsCoordinateReferenceSystem("EPSG:25832"))
answer += [sum(shape for _, shape in rows(run("overlay", INPUT=parcels, OVERLAY=bare), "id"))]
""")
    assert "b/bare.gpkg: has no reference system, and a/parcels.gpkg has EPSG:25832" in answer[0] and answer[1] == 8


def test_shapes_of_each_kind(pyqgis, tmp_path):
    """QGIS would refuse a bow tie, which covers both its halves; a layer of polygons may have one
    of several, with heights, or none."""
    kinds = ["POLYGON Z ((0 0 1, 4 0 1, 4 4 1, 0 4 1, 0 0 1))", "MULTIPOLYGON (((9 0, 12 0, 9 3, 9 0)), ((19 0, 22 0, 19 3, 19 0)))"]
    mixed = write(tmp_path / "mixed.gpkg", [*map(ogr.CreateGeometryFromWkt, kinds), None], kind=ogr.wkbPolygon)
    ties, mixed = pyqgis(f"""
ties = QgsVectorLayer("Polygon?crs=EPSG:25832", "ties", "memory")
made = QgsFeature(ties.fields())
made.setGeometry(QgsGeometry.fromWkt("POLYGON ((0 0, 4 4, 4 0, 0 4, 0 0))"))
ties.dataProvider().addFeatures([made])
answer = [rows(run("overlay", INPUT=ties, OVERLAY=ties)), rows(run("faces", INPUT={mixed!r}), "a")]
""")
    assert sum(whole for (whole,) in ties) == 8 and mixed == [["1", 16], ["2", 9]]


def test_progress_warnings_and_the_end(pyqgis, layers, tmp_path):
    """What the command says to a terminal is handed on; a user who cancels ends it, and its
    helper's files go."""
    script = tmp_path / "pretended"
    script.write_text("""#!/bin/sh
trap 'echo tidied >&2; exit 1' TERM
echo $$ > {0}/number
printf 'overlay-gis: a: warning: odd\\n\\rlooking: 40%%\\033[K\\rlooking: 80%%\\033[K\\r\\033[Koverlay-gis: a: grid\\n' >&2
[ "$1" = run ] || exit 3
while :; do sleep 0.1; done
""".format(tmp_path))
    script.chmod(0o755)
    answer = pyqgis(f"""
from overlay_exact import command
command.GRACE = 300.0  # a machine may be too busy for what users wait
ProcessingConfig.setSettingValue(command.SETTING, {str(script)!r})
log, reached = Log(), []
log.progressChanged.connect(lambda percent: reached.append(percent))
fault = run("check", log, INPUT={layers[0]!r})
log.said = [text for text in log.said if "reading" not in text]
shown = log.said[:]
log = Log(until="a: grid")
results = run("overlay", log, INPUT={layers[0]!r}, OVERLAY={layers[1]!r}, OUTPUT="out.gpkg")
answer = [fault, shown, reached, results, "tidied" in log.said]
""")
    fault, shown, reached, results, tidied = answer
    assert fault.endswith("a: grid") and {40, 80} <= set(reached)
    assert ["! a: warning: odd", "> looking", "a: grid"] == [text for text in shown if "check" not in text]
    assert results == {} and tidied
    assert not (tmp_path / "out.gpkg").exists() and not os.path.exists(f"/proc/{(tmp_path / 'number').read_text().strip()}")


def test_in_the_background(pyqgis, layers):
    """As the windows of QGIS run it: a task in a thread of its own, on layers of the project."""
    assert pyqgis(f"""
parcels, zones = layer({layers[0]!r}, "parcels"), layer({layers[1]!r}, "zones")
context, log, answer = QgsProcessingContext(), Log(), []
context.setProject(QgsProject.instance())
words = {{"INPUT": parcels.id(), "LAYERS": [zones.id()], "ALL_FIELDS": True, "OUTPUT": "out.gpkg"}}
algorithm = QgsApplication.processingRegistry().createAlgorithmById("overlay_exact:faces")
task = QgsProcessingAlgRunnerTask(algorithm, words, context, log)
task.executed.connect(lambda sound, results: answer.extend([sound, rows(results, "b_name")]))
QgsApplication.taskManager().addTask(task)
while not answer:
    application.processEvents()
    time.sleep(0.01)
""") == [True, [["NULL", 12], ["NULL", 12], ["wood", 4], ["wood", 4], ["wood", 8]]]


def test_where_the_command_is(pyqgis, layers, tmp_path):
    """The setting goes first; a plugin from a ZIP file, which nothing stands beside, wants the path
    or the package."""
    script = tmp_path / "moved"
    script.touch()
    answer = pyqgis(f"""
from overlay_exact import command
answer = [command.located()]
ProcessingConfig.setSettingValue(command.SETTING, {str(script)!r})
os.remove({str(script)!r})
answer += [run("check", INPUT={layers[0]!r})]
ProcessingConfig.setSettingValue(command.SETTING, "")
command.BESIDE = command.PACKAGED = {str(script)!r}
answer += [run("check", INPUT={layers[0]!r})]
""")
    assert answer[0] == str(PLUGIN.parents[1] / "overlay-gis")
    assert f"{script}: there is no such file" in answer[1] and "overlay-gis isn't found: install" in answer[2]
