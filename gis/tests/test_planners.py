"""docs/PLANNERS.md: what its commands say of the town in samples/, its pictures, and what other
tools answer."""

import re
import shutil
import subprocess
import sys
from csv import DictReader
from pathlib import Path

import pytest
import shapely
from shapely.errors import TopologicalError
from shapely.ops import unary_union

from conftest import read
from test_database import WITHOUT, postgres, server  # noqa: F401 a fixture
from test_qgis import LACKING, environment, home, PROCESS  # noqa: F401 fixtures

TOP = Path(__file__).resolve().parents[2]
PAGE = (TOP / "docs" / "PLANNERS.md").read_text()
SECTION = PAGE.partition("## From two files to a map of conflicts\n")[2].partition("\n## ")[0]
PARCELS, ZONES = (TOP / "samples" / f"town-{name}.geojson" for name in ("parcels", "zones"))
PICTURES = ("town.svg", "town-flaws.svg", "town-conflicts.svg")

# The page's commands, and what it says that they print.
BLOCKS = [block.replace("\\\n", " ").splitlines() for block in re.findall(r"(?:(?:^    .*\n)+)", SECTION, re.M)]
COMMANDS = [line.split()[1:] for block in BLOCKS for line in block if line.startswith("    overlay-gis ")]
SAID = [line[4:] for block in BLOCKS for line in block if not line.startswith("    overlay-gis ")]


def of_table(tool):
    """The versions and the cells of a tool's row."""
    name, *cells = re.search(rf"^\| ({tool}[^|]*)\| (.*) \| (.*) \|$", SECTION, re.M).groups()
    return name.split()[1:], cells


def frame(path):
    """A layer as geopandas reads it."""
    geopandas = pytest.importorskip("geopandas", reason="no geopandas: apt-get install python3-geopandas")
    return geopandas.read_file(path)


def shapes_of(path):
    return [shape for shape, _ in read(path)]


def number(cell):
    return float(re.search(r"([\d,]+\.\d+) m²", cell)[1].replace(",", ""))


@pytest.fixture
def town(tmp_path):
    (tmp_path / "samples").symlink_to(TOP / "samples")


def test_the_town_is_made_by_its_script(tmp_path):
    shutil.copy(TOP / "samples" / "town.py", tmp_path)
    subprocess.run([sys.executable, tmp_path / "town.py"], check=True)
    for layer in (PARCELS, ZONES):
        assert (tmp_path / layer.name).read_bytes() == layer.read_bytes()


def test_the_commands_say_what_the_page_says(gis, town, tmp_path):
    check, faces = COMMANDS
    found = gis(*check)
    assert found.status == 4 and found.out.splitlines() == SAID
    told = gis(*faces)
    assert told.status == 0 and "conflicts.gpkg: 162 rows" in told.err and "conflicts.csv: 89 pairs" in told.err
    with open("conflicts.csv", newline="") as file:
        area = sum(int(row["twice_area"]) for row in DictReader(file)) / 2e6
    assert area == pytest.approx(number(of_table("overlay-gis")[1][0]), abs=6e-4)
    subprocess.run([sys.executable, TOP / "samples" / "draw.py", "flaws.gpkg", "conflicts.gpkg", "."], check=True)
    for name in PICTURES:
        assert Path(name).read_bytes() == (TOP / "docs" / name).read_bytes()
    united = gis("dissolve", check[1], "-o", "all.gpkg")
    covered = float(re.search(r" ([\d,.]+) united", united.err)[1].replace(",", ""))
    assert covered == pytest.approx(number(of_table("overlay-gis")[1][1]), abs=6e-4)


@pytest.mark.filterwarnings("ignore")
def test_geopandas_answers_as_the_page_says():
    (version,), (zones, _) = of_table("geopandas")
    parcels = frame(PARCELS)
    if not sys.modules["geopandas"].__version__.startswith(version):
        pytest.skip(f"the page tells of geopandas {version}")
    pairs = sys.modules["geopandas"].overlay(parcels, frame(ZONES), how="intersection")
    assert len(pairs) == 89 and pairs.area.sum() == pytest.approx(number(zones), abs=6e-4)
    with pytest.raises(ValueError):
        parcels.dissolve()


@pytest.mark.filterwarnings("ignore")
def test_shapely_answers_as_the_page_says():
    (version,), _ = of_table("Shapely")
    if not shapely.__version__.startswith(version):
        pytest.skip(f"the page tells of Shapely {version}")
    parcels, zones = (shapes_of(path) for path in (PARCELS, ZONES))
    with pytest.raises(TopologicalError):
        [parcel.intersection(zone) for parcel in parcels for zone in zones]
    with pytest.raises(ValueError):
        unary_union(parcels)


@pytest.mark.skipif(bool(WITHOUT), reason=f"NOT RUN: {', '.join(WITHOUT)}")
@pytest.mark.parametrize("asked", ["sum(st_area(st_intersection(p.geom, z.geom))) from p join z on st_intersects(p.geom, z.geom)", "st_area(st_union(geom)) from p"])
def test_postgis_answers_as_the_page_says(server, asked):  # noqa: F811
    (version,), _ = of_table("PostGIS")
    if not server.said("select postgis_lib_version()").startswith(version):
        pytest.skip(f"the page tells of PostGIS {version}")
    for table, path in zip("pz", (PARCELS, ZONES)):
        rows = ", ".join(f"(st_geomfromtext('{shape.wkt}'))" for shape in shapes_of(path))
        server.said(f"drop table if exists {table}; create table {table} (geom geometry); insert into {table} values {rows}")
    done = server.psql("select " + asked)
    assert done.returncode and "TopologyException" in done.stderr


@pytest.mark.skipif(LACKING, reason="QGIS isn't there (apt-get install qgis)")
@pytest.mark.parametrize("algorithm, column", [("intersection", 0), ("dissolve", 1)])
def test_qgis_answers_as_the_page_says(environment, tmp_path, algorithm, column):  # noqa: F811
    (version,), cells = of_table("QGIS")
    if f"QGIS {version}" not in subprocess.run([PROCESS, "--version"], capture_output=True, text=True, env=environment).stdout:
        pytest.skip(f"the page tells of QGIS {version}")
    out = tmp_path / "answer.gpkg"
    layers = [f"INPUT={PARCELS}", f"OUTPUT={out}"] + [f"OVERLAY={ZONES}"] * (algorithm == "intersection")
    done = subprocess.run([PROCESS, "run", f"native:{algorithm}", "--", *layers], capture_output=True, text=True, env=environment)
    answer = shapes_of(out)
    assert sum(shape.area for shape in answer) == pytest.approx(number(cells[column]), abs=6e-4)
    has_said = "TopologyException" in done.stdout + done.stderr
    if algorithm == "intersection":
        assert len(answer) == 58 and has_said and done.returncode == 1
    else:
        assert not has_said and done.returncode == 0
