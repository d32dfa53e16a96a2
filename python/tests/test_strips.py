"""Maps by strips: the calls on a worked example, and all strips against the edges and the results of the whole layers, up to their texts."""

import doctest
import os
import random
import re
from concurrent.futures import ProcessPoolExecutor, ThreadPoolExecutor
from itertools import accumulate

import pytest

numpy = pytest.importorskip("numpy", reason="no numpy: apt-get install python3-numpy")

import closed_by_definition as by_definition  # noqa: E402
import overlay_grid  # noqa: E402
from overlay_grid import Operation, strips  # noqa: E402

# Two rings of the first layer, the second one a hole, and one of the second layer; strip 2 has no point in its columns.
A = [[(0, 0), (12, 0), (12, 6), (0, 6), (0, 0)], [(1, 2), (8, 1), (8, 4), (1, 3), (1, 2)]]
B = [[(3, -2), (5, -2), (5, 8), (3, 8), (3, -2)]]
CUTS = [4, 6, 8]


def part_of(layer, rings):
    offsets = [0]
    for ring in rings:
        offsets.append(offsets[-1] + len(ring))
    return strips.Part(layer, [number for ring in rings for point in ring for number in point], offsets)


def text_of(rings):
    return "\n".join("POLYGON ((%s))" % ", ".join("%d %d" % point for point in ring) for ring in rings)


def tuples(found):
    return [tuple(row) for values in found for row in values.tolist()]


def whole(a, b):
    return [tuple(map(int, line.split())) for line in overlay_grid.edges(text_of(a), text_of(b)).splitlines()]


def rings(operation, a, b):
    """The directed edges of the rings of the whole layers' result."""
    found = []
    for ring in re.findall(r"\(([^()]+)\)", overlay_grid.overlay(operation, text_of(a), text_of(b), reading="parity")):
        points = [tuple(map(int, point.split())) for point in ring.split(",")]
        found += [(*p, *q) for p, q in zip(points, points[1:])]
    return sorted(found)


def example():
    """The lines of each strip of the worked example."""
    parts = [strips.scatter(CUTS, part_of(0, A), 0), strips.scatter(CUTS, part_of(1, B), 100)]
    return [numpy.concatenate(lists) for lists in zip(*parts)]


def ends(line):
    return (line["ax"], line["ay"]), (line["bx"], line["by"])


def opens(lines, found):
    """Of each open line its ends and its pixel, if it has one."""
    of = {line["number"]: ends(line) for line in lines}
    return {of[one["number"]]: (one["x"], one["y"]) if one["has_pixel"] else None for one in found}


def test_the_module_does_as_it_says():
    told = doctest.testmod(strips)
    assert told.attempted and not told.failed


def test_a_worked_example():
    lines = example()
    first, third = (strips.round_strip(CUTS, strip, lines[strip]) for strip in (0, 2))
    of_a = [((0, 0), (0, 6)), ((0, 0), (3, 0)), ((0, 6), (3, 6)), ((1, 2), (1, 3)), ((1, 2), (3, 2)), ((1, 3), (3, 3))]
    of_b = [((3, -2), (3, 0)), ((3, 0), (3, 2)), ((3, 2), (3, 3)), ((3, 3), (3, 6)), ((3, 6), (3, 8))]
    assert tuples([first.inner]) == [(*p, *q, 1, 0) for p, q in of_a] + [(*p, *q, 0, 1) for p, q in of_b]
    assert len(first.left) == 0
    assert opens(lines[0], first.right) == {
        ((0, 0), (12, 0)): (3, 0),
        ((0, 6), (12, 6)): (3, 6),
        ((1, 2), (8, 1)): (3, 2),
        ((1, 3), (8, 4)): (3, 3),
        ((3, -2), (5, -2)): (3, -2),
        ((3, 8), (5, 8)): (3, 8),
    }
    passing = dict.fromkeys([((0, 0), (12, 0)), ((0, 6), (12, 6)), ((1, 2), (8, 1)), ((1, 3), (8, 4))])
    assert len(third.inner) == 0 and opens(lines[2], third.left) == opens(lines[2], third.right) == passing


def test_borders_of_the_worked_example():
    lines, carried, across = example(), None, {}
    for strip in (3, 2, 1, 0):
        found, carried = strips.bridge(strips.round_strip(CUTS, strip, lines[strip]), carried)
        across[strip] = tuples([found])
    assert across[3] == across[2] == [] and len(carried) == 0
    assert across[1] == [(5, 0, 12, 0, 1, 0), (5, 1, 8, 1, 1, 0), (5, 4, 8, 4, 1, 0), (5, 6, 12, 6, 1, 0)]
    assert across[0] == [
        *[(3, -2, 5, -2, 0, 1), (3, 0, 5, 0, 1, 0), (3, 2, 5, 1, 1, 0), (3, 3, 5, 4, 1, 0)],
        *[(3, 6, 5, 6, 1, 0), (3, 8, 5, 8, 0, 1)],
    ]


def test_labels_of_the_worked_example(tmp_path):
    parts = [part_of(0, A), part_of(1, B)]
    found = [values.tolist() for values in strips.directed_edges(Operation.DIFFERENCE, parts, CUTS, str(tmp_path))]
    assert found == [
        [(0, 0, 3, 0), (0, 6, 0, 0), (1, 2, 1, 3), (1, 3, 3, 3), (3, 0, 3, 2), (3, 2, 1, 2), (3, 3, 3, 6), (3, 6, 0, 6)],
        [(5, 0, 12, 0), (5, 1, 5, 0), (5, 4, 8, 4), (5, 6, 5, 4), (8, 1, 5, 1), (12, 6, 5, 6)],
        [],
        [(8, 4, 8, 1), (12, 0, 12, 6)],
    ]
    edges = list(strips.edges(parts, CUTS, str(tmp_path)))
    second = strips.going_on(CUTS, 0, edges[0])
    third = strips.going_on(CUTS, 1, edges[1], second)
    assert tuples([second]) == [edge for edge in tuples([edges[0]]) if edge[2] == 5]
    assert tuples([third]) == [(5, 0, 12, 0, 1, 0), (5, 1, 8, 1, 1, 0), (5, 4, 8, 4, 1, 0), (5, 6, 12, 6, 1, 0)]
    assert tuples([strips.labels(Operation.INTERSECTION, edges[1], second)]) == [(5, 0, 5, 1), (5, 4, 5, 6)]
    assert len(strips.going_on(CUTS, 3, edges[3], strips.going_on(CUTS, 2, edges[2], third))) == 0


def square(x, y, side):
    """Counter-clockwise, from the least corner and back."""
    return [(x, y), (x + side, y), (x + side, y + side), (x, y + side), (x, y)]


def layer(rng, size):
    """Rings that cross one another and themselves, some of them twice."""
    found = []
    for _ in range(rng.randint(0, 5)):
        ring = [(rng.randint(-size, size), rng.randint(-size, size)) for _ in range(rng.randint(3, 7))]
        found += [ring + ring[:1]] * rng.choice((1, 1, 2))
    return found


@pytest.mark.parametrize("seed", range(60))
def test_all_strips_have_the_edges_of_the_whole(seed, tmp_path):
    rng = random.Random(seed)
    size = rng.choice((3, 8, 40, 1_000_000))
    a, b = layer(rng, size), layer(rng, size)
    cuts = sorted(rng.randint(-size - 1, size + 1) for _ in range(rng.choice((0, 1, 2, 5, 12))))
    parts = [part_of(0, a[:1]), part_of(1, b), part_of(0, a[1:])]
    assert tuples(strips.edges(parts, cuts, str(tmp_path))) == whole(a, b)


@pytest.mark.parametrize("seed", range(60))
def test_all_strips_have_the_result_of_the_whole(seed, tmp_path):
    rng = random.Random(f"labels {seed}")
    size = rng.choice((3, 8, 40, 1_000_000))
    a, b = layer(rng, size), layer(rng, size)
    cuts = sorted(rng.randint(-size - 1, size + 1) for _ in range(rng.choice((0, 1, 2, 5, 12))))
    for operation in (Operation.UNION, Operation.INTERSECTION, Operation.DIFFERENCE, Operation.SYMDIFFERENCE):
        found = list(strips.directed_edges(operation, [part_of(0, a), part_of(1, b)], cuts, str(tmp_path)))
        assert all(values.tolist() == sorted(values.tolist()) for values in found)
        assert sorted(tuples(found)) == rings(operation, a, b)


def strips_of(cuts, edge):
    """The strips of an edge's lesser end and of its greater one."""
    return [by_definition.strip_at(cuts, end[0]) for end in by_definition.ends(edge)]


def known_to(cuts, first, past, edges):
    """Of directed edges those with a column of the strips from one to before another one."""
    held = [(edge, *strips_of(cuts, edge)) for edge in sorted(edges)]
    return [edge for edge, begins, ends in held if begins < past and first <= ends]


def lists_of(found):
    """Polygons as lists of rings."""
    coordinates, offsets, polygons = (values.tolist() for values in found)
    points = list(zip(coordinates[::2], coordinates[1::2]))
    rings = [points[at:past] for at, past in zip(offsets, offsets[1:])]
    return [rings[at:past] for at, past in zip(polygons, polygons[1:])]


def of_lists(polygons):
    """Lists of rings as polygons."""
    rings = [ring for polygon in polygons for ring in polygon]
    offsets = [list(accumulate(map(len, lists), initial=0)) for lists in (rings, polygons)]
    return strips.Polygons([number for ring in rings for point in ring for number in point], *offsets)


def of_text(text):
    """The polygons of a MULTIPOLYGON, as lists of rings."""
    polygons = re.findall(r"\((\([^()]+\)(?:, \([^()]+\))*)\)", text)
    rings = [re.findall(r"\(([^()]+)\)", polygon) for polygon in polygons]
    return [[[tuple(map(int, point.split())) for point in ring.split(",")] for ring in polygon] for polygon in rings]


def closed_in_turn(rng, cuts, directed):
    """All polygons, by ranges of strips that grow together by chance, for each range; each call of `closed` is judged."""
    own = [[edge for edge in directed if strips_of(cuts, edge)[0] == strip] for strip in range(len(cuts) + 1)]
    spans, made = [(strip, strip + 1, edges) for strip, edges in enumerate(own)], []
    waiting = list(range(len(spans)))
    while waiting:
        at = waiting.pop(rng.randrange(len(waiting)))
        first, past, edges = spans[at]
        coming = [edge for edge in directed if strips_of(cuts, edge)[0] < first <= strips_of(cuts, edge)[1]]
        known = sorted(coming + edges)
        found = strips.closed(cuts, first, past, numpy.array(known, strips.DIRECTED))
        closed, still = (tuples([values]) for values in found)
        assert (closed, still) == by_definition.closed(cuts, first, past, known)
        assert closed == [edge for edge in known_to(cuts, first, past, directed) if edge in set(closed)]
        made.append(strips.polygons(numpy.array(closed, strips.DIRECTED)))
        spans[at] = first, past, still
        if not waiting and len(spans) > 1:
            cut = rng.randrange(len(spans) - 1)
            spans[cut : cut + 2] = [(spans[cut][0], spans[cut + 1][1], spans[cut][2] + spans[cut + 1][2])]
            waiting = [cut]
    assert spans[0][2] == []
    return made


def begin_in(cuts, strip, polygons):
    """Those of the polygons whose first vertex lies in a strip."""
    return of_lists([polygon for polygon in lists_of(polygons) if by_definition.strip_at(cuts, polygon[0][0][0]) == strip])


@pytest.mark.parametrize("seed", range(60))
def test_ranges_of_strips_have_the_polygons_of_the_whole(seed, tmp_path):
    rng = random.Random(f"polygons {seed}")
    size = rng.choice((3, 8, 40, 1_000_000))
    a, b = layer(rng, size), layer(rng, size)
    cuts = sorted(rng.randint(-size - 1, size + 1) for _ in range(rng.choice((0, 1, 2, 5, 12))))
    for operation in (Operation.UNION, Operation.SYMDIFFERENCE):
        directed = sorted(tuples(strips.directed_edges(operation, [part_of(0, a), part_of(1, b)], cuts, str(tmp_path))))
        wanted = of_text(overlay_grid.overlay(operation, text_of(a), text_of(b), reading="parity"))
        assert lists_of(strips.polygons(numpy.array(directed, strips.DIRECTED))) == wanted
        made = closed_in_turn(rng, cuts, directed)
        rng.shuffle(made)
        assert lists_of(strips.written(made)) == wanted
        by_strip = [strips.written([begin_in(cuts, strip, part) for part in made]) for strip in range(len(cuts) + 1)]
        assert [polygon for found in by_strip for polygon in lists_of(found)] == wanted


# A frame with an island in its hole, which is closed by itself, a frame in the island's hole, and a square apart.
FRAMES = [square(0, 0, 20), square(2, 2, 16)[::-1], square(4, 4, 8), square(6, 6, 4)[::-1], square(7, 7, 2), square(30, 0, 5)]


def test_what_is_closed_where():
    edges = sorted((*p, *q) for ring in FRAMES for p, q in zip(ring, ring[1:]))
    outer, holes, island, hole, inner, apart = ([(*p, *q) for p, q in zip(ring, ring[1:])] for ring in FRAMES)

    def parted(cuts, first, past):
        known = known_to(cuts, first, past, edges)
        return tuple(tuples([values]) for values in strips.closed(cuts, first, past, numpy.array(known, strips.DIRECTED)))

    assert parted([25], 0, 1) == (sorted(outer + holes + island + hole + inner), [])
    assert parted([25], 1, 2) == (sorted(apart), [])
    # below where the island begins lies a border of the hole that goes to the left, which is no tie
    assert parted([15], 0, 1) == (sorted(island + hole + inner), sorted(set(outer + holes) - {(20, 0, 20, 20), (18, 18, 18, 2)}))
    assert parted([5, 25], 1, 2)[0] == sorted(inner)
    assert parted([5, 25], 0, 2) == (sorted(outer + holes + island + hole + inner), [])


# Polygons as the program orders them: two begin at one vertex, and one lies in another one's hole.
ORDERED = (
    "MULTIPOLYGON (((-9 4, -7 4, -8 6, -9 4)), ((0 0, 5 -5, 5 -2, 0 0)), ((0 0, 5 2, 5 5, 0 0)), "
    "((0 9, 8 9, 8 17, 0 17, 0 9), (2 11, 2 15, 6 15, 6 11, 2 11)), ((3 12, 5 12, 4 14, 3 12)), ((9 0, 11 0, 10 2, 9 0)))\n"
)


@pytest.mark.parametrize("seed", range(30))
def test_written_polygons_have_the_order_of_the_text(seed):
    rng = random.Random(f"written {seed}")
    wanted = of_text(ORDERED)
    assert len(wanted) == 6 and overlay_grid.union(ORDERED, "") == ORDERED
    shuffled, parts = rng.sample(wanted, len(wanted)), [[] for _ in range(rng.randint(1, 4))]
    for polygon in shuffled:
        rng.choice(parts).append(polygon)
    found = strips.written(list(map(of_lists, parts)))
    assert lists_of(found) == wanted
    assert [values.dtype.str for values in found] == ["<i4", "<u4", "<u4"]
    assert lists_of(strips.written([found])) == wanted


def test_no_polygons_are_written():
    for parts in ([], [of_lists([])], [of_lists([]), of_lists([])]):
        assert [values.tolist() for values in strips.written(parts)] == [[], [0], [0]]


def test_a_shell_goes_before_those_that_begin_as_it_does():
    front, longer = [(0, 0), (4, 0), (4, 4), (0, 0)], [(0, 0), (4, 0), (4, 4), (0, 4), (0, 0)]
    hole = [(1, 1), (1, 2), (2, 2), (1, 1)]
    assert lists_of(strips.written([of_lists([[longer]]), of_lists([[front, hole]])])) == [[front, hole], [longer]]


def test_polygons_that_are_not_written():
    one, other = of_lists([[square(0, 0, 4)], [square(9, 9, 1)]]), of_lists([[square(0, 0, 2), square(5, 5, 1)]])
    twice = refused(lambda: strips.written([one, of_lists([[square(0, 0, 4), square(1, 1, 1)]])]))
    assert twice in [("shell of another polygon", 0, number) for number in (0, 2)]
    for column, values, reason, item in (
        ("coordinates", other.coordinates[:-1], "odd number of coordinates", 0),
        ("rings", [0, 0, 10], "bad offset of rings", 3),
        ("rings", [0, 10, 10], "bad offset of rings", 4),
        ("rings", [0, 12, 10], "bad offset of rings", 3),
        ("rings", [0, 5, 9], "bad offset of rings", 4),
        ("rings", [0, 5, 11], "bad offset of rings", 4),
        ("rings", [1, 5, 10], "bad offset of rings", 2),
        ("rings", [], "bad offset of rings", 2),
        ("polygons", [0, 0, 2], "bad offset of polygons", 3),
        ("polygons", [0, 2, 1, 2], "bad offset of polygons", 4),
        ("polygons", [0, 1], "bad offset of polygons", 3),
        ("polygons", [0, 3], "bad offset of polygons", 3),
        ("polygons", [1, 2], "bad offset of polygons", 2),
        ("polygons", [], "bad offset of polygons", 2),
    ):
        bad = other._replace(**{column: values})
        assert refused(lambda: strips.written([one, bad])) == (reason, 0, item), values
        assert refused(lambda: strips.written([one, bad, bad]))[0] == reason


@pytest.mark.parametrize("pool", [ThreadPoolExecutor, ProcessPoolExecutor])
def test_an_executor_makes_the_same(pool, tmp_path):
    rng = random.Random("pool")
    a, b = ([ring for _ in range(12) for ring in layer(rng, 300)] for _ in "ab")
    with pool(3) as executor:
        found = strips.edges([part_of(0, a), part_of(1, b)], range(-200, 201, 50), str(tmp_path), executor)
        assert tuples(found) == whole(a, b)
        directed = strips.directed_edges(Operation.UNION, [part_of(0, a), part_of(1, b)], range(-200, 201, 50), str(tmp_path), executor)
        assert sorted(tuples(directed)) == rings(Operation.UNION, a, b)
    assert not [name for name in os.listdir(tmp_path) if name.startswith(".")]


def test_a_file_is_there_whole_or_not_at_all(tmp_path, monkeypatch):
    """Beside it nothing stays, and no two processes write into one file, even where they have one number."""
    held, opened = numpy.arange(5), []
    monkeypatch.setattr(os, "getpid", lambda: 7)
    replaced = os.replace
    monkeypatch.setattr(os, "replace", lambda source, place: (opened.append(source), replaced(source, place)))
    for _ in range(2):
        strips.put(str(tmp_path), "own.0", held)
    assert os.listdir(tmp_path) == ["own.0"] and strips.got(str(tmp_path), "own.0").tolist() == held.tolist()
    assert len(set(opened)) == 2

    def full(file, values, allow_pickle):
        file.write(b"half")
        raise OSError(28, "No space left on device")

    monkeypatch.setattr(numpy, "save", full)
    with pytest.raises(OSError):
        strips.put(str(tmp_path), "own.1", held)
    assert os.listdir(tmp_path) == ["own.0"]


def test_dask_makes_the_same(tmp_path):
    distributed = pytest.importorskip("distributed", reason="no Dask: apt-get install python3-distributed")
    with distributed.LocalCluster(2, threads_per_worker=1, processes=False, dashboard_address=None) as cluster:
        with distributed.Client(cluster) as client:
            found = strips.edges([part_of(0, A), part_of(1, B)], CUTS, str(tmp_path), client.get_executor())
            assert tuples(found) == whole(A, B)


def refused(call):
    with pytest.raises(strips.StripError) as error:
        call()
    return error.value.reason, error.value.array, error.value.item


def test_refusals():
    lines = example()[0]
    good = strips.round_strip(CUTS, 0, lines)
    turned = lines.copy()
    turned[0]["ax"], turned[0]["ay"] = 20, 0
    assert refused(lambda: strips.round_strip(CUTS, 0, lines[::-1])) == ("bad item", 0, 1)
    assert refused(lambda: strips.round_strip(CUTS, 0, turned)) == ("bad item", 0, 0)
    assert refused(lambda: strips.round_strip([6, 4], 0, lines)) == ("bad item", 3, 1)
    assert refused(lambda: strips.bridge(good)) == ("contradicts another array", 1, 0)
    assert refused(lambda: strips.merge(good.inner, good.inner)) == ("contradicts another array", 1, 0)
    assert refused(lambda: strips.merge(good.inner[::-1], [])) == ("bad item", 0, 1)
    assert refused(lambda: strips.scatter(CUTS, strips.Part(0, [0, 0, 4, 0, 4, 4, 1, 1], [0, 4]), 0)) == ("open ring", 0, 0)
    assert refused(lambda: strips.labels(Operation.UNION, good.inner[::-1])) == ("bad item", 1, 1)
    assert refused(lambda: strips.labels(Operation.UNION, [], good.inner[::-1])) == ("bad item", 0, 1)
    assert refused(lambda: strips.labels(Operation.UNION, good.inner, good.inner)) == ("contradicts another array", 0, 0)
    assert refused(lambda: strips.going_on(CUTS, 1, good.inner)) == ("bad item", 1, 0)
    assert refused(lambda: strips.going_on(CUTS, 0, [], good.inner)) == ("bad item", 0, 0)
    assert refused(lambda: strips.going_on([6, 4], 0, [])) == ("bad item", 3, 1)
    known = numpy.array([(0, 0, 1, 0), (0, 1, 0, 0), (1, 0, 0, 1)], strips.DIRECTED)
    assert refused(lambda: strips.closed(CUTS, 0, 1, known[::-1])) == ("bad item", 0, 1)
    assert refused(lambda: strips.closed(CUTS, 1, 2, known)) == ("bad item", 0, 0)
    assert refused(lambda: strips.closed([6, 4], 0, 1, known)) == ("bad item", 3, 1)
    for call in (
        lambda: strips.closed(CUTS, 0, 5, known),
        lambda: strips.closed(CUTS, 1, 1, known),
        lambda: strips.round_strip(CUTS, 4, lines),
        lambda: strips.going_on(CUTS, 4, []),
        lambda: strips.labels(Operation.EDGES, []),
    ):
        with pytest.raises(strips.StripError, match="no such strip, layer or operation"):
            call()


def test_a_broken_file_is_refused(tmp_path):
    found = strips.edges([part_of(0, A), part_of(1, B)], CUTS, str(tmp_path))
    next(found)
    path = tmp_path / "inner.1"
    path.write_bytes(path.read_bytes()[:-5])
    with pytest.raises(ValueError):
        list(found)
