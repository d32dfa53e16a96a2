"""What `strips.closed` has to answer, by its definition and nothing else: slow, and of a few edges."""

from fractions import Fraction


def strip_at(cuts, x):
    return sum(cut <= x for cut in cuts)


def ends(edge):
    """The lesser end, then the greater one."""
    ax, ay, bx, by = edge
    return sorted([(ax, ay), (bx, by)])


def goes_right(edge):
    return edge[:2] < edge[2:]


def way_below(edge, point):
    """How far the edge lies below the point just left of this one, at x - t for a tiny t: (c, d) stands for c + d * t. Nothing where it isn't."""
    (px, py), (qx, qy) = ends(edge)
    x, y = point
    if not px < x <= qx:
        return None
    slope = Fraction(qy - py, qx - px)
    way = y - (py + slope * (x - px)), slope
    return way if way > (0, 0) else None


def nearest_below(edges, point):
    """The edges that lie nearest below the point just left of this one."""
    ways = {edge: way for edge in edges if (way := way_below(edge, point))}
    return [edge for edge, way in ways.items() if way == min(ways.values())]


def are_tied(one, other, below):
    """Whether they leave one vertex, or the second leaves the end of the first, or the first lies under the second."""
    if one[:2] == other[:2] or one[2:] == other[:2]:
        return True
    return goes_right(one) and goes_right(other) and one in below[other[:2]]


def closed(cuts, first, past, known):
    """Of the edges (ax, ay, bx, by) that strips from one to before another one know those that are closed there, and the open ones whose
    lesser end lies there."""
    edges = [tuple(map(int, edge)) for edge in known]
    below = {edge[:2]: nearest_below(edges, edge[:2]) for edge in edges}
    begins, past_ends = ({edge: strip_at(cuts, ends(edge)[k][0]) for edge in edges} for k in (0, 1))
    found = [edge for edge in edges if begins[edge] < first or past <= past_ends[edge]]
    is_open = set(found)
    for one in found:  # which grows meanwhile
        more = [edge for edge in edges if edge not in is_open and (are_tied(one, edge, below) or are_tied(edge, one, below))]
        is_open.update(more)
        found += more
    return [edge for edge in edges if edge not in is_open], [edge for edge in edges if edge in is_open and first <= begins[edge]]
