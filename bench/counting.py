"""The measures of a drawing with right angles, from its boxes and routes alone.

Two edges cross at a point that lies strictly inside a horizontal piece of one and strictly inside a vertical piece of the other. So
neither a piece that edges share from a common dock nor the point where one of them turns off is a crossing. A third edge that crosses
the shared piece crosses each of them.
"""
import bisect
import dataclasses
import json
import pathlib

ARROW = json.loads((pathlib.Path(__file__).parent.parent / "adapters/js/data/look.json").read_text())["arrow"]["length"]
# The corpus leaves the distance of edges at its default.
SPACING = 10
KINK = 4


@dataclasses.dataclass
class Route:
    """An edge's points from source to target, its two end nodes, and the level that it belongs to."""

    points: list
    ends: tuple
    level: object
    is_upright: bool = False

    def pieces(self):
        return list(zip(self.points, self.points[1:]))


def routes_of(node, left=0, top=0):
    """The routes within a placed node, in coordinates of the root, without points on straight lines."""
    children, routes = node.get("children", ()), []
    owner = {child["id"]: child["id"] for child in children}
    owner.update((port["id"], child["id"]) for child in children for port in child.get("ports", ()))
    part_of = dict(zip(owner, node.get("layering", {}).get("parts", ())))
    is_upright = node.get("layoutOptions", {}).get("elk.direction") in ("UP", "DOWN")
    for edge in node.get("edges", ()):
        ends = owner[edge["sources"][0]], owner[edge["targets"][0]]
        routes.append(Route(points_of(edge, left, top), ends, (id(node), part_of.get(ends[0])), is_upright))
    for child in children:
        routes += routes_of(child, left + child["x"], top + child["y"])
    return routes


def points_of(edge, left, top):
    (section,) = edge["sections"]
    points = [section["startPoint"], *section.get("bendPoints", ()), section["endPoint"]]
    return tidy([(left + point["x"], top + point["y"]) for point in points])


def tidy(points):
    """The points without those that repeat one or lie straight between two."""
    kept = []
    for point in points:
        if kept and kept[-1] == point:
            continue
        if len(kept) >= 2 and is_between(kept[-2], kept[-1], point):
            kept.pop()
        kept.append(point)
    return kept


def is_between(first, middle, last):
    (left, right), (top, bottom) = sorted((first[0], last[0])), sorted((first[1], last[1]))
    is_straight = first[0] == middle[0] == last[0] or first[1] == middle[1] == last[1]
    return is_straight and left <= middle[0] <= right and top <= middle[1] <= bottom


def lanes(routes, axis):
    """The pieces along an axis, 0 for horizontal ones: from, to, where across, number of the route."""
    found = []
    for number, route in enumerate(routes):
        for first, last in route.pieces():
            if first[1 - axis] == last[1 - axis]:
                low, high = sorted((first[axis], last[axis]))
                found.append((low, high, first[1 - axis], number))
    return found


class Tally:
    """How many of the active heights lie below a place (a Fenwick tree)."""

    def __init__(self, heights):
        self.heights = sorted(set(heights))
        self.sums = [0] * (len(self.heights) + 1)

    def add(self, height, count):
        at = bisect.bisect_left(self.heights, height) + 1
        while at < len(self.sums):
            self.sums[at] += count
            at += at & -at

    def first(self, count):
        """Of the lowest so many heights."""
        total = 0
        while count:
            total += self.sums[count]
            count &= count - 1
        return total

    def between(self, low, high):
        """Strictly between two heights."""
        most = self.first(bisect.bisect_left(self.heights, high))
        return max(0, most - self.first(bisect.bisect_right(self.heights, low)))


END, ASK, BEGIN = range(3)


def crossings(routes):
    """How often edges cross, by a sweep over the vertical pieces from left to right."""
    flat, upright = lanes(routes, 0), lanes(routes, 1)
    tally = Tally([height for _, _, height, _ in flat])
    events = [(left, BEGIN, height, 0) for left, _, height, _ in flat]
    events += [(right, END, height, 0) for _, right, height, _ in flat]
    events += [(at, ASK, top, bottom) for top, bottom, at, _ in upright]
    count = 0
    for _, kind, height, other in sorted(events):
        if kind == ASK:
            count += tally.between(height, other)
        else:
            tally.add(height, 1 if kind == BEGIN else -1)
    return count - own_crossings(flat, upright)


def own_crossings(flat, upright):
    """How often an edge crosses itself, which is no crossing of two."""
    heights = {}
    for left, right, height, number in flat:
        heights.setdefault(number, []).append((height, left, right))
    for pieces in heights.values():
        pieces.sort()
    count = 0
    for top, bottom, at, number in upright:
        pieces = heights.get(number, [])
        inside = pieces[bisect.bisect_right(pieces, (top, float("inf"))) : bisect.bisect_left(pieces, (bottom,))]
        count += sum(left < at < right for _, left, right in inside)
    return count


def near_pairs(routes):
    """The pairs of edges without a common end node that run side by side, nearer than half of the asked distance, for longer
    than this distance."""
    pairs = set()
    for axis in (0, 1):
        active = {}
        for low, high, at, number in sorted(lanes(routes, axis)):
            for other_at in range(at - (SPACING - 1) // 2, at + (SPACING - 1) // 2 + 1):
                if other_at in active:
                    active[other_at] = [it for it in active[other_at] if it[0] > low + SPACING]
                    pairs.update(pair_of(number, other) for end, other in active[other_at] if min(end, high) - low > SPACING)
            active.setdefault(at, []).append((high, number))
    return [(one, other) for one, other in pairs if one != other and not set(routes[one].ends) & set(routes[other].ends)]


def pair_of(one, other):
    return (one, other) if one < other else (other, one)


def slots(routes):
    """How many lines across the flow the levels have: the places of pieces that end at no dock."""
    places = set()
    for route in routes:
        axis = 1 if route.is_upright else 0
        places.update((route.level, first[axis]) for first, last in route.pieces()[1:-1] if first[axis] == last[axis])
    return len(places)


def lengths(route):
    return [abs(first[0] - last[0]) + abs(first[1] - last[1]) for first, last in route.pieces()]


def counts(document):
    """All that is counted of a placed document."""
    routes = routes_of(document)
    pieces = [lengths(route) for route in routes]
    return {
        "crossings": crossings(routes),
        "bends": sum(max(0, len(it) - 1) for it in pieces),
        "length": sum(map(sum, pieces)),
        "area": document["width"] * document["height"],
        "slots": slots(routes),
        "kinks": sum(length < KINK for it in pieces for length in it),
        "near": len(near_pairs(routes)),
        "heads": sum(bool(it) and it[-1] < ARROW for it in pieces),
    }
