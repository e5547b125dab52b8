"""What is counted of drawings that were worked out by hand.  python3 -m unittest discover -s bench"""
import collections
import contextlib
import importlib.machinery
import importlib.util
import io
import pathlib
import sys
import unittest

import corpus
import counting
import slanted

sys.dont_write_bytecode = True
TOOLS = pathlib.Path(__file__).resolve().parent.parent / "tools"


def tool(name):
    """A tool as a module."""
    loader = importlib.machinery.SourceFileLoader(name, str(TOOLS / name))
    module = importlib.util.module_from_spec(importlib.util.spec_from_loader(name, loader))
    loader.exec_module(module)
    return module


quality = tool("quality")


def drawing(*routes):
    """A placed document: each route's two end nodes and its points, as `a b 0,0 10,0`."""
    edges, names = [], {}
    for at, (source, target, *points) in enumerate(it.split() for it in routes):
        names.update({source: None, target: None})
        places = [dict(zip("xy", map(int, point.split(",")))) for point in points]
        section = {"startPoint": places[0], "bendPoints": places[1:-1], "endPoint": places[-1]}
        edges.append({"id": at, "sources": [source], "targets": [target], "sections": [section]})
    children = [{"id": name, "x": 0, "y": 0} for name in names]
    return {"width": 100, "height": 50, "children": children, "edges": edges}


CASES = (
    ("two routes that cross", {"crossings": 1}, "a b 0,20 100,20", "c d 50,0 50,40"),
    ("a bend on a route is a touch", {"crossings": 0}, "a b 0,20 100,20", "c d 50,0 50,20 90,20"),
    ("an end on a route is a touch", {"crossings": 0}, "a b 0,20 100,20", "c d 50,0 50,20"),
    ("a piece from a common dock is no crossing", {"crossings": 0}, "a b 0,20 50,20 50,40 100,40", "a c 0,20 70,20 70,0 100,0"),
    ("a third route crosses each of those that share a piece", {"crossings": 2}, "a b 0,20 90,20", "a c 0,20 80,20 80,0", "d e 40,0 40,40"),
    ("edges with a common dock that meet again cross", {"crossings": 1}, "a b 0,20 90,20", "a c 0,20 20,20 20,40 60,40 60,0"),
    ("a route that crosses itself doesn't count", {"crossings": 0}, "a b 0,20 60,20 60,40 30,40 30,0"),
    ("a point on a straight line is no bend", {"bends": 2, "length": 120}, "a b 0,0 20,0 40,0 40,20 100,20"),
    ("a piece of 3 is a kink, one of 4 is none", {"kinks": 1}, "a b 0,0 40,0 40,3 90,3", "c d 0,20 40,20 40,24 90,24"),
    ("an arrowhead has 8, and 7 are too few", {"heads": 1}, "a b 0,0 40,0 40,40 47,40", "c d 0,60 40,60 40,90 48,90"),
    ("4 apart for 11 is near", {"near": 1}, "a b 0,0 60,0", "c d 49,4 100,4"),
    ("5 apart is not near", {"near": 0}, "a b 0,0 60,0", "c d 49,5 100,5"),
    ("4 apart for 10 is not near", {"near": 0}, "a b 0,0 60,0", "c d 50,4 100,4"),
    ("edges of a common node are not near", {"near": 0}, "a b 0,0 60,0", "a d 0,4 100,4"),
    ("near pieces of two edges are one pair", {"near": 1}, "a b 0,0 60,0 60,40", "c d 0,4 56,4 56,40"),
    ("inner lines at one place are one slot", {"slots": 2}, "a b 0,0 30,0 30,20 60,20", "c d 0,30 30,30 30,40 60,40", "e f 0,60 40,60 40,90 60,90"),
    ("lines from docks are no slots", {"slots": 0}, "a b 0,0 0,40 60,40"),
    ("the area of the root", {"area": 5000}),
)


class Counting(unittest.TestCase):
    def test_worked_drawings(self):
        for name, due, *routes in CASES:
            with self.subTest(name):
                seen = counting.counts(drawing(*routes))
                self.assertEqual(due, {key: seen[key] for key in due})

    def test_levels_within_levels_count_where_they_stand(self):
        outer = drawing("a b 0,20 100,20")
        inner = {**drawing("c d 50,0 50,40"), "id": "inner", "x": 200, "y": 0}
        outer["children"].append(inner)
        self.assertEqual(0, counting.counts(outer)["crossings"])
        inner["x"] = 0
        self.assertEqual(1, counting.counts(outer)["crossings"])


SLANTED = (
    ("two lines that cross", 1, "0,0 10,10", "0,10 10,0"),
    ("a line that ends on another touches it", 0, "0,0 10,10", "0,10 5,5"),
    ("a bend on a line, and on to its other side", 1, "0,0 10,0", "2,5 5,0 8,-5"),
    ("a bend on a line, and back", 0, "0,0 10,0", "2,5 5,0 8,5"),
    ("two bends at one point that pass through each other", 1, "0,0 5,5 10,2", "0,10 5,5 10,0"),
    ("two bends at one point that turn away from each other", 0, "0,0 5,5 10,0", "0,10 5,5 10,10"),
    ("lines from one point", 0, "0,0 10,10", "0,0 10,5"),
    ("lines that share a piece and part", 0, "0,0 5,0 10,5", "0,0 5,0 10,-5"),
    ("a line crosses each of two that share a piece", 2, "0,0 5,0 10,5", "0,0 5,0 10,-5", "3,-5 3,5"),
    ("a line that crosses itself", 0, "0,0 10,10 10,0 0,10"),
    ("two lines that cross three times", 3, "0,0 12,0", "1,-1 3,1 6,-1 9,1"),
    ("a bend on a straight line is none", 1, "0,0 5,5 10,10", "0,10 5,5 10,0"),
)


class Slanted(unittest.TestCase):
    def test_worked_lines(self):
        for name, due, *routes in SLANTED:
            with self.subTest(name):
                lines = [[tuple(map(float, point.split(","))) for point in route.split()] for route in routes]
                self.assertEqual(due, slanted.crossings(lines))
                self.assertEqual(due, slanted.crossings([line[::-1] for line in lines[::-1]]))

    def test_routes_with_right_angles_have_the_crossings_of_the_other_count(self):
        draws = corpus.Draws("routes")
        for at in range(200):
            routes = [staircase(draws) for _ in range(draws.between(2, 8))]
            with self.subTest(f"drawing {at}"):
                due = counting.crossings([counting.Route(counting.tidy(points), (), None) for points in routes])
                self.assertEqual(due, slanted.crossings(routes))


def staircase(draws):
    """A route of three to seven pieces. No two routes have a coordinate in common, so none of them touch."""
    points, axis = [(draws.chance(), draws.chance())], draws.below(2)
    for _ in range(draws.between(3, 7)):
        x, y = points[-1]
        points.append((draws.chance(), y) if axis else (x, draws.chance()))
        axis = 1 - axis
    return [(round(1e6 * x), round(1e6 * y)) for x, y in points]


class Quality(unittest.TestCase):
    def test_a_sum_that_rises_past_its_limit_fails(self):
        cases = (
            ("crossings", 100, 102, 0),
            ("crossings", 100, 103, 1),
            ("crossings", 0, 1, 1),
            ("bends", 100, 105, 0),
            ("bends", 100, 106, 1),
            ("length", 1000, 1051, 1),
            ("crossings", 100, 50, 0),
            ("area", 100, 200, 0),
        )
        for name, was, now, due in cases:
            with self.subTest(f"{name} from {was} to {now}"), contextlib.redirect_stdout(io.StringIO()):
                line = {"family": "tree", "nodes": 10, "seed": 1, **dict.fromkeys(quality.MEASURES, 0)}
                self.assertEqual(due, quality.compare({}, [{**line, name: was}], [{**line, name: now}]))


class Corpus(unittest.TestCase):
    def test_every_id_stands_once_and_every_family_is_there(self):
        families = collections.Counter()
        for family, nodes, seed, document in corpus.documents():
            families[family] += 1
            with self.subTest(f"{family}, {nodes} nodes, seed {seed}"):
                self.assertEqual(nodes, self.count(document, set(), set()))
        self.assertEqual(set(corpus.FAMILIES), set(families))

    def count(self, node, nodes, edges):
        """The nodes within a node; ids of nodes and ports, and those of edges, differ."""
        count = 0
        for child in node.get("children", ()):
            for name in (child["id"], *(port["id"] for port in child.get("ports", ()))):
                self.assertNotIn(name, nodes)
                nodes.add(name)
            count += 1 + self.count(child, nodes, edges)
        for edge in node.get("edges", ()):
            self.assertNotIn(edge["id"], edges)
            edges.add(edge["id"])
        return count


if __name__ == "__main__":
    unittest.main()
