"""Graphs of networkx become documents, and placed documents graphs."""

import math
import unittest

from .program import PROGRAM, box, edge, needs, with_program
from elk_layout import Refusal, draw, from_edges, from_networkx, junction_points, layout, positions, routes, svg, to_networkx

try:
    import networkx
except ImportError:
    networkx = None


@needs("networkx")
class Documents(unittest.TestCase):
    def test_attributes_tell_sizes_labels_ports_and_options(self):
        graph = networkx.DiGraph()
        graph.add_node("a", width=50, height=20.5, label="first", ports=["out", {"name": "in", "x": 1}])
        graph.add_node(2, options={"elk.portConstraints": "FREE"})
        graph.add_edge("a", 2, source_port="out", label="on", options={"elk.layered.priority.shortness": 2})
        document = from_networkx(graph, options={"elk.direction": "DOWN"})
        first, second = document["children"]
        port = {"width": 6, "height": 6}
        ports = [
            {"id": "a.out", **port, "labels": [{"text": "out"}]},
            {"id": "a.in", **port, "labels": [{"text": "in"}], "x": 1},
        ]
        self.assertEqual(first, {"id": "a", "width": 50, "height": 20.5, "labels": [{"text": "first"}], "ports": ports})
        self.assertEqual((second["id"], second["layoutOptions"]["elk.portConstraints"]), (2, "FREE"))
        self.assertEqual(
            document["edges"],
            [
                {
                    **{"id": "e0", "sources": ["a.out"], "targets": [2], "labels": [{"text": "on"}]},
                    "layoutOptions": {"elk.layered.priority.shortness": 2},
                }
            ],
        )
        self.assertEqual(document["layoutOptions"], {"elk.direction": "DOWN"})

    def test_functions_tell_what_attributes_do(self):
        graph = networkx.MultiGraph([("a", "b", {"weight": 3}), ("a", "b", {"weight": 1})])
        document = from_networkx(
            graph,
            size=lambda node, data: (len(node) * 10, 7),
            label=lambda node, data: node.upper(),
            ports=lambda node, data: ["p"],
            edge_label=None,
            edge_options=lambda source, target, data: {"elk.layered.priority.shortness": 7 - data["weight"]},
            target_port=lambda source, target, data: "p",
        )
        self.assertEqual([(it["width"], it["height"]) for it in document["children"]], [(10, 7), (10, 7)])
        self.assertEqual([it["labels"][0]["text"] for it in document["children"]], ["A", "B"])
        self.assertEqual([it["targets"] for it in document["edges"]], [["b.p"], ["b.p"]])
        self.assertEqual([it["layoutOptions"]["elk.layered.priority.shortness"] for it in document["edges"]], [4, 6])

    def test_edges_without_a_direction_lead_from_their_first_end_to_their_second(self):
        graph = networkx.Graph([("b", "a"), ("c", "a"), ("c", "c")])
        edges = from_networkx(graph)["edges"]
        self.assertEqual([(it["sources"], it["targets"]) for it in edges], [(["b"], ["a"]), (["a"], ["c"]), (["c"], ["c"])])
        self.assertEqual([(it["sources"][0], it["targets"][0]) for it in edges], list(graph.edges))
        self.assertIn("from the first to the second of the two ends", from_networkx.__doc__)

    @with_program
    def test_nodes_without_a_size_have_room_for_their_labels(self):
        graph = networkx.DiGraph([("i", "j"), ("j", "in a group")])
        graph.add_node("j", label="a label that is long")
        graph.add_node("in a group", parent="group")
        graph.add_node("group", label="a group with a label that is longer still")
        placed = layout(from_networkx(graph), program=PROGRAM)
        short, long, group = placed["children"]
        self.assertEqual((short["width"], short["height"], long["height"]), (40, 30, 30))
        for node in (long, group, group["children"][0]):
            (label,) = node["labels"]
            self.assertTrue(0 < label["x"] and label["x"] + label["width"] < node["width"])
            self.assertTrue(0 < label["y"] and label["y"] + label["height"] < node["height"])
        self.assertGreaterEqual(group["children"][0]["y"], group["labels"][0]["y"] + group["labels"][0]["height"])
        self.assertEqual([it["width"] for it in from_networkx(graph, size=(5, 6))["children"][:2]], [5, 5])

    def test_keys_of_all_kinds_have_ids_of_their_own(self):
        keys = ["(0, 1)", (0, 1), 1, "1", 1.5, frozenset([2]), "a", "a.p"]
        graph = networkx.DiGraph()
        graph.add_nodes_from(keys)
        graph.nodes["a"]["ports"] = ["p"]
        document = from_networkx(graph)
        ids = [it["id"] for it in document["children"]]
        self.assertEqual(ids, ["(0, 1)", "(0, 1)'", 1, "1", "1.5", "frozenset({2})", "a", "a.p"])
        self.assertEqual(document["children"][6]["ports"][0]["id"], "a.p'")
        self.assertEqual([it.get("key", it["id"]) for it in document["children"]], keys)

    @needs("numpy")
    def test_keys_of_numpy_are_numbers(self):
        import numpy

        graph = networkx.DiGraph([(numpy.int64(1), numpy.int64(2))])
        self.assertEqual([it["id"].__class__ for it in from_networkx(graph)["children"]], [int, int])

    def test_a_port_that_is_not_there_is_reported(self):
        graph = networkx.DiGraph([("a", "b", {"target_port": "in"})])
        with self.assertRaisesRegex(ValueError, "the node 'b' has no port 'in', which the edge \\('a', 'b'\\) names"):
            from_networkx(graph)

    def test_parents_hold_their_nodes(self):
        graph = networkx.DiGraph([("a", "b")])
        graph.add_node("a", parent="box")
        graph.add_node("box", label="a box", options={"elk.direction": "UP"})
        graph.add_node("b", parent="box")
        graph.add_node("c", width=10)
        root = from_networkx(graph, options={"elk.direction": "DOWN", "elk.spacing.nodeNode": 5})
        self.assertEqual([it["id"] for it in root["children"]], ["box", "c"])
        box = root["children"][0]
        self.assertEqual([it["id"] for it in box["children"]], ["a", "b"])
        self.assertNotIn("width", box)
        # Where a group says nothing itself, the options of the call hold, and its label has room.
        self.assertEqual((box["layoutOptions"]["elk.direction"], box["layoutOptions"]["elk.spacing.nodeNode"]), ("UP", 5))
        self.assertIn("V_TOP", box["layoutOptions"]["elk.nodeLabels.placement"])
        for parents, words in (
            ({"a": "nowhere"}, "the parent of a node is 'nowhere', which is not a node of the graph"),
            ({"a": "a"}, "the node 'a' stands in itself, by its parents"),
            ({"a": "b", "b": "c", "c": "a"}, "the node 'a' stands in itself, by its parents"),
        ):
            with self.subTest(parents), self.assertRaisesRegex(ValueError, words):
                from_networkx(graph, parent=lambda key, data: parents.get(key))

    def test_attributes_ask_for_looks(self):
        graph = networkx.DiGraph()
        graph.add_node("a", color="#c00", fillcolor="navy", fontcolor="white", shape="ellipse", style="filled,dashed", penwidth="2")
        graph.add_node("b", style={"shape": "round"}, fill=None)
        graph.add_edge("a", "b", color="red", width=1.5, style="dotted")
        graph.add_edge("b", "a")
        document = from_networkx(graph)
        first = {"shape": "ellipse", "fill": "navy", "stroke": "#c00", "color": "white", "width": 2, "dash": "dashed"}
        self.assertEqual([it["style"] for it in document["children"]], [first, {"shape": "round"}])
        self.assertEqual([it.get("style") for it in document["edges"]], [{"stroke": "red", "width": 1.5, "dash": "dotted"}, None])

    def test_weights_make_edges_shorter(self):
        weights = [3, 2.5, "4", 1, 0, -5, None, math.nan, 10**9]
        graph = networkx.DiGraph()
        graph.add_edges_from((at, at + 1, {"weight": weight}) for at, weight in enumerate(weights))
        name = "elk.layered.priority.shortness"
        found = [it.get("layoutOptions", {}).get(name) for it in from_networkx(graph)["edges"]]
        self.assertEqual(found, [3, 3, 4, None, None, None, None, None, 2**20])
        self.assertEqual([it for it in from_networkx(graph, weight=None)["edges"] if "layoutOptions" in it], [])

    def test_what_is_missing_is_left_out(self):
        graph = networkx.DiGraph([(1, 2, {"label": math.nan, "source_port": math.nan, "color": math.nan})])
        graph.add_node(1, label=math.nan, width=math.nan, options=None, parent=math.nan, ports=math.nan)
        graph.add_node(2, label=None, height=None)
        document = from_networkx(graph)
        self.assertEqual([it for it in document["edges"] if "labels" in it or "style" in it], [])
        self.assertEqual([it["labels"] for it in document["children"]], [[{"text": "1"}], [{"text": "2"}]])
        self.assertEqual([(it["width"], it["height"]) for it in document["children"]], [(40, 30), (40, 30)])

    def test_texts_as_sizes_are_numbers_or_refused_by_name(self):
        graph = networkx.DiGraph()
        graph.add_node("a", width="50", height=" 20.5 ")
        self.assertEqual([(it["width"], it["height"]) for it in from_networkx(graph)["children"]], [(50, 20.5)])
        for member, wrong in (("width", "wide"), ("height", ""), ("width", "inf"), ("height", [1]), ("width", True)):
            with self.subTest((member, wrong)):
                graph.nodes["a"].update({"width": 1, "height": 1, member: wrong})
                with self.assertRaisesRegex(ValueError, f"^the {member} of the node 'a' is .*, and has to be a number$"):
                    from_networkx(graph)
        heavy = networkx.DiGraph([("a", "b", {"weight": "heavy"})])
        with self.assertRaisesRegex(ValueError, "the weight of the edge \\('a', 'b'\\) is 'heavy', and has to be a number"):
            from_networkx(heavy)

    def test_keys_of_multigraphs_stay_and_edges_without_directions_have_no_heads(self):
        graph = networkx.MultiDiGraph([("a", "b", "x"), ("a", "b", (1, 2))])
        self.assertEqual([it["key"] for it in from_networkx(graph)["edges"]], ["x", (1, 2)])
        for directed in (networkx.DiGraph, networkx.Graph):
            (edge,) = from_networkx(directed([("a", "b")]))["edges"]
            self.assertEqual(("key" in edge, edge.get("directed")), (False, None if directed is networkx.DiGraph else False))

    @with_program
    def test_large_graphs_are_refused(self):
        path = networkx.path_graph(2047)
        self.assertEqual(len(from_networkx(path)["children"]), 2047)
        many_edges = networkx.gnm_random_graph(100, 2049, seed=1)
        for graph, words in ((networkx.path_graph(2048), "there are 2,049 nodes"), (many_edges, "there are 2,049 edges")):
            with self.assertRaisesRegex(Refusal, words) as caught:
                positions(graph, program=PROGRAM)
            self.assertEqual((caught.exception.rule, caught.exception.name), (5, "TooMany"))


@needs("networkx")
@with_program
class Drawings(unittest.TestCase):
    def test_positions_are_centres_with_y_upwards(self):
        graph = networkx.DiGraph([("a", "b"), ("b", "c"), ("c", "a"), ("c", "c")])
        found = positions(graph, options={"elk.direction": "DOWN"}, size=(30, 20), program=PROGRAM)
        self.assertEqual(set(found), {"a", "b", "c"})
        self.assertGreater(found["a"][1], found["b"][1])
        self.assertGreater(found["b"][1], found["c"][1])
        document = layout(from_networkx(graph, options={"elk.direction": "DOWN"}, size=(30, 20)), program=PROGRAM)
        first = document["children"][0]
        self.assertEqual(found["a"], (first["x"] + 15, document["height"] - first["y"] - 10))

    def test_many_graphs_are_laid_out(self):
        for graph in (
            networkx.grid_2d_graph(5, 6),
            networkx.karate_club_graph(),
            networkx.gn_graph(80, seed=2),
            networkx.complete_graph(9, create_using=networkx.DiGraph),
            networkx.MultiDiGraph([(1, 2), (1, 2), (2, 1), (2, 2)]),
            networkx.empty_graph(3),
            networkx.DiGraph(),
        ):
            placed = layout(from_networkx(graph), program=PROGRAM)
            back = to_networkx(placed)
            self.assertEqual(list(back), list(graph))
            self.assertEqual(back.number_of_edges(), graph.number_of_edges())
            ends = [(source, target) for source, target in graph.edges()]
            self.assertEqual(sorted(map(str, back.edges())), sorted(map(str, ends)))
            self.assertEqual({key: data["pos"] for key, data in back.nodes(data=True)}, positions(graph, program=PROGRAM))

    def test_routes_are_reported_by_the_names_of_edges(self):
        multi = networkx.MultiDiGraph([("a", "b", "x"), ("a", "b", "y"), ("b", "a", 0), ("b", "b", 1)])
        single = networkx.Graph([("a", "b"), ("b", "c")])
        nested = networkx.DiGraph([((0, 1), (2, 3))])
        nested.add_node((0, 1), parent="box")
        nested.add_node((2, 3), parent="box")
        nested.add_node("box")
        for graph, names in ((multi, set(multi.edges(keys=True))), (single, set(single.edges)), (nested, set(nested.edges))):
            placed = layout(from_networkx(graph, size=(30, 20)), program=PROGRAM)
            found, places = routes(placed), positions(placed)
            self.assertEqual(set(found), names)
            self.assertEqual(set(places), set(graph))
            self.assertEqual(found, routes(graph, size=(30, 20), program=PROGRAM))
            for (source, target, *_), points in found.items():
                for end, (x, y) in ((source, points[0]), (target, points[-1])):
                    self.assertEqual(abs(x - places[end][0]), 15)
                    self.assertLessEqual(abs(y - places[end][1]), 10)
            self.assertEqual(to_networkx(placed).number_of_edges(), len(names))
        self.assertEqual(set(to_networkx(layout(from_networkx(multi), program=PROGRAM)).edges(keys=True)), set(multi.edges(keys=True)))
        with self.assertRaisesRegex(TypeError, "a placed graph is taken as it is, without size"):
            routes(placed, size=(1, 1))

    def test_pictures_of_graphs_without_directions_have_no_heads(self):
        pictures = [svg(from_networkx(it([(1, 2)])), program=PROGRAM) for it in (networkx.DiGraph, networkx.Graph)]
        heads = [it.count('stroke="none"/>') for it in pictures]
        self.assertEqual(heads[0] - heads[1], 1)

    def test_keys_that_are_no_texts_stay_through_a_layout(self):
        keys = [(0, 1), (2, (3, 4)), 1.5, frozenset([2]), "a", 7]
        graph = networkx.MultiDiGraph([(keys[at - 1], keys[at], (at, "key")) for at in range(len(keys))])
        placed = layout(from_networkx(graph), program=PROGRAM)
        self.assertEqual(set(positions(placed)), set(keys))
        self.assertEqual(set(routes(placed)), set(graph.edges(keys=True)))
        self.assertEqual(set(to_networkx(placed)), set(keys))

    def test_edges_with_several_ends_have_a_route_for_each_pair(self):
        edges = [{"id": "out", "sources": ["a"], "targets": ["b", "c"]}, {"id": "in", "sources": ["b", "c"], "targets": ["d"]}]
        placed = layout({"id": "r", "children": [box(it) for it in "abcd"], "edges": edges}, program=PROGRAM)
        found, places = routes(placed), positions(placed)
        self.assertEqual(set(found), {("a", "b"), ("a", "c"), ("b", "d"), ("c", "d")})
        for (source, target), points in found.items():
            for end, (x, y) in ((source, points[0]), (target, points[-1])):
                self.assertEqual((abs(x - places[end][0]), abs(y - places[end][1]) <= 10), (15, True))
            for (x, y), (u, v) in zip(points, points[1:]):
                self.assertTrue(x == u or y == v)
        points = junction_points(placed)
        self.assertEqual({id: len(it) for id, it in points.items()}, {"out": 1, "in": 1})

    def test_routes_lead_from_node_to_node_at_all_levels(self):
        inner = {"id": "box", "children": [{"id": "b", "width": 30, "height": 30}, {"id": "c", "width": 30, "height": 30}]}
        edges = [{"id": "in", "sources": ["b"], "targets": ["c"]}, {"id": "out", "source": "a", "target": "box"}, edge("a", "c")]
        document = {"id": "r", "children": [{"id": "a", "width": 30, "height": 30, "labels": [{"text": "A"}]}, inner]}
        graph = to_networkx(layout({**document, "edges": edges}, program=PROGRAM))
        self.assertEqual(graph.nodes["b"]["parent"], "box")
        self.assertNotIn("parent", graph.nodes["box"])
        self.assertEqual(graph.nodes["a"]["label"], "A")
        for source, target, id, data in graph.edges(keys=True, data=True):
            for end, (x, y) in ((source, data["points"][0]), (target, data["points"][-1])):
                node = graph.nodes[end]
                with self.subTest((id, end)):
                    self.assertEqual(abs(x - node["pos"][0]), node["width"] / 2)
                    self.assertLessEqual(abs(y - node["pos"][1]), node["height"] / 2)

    def test_edges_without_a_direction_are_drawn_from_their_first_end_to_their_second(self):
        graph = networkx.path_graph(4)
        placed = layout(from_networkx(graph), program=PROGRAM)
        places = {it["id"]: it["x"] for it in placed["children"]}
        self.assertTrue(all(places[source] < places[target] for source, target in graph.edges))
        self.assertEqual(placed["layering"]["reversed"], [])

    @needs("matplotlib")
    def test_networkx_draws_by_the_positions(self):
        import matplotlib

        matplotlib.use("Agg")
        graph = networkx.DiGraph([("a", "b"), ("b", "c")])
        networkx.draw(graph, positions(graph, program=PROGRAM))

    @needs("matplotlib")
    def test_matplotlib_draws_nodes_routes_and_labels(self):
        import matplotlib
        from matplotlib import patches, pyplot

        matplotlib.use("Agg")
        graph = networkx.DiGraph()
        graph.add_node("box", label="a group")
        graph.add_node("a", parent="box", shape="ellipse", fillcolor="#ff0000")
        graph.add_node("b", parent="box", label=5, shape="diamond", color="rgb(0, 51, 0)")
        graph.add_node("c", ports=["p"], style="dashed")
        graph.add_edges_from([("a", "b", {"label": "on $1", "width": 3}), ("box", "c", {"target_port": "p", "style": "dotted"})])
        figure, given = pyplot.subplots()
        heads = {}
        for undirected in (False, True):
            drawn = graph.to_undirected() if undirected else graph
            axes = draw(drawn, ax=given if undirected else None, program=PROGRAM)
            self.assertEqual(sorted(it.get_text() for it in axes.texts), ["5", "a", "a group", "c", "on \\$1", "p"])
            (ellipse,) = [it for it in axes.patches if isinstance(it, patches.Ellipse)]
            self.assertEqual(ellipse.get_facecolor(), (1, 0, 0, 1))
            (diamond,) = [it for it in axes.patches if it.get_edgecolor()[:3] == (0, 0.2, 0)]
            self.assertEqual(len(diamond.get_path().vertices), 5)
            # The picture, the root, the group, a node and its port.
            self.assertEqual([it.__class__ for it in axes.patches].count(patches.FancyBboxPatch), 5)
            paths = [it for it in axes.patches if isinstance(it, patches.PathPatch)]
            heads[undirected] = sum(not it.get_fill() or it.get_facecolor()[3] == 0 for it in paths), len(paths)
            ((x, y),) = [it.center for it in axes.patches if isinstance(it, patches.Ellipse)]
            self.assertEqual((x, y), positions(drawn, program=PROGRAM)["a"])
            axes.figure.canvas.draw()
        self.assertEqual(heads[False][1] - heads[True][1], 2)
        self.assertIs(axes, given)
        # Of itself a unit is a point of print.
        own = draw(graph, program=PROGRAM)
        placed = layout(from_networkx(graph), program=PROGRAM)
        self.assertEqual([round(it * 72) for it in own.figure.get_size_inches()], [placed["width"] + 16, placed["height"] + 16])
        pyplot.close("all")

    @needs("matplotlib")
    def test_matplotlib_draws_dashes_widths_and_placed_graphs(self):
        import matplotlib
        from matplotlib import pyplot

        matplotlib.use("Agg")
        graph = networkx.DiGraph([("a", "b", {"width": 3, "style": "dotted"})])
        graph.add_node("a", style="dashed", penwidth=2)
        placed = layout(from_networkx(graph), program=PROGRAM)
        for given in (graph, placed):
            drawn = draw(given, program=PROGRAM)
            dashes = {tuple(it._dash_pattern[1]) for it in drawn.patches if it._dash_pattern[1]}
            self.assertEqual(dashes, {(8, 6), (3, 6)})
            widths = [it.get_linewidth() for it in drawn.patches]
            self.assertEqual(sorted({round(it) for it in widths} & {2, 3}), [2, 3])
            drawn.figure.canvas.draw()
        pyplot.close("all")


@needs("pandas")
class Frames(unittest.TestCase):
    def frame(self, **columns):
        import pandas

        return pandas.DataFrame(columns)

    def test_rows_are_edges_and_columns_are_attributes(self):
        frame = self.frame(source=["a", "a", "b"], target=["b", "c", "c"], label=["x", None, "z"], weight=[1, 2, math.nan])
        document = from_edges(frame, options={"elk.direction": "DOWN"})
        self.assertEqual([it["id"] for it in document["children"]], ["a", "b", "c"])
        self.assertEqual([(it["sources"], it["targets"]) for it in document["edges"]], [(["a"], ["b"]), (["a"], ["c"]), (["b"], ["c"])])
        self.assertEqual([it.get("labels") for it in document["edges"]], [[{"text": "x"}], None, [{"text": "z"}]])
        self.assertEqual([it.get("layoutOptions") for it in document["edges"]], [None, {"elk.layered.priority.shortness": 2}, None])
        self.assertEqual(document["layoutOptions"], {"elk.direction": "DOWN"})

    def test_columns_and_nodes_have_other_names(self):
        nodes = self.frame(label=["one", None, "alone"], width=[math.nan, 70, 20])
        nodes.index = [1, 2, 3]
        frame = self.frame(**{"from": [1, 2], "to": [2, 1], "name": ["x", "y"]})
        document = from_edges(frame, source="from", target="to", key="name", nodes=nodes, directed=False)
        self.assertEqual([(it["id"], it["width"]) for it in document["children"]], [(1, 40), (2, 70), (3, 20)])
        self.assertEqual([it["labels"][0]["text"] for it in document["children"]], ["one", "2", "alone"])
        self.assertEqual([(it["key"], it["directed"]) for it in document["edges"]], [("x", False), ("y", False)])

    def test_what_is_wrong_is_reported_by_name(self):
        for columns, reading, wanted, words in (
            ({"source": ["a"], "to": ["b"]}, {}, ValueError, "the frame has no column 'target'"),
            ({"source": ["a", None], "target": ["b", "c"]}, {}, ValueError, "the source of the edge in row 1 is missing"),
            ({"source": ["a"], "target": ["b"], "weight": ["much"]}, {}, ValueError, "the weight of the edge .* is 'much'"),
            ({"source": ["a"], "target": ["b"]}, {"colour": 1}, TypeError, "colour"),
        ):
            with self.subTest(words), self.assertRaisesRegex(wanted, words):
                from_edges(self.frame(**columns), **reading)

    @with_program
    def test_they_are_laid_out(self):
        frame = self.frame(source=range(50), target=[at // 2 + 50 for at in range(50)])
        placed = layout(from_edges(frame), program=PROGRAM)
        self.assertEqual(len(routes(placed)), 50)


if __name__ == "__main__":
    unittest.main()
