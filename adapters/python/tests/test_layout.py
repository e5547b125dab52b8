"""Graphs come back with their places, faults with their paths, and drawings are judged."""

import copy
import json
import math
import os
import pickle
import tempfile
import unittest
import unittest.mock
from decimal import Decimal
from fractions import Fraction

from .program import PROGRAM, TOP, box, chain, edge, needs, with_program
from elk_layout import Refusal, check, from_dot, layout, layout_many, lint, program
from elk_layout.program import find_program


def lay_out(graph, **how):
    return layout(graph, program=PROGRAM, **how)


def refused(graph, **how):
    return lay_out(graph, errors="return", **how)


@with_program
class Laid(unittest.TestCase):
    def test_labels_of_edges_and_nodes_have_room(self):
        labelled = {**box("a"), "labels": [{"text": "a label that is long"}]}
        labelled["layoutOptions"] = {"elk.nodeSize.constraints": "NODE_LABELS", "nodeLabels.placement": "INSIDE V_CENTER H_CENTER"}
        edges = [edge("a", "b", labels=[{"text": "on the way"}])]
        placed = lay_out({"id": "r", "children": [labelled, box("b")], "edges": edges})
        (a, b), (e,) = placed["children"], placed["edges"]
        (inner,), (label,) = a["labels"], e["labels"]
        self.assertGreaterEqual(a["width"], inner["x"] + inner["width"])
        self.assertTrue(a["x"] + a["width"] <= label["x"] and label["x"] + label["width"] <= b["x"])

    def test_edges_lead_across_levels(self):
        inner = {"id": "box", "children": [box("b")]}
        placed = lay_out({"id": "r", "children": [box("a"), inner], "edges": [edge("a", "b")]})
        (section,), outer = placed["edges"][0]["sections"], placed["children"][1]
        self.assertEqual(section["endPoint"]["x"], outer["x"] + outer["children"][0]["x"])
        self.assertEqual(placed["edges"][0]["container"], "r")

    def test_edges_with_several_ends_are_trees(self):
        tree = {"id": "e", "sources": ["a"], "targets": ["b", "c"]}
        placed = lay_out({"id": "r", "children": [box("a"), box("b"), box("c")], "edges": [tree]})
        sections = placed["edges"][0]["sections"]
        self.assertEqual(sorted(it["outgoingShape"] for it in sections if "outgoingShape" in it), ["b", "c"])
        self.assertEqual(len(placed["edges"][0]["junctionPoints"]), 1)

    def test_options_of_a_call_count_where_an_element_has_none(self):
        own = {**chain(2), "layoutOptions": {"direction": "RIGHT"}}
        for graph, is_down in ((chain(2), True), (own, False)):
            first, second = lay_out(graph, options={"elk.direction": "DOWN"})["children"]
            self.assertEqual(first["x"] == second["x"], is_down)

    def test_the_given_graph_stays_and_shares_no_list_and_no_object(self):
        graph = chain(3)
        graph["children"][0].update(labels=[{"text": "first", "width": 3.5, "height": 2}], mine={"own": [1.5, {"x": None}]})
        graph["edges"][0].update(junctionPoints=[{"x": 1, "y": 1}], container="old", sections=[])
        before = copy.deepcopy(graph)
        placed = lay_out(graph)
        self.assertEqual(graph, before)
        self.assertEqual(placed["children"][0]["mine"], graph["children"][0]["mine"])
        self.assertIsNot(placed["children"][0]["mine"], graph["children"][0]["mine"])
        self.assertEqual(set(placed["edges"][0]), {"id", "sources", "targets", "sections", "container"})
        self.assertEqual(set(graph["edges"][1]), {"id", "sources", "targets"})

    def test_members_that_nobody_reads_stay_as_they_were(self):
        values = [0.1 + 0.2, 5e-324, 2**63 - 1, "\0\x7f\u2028 é😀\"\\", True, None, {"": []}, [[], {}]]
        self.assertEqual(repr(lay_out({"id": "r", "mine": values})["mine"]), repr(values))

    def test_numbers_are_rounded_or_refused(self):
        self.assertEqual(lay_out({"id": "r", "children": [box("a", 30.2)]})["children"][0]["width"], 31)
        refusal = refused({"id": "r", "children": [box("a", 30.2)]}, numbers="exact")
        self.assertEqual((refusal.rule, refusal.path), (2, "children[0].width"))

    def test_a_placed_graph_may_be_laid_out_again(self):
        placed = lay_out(chain(4), options={"elk.direction": "DOWN"})
        self.assertEqual(lay_out(placed, options={"elk.direction": "DOWN"}), placed)

    def test_a_text_is_a_graph(self):
        self.assertEqual(lay_out(json.dumps(chain(3))), lay_out(chain(3)))
        self.assertEqual(refused('{"id": ').rule, 1)

    def test_dot_is_read(self):
        graph = from_dot('digraph { a -> b [label="on"] }', program=PROGRAM)
        self.assertEqual([it["id"] for it in graph["children"]], ["a", "b"])
        self.assertEqual(lay_out(graph)["edges"][0]["labels"][0]["text"], "on")
        with self.assertRaises(Refusal) as caught:
            from_dot("digraph {\n a -> }", program=PROGRAM)
        self.assertEqual((caught.exception.name, caught.exception.line, caught.exception.column), ("BadDot", 2, 7))


@with_program
class Values(unittest.TestCase):
    """What Python has besides JSON."""

    def test_numbers_of_other_classes_are_numbers(self):
        node = {"id": "a", "width": Decimal("1.5"), "height": Fraction(7, 2)}
        self.assertEqual(lay_out({"id": "r", "children": [node]})["children"], [{"id": "a", "width": 2, "height": 4, "x": 12, "y": 12}])

    @needs("numpy", "pandas")
    def test_numbers_of_numpy_and_pandas_are_numbers(self):
        import numpy
        import pandas

        frame = pandas.DataFrame({"id": [1, 2], "width": [30.0, 12.5], "height": [20, 21]})
        found = lay_out({"id": "r", "children": frame.to_dict("records")})["children"]
        self.assertEqual([(it["id"], it["width"], it["height"]) for it in found], [(1, 30, 20), (2, 13, 21)])
        node = {"id": numpy.int64(7), "width": numpy.float64(2.5), "height": numpy.uint16(3), "own": numpy.float32(0.5)}
        node["layoutOptions"] = {"elk.separateConnectedComponents": numpy.bool_(True)}
        (found,) = lay_out({"id": numpy.str_("r"), "children": [node]})["children"]
        self.assertEqual((found["id"], found["width"], found["height"], found["own"]), (7, 3, 3, 0.5))

    def test_what_json_does_not_have_is_refused_with_its_path_where_it_is_read(self):
        mine = object()
        for member, value in (("width", {1, 2}), ("width", math.nan), ("height", math.inf), ("id", mine), ("id", "\ud800"), ("ports", mine)):
            with self.subTest(member=member, value=ascii(value)):
                refusal = refused({"id": "r", "children": [box("a"), {**box("b"), member: value}]})
                self.assertEqual((refusal.rule, refusal.path), (3, f"children[1].{member}"))
                self.assertIs(refusal.found, value)
                self.assertIn(f"children[1].{member} is {value!r}, and may be", str(refusal))

    def test_what_json_does_not_have_comes_back_where_nobody_reads_it(self):
        mine = {"set": {1, 2}, "none": math.nan, "half": "\ud800", "self": object(), "type": int}
        graph = {"id": "r", "children": [{**box("a"), "mine": mine, "tuple": (1, (2,))}]}
        for found in (lay_out(graph), *layout_many([graph], program=PROGRAM)):
            self.assertEqual([found["children"][0]["mine"][name] is it for name, it in mine.items()], [True] * 5)
            self.assertEqual(found["children"][0]["tuple"], [1, [2]])

    def test_keys_that_are_no_texts_are_refused(self):
        for graph, path in (({(1, 2): 3}, "the graph"), ({"id": "r", "children": [{"a b": {"\ud800": 1}}]}, 'children[0]["a b"]')):
            refusal = refused(graph)
            self.assertEqual((refusal.name, refusal.path), ("NotJson", path))
            self.assertIn("is not JSON", str(refusal))


@with_program
class Faults(unittest.TestCase):
    def test_refusals_tell_what_is_wrong_and_where(self):
        a = box("a", 30, 30)
        for graph, rule, name, id, path, words in (
            ({"id": "r", "x": "x" * 2**24}, 0, "TooLong", None, None, "longer than 2^24 bytes"),
            ({"id": "r", "children": [{**a, "width": 1.5}]}, 2, "NotWhole", None, "children[0].width", "children[0].width is 1.5 (rule 2"),
            ({"id": "r", "children": [{**a, "width": None}]}, 3, "BadShape", None, "children[0].width", "wrong kind of value"),
            ({"id": "r", "children": [{**a, "width": 2**21}]}, 4, "OutOfRange", "a", "children[0].width", 'a size of "a" is not from 0 to 2^20'),
            ({"id": "r", "children": [{"id": at} for at in range(2048)]}, 5, "TooMany", None, "the document", "more than 2,048 nodes"),
            ({"id": "r", "children": [a, a]}, 7, "DoubleId", "a", "children[1].id", 'the id "a" is used twice'),
            ({"id": "r", "edges": [{"id": 1, "source": "x", "target": "r"}]}, 8, "UnknownEnd", 1, "edges[0].source", "the edge 1 has an end"),
            ({"id": "é", "layoutOptions": {"elk.direction": "SIDE"}}, 11, "OptionValue", "é", 'layoutOptions["elk.direction"]', "may be UNDEFINED"),
        ):
            with self.subTest(name):
                refusal = refused(graph, numbers="exact")
                self.assertEqual((refusal.rule, refusal.name, refusal.id, refusal.path), (rule, name, id, path))
                self.assertIn(words, str(refusal))
                with self.assertRaises(Refusal):
                    lay_out(graph, numbers="exact")

    def test_a_refusal_has_all_faults_and_what_was_meant(self):
        a, b = box("a"), box("b", -1)
        refusal = refused({"id": "r", "children": [a, a, b], "edges": [edge("A", "b")]})
        self.assertEqual([it.rule for it in refusal.faults], [4, 7, 8])
        self.assertEqual((refusal.found, refusal.allowed), (-1, "whole, 0 to 1,048,576"))
        self.assertEqual((refusal.faults[2].path, refusal.faults[2].found, refusal.faults[2].near), ("edges[0].sources[0]", "A", "a"))
        self.assertEqual((refusal.faults[2].message, refusal.faults[0].near), (refusal.faults[2].message, None))

    def test_errors_are_sent_from_process_to_process(self):
        refusal = refused({"id": "r", "children": [box("a"), box("a")]})
        refusal.index = 5
        found = pickle.loads(pickle.dumps(refusal))
        self.assertEqual((str(found), found.faults, found.rule, found.index), (str(refusal), refusal.faults, 7, 5))

    def test_faults_and_warnings_are_reported_without_a_layout(self):
        graph = {"id": "r", "children": [{"id": "a", "height": 3, "widht": 3}, box("a")]}
        for given, line in ((graph, None), (json.dumps(graph, indent=1), 10)):
            fault, warning = lint(given, program=PROGRAM)
            self.assertEqual((fault.severity, fault.rule, fault.path), ("fault", 7, "children[1].id"))
            self.assertEqual((warning.severity, warning.path, warning.near), ("warning", "children[0].widht", "width"))
            self.assertEqual(fault.line, line)
        (fault,) = lint('{"id": ', program=PROGRAM)
        self.assertEqual((fault.rule, fault.line), (1, 1))


@with_program
class Judged(unittest.TestCase):
    def test_drawings_are_good(self):
        for path in sorted((TOP / "examples").glob("*.json")):
            if (TOP / "examples" / "answers" / path.name).exists():
                with self.subTest(path.name):
                    self.assertTrue(check(lay_out(json.loads(path.read_text())), program=PROGRAM))
        down = {"elk.direction": "DOWN"}
        self.assertTrue(check(lay_out(chain(3), options=down), options=down, program=PROGRAM))

    def test_a_drawing_that_the_engine_does_not_know_is_refused(self):
        tree = {"id": "e", "sources": ["a"], "targets": ["b", "c"]}
        graph = {"id": "r", "children": [box("a"), box("b"), box("c")], "edges": [tree]}
        across = {"id": "r", "children": [box("a"), {"id": "g", "children": [box("b")]}], "edges": [edge("a", "b")]}
        for it in (graph, across):
            with self.assertRaisesRegex(Refusal, "can't be judged"):
                check(lay_out(it), program=PROGRAM)

    def test_verdicts_name_the_first_definition_that_fails(self):
        placed = lay_out(chain(2))
        placed["children"][1]["x"] = placed["children"][0]["x"]
        verdict = check(placed, program=PROGRAM)
        self.assertFalse(verdict)
        self.assertEqual((verdict.definition, verdict.name, verdict.places), (6, "Apart", ("n0", "n1")))
        self.assertEqual(str(verdict), 'no: definition 6, Apart, fails at "n0", "n1"')
        self.assertEqual(check(json.dumps(placed), program=PROGRAM), verdict)
        placed = lay_out({"id": -5, "children": [{"id": -7, "labels": [{"width": 0.5}]}]})
        self.assertTrue(check(placed, program=PROGRAM))
        placed["children"][0]["x"] = 0
        self.assertEqual(check(placed, program=PROGRAM).places[0], -7)

    def test_what_is_not_placed_is_refused(self):
        for numbers in ("ceil", "exact"):
            with self.assertRaises(Refusal) as caught:
                check(chain(2), numbers=numbers, program=PROGRAM)
            self.assertEqual((caught.exception.rule, caught.exception.name), (13, "NotPlaced"))


class Found(unittest.TestCase):
    def test_the_program_is_the_given_one_or_that_of_the_environment_or_of_the_path(self):
        with tempfile.TemporaryDirectory() as folder:
            on_path = os.path.join(folder, "elk-draw")
            with open(on_path, "w") as file:
                file.write("#!/bin/sh\n")
            os.chmod(on_path, 0o755)
            for given, named, path, found in (
                ("given", "named", folder, "given"),
                (None, "named", folder, "named"),
                (None, "", folder, on_path),
                (None, None, "/nowhere", str(TOP / "elk-draw")),
            ):
                with self.subTest(found):
                    environment = {"PATH": path, **({} if named is None else {"ELK_DRAW_PROGRAM": named})}
                    with unittest.mock.patch.dict(os.environ, environment, clear=True):
                        self.assertEqual(find_program(given), (found,))

    def test_a_system_without_a_program_asks_node_for_the_module(self):
        with tempfile.TemporaryDirectory() as folder:
            own, node = os.path.join(folder, "module"), os.path.join(folder, "node")
            for path in (own, node):
                with open(path, "w") as file:
                    file.write("#!/bin/sh\n")
                os.chmod(path, 0o755)
            system = unittest.mock.patch.object(program.platform, "system", return_value="Other")
            module = unittest.mock.patch.object(program, "OWN_MODULE", program.Path(own))
            with system, module, unittest.mock.patch.dict(os.environ, {"PATH": folder}, clear=True):
                self.assertEqual(find_program(), (node, own))


if __name__ == "__main__":
    unittest.main()
