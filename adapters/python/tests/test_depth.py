"""Graphs in which much stands in one another are refused with the path, and never end with a RecursionError."""

import json
import subprocess
import sys
import tempfile
import unittest
from pathlib import Path

from .program import PACKAGE, PROGRAM, with_program
from elk_layout import Refusal, check, layout, layout_many

COUNTS = (3_000, 100_000)


def nested(count):
    """Something inside this many nested nodes."""
    node = {"id": "in", "width": 10, "height": 10, "x": 0, "y": 0}
    for at in range(count):
        node = {"id": at, "x": 1, "y": 1, "width": 10, "height": 10, "children": [node]}
    return node


def lists(count):
    """So many lists in one another."""
    found = []
    for _ in range(count - 1):
        found = [found]
    return found


def emptied(value):
    """Takes a value apart, because Python may crash when it frees one that is nested so deep."""
    waiting = [value]
    while waiting:
        inner = waiting.pop()
        waiting += inner.values() if isinstance(inner, dict) else inner if isinstance(inner, list) else ()
        if isinstance(inner, (dict, list)):
            inner.clear()


@with_program
class Refused(unittest.TestCase):
    def refuses(self, graph, rule, path, call=layout, **how):
        with self.assertRaises(Refusal) as caught:
            call(graph, program=PROGRAM, **how)
        refusal = caught.exception
        self.assertEqual((refusal.rule, len(refusal.faults)), (rule, 1), str(refusal))
        self.assertRegex(refusal.path, path)

    def test_nodes_in_any_number_that_stand_in_one_another(self):
        # A line of JSON is at most 127 lists and objects deep; what is deeper is no line.
        for count, rule in ((51, 6), (62, 6), *((count, 1) for count in (63, 64, 70, 300, *COUNTS))):
            graph = nested(count)
            for call in (layout, check):
                with self.subTest((count, call.__name__)):
                    self.refuses(graph, rule, r"^children\[0\]\.children\[0\]", call)
            emptied(graph)
        layout(nested(50), program=PROGRAM)

    def test_a_stream_goes_on_behind_them(self):
        results = list(layout_many([nested(3_000), nested(100), nested(3)], program=PROGRAM, errors="return"))
        self.assertEqual([isinstance(it, Refusal) for it in results], [True, True, False])

    def test_a_graph_that_stands_in_itself(self):
        graph = {"id": "r", "children": []}
        graph["children"] += [graph, graph]
        self.refuses(graph, 1, r"^children\[0\]\.children\[0\]")

    def test_lists_that_stand_too_deep(self):
        for graph, path in (
            ({"id": lists(100_000)}, r"^id(\[0\])+$"),
            ({"id": "r", "children": lists(100_000)}, r"^children(\[0\])+$"),
            ({"id": "r", "layoutOptions": {"elk.direction": lists(100_000)}}, r"^layoutOptions\[.*\](\[0\])+$"),
            ({"id": "r", "children": [{"id": "a", "data": lists(300)}]}, r"^children\[0\]\.data(\[0\])+$"),
        ):
            with self.subTest(path):
                self.refuses(graph, 1, path)
            emptied(graph)

    def test_a_file_of_them_is_reported(self):
        with tempfile.TemporaryDirectory() as folder:
            file = Path(folder) / "deep.json"
            file.write_text('{"id":0,"children":[' * 100_000 + "]}" * 100_000)
            words = [sys.executable, "-m", "elk_layout", "layout", str(file), "-o", f"{folder}/out", "--program", PROGRAM]
            ended = subprocess.run(words, stdout=subprocess.PIPE, stderr=subprocess.PIPE, cwd=PACKAGE)
            told = json.loads((Path(folder) / "out" / "refused.jsonl").read_text())
            self.assertEqual((ended.returncode, ended.stderr.decode()), (2, f"{file}: {told['reason']}\n"))
            self.assertEqual((told["rule"], told["name"]), (6, "TooDeep"))


if __name__ == "__main__":
    unittest.main()
