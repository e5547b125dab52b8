"""Tries `elk-draw --dot`: graphs that texts in DOT and lines become, what has no effect in them, faults, and what Graphviz reads of the same texts.

Beside each text of tests/dot stands a file with members that its graph has to have, and all warnings.
"""
import collections
import gzip
import itertools
import json
import pathlib
import re
import shutil
import subprocess
import unittest

from test_drawing import PROGRAM, SECONDS, TOP, replies_to, run

GRAPHS = sorted((TOP / "tests/dot").glob("*.gv"))
TEXTS = [*GRAPHS, TOP / "tests/dot/lines.txt"]
SAMPLES = [pathlib.Path("/usr/share/doc/graphviz/examples/graphs"), pathlib.Path("/usr/share/graphviz/graphs")]
BLANK = "\u200b"

# Texts that can't be read: the line and the column of the fault, and a part of the sentence.
FAULTS = [
    ("", 1, 1, "digraph"),
    ("digraph { a -> }", 1, 16, "after the edge operator"),
    ("digraph { a -> b", 1, 17, "'}'"),
    ("graph {\n  a -> b\n}", 2, 5, "'--'"),
    ("digraph { a -- b }", 1, 13, "'->'"),
    ("digraph { a [label=] }", 1, 20, "value"),
    ("digraph {\n  a [label=\"x }", 2, 12, "closing quote"),
    ("digraph { /* }", 1, 11, "comment"),
    ("digraph { a [label=<b] }", 1, 20, ">"),
    ("table { }", 1, 1, "digraph"),
    ("digrph G {\n  a -> b\n}", 1, 1, "expected 'graph' or 'digraph', but found 'digrph'"),
    ("strct digraph G { }", 1, 1, "'strct'"),
    ("{ a -> b }", 1, 1, "digraph"),
    ("<a> -> b", 1, 1, "digraph"),
    ("// a comment alone\n", 2, 1, "digraph"),
    ("graph {\n  a b -> c d\n}", 2, 7, "'--'"),
    ("a -> b\nb -> ]", 2, 6, "after the edge operator"),
    ("a -> b\nb ->", 2, 5, "the end of the text"),
    ("a b -> c : d\n-> e", 2, 1, "statement"),
    ("a -> \"b\nc d", 1, 6, "closing quote"),
    ("digraph { a:b:c:d }", 1, 16, ":"),
]

# Texts without a frame, and one whose frame has many lines: the ids of their nodes.
FORMS = [
    ("a -> b : calls\n", ["a", "b"]),
    ("two words", ["two words"]),
    ("rankdir=LR\r\na b -> c\r\n", ["a b", "c"]),
    ("edge [color=red]\na", ["a"]),
    ("node -> edge", ["node", "edge"]),
    ("subgraph x { a b }", ["a", "b"]),
    ("graph theory -> logic", ["graph theory", "logic"]),
    ("graph [rankdir=LR]\na b", ["a b"]),
    ("@user -> server", ["@user", "server"]),
    ("a---b -> 2nd  step", ["a", "-b", "2nd  step"]),
    ("strict\ndigraph\nG\n{ a }", ["a"]),
]

BROKEN = [
    ({"dot": 5}, "dot"),
    ({"dot": "digraph { }", "graph": {}}, "not several"),
    ({"give": ["graph"]}, "dot"),
]


def text_of(path):
    return gzip.decompress(path.read_bytes()) if path.suffix == ".gz" else path.read_bytes()


def replied(text, *give):
    (reply,) = replies_to(json.dumps({"dot": text, "give": list(give)}))
    return reply


def graph_of(text):
    """The graph of a text. A request is UTF-8, so that any other text is laid out too."""
    try:
        return replied(text.decode(), "graph")["graph"]
    except UnicodeDecodeError:
        status, out, notes = run("--dot", "--json", given=text)
        assert (status, notes) == (0, ""), (status, notes)
        return json.loads(out)


def differences(wanted, found, path=""):
    """Where a value lacks what is wanted of it. Elements of lists are found by their ids, and null is no member."""
    if isinstance(wanted, dict) and isinstance(found, dict):
        for key, value in wanted.items():
            if value is None:
                if key in found:
                    yield f"{path}.{key}: {found[key]!r}"
            elif key not in found:
                yield f"{path}.{key} is missing"
            else:
                yield from differences(value, found[key], f"{path}.{key}")
    elif isinstance(wanted, list) and isinstance(found, list):
        if len(wanted) != len(found):
            yield f"{path}: {len(found)} elements"
        for number, (value, other) in enumerate(zip(wanted, found)):
            name = other.get("id", number) if isinstance(other, dict) else number
            yield from differences(value, other, f"{path}[{name}]")
    elif wanted != found:
        yield f"{path}: {found!r}"


class Read:
    """A graph of a text: its nodes, the nodes in each cluster, and the nodes at which each edge may end: all of a cluster if it ends there."""

    def __init__(self, graph):
        self.nodes, self.clusters, ends = {}, {}, {}
        levels = [(graph, [])]
        for level, around in levels:
            for child in level.get("children", []):
                if "children" in child:
                    self.clusters[child["id"]] = ends[child["id"]] = set()
                    levels.append((child, [*around, child["id"]]))
                else:
                    self.nodes[child["id"]] = child
                    ends.update({it["id"]: {child["id"]} for it in [child, *child.get("ports", [])]})
                    for cluster in around:
                        self.clusters[cluster].add(child["id"])
        self.edges = [(ends[it["sources"][0]], ends[it["targets"][0]]) for it in graph.get("edges", [])]


def read_by_graphviz(text):
    made = subprocess.run(["dot", "-Tdot_json"], input=text, capture_output=True, timeout=SECONDS)
    return json.loads(made.stdout.decode(errors="replace"), strict=False)


def label_by_graphviz(node):
    """The text of a label; None for records, points and HTML, whose texts Graphviz doesn't tell."""
    label = node.get("label", "\\N")
    if node.get("shape") in ("record", "Mrecord", "point") or "<" in label or "&" in label:
        return None
    text = re.sub(r"\\(.)", lambda it: "\n" if it[1] in "nlr" else it[1], label.replace("\\N", node["name"]).replace("\\G", "\0"))
    return text[:-1] if text.endswith("\n") else text


@unittest.skipUnless(PROGRAM.exists(), f"there is no program {PROGRAM}: build it, or name one by ELK_DRAW")
class Dot(unittest.TestCase):
    maxDiff = None

    def test_a_text_becomes_the_graph_that_it_asks_for(self):
        self.assertGreater(len(TEXTS), 8)
        for path in TEXTS:
            with self.subTest(path.name):
                wanted = json.loads(path.with_suffix(".json").read_text())
                self.assertEqual(list(differences(wanted["graph"], graph_of(text_of(path)))), [])

    def test_the_first_words_say_whether_a_text_has_a_frame(self):
        for text, ids in FORMS:
            with self.subTest(text):
                self.assertEqual([it["id"] for it in replied(text, "graph")["graph"]["children"]], ids)

    def test_what_has_no_effect_is_reported_with_its_place(self):
        for path in TEXTS:
            with self.subTest(path.name):
                wanted = json.loads(path.with_suffix(".json").read_text())["warnings"]
                status, out, notes = run("--dot", "--lint", given=text_of(path))
                found = re.findall(r"^(\d+):(\d+): warning: (.+)$", out.decode(), re.M)
                self.assertEqual([[int(line), int(column), message] for line, column, message in found], wanted)
                self.assertEqual(notes, "")

    def test_a_text_with_a_fault_is_refused_with_its_place(self):
        for text, line, column, part in FAULTS:
            with self.subTest(text):
                status, out, notes = run("--dot", given=text)
                self.assertEqual((status, out), (2, b""))
                self.assertTrue(notes.startswith(f"elk-draw: line {line}, column {column}: "), notes)
                self.assertIn(part, notes)
                fault = replied(text, "svg")["fault"]
                self.assertEqual((fault["rule"], fault["name"], fault["line"], fault["column"]), (None, "BadDot", line, column))
                self.assertEqual(f"elk-draw: {fault['message']}\n", notes)
                status, out, _ = run("--dot", "--lint", given=text)
                self.assertEqual(status, 2)
                self.assertTrue(out.decode().startswith(f"{line}:{column}: "), out)

    def test_a_picture_is_that_of_the_graph(self):
        text = "digraph { a -> b [label=calls]; c [shape=record, label=\"{<x> x|y}\"]; c:x -> a }"
        graph = graph_of(text.encode())
        for words in [[], ["--json"], ["--dark"]]:
            with self.subTest(words):
                self.assertEqual(run("--dot", *words, given=text), run(*words, given=json.dumps(graph)))
        self.assertEqual(replied(text, "svg")["svg"].encode(), run("--dot", given=text)[1])

    def test_the_graph_alone_needs_no_layout(self):
        graph = {"id": "r", "children": [{"id": "a", "width": -1}]}
        (reply,) = replies_to(json.dumps({"graph": graph, "give": ["graph"]}))
        self.assertEqual(reply, {"graph": graph})

    def test_a_request_has_one_graph(self):
        for request, part in BROKEN:
            with self.subTest(request):
                (reply,) = replies_to(json.dumps(request))
                self.assertEqual(reply["fault"]["name"], "BadRequest")
                self.assertIn(part, reply["fault"]["message"])

    def test_words_that_exclude_one_another(self):
        for words in [["--dot", "--lines"], ["--dot", "--placed"], ["--dot", "--plain"]]:
            with self.subTest(words):
                self.assertEqual(run(*words)[:2], (5, b""))

    @unittest.skipUnless(shutil.which("dot"), "dot isn't installed")
    def test_graphviz_reads_the_same(self):
        samples = [path for folder in SAMPLES if folder.is_dir() for path in sorted(folder.rglob("*.gv*"))]
        for path in [*GRAPHS, *samples]:
            text = text_of(path)
            with self.subTest(path.name):
                self.compare(Read(graph_of(text)), read_by_graphviz(text))

    def compare(self, read, graph):
        objects = graph.get("objects", [])
        subgraphs, nodes = objects[: graph["_subgraph_cnt"]], objects[graph["_subgraph_cnt"] :]
        names = {it["_gvid"]: it["name"] for it in objects}
        self.assertEqual(set(read.nodes), {it["name"] for it in nodes})
        edges = [(names[it["tail"]], names[it["head"]]) for it in graph.get("edges", [])]
        # Within a rank, edges that are invisible are left out.
        unseen = collections.Counter((names[it["tail"]], names[it["head"]]) for it in graph.get("edges", []) if it.get("style") == "invis")
        # Graphviz lists edges by their tails. Those that end at clusters are found last.
        left = collections.Counter(edges)
        for tails, heads in sorted(read.edges, key=lambda it: len(it[0]) * len(it[1])):
            found = next((it for it in itertools.product(tails, heads) if left[it]), None)
            self.assertIsNotNone(found, (tails, heads))
            left[found] -= 1
        self.assertEqual(+left - unseen, collections.Counter())
        for it in subgraphs:
            if it["name"].startswith("cluster") and it.get("nodes"):
                ids = [id for id in read.clusters if re.fullmatch(re.escape(it["name"]) + r"( \d+)?", id)]
                self.assertIn({names[node] for node in it["nodes"]}, [read.clusters[id] for id in ids])
        for node in nodes:
            text = label_by_graphviz(node)
            if text is not None and "\0" not in text:
                labels = read.nodes[node["name"]]["labels"]
                self.assertEqual(labels[0]["text"], text or BLANK)


if __name__ == "__main__":
    unittest.main()
