"""Tests the program `elk-draw`: pictures, placed graphs, requests, messages, statuses.

The program is the one that ELK_DRAW names, or crates/elk_draw/out/elk_draw. Without one all tests are skipped.
"""
import json
import os
import pathlib
import re
import subprocess
import tempfile
import unittest

from test_pages import commands_of

TOP = pathlib.Path(__file__).resolve().parent.parent
PROGRAM = pathlib.Path(os.environ.get("ELK_DRAW") or TOP / "crates/elk_draw/out/elk_draw")
CASES = sorted((TOP / "tests/draw").iterdir())
MISTAKES = json.loads((TOP / "tests/mistakes.json").read_text())
FAULTS = json.loads((TOP / "tests/faults.json").read_text())
SECONDS = 120

NODES = [{"id": "a", "width": 30, "height": 30}, {"id": "b", "width": 30, "height": 30}]
EDGE = {"id": "e", "sources": ["a"], "targets": ["b"]}
GRAPH = {"id": "r", "children": NODES, "edges": [EDGE]}
INNER = {"id": "a", "children": [{"id": "i"}]}

# An edge crosses a border, and there are fractions in members that the engine doesn't read.
LABELLED_NODE = {"id": "i", "width": 30, "height": 30, "x": 1.5, "y": 2.25, "labels": [{"text": "i", "width": 10.5, "height": 8.5}]}
ACROSS = {
    "id": "r",
    "layoutOptions": {"elk.spacing.labelNode": 1.5, "elk.aspectRatio": 1.6},
    "children": [{"id": "a", "children": [LABELLED_NODE]}, {"id": "b", "width": 30, "height": 30}],
    "edges": [{"id": "e", "sources": ["i"], "targets": ["b"], "labels": [{"text": "e", "width": 12.5, "height": 8.25}]}],
}

# Graphs that ELK takes, and the engine only as the program sends them.
TAKEN = [
    ("a port is called like a node", '{"id":"r","children":[{"id":"a","width":30,"height":30,"ports":[{"id":"a"}]},{"id":"b"}],"edges":[{"id":"e","source":"a","sourcePort":"a","target":"b"}]}'),
    ("a pinned port lies a little inside", '{"id":"r","children":[{"id":"a","width":30,"height":30,"layoutOptions":{"portConstraints":"FIXED_POS"},"ports":[{"id":"p","x":23,"y":3,"width":2,"height":2}]}]}'),
    ("an alignment that the engine lacks", '{"id":"r","layoutOptions":{"elk.layered.nodePlacement.bk.fixedAlignment":"BALANCED"},"children":[{"id":"a"}]}'),
    ("whole numbers are written as floats", '{"id":"r","layoutOptions":{"elk.layered.effort":7.0},"children":[{"id":"a","width":30.0,"height":3e1}]}'),
    ("edges of several ends", '{"id":"r","children":[{"id":"a"},{"id":"b"},{"id":"c"}],"edges":[{"id":"e","sources":["a"],"targets":["b","c"]}]}'),
    ("whole numbers of one float are two ids", '{"id":"r","children":[{"id":9007199254740992},{"id":9007199254740993}],"edges":[{"id":"e","source":9007199254740993,"target":9007199254740992}]}'),
]

NAMESAKES = {"id": "a", "width": 30, "height": 30, "ports": [{"id": "a"}, {"id": "b", "width": -1}]}
CHAIN = [{"id": at, "source": at, "target": at + 1, "labels": [{"text": "x", "width": 9, "height": 9}]} for at in range(1199)]

# What is wrong with elements that are sent under other ids or in pieces: the rule, the id in the graph, and words of the sentence.
SENT_OTHERWISE = [
    ("a port that is called like a node", 4, "b", 'a size of "b" is not', {"id": "r", "children": [NAMESAKES, {"id": "b"}]}),
    ("an edge of several ends that leads into a box", 10, "e", 'the edge "e" joins nodes of two levels: "b" is in "r", and "i" in "a"',
     {"id": "r", "layoutOptions": {"elk.hierarchyHandling": "SEPARATE_CHILDREN"}, "children": [INNER, {"id": "b"}, {"id": "c"}],
      "edges": [{"id": "e", "sources": ["b"], "targets": ["c", "i"]}]}),
    ("labels with which there are too many nodes", 5, None, "2,400 nodes are sent, including those for labels",
     {"id": "r", "children": [{"id": at} for at in range(1200)], "edges": CHAIN}),
]

# Documents that break a rule, with the id that is named.
REFUSED = [
    (1, None, '{"id":'),
    (2, None, '{"children":[{"id":"a","width":30.5}]}'),
    (3, None, '{"children":[{}]}'),
    (4, "a", '{"children":[{"id":"a","width":-1}]}'),
    (5, None, json.dumps({"children": [{"id": number} for number in range(2048)]})),
    (6, None, '{"id":0' + "".join(f',"children":[{{"id":{number}' for number in range(1, 60)) + "}]" * 59 + "}"),
    (7, 1, '{"children":[{"id":1},{"id":1}]}'),
    (8, "e", '{"children":[{"id":"a"}],"edges":[{"id":"e","source":"z","target":"a"}]}'),
    (9, "e", '{"children":[{"id":"a"},{"id":"b"}],"edges":[{"id":"e","sources":["a","b"],"targets":["a","b"]}]}'),
    (10, "e", json.dumps({"layoutOptions": {"elk.hierarchyHandling": "SEPARATE_CHILDREN"}, "children": [INNER, {"id": "b"}], "edges": [{"id": "e", "source": "i", "target": "b"}]})),
    (11, "r", '{"id":"r","layoutOptions":{"elk.direction":"ROUND"}}'),
    (12, "p", json.dumps({"children": [{"id": "a", "width": 30, "height": 30, "layoutOptions": {"portConstraints": "FIXED_POS"},
                                        "ports": [{"id": "p", "width": 2, "height": 2, "x": 10, "y": 10}]}]})),
]

BROKEN = [
    ("no JSON", '{"graph":', "JSON"),
    ("an empty line", "", "JSON"),
    ("a number", "3", "object"),
    ("no graph", '{"give":["svg"]}', "graph"),
    ("an unknown thing to give", '{"graph":{},"give":["png"]}', "give"),
    ("nothing to give", '{"graph":{},"give":[]}', "give"),
    ("a text to give", '{"graph":{},"give":"svg"}', "give"),
    ("an unknown theme", '{"graph":{},"theme":"blue"}', "theme"),
    ("arrows that are a number", '{"graph":{},"arrows":1}', "arrows"),
    ("options that are a list", '{"graph":{},"options":[]}', "options"),
    ("unknown numbers", '{"graph":{},"numbers":"floor"}', "numbers"),
    ("an unknown member", '{"graph":{},"graphs":[]}', "no other members"),
    ("two graphs", '{"graph":{},"text":"{}"}', "several"),
    ("a text that is an object", '{"text":{}}', "text"),
    ("a placed graph to lay out", '{"placed":{},"give":["placed"]}', "as it is"),
    ("a placed graph to judge", '{"placed":{},"give":["svg","lint"]}', "as it is"),
]


def run(*words, given=b"", **how):
    """The status of a run, its stdout, and its stderr."""
    given = given.encode() if isinstance(given, str) else given
    done = subprocess.run([PROGRAM, *words], input=given, stderr=subprocess.PIPE, stdout=how.pop("stdout", subprocess.PIPE), timeout=SECONDS, **how)
    return done.returncode, done.stdout, done.stderr.decode()


def rule_name(rule):
    return next(it["name"] for it in FAULTS["rules"] if it["rule"] == rule)


def sentence(rule, id):
    """The message of the packages about a rule, without details."""
    told = next(it for it in FAULTS["rules"] if it["rule"] == rule)
    name = FAULTS["withoutId"] if id is None else json.dumps(id)
    words = told["words"].replace("{it}", name)
    parts = {"words": words, "detail": "", "rule": str(rule), "name": told["name"]}
    return re.sub(r"\{(\w+)\}", lambda it: parts[it[1]], FAULTS["message"])


def replies_to(*lines):
    status, out, notes = run("--lines", given="".join(f"{line}\n" for line in lines))
    assert (status, notes) == (0, ""), (status, notes)
    assert out.count(b"\n") == len(lines) and out.endswith(b"\n"), out
    return [json.loads(line) for line in out.splitlines()]


def graph_of(case):
    """The file that has the graph of a case, and the words with which it is read. There is none if the case has only places."""
    for name, words in [("graph.json", []), ("graph.gv", ["--dot"])]:
        if (case / name).exists():
            return case / name, words
    return None, []


def request(graph, **members):
    return json.dumps({"graph": graph, **members})


@unittest.skipUnless(PROGRAM.exists(), f"there is no program {PROGRAM}: build it, or name one by ELK_DRAW")
class Drawing(unittest.TestCase):
    def test_the_commands_of_the_page_write_what_it_shows(self):
        folder = tempfile.TemporaryDirectory()
        self.addCleanup(folder.cleanup)
        room = pathlib.Path(folder.name)
        (room / "examples").symlink_to(TOP / "examples")
        (room / "elk-draw").symlink_to(PROGRAM.resolve())
        shown = list(commands_of((TOP / "docs/DRAWING.md").read_text()))
        self.assertGreater(len(shown), 5)
        for command, lines in shown:
            with self.subTest(command):
                (room / "picture.svg").unlink(missing_ok=True)
                done = subprocess.run(["bash", "-c", command], cwd=room, stdout=subprocess.PIPE, stderr=subprocess.STDOUT, text=True, timeout=SECONDS)
                self.assertEqual(done.stdout.splitlines(), lines)
                if "picture.svg" in command:
                    self.assertIn("</svg>", (room / "picture.svg").read_text())

    def test_a_graph_with_places_is_drawn(self):
        for case in CASES:
            with self.subTest(case.name):
                args = case / "args"
                words = args.read_text().split() if args.exists() else []
                status, out, notes = run("--placed", *words, given=(case / "placed.json").read_bytes())
                self.assertEqual((status, notes), (0, ""))
                self.assertEqual(out, (case / "picture.svg").read_bytes())

    def test_plain_is_what_the_engine_answers(self):
        for example in sorted((TOP / "examples").glob("*.json")):
            with self.subTest(example.name):
                given = example.read_bytes()
                wanted = subprocess.run([TOP / "elk", "layout"], input=given, capture_output=True, timeout=SECONDS)
                status, out, notes = run("--plain", given=given)
                self.assertEqual((status, out), (wanted.returncode, wanted.stdout))
                self.assertEqual(status == 0, notes == "")

    def test_a_graph_is_laid_out_and_drawn(self):
        for case in CASES:
            graph, read = graph_of(case)
            if graph is None:
                continue
            with self.subTest(case.name):
                given = graph.read_bytes()
                status, out, notes = run(*read, "--json", given=given)
                self.assertEqual((status, notes), (0, ""))
                self.assertEqual(json.loads(out), json.loads((case / "placed.json").read_text()))
                args = case / "args"
                words = args.read_text().split() if args.exists() else []
                self.assertEqual(run(*read, *words, given=given), (0, (case / "picture.svg").read_bytes(), ""))

    def test_options_of_a_call_count_where_an_element_says_nothing(self):
        plain, downwards = (json.loads(run("--json", *words, given=json.dumps(GRAPH))[1]) for words in [[], ["--option", "direction=DOWN"]])
        first, second = downwards["children"]
        self.assertEqual((first["x"], first["y"] + 30 <= second["y"]), (second["x"], True))
        own = {**GRAPH, "layoutOptions": {"elk.direction": "RIGHT"}}
        self.assertEqual(json.loads(run("--json", "--option", "elk.direction=DOWN", given=json.dumps(own))[1])["children"], plain["children"])
        wide = json.loads(run("--json", "--option", "elk.direction=DOWN", "--option", "elk.padding=[left=50]", given=json.dumps(GRAPH))[1])
        self.assertEqual(wide["children"][0]["x"], 50)
        for words in [["direction"], ["=DOWN"], [""]]:
            status, out, notes = run("--option", *words, given=json.dumps(GRAPH))
            self.assertEqual((status, out), (5, b""))
            self.assertIn("NAME=VALUE", notes)

    def test_fractions_are_rounded_up_or_refused(self):
        given = json.dumps({"id": "r", "children": [{"id": "a", "width": 30.2, "height": 30}]})
        self.assertEqual(json.loads(run("--json", given=given)[1])["children"][0]["width"], 31)
        status, out, notes = run("--json", "--exact", given=given)
        self.assertEqual((status, out), (2, b""))
        self.assertIn("NotWhole", notes)

    def test_fractions_that_the_engine_does_not_read_are_no_faults(self):
        given = json.dumps(ACROSS)
        status, out, notes = run("--json", given=given)
        self.assertEqual((status, notes), (0, ""))
        placed = json.loads(out)
        self.assertEqual(placed["children"][0]["children"][0]["labels"][0]["width"], 10.5)
        self.assertEqual(placed["edges"][0]["labels"][0]["height"], 8.25)
        self.assertEqual(run("--lint", given=given)[0], 0)
        negative = {"id": "r", "children": [{"id": "a", "width": -1, "labels": [{"text": "a", "width": 1.5}]}]}
        (reply,) = replies_to(request(negative))
        self.assertEqual((reply["fault"]["rule"], "faults" in reply["fault"]), (4, False))

    def test_a_label_without_a_size_has_room_for_the_letters_that_it_asks_for(self):
        def size_in(graph, size):
            label = {"text": "wide\nword", "style": {"fontSize": size}}
            (reply,) = replies_to(request({**graph, "edges": [{**graph["edges"][0], "labels": [label]}]}, give=["placed"]))
            placed = reply["placed"]["edges"][0]["labels"][0]
            self.assertEqual(placed["style"], label["style"])
            return placed["width"], placed["height"]

        for graph in [GRAPH, ACROSS]:
            width, height = size_in(graph, 12)
            self.assertEqual(height, 30)
            self.assertEqual(size_in(graph, 24)[1], 60)
            self.assertIn(size_in(graph, 24)[0], [2 * width - 1, 2 * width])
            for size in [0, -3, 1001, 1e300, "24", None, [24]]:
                self.assertEqual(size_in(graph, size), (width, height), size)

    def test_a_graph_is_refused_for_what_is_wrong_with_it(self):
        status, out, notes = run("--json", given='{"children":[{"id":"a","width":30.5},{"width":3}]}')
        self.assertEqual((status, out), (2, b""))
        self.assertEqual([line for line in notes.splitlines() if "BadShape" not in line], [])

    def test_what_is_taken_has_no_faults(self):
        for what, given in TAKEN:
            for words in [[], ["--exact"]]:
                with self.subTest(what, words=words):
                    self.assertEqual(run("--json", *words, given=given)[::2], (0, ""))
                    status, out, _ = run("--lint", *words, given=given)
                    self.assertEqual((status, [line for line in out.decode().splitlines() if "(rule" in line]), (0, []))

    def test_what_is_sent_otherwise_is_reported_of_the_graph(self):
        for what, rule, id, words, graph in SENT_OTHERWISE:
            with self.subTest(what):
                (reply,) = replies_to(json.dumps({"graph": graph, "give": ["lint", "placed"]}))
                for fault in [reply["fault"], reply["lint"][0]]:
                    self.assertEqual((fault["rule"], fault.get("id")), (rule, id))
                    self.assertIn(words, fault["message"])

    def test_numbers_that_nothing_reads_stay_as_they_are(self):
        status, out, _ = run("--json", given='{"id":"r","mine":[5.0,-0.0],"children":[{"id":1.0,"width":5.0,"height":-0.0,"note":2.0}]}')
        self.assertEqual(status, 0)
        self.assertIn(b'"mine":[5.0,-0.0]', out)
        self.assertIn(b'{"height":0,"id":1,"note":2.0,"width":5,', out)

    def test_the_words_of_elk_do_what_elk_does(self):
        document = json.dumps({**GRAPH, "layoutOptions": {"elk.direction": "DOWN"}})
        placed = run("layout", given=document)[1].decode()
        for words, given in [
            (["layout"], document),
            (["layout"], '{"id":'),
            (["check"], placed),
            (["check"], document),
            (["batch"], f"{document}\n{{}}\n3\n"),
            (["demo", "7"], ""),
            (["demo"], ""),
            (["layout", "--json"], document),
        ]:
            with self.subTest(words, given=given):
                wanted = subprocess.run([TOP / "elk", *words], input=given.encode(), capture_output=True, timeout=SECONDS)
                self.assertEqual(run(*words, given=given), (wanted.returncode, wanted.stdout, wanted.stderr.decode()))

    def test_a_picture_is_that_of_the_placed_graph(self):
        given = json.dumps(GRAPH)
        _, placed, _ = run("--json", given=given)
        for words in [[], ["--light"], ["--dark", "--no-arrows"]]:
            with self.subTest(words):
                wanted = run("--placed", *words, given=placed)
                self.assertEqual(run(*words, given=given), wanted)
                self.assertEqual(run("--svg", *words, given=given), wanted)
                self.assertTrue(wanted[1].startswith(b"<svg "), wanted)

    def test_a_refused_graph_is_reported_in_a_sentence(self):
        for rule, id, text in REFUSED:
            with self.subTest(rule=rule):
                self.assertEqual(run("--plain", given=text), (2, b"", f"elk-draw: {sentence(rule, id)}\n"))
            for words in [["--json", "--exact"], ["--exact"]]:
                with self.subTest(rule=rule, words=words):
                    status, out, notes = run(*words, given=text)
                    self.assertEqual((status, out), (2, b""))
                    self.assertRegex(notes.splitlines()[0], rf"^elk-draw: .+: .+ \(rule {rule}, {rule_name(rule)}\)$")

    def test_each_mistake_is_reported_as_on_the_page(self):
        rows = re.findall(r"^\| ([^|]+) \| (.+) \|$", (TOP / "docs/EDITORS.md").read_text(), re.M)
        messages = dict(rows[[it[0] for it in rows].index("mistake") + 1 :])
        for case in MISTAKES:
            with self.subTest(case["mistake"]):
                message = messages[case["mistake"]]
                given = case["text"] if "text" in case else json.dumps(case["graph"])
                status, out, notes = run("--lint", given=given)
                first = out.decode().splitlines()[0]
                self.assertRegex(first, r"^\d+:\d+: ")
                is_fault = "(rule " in message
                self.assertEqual(first.split(": ", 1)[1], message if is_fault else f"warning: {message}")
                self.assertEqual((status, notes), (2 if is_fault else 0, ""))
                if is_fault:
                    status, out, notes = run(given=given)
                    self.assertEqual((status, out, notes.splitlines()[0]), (2, b"", f"elk-draw: {message}"))

    def test_lint_marks_the_place(self):
        status, out, _ = run("--lint", given='{"id": "r",\n "children": [{"id": "a", "widht": 30}]}')
        self.assertEqual(out.decode(), '2:27: warning: children[0].widht is not read; did you mean "width"?\n     "children": [{"id": "a", "widht": 30}]}\n' + " " * 30 + "^\n")
        self.assertEqual(status, 0)
        self.assertEqual(run("--lint", given=json.dumps(GRAPH)), (0, b"", ""))
        status, out, _ = run("--lint", given=b"\xff")
        self.assertEqual((status, b"NotJson" in out), (2, True))

    def test_a_long_input_is_refused(self):
        long = b'{"id":"r"}' + b" " * 2**24
        self.assertEqual(run("--json", given=long), (2, b"", f"elk-draw: {sentence(0, None)}\n"))

    def test_placed_text_that_is_no_json_is_refused(self):
        status, out, notes = run("--placed", given="{")
        self.assertEqual((status, out), (2, b""))
        self.assertIn("line 1, column 2", notes)

    def test_a_long_id_is_cut(self):
        id = "n" * 100
        status, _, notes = run("--plain", given=json.dumps({"children": [{"id": id}, {"id": id}]}))
        self.assertEqual((status, notes), (2, f'elk-draw: the id "{"n" * 59}… is used twice (rule 7, DoubleId)\n'))

    def test_wrong_words_get_a_usage(self):
        for words in [["--jsn"], ["file.json"], ["--light", "--dark"], ["--json", "--dark"], ["--lines", "--json"], ["--json", "--placed"], ["--plain", "--json"], ["--option"], ["--lines", "--exact"], [b"\xff"]]:
            with self.subTest(words):
                status, out, notes = run(*words)
                self.assertEqual((status, out), (5, b""))
                self.assertTrue(notes.strip(), notes)

    def test_help_and_version(self):
        status, out, notes = run("--help")
        self.assertEqual((status, notes), (0, ""))
        for word in ["layout", "batch", "--json", "--plain", "--lint", "--option", "--dot", "--exact", "--svg", "--lines", "--placed", "--light", "--dark", "--no-arrows", "--help", "--version"]:
            self.assertIn(word, out.decode())
        version = json.loads((TOP / "adapters/js/package.json").read_text())["version"]
        self.assertEqual(run("--version"), (0, f"elk-draw {version}\n".encode(), ""))

    def test_a_stream_that_fails(self):
        with open("/dev/full", "wb") as full:
            status, _, notes = run(given=json.dumps(GRAPH), stdout=full)
        self.assertEqual((status, notes), (4, "elk-draw: write fault\n"))
        # A folder can be opened, and not read.
        folder = os.open("/", os.O_RDONLY)
        self.addCleanup(os.close, folder)
        for words in [[], ["--lines"]]:
            done = subprocess.run([PROGRAM, *words], stdin=folder, capture_output=True, timeout=SECONDS)
            self.assertEqual((done.returncode, done.stdout, done.stderr), (3, b"", b"elk-draw: read fault\n"))


@unittest.skipUnless(PROGRAM.exists(), f"there is no program {PROGRAM}: build it, or name one by ELK_DRAW")
class Requests(unittest.TestCase):
    def test_a_reply_has_what_was_asked_for(self):
        given = json.dumps(GRAPH)
        placed = json.loads(run("--json", given=given)[1])
        svg = run(given=given)[1].decode()
        dark = run("--dark", "--no-arrows", given=given)[1].decode()
        replies = replies_to(
            request(GRAPH),
            request(GRAPH, give=["placed"]),
            request(GRAPH, give=["svg", "placed"], theme="auto", arrows=True),
            request(GRAPH, give=["svg"], theme="dark", arrows=False),
        )
        self.assertEqual(replies, [{"svg": svg}, {"placed": placed}, {"placed": placed, "svg": svg}, {"svg": dark}])

    def test_a_request_has_options_and_tells_what_the_engine_was_sent(self):
        (reply,) = replies_to(request(GRAPH, options={"elk.direction": "DOWN"}, numbers="ceil", give=["placed", "document"]))
        wanted = json.loads(run("--json", "--option", "elk.direction=DOWN", given=json.dumps(GRAPH))[1])
        self.assertEqual(reply["placed"], wanted)
        answer = json.loads(run("--plain", given=json.dumps(reply["document"]))[1])
        self.assertEqual([child["y"] for child in answer["children"]], [child["y"] for child in wanted["children"]])

    def test_a_reply_has_warnings_and_all_faults(self):
        (reply,) = replies_to(request({**GRAPH, "widht": 3}, options={"elk.directon": "DOWN"}, give=["warnings"]))
        self.assertEqual([(it["kind"], it["near"]) for it in reply["warnings"]], [("unknownOption", "elk.direction"), ("unknownMember", "width")])
        twice = {"id": "r", "children": [{"id": "a", "width": -1}, {"id": "a", "height": -2}]}
        (reply,) = replies_to(request(twice))
        self.assertEqual([it["rule"] for it in reply["fault"]["faults"]], [4, 4, 7])

    def test_a_graph_can_be_a_text_or_have_its_places(self):
        given = json.dumps(GRAPH)
        placed = json.loads(run("--json", given=given)[1])
        svg = run("--dark", given=given)[1].decode()
        replies = replies_to(
            json.dumps({"text": given, "give": ["placed", "graph"]}),
            json.dumps({"placed": placed, "theme": "dark"}),
            json.dumps({"placed": placed, "theme": "dark", "give": ["svg"]}),
        )
        self.assertEqual(replies, [{"placed": placed, "graph": GRAPH}, {"svg": svg}, {"svg": svg}])
        (reply,) = replies_to(json.dumps({"text": "{", "give": ["svg"]}))
        self.assertEqual((reply["fault"]["rule"], reply["fault"]["name"]), (1, "NotJson"))

    def test_a_graph_is_judged_without_a_layout(self):
        wrong = {"id": "r", "widht": 3, "children": [{"id": "a", "width": -1}, {"id": "a"}]}
        (reply,) = replies_to(request(wrong, give=["lint"]))
        self.assertEqual(list(reply), ["lint"])
        self.assertEqual([(it["severity"], it["path"]) for it in reply["lint"]], [("fault", "children[0].width"), ("fault", "children[1].id"), ("warning", "widht")])
        self.assertNotIn("line", reply["lint"][0])
        good, refused, warned = replies_to(
            request(GRAPH, give=["lint", "svg"]), request(wrong, give=["svg", "lint"]), request(wrong, give=["lint", "graph", "warnings"])
        )
        self.assertEqual((list(good), good["lint"]), (["lint", "svg"], []))
        self.assertEqual((sorted(refused), len(refused["fault"]["faults"]), len(refused["lint"])), (["fault", "lint"], 2, 3))
        self.assertEqual((warned["graph"], len(warned["warnings"]), len(warned["lint"])), (wrong, 1, 3))

    def test_a_text_is_judged_with_its_places(self):
        text = '{"id": "r",\n "children": [{"id": "a", "width": -3, "heigth": 30}]}'
        json_reply, no_json, both, dot_reply, no_dot = replies_to(
            json.dumps({"text": text, "give": ["lint"]}),
            json.dumps({"text": "{", "give": ["lint"]}),
            json.dumps({"text": "{", "give": ["lint", "placed"]}),
            json.dumps({"dot": "digraph { a -> b [minlen=3] }", "give": ["lint"]}),
            json.dumps({"dot": "digraph { a -> }", "give": ["lint"]}),
        )
        places = [(it["severity"], it["line"], it["column"], it["source"], it["mark"]) for it in json_reply["lint"]]
        source = text.splitlines()[1]
        self.assertEqual(places, [("fault", 2, 36, source, 35), ("warning", 2, 40, source, 39)])
        (fault,) = no_json["lint"]
        self.assertEqual((list(no_json), fault["severity"], fault["rule"], fault["line"], fault["column"]), (["lint"], "fault", 1, 1, 2))
        self.assertEqual((sorted(both), both["fault"]["rule"], both["lint"]), (["fault", "lint"], 1, no_json["lint"]))
        (warning,) = dot_reply["lint"]
        self.assertEqual((warning["severity"], warning["line"], warning["column"], warning["mark"]), ("warning", 1, 19, 18))
        (fault,) = no_dot["lint"]
        self.assertEqual((fault["severity"], fault["name"], fault["line"], fault["column"]), ("fault", "BadDot", 1, 16))

    def test_a_refused_graph_gets_a_fault_and_the_next_line_a_reply(self):
        for rule, id, text in REFUSED[1:]:
            with self.subTest(rule=rule):
                fault, good = replies_to(f'{{"graph":{text},"numbers":"exact"}}', request(GRAPH, give=["placed"]))
                told = fault["fault"]
                self.assertEqual((told["rule"], told["name"], told.get("id")), (rule, rule_name(rule), id))
                self.assertTrue(told["message"].endswith(f"(rule {rule}, {rule_name(rule)})"), told)
                self.assertEqual(list(good), ["placed"])

    def test_a_line_that_is_no_request_gets_a_fault(self):
        replies = replies_to(*[line for _, line, _ in BROKEN])
        for (what, _, part), reply in zip(BROKEN, replies):
            with self.subTest(what):
                fault = reply["fault"]
                self.assertEqual((fault["rule"], fault["name"], fault["id"]), (None, "BadRequest", None))
                self.assertIn(part, fault["message"])

    def test_a_long_line_gets_a_fault(self):
        fault, good = replies_to(" " * (2**24 + 1), request({}, give=["placed"]))
        self.assertEqual((fault["fault"]["rule"], fault["fault"]["name"]), (0, "TooLong"))
        self.assertEqual(list(good), ["placed"])

    def test_a_reply_is_one_line_whatever_the_ids_are(self):
        for id in ["one\ntwo", "\u2028", '"', "\\", "\u0000", "é"]:
            with self.subTest(id):
                (reply,) = replies_to(request({"id": id, "children": [{"id": id + "1", "width": 9, "height": 9}]}, give=["placed", "svg"]))
                self.assertEqual(reply["placed"]["id"], id)

    def test_a_last_line_without_a_line_feed(self):
        status, out, _ = run("--lines", given=request(GRAPH, give=["placed"]))
        self.assertEqual((status, out.count(b"\n")), (0, 1))
        self.assertEqual(run("--lines"), (0, b"", ""))

    def test_a_partner_can_wait_for_each_reply(self):
        with subprocess.Popen([PROGRAM, "--lines"], stdin=subprocess.PIPE, stdout=subprocess.PIPE) as process:
            for number in range(3):
                process.stdin.write(f"{request({'id': number}, give=['placed'])}\n".encode())
                process.stdin.flush()
                self.assertEqual(json.loads(process.stdout.readline())["placed"]["id"], number)
            process.stdin.close()
            self.assertEqual(process.wait(SECONDS), 0)


if __name__ == "__main__":
    unittest.main()
