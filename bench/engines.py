"""The engines that are compared: how each is started, what it is given and how its answer is read.

All get the same sizes, the same asked distances, and the direction to the right. An answer is read as a drawing: boxes as x, y,
width and height, and routes as points, both in the order of the document.
"""
import dataclasses
import json
import math
import os
import pathlib
import subprocess
import sys

import counting

PEERS = pathlib.Path(__file__).resolve().parent / "peers"
# Debian's packages for Python belong to its own interpreter.
PYTHON = "/usr/bin/python3" if os.access("/usr/bin/python3", os.X_OK) else sys.executable
INCH = 72
STEPS = 8


@dataclasses.dataclass
class Drawing:
    boxes: list
    routes: list
    is_curved: bool = False
    call_ms: float = None


@dataclasses.dataclass
class Engine:
    """`write` makes the input of a list of documents, `read` returns the drawings of an output."""

    name: str
    what: str
    command: list
    write: object
    read: object
    largest: int = 2000
    env: dict = dataclasses.field(default_factory=dict)

    def is_there(self):
        """Whether it lays out a document of one edge."""
        nodes = [{"id": name, "width": 10, "height": 10} for name in "ab"]
        options = {"elk.spacing.nodeNode": 20, "elk.layered.spacing.nodeNodeBetweenLayers": 50}
        document = {"id": "r", "layoutOptions": options, "children": nodes, "edges": [{"id": "e", "sources": ["a"], "targets": ["b"]}]}
        try:
            ran = subprocess.run(self.command, input=self.write([document]).encode(), capture_output=True, env={**os.environ, **self.env})
            return ran.returncode == 0 and len(list(self.read([document], ran.stdout.decode()))) == 1
        except (OSError, ValueError):
            return False


def lines(documents):
    return "".join(json.dumps(document, separators=(",", ":")) + "\n" for document in documents)


# The program.


def elk(program, name, options, word="layout"):
    what = "this program" + "".join(f", {key} {value}" for key, value in options.items())

    def write(documents):
        return lines([{**it, "layoutOptions": {**it["layoutOptions"], **options}} for it in documents])

    def read(_, output):
        for text in output.splitlines():
            answer = json.loads(text)
            boxes = [(it["x"], it["y"], it["width"], it["height"]) for it in answer["children"]]
            yield Drawing(boxes, [route.points for route in counting.routes_of(answer)])

    return Engine(name, what, [program, word], write, read)


# dot of Graphviz.


def dot(name, what, splines, largest=2000):
    def write(documents):
        return "".join(dot_text(document, splines) for document in documents)

    def read(documents, output):
        return read_dot(documents, output, splines == "true")

    return Engine(name, what, ["dot", "-Tjson"], write, read, largest)


def dot_text(document, splines):
    asked = document["layoutOptions"]
    beside, between = asked["elk.spacing.nodeNode"] / INCH, asked["elk.layered.spacing.nodeNodeBetweenLayers"] / INCH
    texts = [f"digraph {{ rankdir=LR; splines={splines}; nodesep={beside}; ranksep={between};"]
    texts.append('node [shape=box, fixedsize=true, label=""]; edge [dir=none];')
    number = {}
    for node in document["children"]:
        number[node["id"]] = len(number)
        texts.append(f'n{number[node["id"]]} [width={node["width"] / INCH}, height={node["height"] / INCH}];')
    for at, edge in enumerate(document["edges"]):
        texts.append(f'n{number[edge["sources"][0]]} -> n{number[edge["targets"][0]]} [id={at}];')
    return "\n".join([*texts, "}\n"])


def read_dot(documents, output, is_curved):
    """Places are read from what is drawn, since the attribute `pos` has five digits. That y grows upwards changes no count."""
    decoder, at = json.JSONDecoder(), 0
    for document in documents:
        answer, at = decoder.raw_decode(output, at)
        at += len(output[at:]) - len(output[at:].lstrip())
        boxes, routes = [None] * len(document["children"]), [None] * len(document["edges"])
        for item in answer.get("objects", ()):
            node, corners = int(item["name"][1:]), drawn(item, "pP")
            width, height = document["children"][node]["width"], document["children"][node]["height"]
            boxes[node] = min(x for x, _ in corners), min(y for _, y in corners), width, height
        for item in answer.get("edges", ()):
            routes[int(item["id"])] = flattened(drawn(item, "bB"))
        if None in boxes or None in routes:
            raise ValueError("a node or an edge isn't drawn")
        yield Drawing(boxes, routes, is_curved)


def drawn(item, kinds):
    for step in item.get("_draw_", ()):
        if step["op"] in kinds:
            return [tuple(point) for point in step["points"]]
    raise ValueError("a node or an edge isn't drawn")


def flattened(curve):
    """A chain of Bezier curves as points; straight ones give one piece."""
    points = [curve[0]]
    for at in range(0, len(curve) - 3, 3):
        a, b, c, d = curve[at : at + 4]
        steps = 1 if is_near_line(a, d, b) and is_near_line(a, d, c) else STEPS
        for step in range(1, steps + 1):
            t = step / steps
            weights = ((1 - t) ** 3, 3 * t * (1 - t) ** 2, 3 * t * t * (1 - t), t**3)
            points.append(tuple(sum(w * p[axis] for w, p in zip(weights, (a, b, c, d))) for axis in (0, 1)))
    return points


def is_near_line(a, b, p):
    whole = math.dist(a, b)
    if whole < 0.1:
        return math.dist(a, p) < 0.5
    return abs((b[0] - a[0]) * (p[1] - a[1]) - (b[1] - a[1]) * (p[0] - a[0])) / whole < 0.1


# Engines that are called by a small script of bench/peers.


def scripted(name, what, command, **more):
    def read(documents, output):
        for document, text in zip(documents, output.splitlines()):
            answer = json.loads(text)
            boxes = [(x, y, node["width"], node["height"]) for (x, y), node in zip(answer["boxes"], document["children"])]
            yield Drawing(boxes, answer["routes"], call_ms=answer["ms"])

    return Engine(name, what, command, lines, read, **more)


def curved_dot():
    """dot with its defaults, for pictures."""
    return dot("dot curved", "Graphviz, its own curves", "true")


def peers():
    """All but the program, the first one that to which others are compared."""
    return [
        dot("dot", "Graphviz, splines=polyline", "polyline"),
        dot("dot ortho", "Graphviz, splines=ortho", "ortho", largest=300),
        scripted("dagre", "dagre", ["node", str(PEERS / "with_dagre.js")], env={"NODE_PATH": "/usr/share/nodejs"}),
        scripted("OGDF", "Sugiyama of OGDF in Tulip, OptimalRanking", [PYTHON, str(PEERS / "with_ogdf.py")]),
        scripted("igraph", "layout_sugiyama of igraph, nodes as points", [PYTHON, str(PEERS / "with_igraph.py")]),
    ]
