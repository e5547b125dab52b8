"""Lays out flat documents, one a line, with the Sugiyama method of OGDF, which Tulip carries. Each answer is a line: boxes and
routes in the order of the document, and the milliseconds of processor time of the bare call.

OGDF draws from top to bottom, so sizes and places are exchanged for it. It leaves the ends of lines to the drawing: they are where
the line to the middle of a node meets its box.
"""
import json
import sys
import time

from tulip import tlp

NAME = "Sugiyama (OGDF)"


def laid_out(document):
    graph = tlp.newGraph()
    nodes = {node["id"]: node for node in document["children"]}
    size = graph.getSizeProperty("viewSize")
    made = {name: graph.addNode() for name in nodes}
    for name, node in nodes.items():
        size[made[name]] = tlp.Size(node["height"], node["width"], 1)
    ends = [(edge["sources"][0], edge["targets"][0]) for edge in document["edges"]]
    lines = [graph.addEdge(made[source], made[target]) for source, target in ends]
    layout = graph.getLayoutProperty("viewLayout")
    began = time.process_time()
    done, why = graph.applyLayoutAlgorithm(NAME, layout, settings(document["layoutOptions"], graph))
    ms = (time.process_time() - began) * 1000
    if not done:
        sys.exit(why)
    middle = {name: (layout[made[name]][1], layout[made[name]][0]) for name in nodes}
    boxes = [(middle[name][0] - node["width"] / 2, middle[name][1] - node["height"] / 2) for name, node in nodes.items()]
    routes = []
    for (source, target), line in zip(ends, lines):
        way = [middle[source], *((point[1], point[0]) for point in layout[line]), middle[target]]
        first, last = border(nodes[source], way[0], way[1]), border(nodes[target], way[-1], way[-2])
        routes.append([first, *way[1:-1], last])
    return {"boxes": boxes, "routes": routes, "ms": ms}


def settings(asked, graph):
    values = tlp.getDefaultPluginParameters(NAME, graph)
    values["node distance"] = float(asked["elk.spacing.nodeNode"])
    values["layer distance"] = float(asked["elk.layered.spacing.nodeNodeBetweenLayers"])
    values["transpose vertically"] = False
    values["Ranking"] = "OptimalRanking"
    return values


def border(node, middle, towards):
    """Where the line from the middle of a node leaves its box."""
    across, down = towards[0] - middle[0], towards[1] - middle[1]
    share = max(abs(across) / (node["width"] / 2), abs(down) / (node["height"] / 2), 1)
    return middle[0] + across / share, middle[1] + down / share


for text in sys.stdin:
    print(json.dumps(laid_out(json.loads(text))))
