"""Lays out flat documents, one a line, with layout_sugiyama of igraph. Each answer is a line: boxes and routes in the order of the
document, and the milliseconds of processor time of the bare call.

Nodes are points for igraph, in layers from top to bottom. So the distances are those of the largest node, and x and y are exchanged.
"""
import collections
import json
import sys
import time

import igraph


def laid_out(document):
    nodes, edges, asked = document["children"], document["edges"], document["layoutOptions"]
    number = {node["id"]: at for at, node in enumerate(nodes)}
    ends = [(number[edge["sources"][0]], number[edge["targets"][0]]) for edge in edges]
    graph = igraph.Graph(n=len(nodes), edges=ends, directed=True)
    across = max(node["height"] for node in nodes) + asked["elk.spacing.nodeNode"]
    along = max(node["width"] for node in nodes) + asked["elk.layered.spacing.nodeNodeBetweenLayers"]
    began = time.process_time()
    layout, extended = graph.layout_sugiyama(hgap=across, vgap=along, return_extended_graph=True)
    ms = (time.process_time() - began) * 1000
    middle = [(y, x) for x, y in layout.coords]
    boxes = [(x - node["width"] / 2, y - node["height"] / 2) for (x, y), node in zip(middle, nodes)]
    following = collections.defaultdict(dict)
    for piece in extended.es:
        following[piece["_original_eid"]][piece.source] = piece.target
    routes = [route(nodes, middle, following[at], *pair) for at, pair in enumerate(ends)]
    return {"boxes": boxes, "routes": routes, "ms": ms}


def route(nodes, middle, following, source, target):
    """From the source's side through the places between layers to the target's."""
    is_forward = middle[source][0] <= middle[target][0]
    points, at = [side(nodes[source], middle[source], is_forward)], following[source]
    while at != target:
        points.append(middle[at])
        at = following[at]
    return [*points, side(nodes[target], middle[target], not is_forward)]


def side(node, middle, is_right):
    return middle[0] + (node["width"] / 2 if is_right else -node["width"] / 2), middle[1]


for text in sys.stdin:
    print(json.dumps(laid_out(json.loads(text))))
