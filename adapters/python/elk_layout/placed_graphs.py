"""What a placed graph says of the graph that it was made from: places of nodes, routes of edges, and the graph itself."""

from __future__ import annotations

import itertools
from typing import Any, Dict, Hashable, Iterator, List, NamedTuple, Optional, Tuple

from .calls import layout
from .graphs import Element, from_networkx, is_placed
from .program import Program

Point = Tuple[Any, Any]


class Place(NamedTuple):
    """A node with its parent, and its place in the whole drawing."""

    node: Element
    parent: Optional["Place"]
    left: Any
    top: Any


class Drawing:
    """A placed graph as a whole, y growing upwards, as plots and graphs have it."""

    def __init__(self, placed: Element) -> None:
        self._height = placed.get("height", 0)
        places = [Place(placed, None, 0, 0)]
        for at in places:
            for child in at.node.get("children") or ():
                places.append(Place(child, at, at.left + child.get("x", 0), at.top + child.get("y", 0)))
        #: The nodes without the root, and the edges, each with the node at which it is declared.
        self.places = places[1:]
        self.edges: List[Tuple[Element, Place]] = [(edge, at) for at in places for edge in at.node.get("edges") or ()]
        self._by_id = {at.node.get("id"): at for at in places}
        self._by_port = {port["id"]: at for at in places for port in at.node.get("ports") or ()}

    def centre_of(self, place: Place) -> Point:
        across, down = (place.node.get(name, 0) / 2 for name in ("width", "height"))
        return place.left + across, self._height - (place.top + down)

    def routes(self) -> Iterator[Tuple[Element, Tuple[Any, Any], List[Point]]]:
        """Each edge with the keys of its two ends and its route; each pair of ends if an edge has several."""
        for edge, at in self.edges:
            for source, target in itertools.product(_ends_of(edge, "source"), _ends_of(edge, "target")):
                first, last = self._place_of(edge, "source", source), self._place_of(edge, "target", target)
                # The points are relative to the container. The engine names none, as both ends are in one level.
                level = first.parent if first.parent is last.parent else None
                level = self._by_id[edge["container"]] if "container" in edge else level or at
                points = [(level.left + x, self._height - (level.top + y)) for x, y in _way(edge, source, target)]
                yield edge, (key_of(first.node), key_of(last.node)), points

    def _place_of(self, edge: Element, end: str, id: Any) -> Place:
        # A port may be called like a node.
        is_port = f"{end}s" not in edge and f"{end}Port" in edge
        return self._by_port[id] if is_port or id not in self._by_id else self._by_id[id]


def _ends_of(edge: Element, end: str) -> List[Any]:
    """The ids at one end of an edge, in the extended or in the primitive form."""
    if f"{end}s" in edge:
        return list(edge[f"{end}s"])
    return [edge.get(f"{end}Port", edge.get(end))]


def _way(edge: Element, source: Any, target: Any) -> List[Point]:
    """The points of the sections that lead from one end to another; none if the edge isn't placed."""
    sections = {it.get("id"): it for it in edge.get("sections") or ()}
    # Several sections are a tree, which begins or ends at the only source or target.
    is_from_source = len(_ends_of(edge, "source")) > 1
    shape, end = ("incomingShape", source) if is_from_source else ("outgoingShape", target)
    further = "outgoingSections" if is_from_source else "incomingSections"
    chain = [it for it in sections.values() if len(sections) == 1 or it.get(shape) == end][:1]
    while chain and len(chain) < len(sections) and chain[-1].get(further):
        chain.append(sections[chain[-1][further][0]])
    chain = chain if is_from_source else chain[::-1]
    points = [(it["x"], it["y"]) for one in chain for it in (one["startPoint"], *one.get("bendPoints", ()), one["endPoint"])]
    return [point for point, _ in itertools.groupby(points)]


def key_of(node: Element) -> Any:
    """The key of a node in the graph that the document was made from."""
    return _hashable(node.get("key", node.get("id")))


def _hashable(key: Any) -> Any:
    # JSON has lists for tuples.
    return tuple(map(_hashable, key)) if isinstance(key, (list, tuple)) else key


def _drawing_of(graph: Any, program: Program, reading: Element) -> Drawing:
    return Drawing(graph if is_placed(graph, reading) else layout(from_networkx(graph, **reading), program=program))


def positions(graph: Any, *, program: Program = None, **reading: Any) -> Dict[Hashable, Point]:
    """The centres of a graph's nodes by their keys, y growing upwards, as `networkx.draw` takes them.

    `graph` is of networkx, and `reading` are members of `Reading`; or it is a placed graph.
    """
    drawing = _drawing_of(graph, program, reading)
    return {key_of(it.node): drawing.centre_of(it) for it in drawing.places}


def routes(graph: Any, *, program: Program = None, **reading: Any) -> Dict[Tuple[Any, ...], List[Point]]:
    """The points of each edge's route, which fit to `positions`: by (u, v, key) in a multigraph, else by (u, v)."""
    found = _drawing_of(graph, program, reading).routes()
    return {(*ends, _hashable(edge["key"])) if "key" in edge else ends: points for edge, ends, points in found}


def junction_points(placed: Element) -> Dict[Any, List[Point]]:
    """The points where routes part or join, by the ids of edges. They are relative to what the edge's points are."""
    found = {edge["id"]: edge.get("junctionPoints") for edge, _ in Drawing(placed).edges}
    return {id: [(it["x"], it["y"]) for it in points] for id, points in found.items() if points}


def to_networkx(placed: Element) -> Any:
    """The `networkx.MultiDiGraph` of a placed graph, y growing upwards in the whole drawing.

    A node has `pos`, its centre, `width` and `height`, its `label` if it has one, and its `parent` if that isn't the root.
    An edge has its key or else its id, and the `points` of its route. One with several ends becomes one for each pair.
    """
    import networkx

    drawing = Drawing(placed)
    graph = networkx.MultiDiGraph()
    for place in drawing.places:
        node = place.node
        told = {"pos": drawing.centre_of(place), "width": node.get("width"), "height": node.get("height")}
        texts = [it["text"] for it in node.get("labels") or () if "text" in it]
        told.update({"label": it for it in texts[:1]})
        if place.parent and place.parent.parent:
            told["parent"] = key_of(place.parent.node)
        graph.add_node(key_of(node), **told)
    for edge, ends, points in drawing.routes():
        graph.add_edge(*ends, key=_hashable(edge.get("key", edge.get("id"))), points=points)
    return graph
