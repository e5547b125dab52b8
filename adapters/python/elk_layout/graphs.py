"""Documents of graphs: those of networkx, and those that a data frame lists by their edges."""

from __future__ import annotations

import contextlib
import math
from decimal import Decimal
from graphlib import CycleError, TopologicalSorter
from numbers import Integral, Real
from typing import Any, Callable, Dict, Hashable, Iterator, List, Mapping, NamedTuple, Optional, Tuple, Union

Element = Dict[str, Any]
Id = Union[str, int]
Data = Mapping[str, Any]

# The name of an attribute, or a function of a node and its attributes, or of an edge's two ends and its attributes.
OfNode = Union[str, Callable[[Any, Data], Any], None]
OfEdge = Union[str, Callable[[Any, Any, Data], Any], None]
Size = Union[Tuple[Any, Any], Callable[[Any, Data], Tuple[Any, Any]], None]

# The two ends of an edge, its key if there may be several edges with these, and its attributes.
Edge = Tuple[Any, Any, Element, Data]

# A node without a size has at least this, and grows with its label, which a group has above its nodes.
LEAST_WIDTH, LEAST_HEIGHT = 40, 30
GROWS = {"elk.nodeSize.constraints": "NODE_LABELS"}
LEAF = {**GROWS, "elk.nodeLabels.placement": "INSIDE V_CENTER H_CENTER", "elk.nodeLabels.padding": "[top=5,left=8,bottom=5,right=8]"}
GROUP = {**GROWS, "elk.nodeLabels.placement": "INSIDE V_TOP H_LEFT"}
PORT_SIZE: Element = {"width": 6, "height": 6}

# The attributes that ask for a look, each with its member of `style`; of two for the same member the first counts.
EDGE_STYLE = {"color": "stroke", "fontcolor": "color", "width": "width", "penwidth": "width"}
NODE_STYLE = {"shape": "shape", "fill": "fill", "fillcolor": "fill", "color": "stroke", "fontcolor": "color", "penwidth": "width"}
DASHES = ("dashed", "dotted")
WEIGHT = "elk.layered.priority.shortness"
# What asks for more than nothing, once it is rounded, and the most that counts.
LEAST_WEIGHT, MOST_WEIGHT = 1.5, 2**20


class Reading(NamedTuple):
    """What is read of a node and of an edge, and where; README.md says what each does.

    Each is the name of an attribute, or a function of a node and its attributes, or of an edge's two ends and its
    attributes. `options` are those of the root and of all groups, and `size` is a width and a height, or a function.
    """

    options: Optional[Mapping[str, Any]] = None
    size: Size = None
    label: OfNode = "label"
    ports: OfNode = "ports"
    parent: OfNode = "parent"
    node_options: OfNode = "options"
    edge_label: OfEdge = "label"
    edge_options: OfEdge = "options"
    source_port: OfEdge = "source_port"
    target_port: OfEdge = "target_port"
    weight: OfEdge = "weight"


def from_networkx(graph: Any, **reading: Any) -> Element:
    """The document of a graph of networkx. `reading` are members of `Reading`.

    The edges of a graph without directions are drawn without arrow heads, from the first to the second of the two ends
    that `graph.edges` tells of them. A key that is neither a text nor a whole number is the member `key` of a node, whose
    id is its text then. An edge of a multigraph has its key as its member `key`.
    """
    keys = {"keys": True} if graph.is_multigraph() else {}
    told = graph.edges(data=True, **keys)
    edges = [(source, target, {"key": key[0]} if key else {}, data) for source, target, *key, data in told]
    return _Maker(dict(graph.nodes(data=True)), Reading(**reading)).document(edges, bool(graph.is_directed()))


def from_edges(
    frame: Any,
    *,
    source: str = "source",
    target: str = "target",
    key: Optional[str] = None,
    directed: bool = True,
    nodes: Any = None,
    **reading: Any,
) -> Element:
    """The document of a data frame of pandas with one row for each edge.

    `source` and `target` are the columns of its ends, and `key` that of what distinguishes edges with the same ends. All
    others are attributes, as `from_networkx` reads them. `nodes` is a frame of the nodes' attributes, by its index; nodes
    that are there come first, and all others in the order of the rows.
    """
    unknown = [it for it in (source, target) if it not in frame.columns]
    if unknown:
        raise ValueError(f"the frame has no column {unknown[0]!r} for the ends of edges")
    attributes: Dict[Hashable, Mapping[str, Any]] = {} if nodes is None else nodes.to_dict("index")
    edges: List[Edge] = []
    for at, row in enumerate(frame.to_dict("records")):
        ends = {it: row.pop(it) for it in (source, target)}
        for column, end in ends.items():
            if _is_missing(end):
                raise ValueError(f"the {column} of the edge in row {at} is missing")
            attributes.setdefault(end, {})
        edges.append((ends[source], ends[target], {} if key is None else {"key": row.pop(key)}, row))
    return _Maker(attributes, Reading(**reading)).document(edges, directed)


def is_placed(graph: Any, reading: Element) -> bool:
    """Whether a graph is a placed one, which is taken as it is, and not one of networkx."""
    if isinstance(graph, dict) and reading:
        raise TypeError(f"a placed graph is taken as it is, without {', '.join(reading)}")
    return isinstance(graph, dict)


def _is_missing(value: Any) -> bool:
    """Whether a value is what data frames have in empty cells."""
    if value is None or isinstance(value, (str, float)):
        return value is None or value != value
    return type(value).__name__ in ("NAType", "NaTType") or (isinstance(value, (Real, Decimal)) and value != value)


def _value(of: Any, ends: Tuple[Any, ...], data: Data) -> Any:
    """The result of a function, or the attribute of a name; None if it is missing."""
    value = of(*ends, data) if callable(of) else data.get(of)
    return None if _is_missing(value) else value


def _number(value: Any, what: str, of: Any) -> Any:
    """A number that may be written as a text."""
    number = value
    if isinstance(value, str):
        with contextlib.suppress(ValueError):
            number = float(value)
    if isinstance(number, bool) or not isinstance(number, (Real, Decimal)) or not math.isfinite(number):
        raise ValueError(f"the {what} {of!r} is {value!r}, and has to be a number")
    return int(number) if number == int(number) else number


def _told(label: Any, options: Element, data: Data, kind: str, of: Any) -> Element:
    """The members for a label, for options and for a look; none of those that are missing or empty."""
    style: Element = {}
    for name, member in (NODE_STYLE if kind == "node" else EDGE_STYLE).items():
        if name in data and not _is_missing(data[name]):
            style.setdefault(member, data[name])
    if "width" in style:
        style["width"] = _number(style["width"], f"line width of the {kind}", of)
    own = data.get("style")
    if isinstance(own, Mapping):
        style.update(own)
    elif isinstance(own, str):
        style.update({"dash": it.strip() for it in own.split(",") if it.strip() in DASHES})
    labels = [] if label is None else [{"text": str(label)}]
    return {name: it for name, it in (("labels", labels), ("layoutOptions", options), ("style", style)) if it}


def _own_id(key: Any) -> Optional[Id]:
    """The id that a key is itself, of JSON's own classes; None if it is neither a text nor a whole number."""
    is_whole = isinstance(key, (Integral, float)) and not isinstance(key, bool) and key == key // 1
    return key if isinstance(key, str) else int(key) if is_whole else None


class _Maker:
    """Makes the document of a graph, of whose nodes it has the attributes by their keys."""

    def __init__(self, nodes: Mapping[Hashable, Data], reading: Reading) -> None:
        self._nodes, self._reading = nodes, reading
        own = {key: _own_id(key) for key in nodes}
        self._taken = {it for it in own.values() if it is not None}
        self._ids = {key: self._free(str(key)) if it is None else it for key, it in own.items()}
        self._ports: Dict[Tuple[Any, Any], Id] = {}

    def _free(self, text: str) -> str:
        """The text, with marks behind it if it is taken; it is taken then."""
        while text in self._taken:
            text += "'"
        self._taken.add(text)
        return text

    def document(self, edges: List[Edge], is_directed: bool) -> Element:
        parents = self._parents()
        groups = {it for it in parents.values() if it is not None}
        root: Element = {"layoutOptions": dict(self._reading.options or {}), "children": []}
        made = {key: self._node(key, data, key in groups) for key, data in self._nodes.items()}
        for key, node in made.items():
            (root if parents[key] is None else made[parents[key]])["children"].append(node)
        heads = {} if is_directed else {"directed": False}
        root["edges"] = [{"id": f"e{at}", **self._edge(*edge), **heads} for at, edge in enumerate(edges)]
        return root

    def _parents(self) -> Dict[Hashable, Any]:
        """The node in which each node stands; None at the root."""
        parents = {key: _value(self._reading.parent, (key,), data) for key, data in self._nodes.items()}
        for parent in parents.values():
            if parent is not None and parent not in parents:
                raise ValueError(f"the parent of a node is {parent!r}, which is not a node of the graph")
        try:
            TopologicalSorter({key: () if it is None else (it,) for key, it in parents.items()}).prepare()
        except CycleError as error:
            raise ValueError(f"the node {error.args[1][0]!r} stands in itself, by its parents") from None
        return parents

    def _node(self, key: Any, data: Data, is_group: bool) -> Element:
        id, reading = self._ids[key], self._reading
        label = _value(reading.label, (key,), data)
        node: Element = {"id": id} if id == key else {"id": id, "key": key}
        options: Element = dict(_value(reading.node_options, (key,), data) or {})
        if is_group:
            # Groups are as wide and as high as what stands in them.
            node["children"] = []
            options = {**GROUP, **(reading.options or {}), **options}
        else:
            width, height = self._size(key, data)
            node["width"] = LEAST_WIDTH if width is None else width
            node["height"] = LEAST_HEIGHT if height is None else height
            if width is None or height is None:
                label = id if label is None else label
                options = {**LEAF, **options}
        return {**node, **_told(label, options, data, "node", key), "ports": self._ports_of(key, data)}

    def _size(self, key: Any, data: Data) -> Iterator[Any]:
        """The width and the height of a node; None if it has none."""
        of = self._reading.size
        told, general = (of(key, data), None) if callable(of) else (None, of)
        for at, name in enumerate(("width", "height")):
            value = told[at] if told else _value(name, (), data)
            value = general[at] if value is None and general else value
            yield value if value is None else _number(value, f"{name} of the node", key)

    def _ports_of(self, key: Any, data: Data) -> List[Element]:
        ports = []
        for port in _value(self._reading.ports, (key,), data) or ():
            named: Element = dict(port) if isinstance(port, Mapping) else {"name": port}
            name = named.pop("name")
            id = self._ports[key, name] = self._free(f"{self._ids[key]}.{name}")
            ports.append({"id": id, **PORT_SIZE, "labels": [{"text": str(name)}], **named})
        return ports

    def _edge(self, source: Any, target: Any, key: Element, data: Data) -> Element:
        reading, ends = self._reading, (source, target)
        ids = []
        for end, of in zip(ends, (reading.source_port, reading.target_port)):
            port = _value(of, ends, data)
            if port is not None and (end, port) not in self._ports:
                raise ValueError(f"the node {end!r} has no port {port!r}, which the edge {ends!r} names")
            ids.append(self._ids[end] if port is None else self._ports[end, port])
        options: Element = {}
        weight = _number(_value(reading.weight, ends, data) or 1, "weight of the edge", ends)
        if weight >= LEAST_WEIGHT:
            options[WEIGHT] = min(math.floor(weight + 0.5), MOST_WEIGHT)
        options.update(_value(reading.edge_options, ends, data) or {})
        told = _told(_value(reading.edge_label, ends, data), options, data, "edge", ends)
        return {"sources": ids[:1], "targets": ids[1:], **key, **told}
