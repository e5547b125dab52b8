"""The documents on which quality and time are measured: made from seeds, and the same on every machine.

Each family is a kind of graph. `documents()` yields all, `document(family, nodes, seed)` returns one of them.
"""
import hashlib
import json
import random

SIZES = {10: 3, 30: 2, 100: 2, 300: 1, 1000: 1, 2000: 1}
SMALL = {15: 30, 30: 30, 60: 20}
LARGEST = 2000
MOST_EDGES = 2048
WIDTHS = (40, 60, 80, 100)
HEIGHTS = (30, 40, 50)
ROOM_PER_EDGE = 10
# Engines that draw slanted lines cut corners of nodes if layers stand nearer.
OPTIONS = {"elk.spacing.nodeNode": 20, "elk.layered.spacing.nodeNodeBetweenLayers": 50}
WORDS = ("mode", "rate", "gain", "delay", "offset", "limit", "source", "target", "channel", "pressure", "temperature", "is valid")


class Draws:
    """Pseudo-random numbers. Of the standard generator only `random` returns the same numbers in every version."""

    def __init__(self, seed):
        self.chance = random.Random(seed).random

    def below(self, bound):
        return int(self.chance() * bound)

    def between(self, first, last):
        return first + self.below(last - first + 1)

    def pick(self, items):
        return items[self.below(len(items))]

    def pair(self, bound):
        """Two different numbers."""
        first, second = self.below(bound), self.below(bound - 1)
        return first, second + (second >= first)


# Families of flat graphs: (nodes, draws) -> pairs of a source and a target.


def tree(size, draws):
    """Each node below an earlier one, which has at most four."""
    ends, below = [], [0] * size
    for node in range(1, size):
        parent = draws.below(node)
        while below[parent] == 4:
            parent = draws.below(node)
        below[parent] += 1
        ends.append((parent, node))
    return ends


def grown(size, draws):
    """A tree of any degree."""
    return [(draws.below(node), node) for node in range(1, size)]


def filled(ends, wanted, draw):
    """The pairs, and drawn ones that aren't there yet, up to the wanted number or until nothing new is found."""
    known, misses = set(ends), 0
    while len(ends) < min(wanted, MOST_EDGES) and misses < 1000:
        pair = draw()
        misses = misses + 1 if pair in known else 0
        if pair not in known:
            known.add(pair)
            ends.append(pair)
    return ends


def chain(size, draws):
    """One path, and a tenth as many jumps ahead, short ones more often."""
    ends = [(node, node + 1) for node in range(size - 1)]

    def jump():
        length = int(2 * max(1, size / 8) ** draws.chance() + 0.5)
        start = draws.below(size - length)
        return start, start + length

    return filled(ends, len(ends) + max(1, size // 10), jump)


def layered(size, draws):
    """Rows of equal length, and edges from each row to the next."""
    count = max(3, int(size**0.5 + 0.5))
    row_of = [node * count // size for node in range(size)]
    rows = [[node for node in range(size) if row_of[node] == row] for row in range(count)]

    def step(head):
        return draws.pick(rows[row_of[head] - 1]), head

    ends = [step(node) for node in range(len(rows[0]), size)]
    return filled(ends, int(1.5 * size), lambda: step(draws.between(len(rows[0]), size - 1)))


def sparse(size, draws):
    """A tree and forward edges, 1.2 edges a node in all."""
    return filled(grown(size, draws), int(1.2 * size), lambda: tuple(sorted(draws.pair(size))))


def dense(size, draws):
    """A tree and forward edges, two edges a node in all."""
    return filled(grown(size, draws), 2 * size, lambda: tuple(sorted(draws.pair(size))))


def cyclic(size, draws):
    """A tree and edges of either direction, 1.5 edges a node in all."""
    return filled(grown(size, draws), int(1.5 * size), lambda: draws.pair(size))


def dataflow(size, draws):
    """Edges that are split, or doubled through new nodes, again and again: it can be drawn without a crossing."""
    ends, count = [(0, 1)], 2
    while count < size:
        at = draws.below(len(ends))
        source, target = ends[at]
        kind = draws.chance()
        if kind < 0.6:
            ends[at] = (source, count)
            ends.append((count, target))
            count += 1
            continue
        fan = min(1 if kind < 0.9 else draws.between(2, 5), size - count)
        if len(ends) + 2 * fan + size - count - fan > MOST_EDGES:
            continue
        for node in range(count, count + fan):
            ends += [(source, node), (node, target)]
        count += fan
    return ends


def states(size, draws):
    """A state machine: steps ahead, returns to a few states, answers to the state before, and doubled transitions."""
    homes = [draws.below(size) for _ in range(1 + size // 25)]
    ends = [(draws.between(max(0, node - 4), node - 1), node) for node in range(1, size)]
    while len(ends) < min(int(1.6 * size), MOST_EDGES):
        node, kind = draws.below(size), draws.chance()
        if kind < 0.45:
            target = min(size - 1, node + draws.between(1, 8))
        elif kind < 0.65:
            target = draws.pick(homes)
        elif kind < 0.95:
            target = max(0, node - draws.between(1, 4))
        else:
            node, target = draws.pick(ends)
        if node != target:
            ends.append((node, target))
    return ends


def hubs(size, draws):
    """A few nodes that half of the others lead to and the other half come from, a tenth of them to a second one too."""
    count = max(2, size // 40)
    ends = [(hub, hub + 1) for hub in range(count - 1)]
    for node in range(count, size):
        hub = draws.below(count)
        ends.append((node, hub) if draws.chance() < 0.5 else (hub, node))
        if draws.chance() < 0.1 and len(ends) < MOST_EDGES - size + node:
            other = draws.below(count)
            if other != hub:
                ends.append((node, other) if ends[-1][0] == node else (other, node))
    return ends


FLAT = {it.__name__: it for it in (tree, chain, layered, sparse, dense, cyclic, dataflow, states, hubs)}


def flat(ends_of, size, draws, prefix=""):
    """The document of a flat family, the root a level that runs to the right; each id begins with the prefix."""
    ends = ends_of(size, draws)
    room = [[0, 0] for _ in range(size)]
    for source, target in ends:
        room[source][0] += 1
        room[target][1] += 1
    children = []
    for node in range(size):
        height = max(draws.pick(HEIGHTS), ROOM_PER_EDGE * (max(room[node]) + 1))
        children.append({"id": f"{prefix}n{node}", "width": draws.pick(WIDTHS), "height": height})
    edges = edges_of(ends, prefix + "n{}", prefix + "e{}")
    return {"id": "root", "layoutOptions": dict(OPTIONS), "children": children, "edges": edges}


def edges_of(ends, node, edge):
    """Edges in the extended form, by what nodes and edges are called."""
    return [
        {"id": edge.format(at), "sources": [node.format(source)], "targets": [node.format(target)]}
        for at, (source, target) in enumerate(ends)
    ]


# Families of other documents: (nodes, draws) -> document.


def circuits(size, draws):
    """Gates with ports under all constraints; an output leads to some inputs of later gates, and now and then back."""
    gates = [gate(f"g{at}", draws) for at in range(size)]
    outputs = [[it["id"] for it in gate["ports"] if ".y" in it["id"]] for gate in gates]
    ends = []
    for at, it in enumerate(gates):
        for port in it["ports"]:
            far = draws.between(max(0, at - 12), at - 1) if at else 0
            if draws.chance() < 0.04:
                far = draws.below(size)
            if ".y" not in port["id"] and far != at and len(ends) < MOST_EDGES:
                ends.append((draws.pick(outputs[far]), port["id"]))
    return {"id": "root", "layoutOptions": dict(OPTIONS), "children": gates, "edges": edges_of(ends, "{}", "w{}")}


def gate(name, draws):
    """A gate: inputs on the left, outputs on the right, and in places a reset above or below."""
    inputs, outputs = draws.between(1, 3), draws.between(1, 2)
    rows = max(inputs, outputs)
    sides = [(f"{name}.{'abc'[at]}", "WEST", at) for at in range(inputs)]
    sides += [(f"{name}.y{at}", "EAST", at) for at in range(outputs)]
    if draws.chance() < 0.15:
        sides.append((f"{name}.r", draws.pick(("NORTH", "SOUTH")), 0))
    constraint = draws.pick(("FIXED_POS", "FIXED_ORDER", "FIXED_ORDER", "FIXED_SIDE"))
    node = {"id": name, "width": 60, "height": 20 * rows + 10, "layoutOptions": {"elk.portConstraints": constraint}}
    node["ports"] = [port(node, *it) for it in order_of(sides)]
    return node


def order_of(sides):
    """The ports clockwise from the top left, as a fixed order counts them."""
    turn = ("NORTH", "EAST", "SOUTH", "WEST")
    return sorted(sides, key=lambda it: (turn.index(it[1]), -it[2] if it[1] == "WEST" else it[2]))


def port(node, name, side, at):
    """A port of 6 by 6 outside a side of its node, at its place along it."""
    along = 12 + 20 * at
    x = {"WEST": -6, "EAST": node["width"]}.get(side, 27)
    y = {"NORTH": -6, "SOUTH": node["height"]}.get(side, along)
    return {"id": name, "width": 6, "height": 6, "x": x, "y": y, "layoutOptions": {"elk.port.side": side}}


def nested(size, draws):
    """Blocks within blocks, four to eight children each, and edges among siblings; each level has a direction of its own."""
    names = (f"n{at}" for at in range(size))
    return level("root", size, names, draws)


def level(name, budget, names, draws):
    """A node with this many nodes within it, at all levels together."""
    count = min(draws.between(4, 8), budget)
    children = []
    for share in shares(budget - count, count, draws):
        child = next(names)
        children.append(level(child, share, names, draws) if share else leaf(child, draws))
    ends = filled(grown(count, draws), int(1.4 * count), lambda: draws.pair(count) if count > 1 else (0, 0))
    joined = [(children[source]["id"], children[target]["id"]) for source, target in ends]
    options = {**OPTIONS, "elk.direction": draws.pick(("RIGHT", "DOWN", "LEFT", "UP"))}
    return {"id": name, "layoutOptions": options, "children": children, "edges": edges_of(joined, "{}", name + ".e{}")}


def shares(whole, count, draws):
    """A number as a sum of this many. Some are 0, none is 1 or 2 unless the whole is, and the greatest is the rest."""
    weights = [draws.chance() ** 3 for _ in range(count)]
    parts = [int(weight / sum(weights) * whole) for weight in weights]
    parts = [part if part >= 3 else 0 for part in parts]
    parts[weights.index(max(weights))] += whole - sum(parts)
    return parts


def leaf(name, draws):
    return {"id": name, "width": draws.pick(WIDTHS), "height": draws.pick(HEIGHTS) + 20}


def split(size, draws):
    """A level of connected parts, from single nodes to a third of all, each a graph of some flat family."""
    children, edges = [], []
    while len(children) < size:
        count = min(draws.between(1, 1 + int(size * draws.chance() ** 3 / 3)), size - len(children))
        part = flat(draws.pick((tree, sparse, cyclic, dataflow)) if count > 2 else tree, count, draws, f"p{len(children)}.")
        children += part["children"]
        edges += part["edges"]
    options = {**OPTIONS, "elk.separateConnectedComponents": True}
    return {"id": "root", "layoutOptions": options, "children": children, "edges": edges}


def boxes(size, draws):
    """A level of boxes, each as wide as the words on it."""
    children = []
    for at in range(size):
        text = " ".join(draws.pick(WORDS) for _ in range(draws.between(1, 3)))
        children.append({"id": f"n{at}", "width": 7 * len(text) + 16, "height": draws.pick((24, 24, 42)), "labels": [{"text": text}]})
    return {"id": "root", "layoutOptions": {"elk.algorithm": "box", "elk.spacing.nodeNode": 12}, "children": children}


def small(size, draws):
    """A small graph in which few edges cross: a state machine, or one with cycles. Only many of them tell."""
    return flat(draws.pick((states, cyclic)), size, draws)


OTHER = {it.__name__: it for it in (circuits, nested, split, boxes, small)}
FAMILIES = (*FLAT, *OTHER)
# Of the most nodes these would have more edges than a document may have.
TOO_MANY_EDGES = ("dense", "cyclic", "states", "circuits", "nested", "split")


def document(family, nodes, seed):
    """One document of the corpus."""
    draws = Draws(f"{family} {nodes} {seed}")
    return flat(FLAT[family], nodes, draws) if family in FLAT else OTHER[family](nodes, draws)


def documents():
    """All documents: family, nodes, seed, document."""
    for family in FAMILIES:
        for nodes, seeds in (SMALL if family == "small" else SIZES).items():
            if nodes == LARGEST and family in TOO_MANY_EDGES or family == "boxes" and nodes in (30, 300):
                continue
            for seed in range(1, (1 if family == "boxes" else seeds) + 1):
                yield family, nodes, seed, document(family, nodes, seed)


def checksum():
    """A checksum of the corpus."""
    texts = (json.dumps(document, sort_keys=True) for *_, document in documents())
    return hashlib.sha256("\n".join(texts).encode()).hexdigest()[:16]
