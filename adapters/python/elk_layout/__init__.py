"""Layered drawings of graphs by the program `elk-draw`: ELK's JSON, DOT or networkx in, places and pictures out.

    from elk_layout import layout
    placed = layout({"id": "root", "children": [{"id": "a", "width": 30, "height": 30}]})
"""

from .calls import Placed, draw, from_dot, layout, lint, svg, to_svg
from .errors import ElkError, Fault, LayoutWarning, ProgramError, Refusal
from .graphs import Reading, from_edges, from_networkx
from .placed_graphs import junction_points, positions, routes, to_networkx
from .query import close
from .streams import layout_many, replies
from .verdict import Verdict, check

__version__ = "0.9.1"

__all__ = [
    *("ElkError", "Fault", "LayoutWarning", "Placed", "ProgramError", "Reading", "Refusal", "Verdict"),
    *("check", "close", "draw", "from_dot", "from_edges", "from_networkx", "junction_points", "layout", "layout_many"),
    *("lint", "positions", "replies", "routes", "svg", "to_networkx", "to_svg"),
]
