"""The calls about one graph: its layout, its picture, and what is wrong with it."""

from __future__ import annotations

import base64
import importlib.util
import os
import shutil
import subprocess
from pathlib import Path
from typing import Any, Dict, List, Literal, Union

from .errors import Fault, Refusal
from .graphs import from_networkx, is_placed
from .program import Program
from .query import Numbers, OnWarning, Options, Query

Theme = Literal["auto", "light", "dark"]

KINDS = (".svg", ".png", ".pdf")
IMAGE = '<img alt="a layered drawing" style="max-width:100%" src="data:image/svg+xml;base64,{}">'


def layout(
    graph: Any,
    *,
    options: Options = None,
    numbers: Numbers = "ceil",
    errors: str = "raise",
    on_warning: OnWarning = None,
    program: Program = None,
) -> Any:
    """Lays out a graph of ELK's JSON or its text. The graph stays as it is, and the result is a `Placed`.

    `options` apply to all elements that read them and have none of their own. With `numbers` as `ceil`, sizes are
    rounded up and places of ports to the nearest whole number; with `exact`, fractions are refused. `errors` is `raise`,
    or `return` if a Refusal is to be the result. `on_warning` gets each warning about what has no effect; without it,
    Python's module `warnings` shows each name once. `program` is the path of the program.
    """
    query = layout_query(options, numbers, errors, on_warning, program)
    try:
        return Placed(query.ask(graph)["placed"], program)
    except Refusal as refusal:
        if errors == "raise":
            raise
        return refusal


def layout_query(options: Options, numbers: str, errors: str, on_warning: OnWarning, program: Program) -> Query:
    """What is asked about each graph that is to be laid out."""
    for name, value, values in (("numbers", numbers, ("ceil", "exact")), ("errors", errors, ("raise", "return"))):
        if value not in values:
            raise ValueError(f"{name} is {values[0]!r} or {values[1]!r}, not {value!r}")
    return Query("placed warnings", program, "graph", on_warning, options=options, numbers=numbers)


def from_dot(text: str, *, on_warning: OnWarning = None, program: Program = None) -> Dict[str, Any]:
    """The graph of a text in DOT, the language of Graphviz."""
    return dict(Query("graph warnings", program, "dot", on_warning).ask(text)["graph"])


def lint(graph: Any, *, options: Options = None, numbers: Numbers = "ceil", program: Program = None) -> List[Fault]:
    """What is wrong in a graph, and what has no effect there, without a layout. In a text, faults have their lines."""
    query = Query("lint", program, "graph", options=options, numbers=numbers)
    return [Fault(**it) for it in query.ask(graph)["lint"]]


def svg(
    graph: Any,
    *,
    options: Options = None,
    numbers: Numbers = "ceil",
    theme: Theme = "auto",
    arrows: bool = True,
    on_warning: OnWarning = None,
    program: Program = None,
) -> str:
    """Lays out a graph and draws it: the picture as a text of SVG. The arguments are those of `layout` and `to_svg`."""
    members = {"options": options, "numbers": numbers, "theme": theme, "arrows": arrows}
    query = Query("svg warnings", program, "graph", on_warning, **members)
    return str(query.ask(graph)["svg"])


def to_svg(placed: Any, *, theme: Theme = "auto", arrows: bool = True, program: Program = None) -> str:
    """Draws a graph that has places, of any program, as it is: the picture as a text of SVG.

    It follows the reader's setting unless `theme` is `light` or `dark`. `arrows` is whether edges have heads.
    """
    return str(Query("svg", program, "placed", theme=theme, arrows=arrows).ask(placed)["svg"])


def draw(graph: Any, ax: Any = None, *, arrows: bool = True, program: Program = None, **reading: Any) -> Any:
    """Draws a graph of networkx, or a placed graph, into axes of matplotlib, and returns the axes.

    Without `ax` a figure is made in which a unit of the drawing is a point of print. `reading` are members of `Reading`.
    Places in the axes are those of `positions` and `routes`.
    """
    from .plots import plot

    if is_placed(graph, reading):
        return plot(to_svg(graph, theme="light", arrows=arrows, program=program), ax)
    return plot(svg(from_networkx(graph, **reading), theme="light", arrows=arrows, program=program), ax)


class Placed(Dict[str, Any]):
    """A placed graph. A notebook shows it as its picture, which the program that placed it draws."""

    def __init__(self, placed: Any = (), program: Program = None) -> None:
        super().__init__(placed)
        self._program = program

    def to_svg(self, **look: Any) -> str:
        """The picture as a text of SVG. The arguments are those of `to_svg`."""
        return to_svg(self, program=self._program, **look)

    def save(self, path: Union[str, "os.PathLike[str]"], *, scale: float = 1, **look: Any) -> None:
        """Writes the picture to a file whose name ends with .svg, .png or .pdf. `look` is as for `to_svg`.

        PNG and PDF are light by default, and `scale` makes them larger.
        """
        kind = Path(path).suffix.lower()
        if kind not in KINDS:
            raise ValueError(f"the ending of {os.fspath(path)!r} is {kind!r}, and may be {', '.join(KINDS)}")
        picture = self.to_svg(**{"theme": "auto" if kind == ".svg" else "light", **look}).encode()
        Path(path).write_bytes(picture if kind == ".svg" else _converted(picture, kind[1:], scale))

    def _repr_mimebundle_(self, include: Any = None, exclude: Any = None) -> Dict[str, str]:
        # Pages made by nbconvert don't show SVG, and what LaTeX prints has no HTML, so both get the form that they can show.
        picture = self.to_svg()
        return {"image/svg+xml": picture, "text/html": IMAGE.format(base64.b64encode(picture.encode()).decode())}


def _converted(svg: bytes, kind: str, scale: float) -> bytes:
    if shutil.which("rsvg-convert"):
        words = ["rsvg-convert", "--format", kind, "--zoom", str(scale)]
        return subprocess.run(words, input=svg, stdout=subprocess.PIPE, check=True).stdout
    if importlib.util.find_spec("cairosvg"):
        import cairosvg

        return bytes(getattr(cairosvg, f"svg2{kind}")(bytestring=svg, scale=scale))
    means = "the command rsvg-convert (in Debian's package librsvg2-bin) or by the Python package cairosvg"
    raise RuntimeError(f"a picture becomes {kind.upper()} by {means}, and neither is there")
