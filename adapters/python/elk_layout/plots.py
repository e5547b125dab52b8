"""Pictures of the program in axes of matplotlib, element by element."""

from __future__ import annotations

import colorsys
import re
import xml.etree.ElementTree as xml
from typing import Any, Dict, List, Tuple

from matplotlib import colors, patches, pyplot
from matplotlib.path import Path

POINTS_PER_INCH = 72
SIDES = {"start": "left", "middle": "center", "end": "right"}
CODES = {"M": Path.MOVETO, "L": Path.LINETO, "H": Path.LINETO, "V": Path.LINETO, "Q": Path.CURVE3, "C": Path.CURVE4, "Z": Path.CLOSEPOLY}
# What an element has of those around it.
INHERITED = ("fill", "stroke", "stroke-width", "stroke-dasharray", "fill-opacity", "text-anchor", "font-size")

Look = Dict[str, str]


def plot(picture: str, axes: Any) -> Any:
    """Draws a picture into axes, or into a new figure in which a unit of the drawing is a point of print."""
    top = xml.fromstring(picture)
    left, above, width, height = map(float, top.attrib["viewBox"].split())
    if axes is None:
        axes = pyplot.figure(figsize=(width / POINTS_PER_INCH, height / POINTS_PER_INCH)).add_axes((0, 0, 1, 1))
    # The drawing itself begins at 0 and has the same margin on all sides.
    axes.set(xlim=(left, left + width), ylim=(above, above + height), aspect="equal")
    axes.set_axis_off()
    box = axes.get_window_extent()
    scale = min(box.width / width, box.height / height) / axes.figure.dpi * POINTS_PER_INCH
    _Plot(axes, float(scale), height + 2 * above).add(top, {})
    return axes


class _Plot:
    """Axes to which elements of a picture are added, with y growing upwards."""

    def __init__(self, axes: Any, scale: float, height: float) -> None:
        self._axes = axes
        self._scale = scale
        self._height = height
        self._shapes = {"rect": self._rect, "ellipse": self._ellipse, "circle": self._ellipse, "path": self._path}

    def add(self, element: Any, around: Look) -> None:
        look = {**around, **{name: value for name, value in element.attrib.items() if name in INHERITED}}
        kind = element.tag.rpartition("}")[2]
        if kind == "text":
            self._text(element, look)
        elif kind in self._shapes:
            patch = self._shapes[kind](element.attrib)
            patch.set(**self._paint(look))
            self._axes.add_patch(patch)
        for inner in element:
            self.add(inner, look)

    def _up(self, x: float, y: float) -> Tuple[float, float]:
        return x, self._height - y

    def _paint(self, look: Look) -> Dict[str, Any]:
        face = _colour(look.get("fill", "black"))
        width = float(look.get("stroke-width", 1))
        dashes = [float(it) / width for it in re.findall(r"[\d.]+", look.get("stroke-dasharray", ""))]
        return {
            "facecolor": (*face[:3], float(look["fill-opacity"])) if face[3] and "fill-opacity" in look else face,
            "edgecolor": _colour(look.get("stroke", "none")),
            "linewidth": width * self._scale,
            "linestyle": (0, dashes * 2 if len(dashes) % 2 else dashes) if dashes else "solid",
        }

    def _rect(self, at: Dict[str, str]) -> Any:
        x, y, width, height = (float(at[name]) for name in ("x", "y", "width", "height"))
        radius = min(float(at.get("rx", 0)), width / 2, height / 2)
        corners = f"round,pad=0,rounding_size={radius}" if radius else "square,pad=0"
        return patches.FancyBboxPatch(self._up(x, y + height), width, height, boxstyle=corners)

    def _ellipse(self, at: Dict[str, str]) -> Any:
        across, down = (2 * float(at.get(name) or at["r"]) for name in ("rx", "ry"))
        return patches.Ellipse(self._up(float(at["cx"]), float(at["cy"])), across, down)

    def _path(self, at: Dict[str, str]) -> Any:
        points: List[Tuple[float, float]] = []
        codes: List[Any] = []
        for letter, rest in re.findall(r"([A-Z])([^A-Z]*)", at["d"]):
            numbers = [float(it) for it in re.findall(r"-?[\d.]+", rest)]
            if letter in "HV":
                pairs = [(it, points[-1][1]) if letter == "H" else (points[-1][0], self._height - it) for it in numbers]
            else:
                pairs = [self._up(*it) for it in zip(numbers[::2], numbers[1::2])] or points[:1]
            points += pairs
            codes += [CODES[letter]] * len(pairs)
        return patches.PathPatch(Path(points, codes), capstyle="butt", joinstyle="round")

    def _text(self, element: Any, look: Look) -> None:
        text = "".join(element.itertext()).replace("$", r"\$")
        at = self._up(float(element.attrib["x"]), float(element.attrib["y"]))
        side, size = SIDES[look.get("text-anchor", "start")], float(look["font-size"]) * self._scale
        self._axes.text(*at, text, color=_colour(look["fill"]), fontsize=size, ha=side, va="baseline")


def _colour(text: str) -> Tuple[float, ...]:
    """A colour of style sheets as red, green, blue and opacity."""
    if "(" not in text:
        return tuple(colors.to_rgba(text))
    parts = [float(it) / (100 if mark else 1) for it, mark in re.findall(r"([\d.]+)(%?)", text)]
    opacity = (*parts[3:], 1.0)[0]
    if text.startswith("hsl"):
        return (*colorsys.hls_to_rgb(parts[0] / 360, parts[2], parts[1]), opacity)
    return (*(it if "%" in text else it / 255 for it in parts[:3]), opacity)
