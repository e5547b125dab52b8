"""What `elk-draw check` says of a placed graph."""

from __future__ import annotations

import json
import re
import subprocess
from dataclasses import dataclass
from typing import Any, Dict, Optional, Tuple

from .errors import Fault, Id, ProgramError, Refusal
from .json_values import Written, decode
from .program import Program
from .query import Numbers, Options, Query

# The definitions of a good drawing, as docs/RULES.md has them.
DEFINITIONS = dict(enumerate("Apart Inside PortsKept Route Clear Sharing Reversed Layering FlowProof".split(), 6))

PLACES = ("x", "y", "width", "height", "layering", "sections")
SPLIT = "separateConnectedComponents"
NOT_JUDGED = "the drawing has labels, edges or layers that the engine doesn't know, and can't be judged"
# An id as JSON, or a mark that there is none.
ID = re.compile(r'"(?:[^"\\]|\\.)*"|-?\d+|-')


@dataclass(frozen=True)
class Verdict:
    """Whether a drawing obeys all definitions; if so, it counts as true. Else the first that fails, and ids of places."""

    is_good: bool
    definition: Optional[int] = None
    name: Optional[str] = None
    places: Tuple[Id, ...] = ()

    def __bool__(self) -> bool:
        return self.is_good

    def __str__(self) -> str:
        if self.is_good:
            return "yes"
        places = ", ".join("-" if it is None else json.dumps(it, ensure_ascii=False) for it in self.places)
        return f"no: definition {self.definition}, {self.name}, fails at {places}"


def check(placed: Any, *, options: Options = None, numbers: Numbers = "ceil", program: Program = None) -> Verdict:
    """Judges a placed graph with its certificates, or the text of one. `options` are those of the call that placed it.

    With `ceil`, only what the engine reads is judged; with `exact`, all is, and a fraction anywhere is refused. A Refusal
    is raised if the graph isn't placed, or if its drawing has labels, edges or layers that the engine doesn't know.
    """
    query = Query("document", program, "graph", options=options, numbers="ceil")
    document = query.ask(placed)["document"]
    graph = decode(placed) if isinstance(placed, str) else placed
    judged = graph if numbers == "exact" else _with_places(document, graph)
    ended = subprocess.run([*query.command, "check"], input=Written(judged).line, capture_output=True)
    words, notes = ended.stdout.decode(), ended.stderr.decode("utf-8", "replace").strip()
    if ended.returncode == 0:
        return Verdict(True)
    if ended.returncode == 1:
        _, number, ids = words.split(" ", 2)
        places = (None if it == "-" else json.loads(it) for it in ID.findall(ids))
        return Verdict(False, int(number), DEFINITIONS.get(int(number)), tuple(places))
    if ended.returncode == 2:
        _, rule, name, id = notes.split(" ", 3)
        at = "" if id == "-" else f" at {id}"
        message = f"the placed graph is refused{at} (rule {rule}, {name})"
        raise _refusal(message, rule=int(rule), name=name, id=json.loads(id) if at else None)
    raise ProgramError(f"the program ended with the status {ended.returncode}: {notes}", ended.returncode)


def _with_places(document: Any, placed: Dict[str, Any]) -> Any:
    """The document of the engine with the places of a drawing, for which it has to have the same elements."""
    if document is None:
        raise _refusal(NOT_JUDGED)
    for name in ("children", "ports", "edges"):
        elements, places = document.get(name, ()), placed.get(name) or ()
        if len(elements) != len(places):
            raise _refusal(NOT_JUDGED)
        if elements:
            document[name] = [_with_places(*pair) for pair in zip(elements, places)]
    document.update({name: placed[name] for name in PLACES if name in placed})
    options = {**(placed.get("properties") or {}), **(placed.get("layoutOptions") or {})}
    if document.get("children") and not any(key.endswith(SPLIT) for key in options):
        is_split = "parts" in placed.get("layering", ())
        document.setdefault("layoutOptions", {})[f"elk.{SPLIT}"] = is_split
    return document


def _refusal(message: str, **members: Any) -> Refusal:
    return Refusal([Fault(message=message, **members)])
