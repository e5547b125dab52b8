"""Python's values as JSON, and back."""

from __future__ import annotations

import json
import math
import re
import secrets
from decimal import Decimal
from numbers import Integral, Real
from typing import Any, Dict, List, Mapping, Optional, Sequence, Tuple

from .errors import Fault, Refusal, Step

decode = json.JSONDecoder().decode

# The only member of the object that is sent instead of a value that JSON doesn't have: no graph has this name.
KEY = f"${secrets.token_hex(4)}"
MARK = re.compile(rf'\{{"\{KEY}":(\d+)\}}')
NAME = re.compile(r"[^\W\d]\w*")
HALF_PAIR = re.compile("[\ud800-\udfff]")

# How many lists and objects may stand in one another in a graph: a line has one more.
MOST_NESTED = 126


class Written:
    """A value as a line of JSON, with what stands in it besides JSON.

    Numbers of other classes are written as numbers, and other values as marks: the program refuses a mark where it reads
    it, and anywhere else the value comes back in the result.
    """

    def __init__(self, value: Any) -> None:
        self._kept: List[Any] = []
        how: Dict[str, Any] = {"check_circular": False, "allow_nan": False, "separators": (",", ":")}
        encoder = json.JSONEncoder(ensure_ascii=False, default=self._default, **how)
        try:
            line = encoder.encode(value).encode()
        except (TypeError, ValueError):
            # There is a key that is no text, a number that isn't finite, or half of a surrogate pair.
            self._kept.clear()
            line = encoder.encode(self._marked(value, ())).encode()
        self.line = line + b"\n"

    def _mark(self, value: Any) -> Dict[str, int]:
        self._kept.append(value)
        return {KEY: len(self._kept) - 1}

    def _default(self, value: Any) -> Any:
        if isinstance(value, (Real, Decimal)) and math.isfinite(value):
            return int(value) if isinstance(value, Integral) or value == int(value) else float(value)
        if isinstance(value, Mapping):
            return dict(value)
        # A truth value of numpy.
        return value.item() if getattr(value, "ndim", None) == 0 else self._mark(value)

    def _marked(self, value: Any, steps: Tuple[Step, ...]) -> Any:
        if isinstance(value, Mapping):
            for key in value:
                if not isinstance(key, str) or HALF_PAIR.search(key):
                    raise not_json(steps[1:], f"has the key {key!r}, which is no text of JSON")
            return {key: self._marked(it, (*steps, key)) for key, it in value.items()}
        if isinstance(value, (list, tuple)):
            return [self._marked(it, (*steps, at)) for at, it in enumerate(value)]
        is_odd = HALF_PAIR.search(value) if isinstance(value, str) else isinstance(value, float) and not math.isfinite(value)
        return self._mark(value) if is_odd else value

    def restored(self, value: Any) -> Any:
        """A part of the reply with the values instead of their marks."""
        if not self._kept:
            return value
        if isinstance(value, list):
            return [self.restored(it) for it in value]
        if isinstance(value, dict):
            return self._kept[value[KEY]] if KEY in value else {name: self.restored(it) for name, it in value.items()}
        if isinstance(value, str):
            return MARK.sub(lambda found: repr(self._kept[int(found[1])]), value)
        return value


def not_json(steps: Sequence[Step], what: str) -> Refusal:
    """The refusal of a value that can't be written as JSON."""
    path = "".join(f".{it}" if NAME.fullmatch(str(it)) else f"[{json.dumps(it)}]" for it in steps).lstrip(".") or "the graph"
    message = f"the graph is not JSON: {path} {what}"
    return Refusal([Fault(message=message, rule=1, name="NotJson", path=path, steps=[*steps])])


def too_deep(value: Any, steps: Sequence[Step] = ()) -> Optional[Refusal]:
    """The refusal of a value in which lists and objects stand too deep in one another, or in themselves."""
    if not isinstance(value, (dict, list, tuple)):
        return None
    if len(steps) >= MOST_NESTED:
        return not_json(steps, "stands too deep in other values, or in itself")
    members = value.items() if isinstance(value, dict) else enumerate(value)
    return next(filter(None, (too_deep(it, (*steps, step)) for step, it in members)), None)
