"""What is asked of the program about graphs, and the process that answers single questions."""

from __future__ import annotations

import contextlib
import os
import warnings
from typing import Any, Callable, Dict, Literal, Mapping, Optional, Set

from .errors import Fault, LayoutWarning, ProgramError, Refusal, refusal_of
from .json_values import Written, decode, too_deep
from .processes import Pool, Request
from .program import Command, Program, find_program

Options = Optional[Mapping[str, Any]]
OnWarning = Optional[Callable[[Fault], Any]]
#: Whether fractions are rounded, or handed on and refused.
Numbers = Literal["ceil", "exact"]

# The processes that answer single questions, by their programs. A copy of this Python has none.
_kept: Dict[Command, Pool] = {}
os.register_at_fork(after_in_child=_kept.clear)

# The names of warnings that Python's own module has shown.
_told: Set[Any] = set()
# How many calls stand between a warning and the call of a user.
CALLS = 5


class Query:
    """What is asked about each graph, by the members of requests that docs/DRAWING.md describes.

    `give` are the names of what the program returns, and `kind` is the member that has the graph. A graph may be a text.
    """

    def __init__(self, give: str, program: Program, kind: str, on_warning: OnWarning = None, **members: Any) -> None:
        self.command = find_program(program)
        self._kind = kind
        self._members = {"give": give.split(), **{name: it for name, it in members.items() if it is not None}}
        self._on_warning = on_warning

    def request(self, graph: Any) -> Request:
        """The request about a graph. If it can't be written, the request has the error."""
        try:
            kind = "text" if isinstance(graph, str) and self._kind == "graph" else self._kind
            written = Written({kind: graph, **self._members})
            return Request(written.line, written)
        except Refusal as refusal:
            return Request(b"", error=refusal)
        except RecursionError as error:
            return Request(b"", error=too_deep(graph) or ProgramError(str(error)))

    def ask(self, graph: Any) -> Dict[str, Any]:
        """Asks about one graph, and returns the reply."""
        request = self.request(graph)
        # A process that is closed meanwhile answers no more, and another is kept then.
        while not request.is_done:
            (_kept.get(self.command) or _kept.setdefault(self.command, Pool(self.command))).ask(request)
        return self.reply_of(request)

    def reply_of(self, request: Request) -> Dict[str, Any]:
        """The reply to a request. What went wrong is raised."""
        if request.error:
            raise request.error
        reply: Any = None
        with contextlib.suppress(ValueError):
            reply = request.about.restored(decode(request.reply or ""))
        if not isinstance(reply, dict) or not reply.keys() & {"fault", *self._members["give"]}:
            raise ProgramError(f"the reply is no answer: {(request.reply or '')[:80]}")
        if "fault" in reply:
            is_unread = reply["fault"].get("rule") is None
            graph = decode(request.line.decode()).get(self._kind) if is_unread else None
            raise too_deep(graph) or refusal_of(reply["fault"])
        for told in reply.get("warnings", ()):
            (self._on_warning or _warn)(Fault(**told))
        return reply


def _warn(warning: Fault) -> None:
    name = (warning.kind, warning.steps[-1]) if warning.steps else warning.message
    if name not in _told:
        _told.add(name)
        warnings.warn(warning.message, LayoutWarning, stacklevel=CALLS)


def close() -> None:
    """Ends the kept processes, once they have answered. A later call starts them again."""
    # Threads that go on calling start others meanwhile, and have to close those themselves.
    pools = [_kept.pop(command, None) for command in list(_kept)]
    for pool in filter(None, pools):
        pool.close()
