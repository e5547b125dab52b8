"""What goes wrong: graphs that are refused, and programs that fail."""

from __future__ import annotations

from types import SimpleNamespace
from typing import Any, Mapping, Optional, Sequence, Union

Id = Union[str, int, None]
Step = Union[str, int]


class Fault(SimpleNamespace):
    """One thing that is wrong in a graph, or has no effect there. Members that the program leaves out are None."""

    def __getattr__(self, name: str) -> Any:
        if name.startswith("_"):
            raise AttributeError(name)
        return None


class ElkError(Exception):
    """The base of all errors of this package. `index` is the place of the graph in its stream, counted from 0."""

    index: Optional[int] = None

    def __str__(self) -> str:
        return str(self.args[0])


class Refusal(ElkError):
    """A graph that is refused. `faults` has all its faults, and the first one's members are also those of the refusal.

    `rule` is None if a text or a request can't be read.
    """

    def __init__(self, faults: Sequence[Fault]) -> None:
        super().__init__(faults)
        self.faults = tuple(faults)

    def __str__(self) -> str:
        return str(self.faults[0].message)

    def __getattr__(self, name: str) -> Any:
        if name.startswith("_") or name == "faults":
            raise AttributeError(name)
        return getattr(self.faults[0], name)


def refusal_of(told: Mapping[str, Any]) -> Refusal:
    """The refusal in the member `fault` of a reply."""
    first = Fault(**{name: it for name, it in told.items() if name != "faults"})
    others = (Fault(**it) for it in told.get("faults", ()))
    return Refusal([first, *(it for it in others if it != first)])


class ProgramError(ElkError):
    """A program that can't be started, or that ended before it had replied.

    `status` is the exit status, less than 0 if a signal ended it, and None if it never started.
    """

    def __init__(self, message: str, status: Optional[int] = None) -> None:
        super().__init__(message, status)
        self.status = status


class LayoutWarning(UserWarning):
    """Something that has no effect in a graph."""
