"""The calls about streams of graphs: many are at the processes at once, and the results come in order."""

from __future__ import annotations

import contextlib
import sys
import time
from collections import deque
from typing import Any, Callable, Deque, Iterable, Iterator, Optional, Sized, TypeVar, Union

from .calls import Placed, layout_query
from .errors import ElkError
from .processes import HOPELESS, Pool, Request
from .program import Program, find_program
from .query import Numbers, OnWarning, Options, Query

# How many graphs of a stream are held at once for each process, if nothing is said.
HELD = 256
# Lines that wait, and those whose results wait for the one before, have together no more bytes than these for each
# process, or are a single one.
HELD_BYTES = 2**20
# The time within which the processes of a quick source are looked after once, since each look costs some microseconds.
LOOK_SECONDS = 0.001
# How much of the time that a slow source takes for a document is waited for replies before it is asked for the next.
SHARE = 0.25
# After how many results their number is printed.
SHOWN = 50

Given = TypeVar("Given")
Progress = Union[bool, Callable[[int, Optional[int]], Any]]


def layout_many(
    graphs: Iterable[Any],
    *,
    processes: int = 1,
    options: Options = None,
    numbers: Numbers = "ceil",
    errors: str = "raise",
    on_warning: OnWarning = None,
    program: Program = None,
    held: Optional[int] = None,
    progress: Progress = False,
    total: Optional[int] = None,
) -> Iterator[Any]:
    """Lays out a stream of graphs by processes of its own. The results come in the order of the graphs.

    The stream is read at most `held` graphs ahead, by default 256 for each process. `progress` is true if a bar is to
    be shown, or a function that gets how many are done and the total; `total` is for streams without a length. An error
    has the place of its graph in the stream as `index`. With `errors` as `return`, the result for a graph at which the
    program ends twice is the ProgramError.
    """
    query = layout_query(options, numbers, errors, on_warning, program)
    pool = Pool(query.command, processes)
    requests = answered(graphs, query.request, pool, held or HELD * processes)
    total = len(graphs) if total is None and isinstance(graphs, Sized) else total
    return shown(_results(requests, query, program, errors == "raise"), progress, total)


def _results(requests: Iterator[Request], query: Query, program: Program, raises: bool) -> Iterator[Any]:
    for index, request in enumerate(requests):
        try:
            result: Any = Placed(query.reply_of(request)["placed"], program)
        except ElkError as error:
            error.index = index
            if raises or getattr(error, "status", None) in HOPELESS:
                raise
            result = error
        yield result


def replies(
    lines: Iterable[Union[str, bytes]], *, processes: int = 1, program: Program = None, held: Optional[int] = None
) -> Iterator[str]:
    """The program's replies to requests as lines of text, one for each, in order."""
    pool = Pool(find_program(program), processes)
    for index, request in enumerate(answered(lines, _line_request, pool, held or HELD * processes)):
        if request.error:
            request.error.index = index
            raise request.error
        yield request.reply or ""


def _line_request(text: Union[str, bytes]) -> Request:
    line = (text.encode() if isinstance(text, str) else text).rstrip(b"\n")
    # A text with line feeds within is one line too. A carriage return is the same to JSON.
    return Request(line.replace(b"\n", b"\r") + b"\n")


class _Stream:
    """The requests of a stream that were read and not given yet."""

    def __init__(self, pool: Pool, held: int) -> None:
        self._pool, self._held = pool, held
        self._requests: Deque[Request] = deque()
        self._bytes = 0
        self._looked_at = 0.0

    def put(self, request: Request) -> None:
        self._requests.append(request if request.is_done else self._pool.put(request))
        self._bytes += len(request.line)

    def done(self, seconds: float) -> Iterator[Request]:
        """Yields what is done, before more is read. If the source took long for its last item, a share of that is waited:
        else it would hold each result back until its next item comes.
        """
        now = time.monotonic()
        until = now + (seconds * SHARE if seconds >= LOOK_SECONDS else 0.0)
        if until > now or now - self._looked_at >= LOOK_SECONDS:
            self._looked_at = now
            while self._requests and now <= until:
                self._pool.turn(until - now)
                yield from self._first_ones()
                now = time.monotonic()
        most = self._pool.count * HELD_BYTES
        while len(self._requests) >= self._held or (self._bytes > most and len(self._requests) > 1):
            yield from self._next_ones()

    def rest(self) -> Iterator[Request]:
        while self._requests:
            yield from self._next_ones()

    def _next_ones(self) -> Iterator[Request]:
        self._pool.wait(self._requests[0])
        yield from self._first_ones()

    def _first_ones(self) -> Iterator[Request]:
        while self._requests and self._requests[0].is_done:
            request = self._requests.popleft()
            self._bytes -= len(request.line)
            yield request


def answered(source: Iterable[Given], request_of: Callable[[Given], Request], pool: Pool, held: int) -> Iterator[Request]:
    """Makes a request of each item of a source, and yields the requests in order, each with its reply or its error.

    `held` is how many are at the processes, or wait for one before them, at once. If the source raises, or an item is
    none of which a request can be made, what was read before is given first.
    """
    stream, items = _Stream(pool, held), iter(source)
    try:
        while True:
            asked_at = time.monotonic()
            try:
                item = next(items)
                took = time.monotonic() - asked_at
                stream.put(request_of(item))
            except StopIteration:
                yield from stream.rest()
                break
            except Exception:
                yield from stream.rest()
                raise
            yield from stream.done(took)
    finally:
        pool.stop()


def shown(results: Iterator[Any], progress: Progress, total: Optional[int]) -> Iterator[Any]:
    """The results, while their number is shown: by tqdm if that is there, or to a function."""
    if progress and not callable(progress):
        with contextlib.suppress(ImportError):
            from tqdm import tqdm

            return iter(tqdm(results, total=total))
        progress = _print_number
    return _told(results, progress, total) if progress else results


def _told(results: Iterator[Any], tell: Callable[[int, Optional[int]], Any], total: Optional[int]) -> Iterator[Any]:
    for done, result in enumerate(results, 1):
        tell(done, total)
        yield result


def _print_number(done: int, total: Optional[int]) -> None:
    if done == total or done % SHOWN == 0:
        print(f"\r{done:,} of {total or '?'}", end="\n" if done == total else "", file=sys.stderr, flush=True)
