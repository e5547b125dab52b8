"""Processes of `elk-draw --lines`, which work on the lines in their pipes while Python makes the next ones."""

from __future__ import annotations

import atexit
import contextlib
import fcntl
import os
import select
import subprocess
import tempfile
import weakref
from collections import deque
from dataclasses import dataclass
from threading import RLock
from typing import Any, Deque, List, Optional

from .errors import ElkError, ProgramError
from .program import Command

# What a pipe is asked to hold, so that a process seldom waits; what one write hands on at once, and what one read takes.
PIPE_BYTES, WRITE_BYTES, READ_BYTES = 2**20, 2**13, 2**17
# How much of the program's stderr an error contains.
MOST_NOTES = 4096
# Statuses if the program doesn't take its arguments, and if the launcher has no program: no other line fares better.
HOPELESS = {5: ", because it does not know --lines", 70: ", because there is no program to start"}
# A line at which the program ended is sent a second time and not a third.
MOST_TRIES = 2


@dataclass
class Request:
    """A line for the program, what it is about, and in the end its reply or an error."""

    line: bytes
    about: Any = None
    reply: Optional[str] = None
    error: Optional[ElkError] = None
    tries: int = 0

    @property
    def is_done(self) -> bool:
        return self.reply is not None or self.error is not None


# The processes that this Python has started and not left.
running: "weakref.WeakSet[Process]" = weakref.WeakSet()


class Process:
    """A process of the program."""

    def __init__(self, command: Command) -> None:
        #: The first of these is at the program.
        self.waiting: Deque[Request] = deque()
        self.waiting_bytes = 0
        self.unsent = bytearray()
        #: Whether its output is at its end, or has what nobody asked for; and whether its pipes are closed on this side.
        self.has_ended = self.is_left = False
        self._name = command[-1]
        self._pieces: List[bytes] = []
        self._notes = tempfile.TemporaryFile()
        try:
            pipe = subprocess.PIPE
            self.child = subprocess.Popen([*command, "--lines"], stdin=pipe, stdout=pipe, stderr=self._notes, bufsize=0)
        except OSError as cause:
            self._notes.close()
            raise ProgramError(f"the program {self._name} can't be started: {cause}") from cause
        assert self.child.stdin and self.child.stdout
        self._ends = (self.child.stdin, self.child.stdout, self._notes)
        self.input, self.output = self.child.stdin.fileno(), self.child.stdout.fileno()
        for end in (self.input, self.output):
            os.set_blocking(end, False)
            # Linux alone has this, and gives less if a user has many wide pipes.
            with contextlib.suppress(OSError):
                fcntl.fcntl(end, getattr(fcntl, "F_SETPIPE_SZ", 1031), PIPE_BYTES)
        running.add(self)

    def put(self, request: Request) -> None:
        self.waiting.append(request)
        self.waiting_bytes += len(request.line)
        self.unsent += request.line
        if len(self.unsent) >= WRITE_BYTES:
            self.write()

    def write(self) -> None:
        """Writes what the pipe takes now."""
        try:
            while self.unsent:
                written = os.write(self.input, self.unsent)
                del self.unsent[:written]
        except BlockingIOError:
            pass
        except BrokenPipeError:
            # The end of its output says more.
            self.unsent.clear()

    def read(self) -> None:
        """Takes the replies that are there."""
        try:
            piece = os.read(self.output, READ_BYTES)
        except BlockingIOError:
            return
        *lines, rest = piece.split(b"\n")
        is_odd = len(lines) > len(self.waiting) or (rest and len(lines) == len(self.waiting))
        for line in lines[: len(self.waiting)]:
            request = self.waiting.popleft()
            self.waiting_bytes -= len(request.line)
            request.reply = b"".join((*self._pieces, line)).decode("utf-8", "replace")
            self._pieces.clear()
        self._pieces += [rest] if rest else []
        if is_odd:
            # No later reply could be told from what nobody asked for.
            self.child.kill()
        self.has_ended = bool(is_odd) or not piece

    def end(self) -> ProgramError:
        """Waits for a process whose output is at its end, and returns how it ended."""
        status = self.child.wait()
        how = f"was ended by signal {-status}" if status < 0 else f"ended with the status {status}"
        self._notes.seek(0)
        notes = self._notes.read().decode("utf-8", "replace").strip()[-MOST_NOTES:]
        self.leave()
        return ProgramError(f"the program {self._name} {how}{HOPELESS.get(status, '')}: {notes}".rstrip(": "), status)

    def leave(self, is_own: bool = True) -> None:
        """Closes this side of the pipes, and ends the process at once unless it is that of another Python."""
        running.discard(self)
        self.is_left = True
        if is_own:
            self.child.kill()
            self.child.wait()
        else:
            self.child.returncode = 0
        for end in self._ends:
            end.close()


def _leave_all(is_own: bool) -> None:
    for process in list(running):
        process.leave(is_own)


atexit.register(_leave_all, True)
# A copy of this Python must not read the replies to the original.
os.register_at_fork(after_in_child=lambda: _leave_all(False))


class Pool:
    """At most `count` processes. They start when they are needed, and others when they end, as they do after 4 GiB."""

    def __init__(self, command: Command, count: int = 1) -> None:
        if count < 1:
            raise ValueError(f"there is at least 1 process, not {count}")
        self.count = count
        self.processes: List[Process] = []
        self._command = command
        # A signal handler runs in the thread that it interrupts, which may hold the lock already.
        self._lock = RLock()
        self._is_asked = self._is_closed = False

    def ask(self, request: Request) -> bool:
        """Waits until a line is answered, one thread after the other; false if the pool was closed before."""
        with self._lock:
            self._refuse_within_a_call()
            if self._is_closed:
                return False
            self._is_asked = True
            try:
                self.wait(self.put(request))
            except BaseException:
                # A reply may have been read in part.
                self.stop()
                raise
            finally:
                self._is_asked = False
        return True

    def close(self) -> None:
        """Ends the processes once the thread that asks is answered. Threads that come later have to ask another pool."""
        with self._lock:
            self._refuse_within_a_call()
            self._is_closed = True
            self.stop()

    def _refuse_within_a_call(self) -> None:
        if self._is_asked:
            way = "let the handler take a note, and call after the other has returned"
            raise RuntimeError(f"this call interrupts another one of the same thread, as a signal handler does: {way}")

    def put(self, request: Request) -> Request:
        """Hands a line to the process with the least to do."""
        self._take_over()
        least = min(self.processes, key=lambda it: it.waiting_bytes, default=None)
        if least and not least.waiting:
            least.read()
            if least.has_ended:
                least.leave()
                self.processes.remove(least)
                least = None
        if not least or (least.waiting and len(self.processes) < self.count):
            least = Process(self._command)
            self.processes.append(least)
        least.put(request)
        return request

    def wait(self, request: Request) -> None:
        """Works until a line that was handed in is answered."""
        while not request.is_done:
            if not self.turn():
                raise ProgramError("the processes were ended before they had answered")

    def turn(self, seconds: Optional[float] = None) -> bool:
        """Writes and reads once something can be written or read, or when a time is over; whether a line waited."""
        self._take_over()
        busy = [it for it in self.processes if it.waiting]
        poll = select.poll()
        for process in busy:
            process.write()
            poll.register(process.output, select.POLLIN)
            if process.unsent:
                poll.register(process.input, select.POLLOUT)
        if busy:
            poll.poll(None if seconds is None else seconds * 1000)
        for process in busy:
            if not process.is_left:
                process.read()
            if process.has_ended:
                self._end(process)
        return bool(busy)

    def _take_over(self) -> None:
        """Hands the lines of processes that were left to others: in a copy of this Python all of them were."""
        left = [it for it in self.processes if it.is_left]
        self.processes = [it for it in self.processes if not it.is_left]
        for request in [it for process in left for it in process.waiting]:
            self.put(request)

    def _end(self, process: Process) -> None:
        """Hands the lines of a process that has ended to another, except one at which it ended for the second time."""
        error = process.end()
        self.processes.remove(process)
        for at, request in enumerate(process.waiting):
            request.tries += at == 0
            if error.status in HOPELESS or request.tries == MOST_TRIES:
                request.error = error
            else:
                self.put(request)

    def stop(self) -> None:
        """Ends the processes. What waits is never replied to; a later line starts them again."""
        for process in self.processes:
            process.leave()
        self.processes = []
