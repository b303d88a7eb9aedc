"""Processes with a session each, which answer calls one after another."""
from __future__ import annotations

import os
import pickle
import queue
import signal
import subprocess
import sys
import threading
from typing import IO, Any, Callable, Tuple

from .errors import Died

# What a worker does: a function of a module that it imports. The first one returns the state, and the others get it before what was given with the call.
Call = Callable[..., Any]


class Worker:
    """A process that makes a state by its first call, and then does calls on it. It ends with its parent, or by `end`. One thread at a time waits for it."""

    def __init__(self) -> None:
        # a new session of processes, so that ^C in a terminal goes to the parent alone
        code = f"import sys; sys.path[:] = {sys.path!r}; from xw.workers import serve; serve()"
        self._process = subprocess.Popen([sys.executable, "-c", code], stdin=subprocess.PIPE, stdout=subprocess.PIPE, start_new_session=True)
        self.number = self._process.pid

    def ask(self, call: Call, *given: Any) -> Any:
        """Returns what the call returns, which is None for the first one, or raises what it raises. Raises `Died` if the process has ended."""
        process = self._process
        assert process.stdin and process.stdout
        try:
            pickle.dump((call, given), process.stdin)
            process.stdin.flush()
            is_done, answer = pickle.load(process.stdout)
        except (EOFError, OSError, ValueError, pickle.UnpicklingError):
            raise Died(self.number, process.wait()) from None
        if not is_done:
            raise answer
        return answer

    def end(self) -> None:
        """Ends the process at once, whatever it does. Another thread that waits for it gets `Died`."""
        self._process.kill()
        self._process.wait()
        for pipe in (self._process.stdin, self._process.stdout):
            try:
                assert pipe
                pipe.close()
            except OSError:
                # what was not sent any more
                pass


def _read(source: IO[bytes], calls: "queue.SimpleQueue[Tuple[Call, Tuple[Any, ...]]]") -> None:
    """Takes calls in, also while one is done. The process ends with its parent, in the middle of a search too."""
    try:
        while True:
            calls.put(pickle.load(source))
    except (EOFError, OSError, pickle.UnpicklingError):
        os._exit(0)


def serve() -> None:
    """Does the calls that come on the input."""
    signal.signal(signal.SIGINT, signal.SIG_IGN)
    source, sink = os.fdopen(os.dup(0), "rb"), os.fdopen(os.dup(1), "wb")
    # what a module prints is no answer
    os.dup2(2, 1)
    calls: "queue.SimpleQueue[Tuple[Call, Tuple[Any, ...]]]" = queue.SimpleQueue()
    threading.Thread(target=_read, args=(source, calls), daemon=True).start()
    state: Tuple[Any, ...] = ()
    while True:
        call, given = calls.get()
        try:
            answer = True, call(*state, *given)
            if not state:
                state, answer = (answer[1],), (True, None)
        except Exception as error:
            answer = False, error
        pickle.dump(answer, sink)
        sink.flush()
