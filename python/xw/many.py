"""Many puzzles, filled side by side."""
from __future__ import annotations

import concurrent.futures
import queue
import threading
from typing import Any, Dict, Iterable, Iterator, List, Mapping, NamedTuple, Optional, Tuple, Union

from .answers import Found
from .errors import Died, Error
from .files import is_puz, is_text
from .lists import Puzzle, Source, WordList, bytes_of, list_of
from .session import Session
from .workers import Worker

# How many parts each worker of an executor gets: a part opens a session, and its puzzles have one worker.
PARTS = 4
# How many workers try a puzzle, if they die of it.
TRIES = 2

# The options of a search: `limit`, `seed` and `seconds` of `Session.autofill`.
_Options = Dict[str, Any]
# Records with the numbers of their puzzles.
_Part = List[Tuple[int, bytes]]


class Filled(NamedTuple):
    """A puzzle of `fill_many`: its number from 0, what was found, the rows of the grid, and the record of the session. `reports` are the lines of its record
    that were not taken. If it could not be filled, `error` says why, and `answer` is None. `died` names the workers that died over it."""

    number: int
    answer: Optional[Found] = None
    rows: Tuple[str, ...] = ()
    record: bytes = b""
    reports: Tuple[str, ...] = ()
    error: Optional[BaseException] = None
    died: Tuple[Died, ...] = ()


def record_of(puzzle: Union[Source, Puzzle]) -> bytes:
    """The record of a puzzle: the bytes, the text or the file of a record or of a puzzle, or an object of the packages `puz` and `ipuz`."""
    data = puzzle
    if not (isinstance(puzzle, Mapping) or hasattr(puzzle, "tobytes")):
        if isinstance(puzzle, str) and puzzle and "\n" not in puzzle:
            raise ValueError(f"a puzzle is the string {puzzle[:80]!r}, which has no line; pass pathlib.Path(...) for a file")
        data = bytes_of(puzzle)
        if not (is_puz(data) or is_text(data)):
            return data
    with Session(puzzle=data) as session:
        return session.record()


def fill_one(session: Session, number: int, record: bytes, options: _Options) -> Filled:
    """Fills a puzzle in a session that was used for others."""
    try:
        reports = session.restore(record)
        answer = session.autofill(**options)
        return Filled(number, answer, session.rows(), session.record(), tuple(reports))
    except Exception as error:
        return Filled(number, error=error)


def fill_part(words: bytes, part: _Part, options: _Options) -> List[Filled]:
    """Fills puzzles one after another, in one session."""
    with Session(words) as session:
        return [fill_one(session, number, record, options) for number, record in part]


class _Crew:
    """Workers that have one puzzle each at a time. A thread waits for each."""

    def __init__(self, words: bytes, size: int):
        self._words, self._lock, self._is_over = words, threading.Lock(), False
        self._workers: List[Worker] = []
        self._idle: "queue.LifoQueue[Optional[Worker]]" = queue.LifoQueue()
        for _ in range(size):
            # a worker that is still to be started
            self._idle.put(None)
        self._threads = concurrent.futures.ThreadPoolExecutor(size)

    def submit(self, part: _Part, options: _Options) -> "concurrent.futures.Future[List[Filled]]":
        return self._threads.submit(lambda: [self._fill(number, record, options) for number, record in part])

    def _fill(self, number: int, record: bytes, options: _Options) -> Filled:
        """Has a puzzle filled. If a worker dies over it, another one begins with it anew."""
        died: Tuple[Died, ...] = ()
        while len(died) < TRIES:
            worker = self._idle.get()
            try:
                worker = worker or self._started()
                filled: Filled = worker.ask(fill_one, number, record, options)
                return filled._replace(died=died)
            except Died as error:
                died, worker = (*died, error), None
            finally:
                self._idle.put(worker)
        return Filled(number, error=died[-1], died=died)

    def _started(self) -> Worker:
        with self._lock:
            if self._is_over:
                raise concurrent.futures.CancelledError
            worker = Worker()
            self._workers.append(worker)
        worker.ask(Session, self._words)
        return worker

    def end(self) -> None:
        """Ends all workers at once."""
        with self._lock:
            self._is_over = True
            for worker in self._workers:
                worker.end()
        self._threads.shutdown()


# ---- the puzzles in their order


def _taken(puzzles: Iterable[Union[Source, Puzzle]]) -> Tuple[_Part, Dict[int, Filled]]:
    """The records of puzzles with their numbers, and those that cannot be read."""
    whole: _Part = []
    faulty: Dict[int, Filled] = {}
    for number, puzzle in enumerate(puzzles):
        try:
            whole.append((number, record_of(puzzle)))
        except (Error, OSError, TypeError, ValueError) as error:
            faulty[number] = Filled(number, error=error)
    return whole, faulty


def done(part: _Part, future: "concurrent.futures.Future[List[Filled]]") -> List[Filled]:
    """The puzzles of a part, once it is done. If it failed, each of them has the error."""
    try:
        return future.result()
    except Exception as error:
        return [Filled(number, error=error) for number, _ in part]


class Batch:
    """Puzzles that workers fill, or those of an executor. `begin` has them filled, and `end` ends that at any time."""

    def __init__(
        self, puzzles: Iterable[Union[Source, Puzzle]], words: WordList, workers: int, options: _Options, executor: Optional[concurrent.futures.Executor]
    ):
        self._words, self._options, self._executor = list_of(words), options, executor
        whole, self._faulty = _taken(puzzles)
        size = 1 if executor is None else max(1, -(-len(whole) // (PARTS * workers)))
        self._parts = [whole[at : at + size] for at in range(0, len(whole), size)]
        self._crew = _Crew(self._words, workers) if executor is None else None
        self._futures: "List[concurrent.futures.Future[List[Filled]]]" = []

    def begin(self) -> "List[Tuple[_Part, concurrent.futures.Future[List[Filled]]]]":
        """The parts in their order, each with its future."""
        for part in self._parts:
            if self._executor is None:
                assert self._crew
                self._futures.append(self._crew.submit(part, self._options))
            else:
                self._futures.append(self._executor.submit(fill_part, self._words, part, self._options))
        return list(zip(self._parts, self._futures))

    def in_order(self, found: List[Filled]) -> Iterator[Filled]:
        """The puzzles of the next part, each after those before it that cannot be read."""
        for filled in found:
            yield from (self._faulty.pop(number) for number in sorted(self._faulty) if number < filled.number)
            yield filled

    def rest(self) -> Iterator[Filled]:
        """The puzzles after the last part."""
        yield from self._faulty.values()

    def end(self) -> None:
        for future in self._futures:
            future.cancel()
        if self._crew:
            self._crew.end()


def fill_many(
    puzzles: Iterable[Union[Source, Puzzle]],
    words: WordList,
    workers: int = 4,
    limit: Optional[int] = None,
    seed: int = 0,
    seconds: Optional[float] = None,
    executor: Optional[concurrent.futures.Executor] = None,
) -> Iterator[Filled]:
    """Fills puzzles, each as `Session.autofill` with this limit, seed and number of seconds, in so many processes. Yields a `Filled` for each puzzle, in their
    order. A puzzle is the bytes, the text or the path of a record or of a puzzle file, or an object of the packages `puz` or `ipuz`. If a process dies,
    another one fills its puzzle; `died` names it. Leave the loop at any time, also by ^C: all processes end.

    An executor of `concurrent.futures`, or one like it, may have the processes in place of this call. It gets the puzzles in four parts for each worker. If
    it loses a part, each puzzle of it has the error."""
    batch = Batch(puzzles, words, workers, {"limit": limit, "seed": seed, "seconds": seconds}, executor)
    try:
        for part, future in batch.begin():
            yield from batch.in_order(done(part, future))
        yield from batch.rest()
    finally:
        batch.end()
