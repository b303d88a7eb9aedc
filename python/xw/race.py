"""The best fill, by processes that race."""
from __future__ import annotations

import concurrent.futures
import queue
import threading
from typing import Callable, Iterable, List, NamedTuple, Optional, Tuple, Union

from .answers import Best, Found, LightName, Progress
from .errors import Died, Error
from .lists import Source, WordList, bytes_of, list_of
from .session import Climb, Session, Told, name_of
from .slices import Slices
from .workers import Worker

# How long a leg of an executor's search is, in seconds: the first one, and the longest, since each one is twice as long as the one before.
LEG, LONGEST_LEG = 2.0, 10.0
# How often a leg that is lost is searched again.
TRIES = 3


class Outcome(NamedTuple):
    """What `best` found: the best fill, or None; and the bound: no fill has this grade or a better one, and 101 says nothing. `answer` is `filled`, `nofill`,
    which is proved, or `limit`. At most so many placements were made. `reports` are the lines of the record that were not taken, and `died` the workers that
    died."""

    answer: Found
    bound: int
    fill: Optional[Best]
    placements: int
    reports: Tuple[str, ...]
    died: Tuple[Died, ...]

    @property
    def is_best(self) -> bool:
        """Whether it is proved that no fill has a better worst word."""
        return self.fill is not None and self.fill.is_best


class Step(NamedTuple):
    """What a worker tells after a slice: a better fill, if it found one, its bound, the placements so far, and whether it ends."""

    fill: Optional[Best]
    bound: int
    placements: int
    is_over: bool
    reports: Tuple[str, ...]


# What a worker, by its number, tells, or what it has raised.
News = Tuple[int, Union[Step, Exception]]


class Task(NamedTuple):
    """What a worker searches for: the words and the record of its session, the names of lights, and what bounds the search."""

    words: bytes
    record: bytes
    named: str
    least: int
    limit: Optional[int]
    seconds: Optional[float]


# ---- in a worker


class Racer:
    """The search of a worker."""

    def __init__(self, task: Task, seed: int):
        session = Session(task.words, record=task.record)
        self.reports = tuple(session.reports)
        self.climb, self.slices = Climb(session, seed, task.named, task.least), Slices(task.limit, None, task.seconds)


def step(racer: Racer, above: int) -> Step:
    """Searches a slice for fills of a grade, or of a better one than the worker has."""
    climb, slices = racer.climb, racer.slices
    climb.above = max(climb.above, above)
    is_better = not climb.is_proved() and climb.is_better(slices)
    if is_better:
        climb.enter(climb.start)
    return Step(climb.found if is_better else None, climb.bound, slices.made, climb.is_proved() or slices.is_over, racer.reports)


def leg(task: Task, seed: int, above: int) -> Step:
    """Searches as long as a task says, for fills of a grade or better. An executor keeps nothing between two tasks, so this opens a session of its own."""
    racer = Racer(task, seed)
    found: Optional[Best] = None
    try:
        while True:
            told = step(racer, above)
            found = told.fill or found
            if told.is_over:
                return told._replace(fill=found)
    finally:
        racer.climb.session.close()


# ---- in the process that waits for them


class _Local:
    """A process of this machine that searches with a seed."""

    def __init__(self, task: Task, seed: int):
        self._worker, self._begin = Worker(), (task, seed)
        self._has_begun = False

    def step(self, above: int) -> Step:
        if not self._has_begun:
            self._worker.ask(Racer, *self._begin)
            self._has_begun = True
        told: Step = self._worker.ask(step, above)
        return told

    def end(self) -> None:
        self._worker.end()


class _Legs:
    """A search in legs, each of which is a task of an executor and has the next seed of this search."""

    def __init__(self, executor: concurrent.futures.Executor, task: Task, seed: int, stride: int):
        self._executor, self._task, self._seed, self._stride = executor, task, seed, stride
        self._made, self._spent, self._seconds, self._bound = 0, 0.0, LEG, 101
        self._future: "Optional[concurrent.futures.Future[Step]]" = None
        self._is_over = False

    def step(self, above: int) -> Step:
        """Searches a leg, and tells what it found and all that was made."""
        limit, most = self._task.limit, self._task.seconds
        seconds = self._seconds if most is None else min(self._seconds, most - self._spent)
        told = self._searched(self._task._replace(limit=None if limit is None else limit - self._made, seconds=seconds), above)
        self._made, self._spent, self._bound = self._made + told.placements, self._spent + seconds, min(self._bound, told.bound)
        self._seed, self._seconds = self._seed + self._stride, min(LONGEST_LEG, 2 * self._seconds)
        above = max(above, told.fill.grade + 1 if told.fill else 0)
        is_over = self._bound <= above or (limit is not None and self._made >= limit) or (most is not None and self._spent >= most)
        return told._replace(bound=self._bound, placements=self._made, is_over=is_over)

    def _searched(self, task: Task, above: int) -> Step:
        """What a leg tells. One that the executor loses tells nothing, and is searched again."""
        tries = 0
        while True:
            if self._is_over:
                raise concurrent.futures.CancelledError
            try:
                self._future = self._executor.submit(leg, task, self._seed, above)
                return self._future.result()
            except (Error, TypeError, ValueError):
                raise
            except Exception:
                tries += 1
                if tries == TRIES:
                    raise

    def end(self) -> None:
        self._is_over = True
        if self._future:
            self._future.cancel()


Runner = Union[_Local, _Legs]


class Race:
    """What workers, each with another seed, find together. A thread waits for each, and tells what it hears."""

    def __init__(self, task: Task, workers: int, seed: int, executor: Optional[concurrent.futures.Executor]):
        self._task, self._seeds, self._executor = task, range(seed, seed + workers), executor
        self._crew: List[Runner] = []
        self._threads: List[threading.Thread] = []
        # words below this grade are left out
        self._above, self._bound = task.least, 101
        self._fill: Optional[Best] = None
        self._placements, self._running = [0] * workers, workers
        self._reports: Tuple[str, ...] = ()
        self._died: Tuple[Died, ...] = ()

    def begin(self, tell: Callable[[News], None]) -> None:
        """Has all of them search until they end."""
        for number, seed in enumerate(self._seeds):
            self._crew.append(_Legs(self._executor, self._task, seed, len(self._seeds)) if self._executor else _Local(self._task, seed))
            self._threads.append(threading.Thread(target=self._run, args=(number, self._crew[-1], tell), daemon=True))
            self._threads[-1].start()

    def _run(self, number: int, runner: Runner, tell: Callable[[News], None]) -> None:
        """Has one of them search until it ends. Each step begins with the grade of the best fill of all."""
        try:
            is_over = False
            while not is_over:
                told = runner.step(self._above)
                is_over = told.is_over
                tell((number, told))
        except Exception as error:
            tell((number, error))

    @property
    def is_running(self) -> bool:
        """Whether there is something left to search for, and a worker that does."""
        return self._running > 0 and self._bound > self._above

    def take(self, news: News) -> None:
        number, told = news
        if isinstance(told, Died):
            self._died += (told,)
            self._running -= 1
            return
        if isinstance(told, Exception):
            raise told
        self._placements[number] = told.placements
        # Each worker searches the same lights of the same grid over the same words; the seed only orders its choices. So what a bound of one says of all
        # fills is true for each of them, also if it was told the grade of another one.
        self._bound, self._reports = min(self._bound, told.bound), told.reports
        if told.fill and (self._fill is None or (told.fill.grade, told.fill.mean) > (self._fill.grade, self._fill.mean)):
            self._fill, self._above = told.fill, told.fill.grade + 1
        self._running -= told.is_over

    @property
    def progress(self) -> Progress:
        return Progress(sum(self._placements), self._fill.grade if self._fill else None, self._bound)

    def end(self) -> None:
        """Ends all of them at once."""
        for runner in self._crew:
            runner.end()
        # a leg that an executor has begun ends by itself
        for thread in self._threads if self._executor is None else ():
            thread.join()

    def outcome(self) -> Outcome:
        """What they have found. Raises `Died` if all died before there was a fill."""
        if len(self._died) == len(self._seeds) and not self._fill:
            raise self._died[-1]
        answer: Found = "filled" if self._fill else "nofill" if self._bound <= self._task.least else "limit"
        fill = self._fill._replace(bound=self._bound) if self._fill else None
        return Outcome(answer, self._bound, fill, sum(self._placements), self._reports, self._died)


def best(
    words: WordList,
    record: Source = b"",
    workers: int = 4,
    seconds: Optional[float] = None,
    limit: Optional[int] = None,
    seed: int = 0,
    lights: Iterable[LightName] = (),
    least: int = 0,
    progress: Optional[Told] = None,
    executor: Optional[concurrent.futures.Executor] = None,
) -> Outcome:
    """Looks for the best fill of the grid of a record, or of the named lights, in so many processes, each with another seed: `seed` and those after it. A slice
    of each looks for fills that are better than the best one of all. It ends when no fill is better, when each process has searched for so many seconds or
    made so many placements, or when `progress` returns a true value; `progress` is told after each slice of each process. ^C ends all processes.

    An executor of `concurrent.futures`, or one like it, may have the processes in place of this call. Each of so many searches then sends it legs of 2 to 10
    seconds, one after another, and `progress` is told after each leg. A leg that it loses is searched again."""
    race = Race(Task(list_of(words), bytes_of(record), " ".join(map(name_of, lights)), least, limit, seconds), workers, seed, executor)
    news: "queue.SimpleQueue[News]" = queue.SimpleQueue()
    try:
        race.begin(news.put)
        while race.is_running:
            race.take(news.get())
            if progress and progress(race.progress):
                break
    finally:
        race.end()
    return race.outcome()
