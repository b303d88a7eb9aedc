"""`fill_many` and `best` for programs with `asyncio`: an event loop goes on while processes search. A task that is cancelled ends them.

    from xw import aio

    found = await aio.best(words, record, workers=4, seconds=10)
    async for filled in aio.fill_many(puzzles, words, workers=4):
        ...
"""
from __future__ import annotations

import asyncio
import concurrent.futures
import contextlib
import inspect
from typing import Any, AsyncIterator, Callable, Iterable, Optional, TypeVar, Union

from . import many, race
from .answers import LightName
from .lists import Puzzle, Source, WordList, bytes_of, list_of
from .session import Told, name_of

__all__ = ["best", "fill_many"]

Result = TypeVar("Result")


async def _in_thread(call: Callable[..., Result], *given: Any) -> Result:
    """Has a call done that takes its time, such as reading a word list."""
    return await asyncio.get_running_loop().run_in_executor(None, lambda: call(*given))


def _caller(call: Callable[..., Any]) -> Callable[..., None]:
    """Has a call made in the loop of this task, from another thread; not any more once the loop is closed."""
    loop = asyncio.get_running_loop()

    def called(*given: Any) -> None:
        with contextlib.suppress(RuntimeError):
            loop.call_soon_threadsafe(call, *given)

    return called


async def _wait_for(future: "concurrent.futures.Future[Any]") -> None:
    """Waits until a future is done, whatever it has."""
    is_done = asyncio.Event()
    set_done = _caller(is_done.set)
    future.add_done_callback(lambda _: set_done())
    await is_done.wait()


async def fill_many(
    puzzles: Iterable[Union[Source, Puzzle]],
    words: WordList,
    workers: int = 4,
    limit: Optional[int] = None,
    seed: int = 0,
    seconds: Optional[float] = None,
    executor: Optional[concurrent.futures.Executor] = None,
) -> AsyncIterator[many.Filled]:
    """Yields what `xw.fill_many` yields. If the loop is left, or its task is cancelled, all processes end."""
    options = {"limit": limit, "seed": seed, "seconds": seconds}
    batch = await _in_thread(many.Batch, puzzles, words, workers, options, executor)
    try:
        for part, future in batch.begin():
            await _wait_for(future)
            for filled in batch.in_order(many.done(part, future)):
                yield filled
        for filled in batch.rest():
            yield filled
    finally:
        batch.end()


async def best(
    words: WordList,
    record: Source = b"",
    workers: int = 4,
    seconds: Optional[float] = None,
    limit: Optional[int] = None,
    seed: int = 0,
    lights: Iterable[LightName] = (),
    least: int = 0,
    progress: Optional[Told] = None,
    executor: Optional[concurrent.futures.Executor] = None,
) -> race.Outcome:
    """Returns what `xw.best` returns. `progress` is called in the event loop, and may be a coroutine. If the task is cancelled, all processes end."""
    news: "asyncio.Queue[race.News]" = asyncio.Queue()
    task = race.Task(await _in_thread(list_of, words), await _in_thread(bytes_of, record), " ".join(map(name_of, lights)), least, limit, seconds)
    running = race.Race(task, workers, seed, executor)
    try:
        running.begin(_caller(news.put_nowait))
        while running.is_running:
            running.take(await news.get())
            is_end = progress(running.progress) if progress else None
            if await is_end if inspect.isawaitable(is_end) else is_end:
                break
    finally:
        running.end()
    return running.outcome()
