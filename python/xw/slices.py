"""Searches in slices. No command stops a search that runs, so each one is sent with some of its placements after another."""
from __future__ import annotations

import time
from typing import Callable, Optional, TypeVar

Result = TypeVar("Result")

# The placements of the first slice, and the fewest of any: each slice begins at the grid again, and one with too few cannot fill a large grid.
FEWEST = 1000
# The most in a second: a slice that ended early says little of the next.
FASTEST = 1_000_000
# How long a slice takes, in seconds, and the part of the time so far that it may take instead where nothing is told between slices: only a search whose
# slices grow is sure to end.
SECONDS, PART = 0.1, 0.1

clock = time.monotonic


class Slices:
    """The slices of a search, which has `limit` placements in all, or any number. Each takes about `every` seconds: it has as many placements as the last one
    made in this time, at most twice as many as the last one, and 1,000 at least. Without `every` the slices get longer with the search. No slice begins
    after `seconds` of search."""

    def __init__(self, limit: Optional[int], every: Optional[float], seconds: Optional[float] = None):
        if seconds is not None and not seconds > 0:
            raise ValueError(f"seconds is {seconds!r}, which is no time above 0")
        self._limit, self._every, self._seconds = limit, every, seconds
        self._due, self._spent = FEWEST, 0.0
        # at most so many placements were made
        self.made = 0

    def run(self, search: Callable[[int], Result]) -> Result:
        """Runs a slice, and returns what it found. The time between two slices does not count."""
        placements = self._due if self._limit is None else min(self._due, self._limit - self.made)
        began = clock()
        found = search(placements)
        taken = clock() - began
        self.made += placements
        self._spent += taken
        self._due = self._after(placements, taken)
        return found

    def _after(self, placements: int, taken: float) -> int:
        """The placements of the slice after one that took so long."""
        seconds = max(SECONDS, PART * self._spent) if self._every is None else self._every
        if self._seconds is not None:
            # the last one ends about when the time is over
            seconds = max(0.0, min(seconds, self._seconds - self._spent))
        growth = min(2.0, seconds / taken) if taken > 0 else 2.0
        return max(FEWEST, min(round(placements * growth), round(seconds * FASTEST)))

    @property
    def is_over(self) -> bool:
        """Whether all placements are made, or the time is over."""
        return (self._limit is not None and self.made >= self._limit) or (self._seconds is not None and self._spent >= self._seconds)
