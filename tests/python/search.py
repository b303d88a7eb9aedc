"""Searches by the Python package, and tells each step, as tests/c/search.c.

python3 search.py WORDS RECORD autofill|best LIMIT STOP SEED [LIGHTS]

The slices of the package go by the clock. This one has the slices of xw_lines.h: twice as many placements after every five.
"""
import itertools
import os
import pathlib
import sys

import xw.slices
from xw import Refusal, Session

# how long a slice may take: a number that is exact, and so are its sums
SECONDS = 0.125


def times():
    """When each slice begins and ends: one takes as long as it may, and each fifth half as long."""
    now = 0
    for slice in itertools.count(1):
        yield now
        now += SECONDS if slice % 5 else SECONDS / 2
        yield now


def search(session, kind, limit, stop, seed, lights):
    told = []

    def progress(step):
        print(step.placements, -1 if step.grade is None else step.grade, step.bound)
        told.append(step)
        return len(told) == stop

    seconds = int(os.environ.get("MILLISECONDS", 0)) / 1000 or None
    options = {"limit": limit or None, "seed": seed, "lights": lights, "progress": progress, "every": SECONDS, "seconds": seconds}
    if kind == "autofill":
        print(session.autofill(**options))
        return
    fills = session.best(**options)
    try:
        while True:
            next(fills)
    except StopIteration as end:
        print(end.value)


def main(words, record, kind, limit, stop, seed, lights=""):
    xw.slices.clock = times().__next__
    with Session(words=pathlib.Path(words), record=pathlib.Path(record)) as session:
        try:
            search(session, kind, int(limit), int(stop), int(seed), [lights] if lights else [])
        except Refusal:
            print("Refused")
        print(*session.show(), sep="\n")


if __name__ == "__main__":
    main(*sys.argv[1:])
