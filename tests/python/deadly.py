"""Calls for workers that die, or wait for ever. A worker finds this module beside the tests."""
import os
import pathlib
import re
import signal
import threading

import xw.many
import xw.race
from xw import Session
from xw.many import fill_one
from xw.race import step


__all__ = ["Session", "die", "fill_or_die", "step_or_die", "step_or_wait"]


def path_in(record, word):
    """The path after a word in a comment of a record."""
    found = re.search(rb"^# %s (.*)$" % word, record, re.M)
    return pathlib.Path(os.fsdecode(found[1])) if found else None


def fill_or_die(session, number, record, options):
    """Fills a puzzle. With `# once PATH` in its record the first worker that gets it dies, with `# always PATH` each one, and with `# wait PATH` it waits. The
    file has a line for each of them."""
    for word in (b"once", b"always", b"wait"):
        path = path_in(record, word)
        if not path or (word == b"once" and path.exists()):
            continue
        with open(path, "a") as file:
            file.write(f"{os.getpid()}\n")
        if word == b"wait":
            threading.Event().wait()
        os.kill(os.getpid(), signal.SIGKILL)
    return fill_one(session, number, record, options)


def step_or_die(racer, above):
    """Searches a slice of a race. The worker with the seed 1 dies in its second one."""
    if racer.climb.seed == 1 and racer.slices.made:
        die()
    return step(racer, above)


def step_or_wait(racer, above):
    """Waits for ever, after the process is noted in the file that the title of the puzzle names."""
    with open(racer.climb.session.texts()["title"], "a") as file:
        file.write(f"{os.getpid()}\n")
    threading.Event().wait()


def step_or_die_once(racer, above):
    """Searches a slice of a race. The first worker to do so dies, after it is noted in the file that the title of the puzzle names."""
    path = pathlib.Path(racer.climb.session.texts()["title"])
    if not path.exists():
        path.write_text(f"{os.getpid()}\n")
        die()
    return step(racer, above)


def patch():
    """Has this process fill and search with the calls above."""
    xw.many.fill_one, xw.race.step = fill_or_die, step_or_die_once


def die(*_):
    os.kill(os.getpid(), signal.SIGKILL)
