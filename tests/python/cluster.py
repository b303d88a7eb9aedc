"""Many grids and a race on a cluster: a scheduler and two workers of Dask as separate processes, one of which is killed in the middle.

python3 tests/python/cluster.py ROOM

It needs Debian's python3-distributed, and its Python. The package, its library and `deadly` are found by PYTHONPATH and XW_LIBRARY. What is not as it should be raises
an AssertionError.
"""
import contextlib
import pathlib
import subprocess
import sys

import deadly
import xw
from distributed import Client

SQUARE = ["as", "at", "so", "to"]
SCORED = [("as", 90), ("at", 80), ("so", 60), ("to", 70), ("ti", 50), ("si", 40)]
PUZZLES = [b"size 2 2\n", b"size 2 2\nset 1 1 X\n", b"size 2 2\nset 1 2 S\n", b"size 3 3\n"] * 6
ANSWERS = ["filled", "nofill"] * 12


@contextlib.contextmanager
def started(*words):
    """A process of Dask, which is ended at last."""
    process = subprocess.Popen([sys.executable, "-m", *map(str, words)], stderr=subprocess.DEVNULL)
    try:
        yield process
    finally:
        process.kill()
        process.wait()


def worker(place):
    return started("distributed.cli.dask_worker", "--scheduler-file", place, "--nthreads", 1, "--no-nanny", "--no-dashboard", "--host", "127.0.0.1")


def has_one_line(path):
    return path.read_text().count("\n") == 1


def fills_each_puzzle_once(client, room):
    client.run(deadly.patch)
    puzzles = [*PUZZLES[:9], PUZZLES[0] + b"# once %s\n" % bytes(room / "fills"), *PUZZLES[10:]]
    with client.get_executor() as executor:
        found = list(xw.fill_many(puzzles, SQUARE, workers=2, executor=executor))
    assert has_one_line(room / "fills"), "no worker was killed"
    assert [it.number for it in found] == list(range(len(puzzles))), found
    expected = [*ANSWERS[:9], "filled", *ANSWERS[10:]]
    assert [it.answer for it in found] == expected and not any(it.error for it in found), found


def finds_the_best(client, room):
    """One search, so that the placements do not depend on which of two ends first."""
    client.run(deadly.patch)
    made = []
    for title in (room / "race", room / "race"):
        with client.get_executor() as executor:
            found = xw.best(SCORED, b"size 2 2\ntitle %s\n" % bytes(title), workers=1, executor=executor)
        assert (found.answer, found.fill.grade, found.bound, found.is_best) == ("filled", 60, 61, True), found
        made.append(found.placements)
    # the worker died in the first search, and its leg counts once
    assert has_one_line(room / "race") and made[0] == made[1], made


def main(room):
    place = room / "scheduler.json"
    with started("distributed.cli.dask_scheduler", "--host", "127.0.0.1", "--port", 0, "--no-dashboard", "--scheduler-file", place):
        for test in (fills_each_puzzle_once, finds_the_best):
            with worker(place), worker(place), Client(scheduler_file=str(place), timeout=600) as client:
                client.wait_for_workers(2)
                test(client, room)


if __name__ == "__main__":
    main(pathlib.Path(sys.argv[1]))
