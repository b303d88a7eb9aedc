#!/usr/bin/env python3
"""An example of a race: several processes search for a fill of one grid with different seeds, and the first that ends wins.

usage: examples/race.py WORDS RECORD [--processes N] [--limit K] [--xw PROGRAM]

RECORD is a file of commands, such as examples/starter15.xw or what `--save` wrote. A session resumes it, and hands its record to N more
sessions, one for each processor by default. Their first `filled` or `nofill` decides. The letters of the fill are entered into the session by
`set`, and the other processes are ended. The last line is `filled` or `nofill`; after `filled` the grid stands above it.
"""
import argparse
import os
import pathlib
import selectors
import shutil
import subprocess

TOP = pathlib.Path(__file__).resolve().parent.parent


class Session(subprocess.Popen):
    """`xw edit` on a word list."""

    def __init__(self, program, words, *more):
        call = [program, "edit", "--dict", words, *more]
        streams = {"stdin": subprocess.PIPE, "stdout": subprocess.PIPE, "stderr": subprocess.DEVNULL}
        super().__init__(call, encoding="cp1252", errors="surrogateescape", **streams)

    def send(self, command):
        print(command, file=self.stdin, flush=True)

    def answer(self):
        """The lines of the next answer."""
        lines = []
        for line in self.stdout:
            line = line.rstrip("\n")
            if line == "ok":
                return lines
            if line.startswith("no "):
                raise RuntimeError(line)
            lines.append(line)
        raise EOFError

    def ask(self, command):
        self.send(command)
        return self.answer()

    def grid(self):
        """The contents of each cell, by its coordinates."""
        rows = [line[::2] for line in self.ask("show") if "=" not in line]
        return {(row, column): entry for row, line in enumerate(rows, 1) for column, entry in enumerate(line, 1)}


def race(racers, limit):
    """Searches with a seed for each racer, which goes on with it when it comes to the limit. Returns the winner and its answer."""
    with selectors.DefaultSelector() as answering:
        for seed, racer in enumerate(racers):
            racer.search = f"autofill {limit} {seed}"
            racer.send(racer.search)
            answering.register(racer.stdout, selectors.EVENT_READ, racer)
        while True:
            for key, _ in answering.select():
                (answer,) = key.data.answer()
                if answer != "limit":
                    return key.data, answer
                key.data.send(key.data.search)


def fill(session, racers, limit):
    """Fills the grid of a session by a race. Returns `filled` or `nofill`."""
    record = session.ask("record")
    for racer in racers:
        for command in record:
            racer.ask(command)
    winner, answer = race(racers, limit)
    if answer == "filled":
        before = session.grid()
        for (row, column), entry in winner.grid().items():
            if entry != before[row, column]:
                session.ask(f"set {row} {column} {entry}")
    return answer


def main():
    parser = argparse.ArgumentParser(description=__doc__, formatter_class=argparse.RawDescriptionHelpFormatter)
    parser.add_argument("words", help="a word list")
    parser.add_argument("record", help="the commands that make the grid")
    parser.add_argument("--processes", metavar="N", type=int, default=os.cpu_count(), help="how many race (default: %(default)s)")
    parser.add_argument("--limit", metavar="K", type=int, default=1000000, help="placements with one seed (default: %(default)s)")
    parser.add_argument("--xw", metavar="PROGRAM", default=shutil.which("xw", path=TOP) or "xw", help="the program (default: %(default)s)")
    options = parser.parse_args()
    session = Session(options.xw, options.words, "--resume", options.record)
    session.ask("stats")  # builds the program, if it is ./xw and not up to date, before the racers start
    racers = [Session(options.xw, options.words) for _ in range(options.processes)]
    try:
        answer = fill(session, racers, options.limit)
        if answer == "filled":
            print(*session.ask("show"), sep="\n")
        print(answer)
    finally:
        for one in [session, *racers]:
            one.kill()
            one.wait()


if __name__ == "__main__":
    main()
