#!/usr/bin/env python3
"""An example of a search that can be stopped: fills a grid in slices, by `xw edit` behind a pair of pipes.

usage: examples/search.py WORDS RECORD [--slice K] [--xw PROGRAM]

RECORD is a file of commands, such as examples/starter15.xw or what `--save` wrote. The first slices have K placements. A line on standard
input stops the search, and so does its end. The last line is `filled`, `nofill` or `stopped`; after `filled` the grid stands above it.
"""
import argparse
import itertools
import pathlib
import select
import shutil
import subprocess
import sys

TOP = pathlib.Path(__file__).resolve().parent.parent
# With another seed the search takes another way, and may fill the grid otherwise.
SEED = 0
# After so many slices they get twice as long. Each slice begins at the grid, so one that is too short for a hard grid never ends the search.
SLICES = 5


class Session(subprocess.Popen):
    """`xw edit` on a word list and the commands of a file."""

    def __init__(self, program, words, record):
        call = [program, "edit", "--dict", words, "--resume", record]
        streams = {"stdin": subprocess.PIPE, "stdout": subprocess.PIPE}
        super().__init__(call, encoding="cp1252", errors="surrogateescape", **streams)

    def ask(self, command):
        """The lines that answer a command."""
        print(command, file=self.stdin, flush=True)
        lines = []
        for line in self.stdout:
            line = line.rstrip("\n")
            if line == "ok":
                return lines
            if line.startswith("no "):
                raise RuntimeError(f"{command}: {line}")
            lines.append(line)
        raise EOFError


def is_stopped():
    """Whether there is a line on standard input, or its end."""
    return bool(select.select([sys.stdin], [], [], 0)[0])


def search(session, placements, is_stopped):
    """Fills the grid in slices, the first ones of so many placements. Returns `filled`, `nofill` or `stopped`."""
    for number in itertools.count():
        # goes on with what the slices before it learned
        (answer,) = session.ask(f"autofill {placements * 2 ** (number // SLICES)} {SEED}")
        if answer != "limit":
            return answer
        print(f"slice {number + 1}: no fill yet", file=sys.stderr)
        if is_stopped():
            return "stopped"


def main():
    parser = argparse.ArgumentParser(description=__doc__, formatter_class=argparse.RawDescriptionHelpFormatter)
    parser.add_argument("words", help="a word list")
    parser.add_argument("record", help="the commands that make the grid")
    parser.add_argument("--slice", metavar="K", type=int, default=2000, help="placements of the first slices (default: %(default)s)")
    parser.add_argument("--xw", metavar="PROGRAM", default=shutil.which("xw", path=TOP) or "xw", help="the program (default: %(default)s)")
    options = parser.parse_args()
    with Session(options.xw, options.words, options.record) as session:
        answer = search(session, options.slice, is_stopped)
        if answer == "filled":
            print(*session.ask("show"), sep="\n")
    print(answer)


if __name__ == "__main__":
    main()
