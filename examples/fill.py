#!/usr/bin/env python3
"""An example for the Python package: fills a grid with the best words that it finds, and prints it with a bound.

usage: examples/fill.py WORDS RECORD [--seconds S] [--puz FILE]

WORDS is a word list, best with grades. RECORD is a file of commands that make the grid, such as examples/starter15.xw.
"""
import argparse
import pathlib
import sys

from xw import Session


def fill(session, seconds):
    """Fills the grid for so many seconds. Returns the last fill, or None."""
    found = None
    for found in session.best(seconds=seconds):
        print(f"worst word {found.grade}, mean {found.mean:.1f}; no fill has {found.bound} or better", file=sys.stderr)
    return found


def main():
    parser = argparse.ArgumentParser(description=__doc__, formatter_class=argparse.RawDescriptionHelpFormatter)
    parser.add_argument("words", type=pathlib.Path, help="a word list")
    parser.add_argument("record", type=pathlib.Path, help="the commands that make the grid")
    parser.add_argument("--seconds", metavar="S", type=float, default=2, help="how long the search may take (default: %(default)s)")
    parser.add_argument("--puz", metavar="FILE", type=pathlib.Path, help="the file to write")
    options = parser.parse_args()
    with Session(words=options.words, record=options.record) as session:
        if not fill(session, options.seconds):
            sys.exit("no fill was found")
        print(*session.show(), sep="\n")
        if options.puz:
            options.puz.write_bytes(session.to_puz())


if __name__ == "__main__":
    main()
