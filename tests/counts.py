#!/usr/bin/env python3
"""Sums what checks counted, and prints the last line: 'N passed, M failed', and ', K skipped' after it if some were skipped.

usage: tests/counts.py [--named] [--complete] LOG..

Each log ends with such a line; one that does not counts as a failure. Its lines 'skipped: CHECK: REASON', after a name or not, are the skipped checks.
With --named these are printed again before the last line, and the command that installs what they need; and so are lines that begin with FAILED or FAIL, after a
name or not. With --complete a skipped check counts as failed. The status is 0 if none failed.
"""
import argparse
import pathlib
import re
import sys
import traceback

sys.dont_write_bytecode = True

from needs import Skipped, packages

LAST = re.compile(r"(\d+) passed, (\d+) failed(?:, (\d+) skipped)?")
SKIPPED = re.compile(r"(.*: )?skipped: (.*)")
FAILED = re.compile(r"(?:.*: )?FAIL(?:ED)?:? .*")


def last_line(passed, failed, skipped):
    """The last line of a check that counts."""
    return f"{passed} passed, {failed} failed" + (f", {skipped} skipped" if skipped else "")


def reason_of(error):
    """What a case found, or where it stopped if it says no more."""
    return error if isinstance(error, AssertionError) and str(error) else f"{error!r}\n{traceback.format_exc()}"


def run_cases(cases):
    """Runs cases, which are functions by their names. Prints what went wrong, what was skipped, and the last line. Returns the exit status."""
    passed = failed = skipped = 0
    for name, case in cases.items():
        try:
            case()
            passed += 1
        except Skipped as reason:
            skipped += 1
            print(f"skipped: {name}: {reason}")
        except Exception as error:
            failed += 1
            print(f"FAILED {name}: {reason_of(error)}")
    print(last_line(passed, failed, skipped))
    return int(failed > 0 or passed + skipped == 0)


def numbers(lines):
    """What a log says at its end."""
    found = LAST.fullmatch(lines[-1]) if lines else None
    return [int(it or 0) for it in found.groups()] if found else [0, 1, 0]


def name_skipped(logs):
    for name, lines in logs.items():
        for before, skipped in (found.groups() for found in map(SKIPPED.fullmatch, lines) if found):
            print(f"skipped: {name}: {before or ''}{skipped}")
    if packages():
        print(f"to run what was skipped: apt-get install --no-install-recommends {' '.join(packages())}")


def name_failed(logs):
    for name, lines in logs.items():
        for line in filter(FAILED.fullmatch, lines):
            print(f"{name}: {line}")


def main():
    parser = argparse.ArgumentParser(description=__doc__, formatter_class=argparse.RawDescriptionHelpFormatter)
    parser.add_argument("logs", metavar="LOG", nargs="+", type=pathlib.Path)
    parser.add_argument("--named", action="store_true")
    parser.add_argument("--complete", action="store_true")
    options = parser.parse_args()
    logs = {path.name: path.read_text(errors="replace").splitlines() for path in options.logs}
    passed, failed, skipped = map(sum, zip(*map(numbers, logs.values())))
    if skipped and options.named:
        name_skipped({name: lines for name, lines in logs.items() if numbers(lines)[2]})
    if failed and options.named:
        name_failed(logs)
    if options.complete:
        failed, skipped = failed + skipped, 0
    print(last_line(passed, failed, skipped))
    return int(failed > 0)


if __name__ == "__main__":
    sys.exit(main())
