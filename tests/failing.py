"""Runs of the program in which calls of the system fail, by fail.c, which is preloaded."""
import errno
import subprocess

from preload import library
from steps import SECONDS, compare

# The calls that are counted.
INPUT, OUTPUT, FILES = "i", "o", "f"

# The last call to fail, where all that follow the first one fail.
ALL = (1 << 64) - 1


class Failing:
    """A run in which the calls of one kind from `first` to `last`, counted from 1, fail with an error, or do nothing if it is 0. Each read
    of the input and each write takes at most `piece` bytes, if that is not 0."""

    def __init__(self, room, program, words, typed=b"", kind=FILES, first=0, last=0, error=errno.ENOSPC, piece=0):
        log = room / ".calls"
        log.unlink(missing_ok=True)
        env = {"LD_PRELOAD": library("fail"), "FAIL": f"{kind} {first} {last} {error} {piece}", "FAIL_LOG": str(log)}
        how = {"executable": program, "cwd": room, "env": env, "input": typed, "capture_output": True, "timeout": SECONDS}
        ended = subprocess.run(["xw", *words.split()], **how)
        self.status, self.output, self.errors = ended.returncode, ended.stdout, ended.stderr
        self.calls = log.read_text().splitlines()
        log.unlink()
        self.failed = [call[1:] for call in self.calls if call.startswith("!")]
        self.what = f"xw {words}, {kind} {first}{'..' if last == ALL else ''} {self.failed[:1]}"

    def ends(self, status, output, errors):
        compare(f"status, output and messages of {self.what}", (self.status, self.output, self.errors), (status, output, errors))


def each_failing(make):
    """The runs that `make(first, last)` makes, with each call failing in turn: alone, and with all that follow. Each time the last run is one
    in which none fails."""
    for is_alone in (True, False):
        first = 1
        while (ended := make(first, first if is_alone else ALL)).failed:
            yield ended
            first += 1
        yield ended
