"""What the tools share that compare the program: what they are called with, and sessions of the program."""
import pathlib
import subprocess
import sys
from typing import NamedTuple

TOP = pathlib.Path(__file__).resolve().parent.parent


class Call(NamedTuple):
    """How many positions or edits a tool compares, the first seed, and the program."""

    count: int
    seed: int
    program: pathlib.Path


def called(count):
    """What the tool is called with: [COUNT [SEED [PROGRAM]]]. The program is that of ./xw unless it is given."""
    words = sys.argv[1:]
    program = pathlib.Path(words[2]).resolve() if len(words) > 2 else TOP / "crates/xw/out/xw"
    if len(words) < 3:
        # builds the program if that is due
        subprocess.run([TOP / "xw", "--help"], check=True, stdout=subprocess.DEVNULL)
    return Call(int(words[0]) if words else count, int(words[1]) if len(words) > 1 else 1, program)


def answered(program, lines):
    """What the program answers to these lines."""
    return subprocess.run([program, "edit"], input="".join(f"{line}\n" for line in lines), capture_output=True, text=True).stdout
