"""The searches of `examples/`: one that is stopped, and a race of processes."""
import os
import subprocess
import sys

from documents import TOP
from sessions.slices import drawn
from steps import SECONDS, compare

# The words of a fill of an open grid of 5 by 5, and the two fills: one is the other with across and down exchanged.
WORDS = b"shade\nladed\nalong\ngorse\nsneer\nslags\nhalon\nadore\ndense\nedger\n"
ACROSS = ["S H A D E", "L A D E D", "A L O N G", "G O R S E", "S N E E R"]
DOWN = ["S L A G S", "H A L O N", "A D O R E", "D E N S E", "E D G E R"]


def ends(example, *words, output, list=WORDS, record=b"size 5 5\n", is_stopped=True):
    """Runs an example on a list and a record, and checks its output, or that it is one of some outputs. Without input a search is stopped after
    a slice; otherwise its input stays open."""

    def step(room, program):
        (room / "words.txt").write_bytes(list)
        (room / "grid.xw").write_bytes(record)
        asked = [sys.executable, TOP / "examples" / example, "words.txt", "grid.xw", "--xw", program, *words]
        source, kept = os.pipe()
        with os.fdopen(source) as source, os.fdopen(kept, "w"):
            stdin = subprocess.DEVNULL if is_stopped else source
            ended = subprocess.run(asked, cwd=room, stdin=stdin, capture_output=True, timeout=SECONDS)
        lines = ended.stdout.decode().splitlines()
        assert lines in output, f"output of {example}: {lines}, {ended.stderr.decode()}"
        compare("status", ended.returncode, 0)

    return [step]


FILLED = [[*ACROSS, "filled"], [*DOWN, "filled"]]
CASES = {
    "a search fills": ends("search.py", output=FILLED),
    "a search is stopped after a slice": ends("search.py", "--slice", "0", output=[["stopped"]]),
    "a search finds that there is no fill": ends("search.py", list=WORDS[6:], output=[["nofill"]]),
    # Slices of one length would never find it.
    "a search finds that there is no fill, in longer slices": ends(
        "search.py", "--slice", "1000", list=drawn(200, 5, "ABCDEFGHI"), output=[["nofill"]], is_stopped=False
    ),
    "a race fills": ends("race.py", "--processes", "3", output=FILLED),
    "a race fills what is left": ends("race.py", "--processes", "2", record=b"size 5 5\nset 1 2 L\n", output=FILLED[1:]),
    "a race finds that there is no fill": ends("race.py", "--processes", "2", list=WORDS[6:], output=[["nofill"]]),
}
