#!/usr/bin/env python3
"""Runs the board with keys from a file and compares its last screen with a screen written by hand; and once in a terminal.

usage: examples/test_board.py [PROGRAM]   (the program that the board drives: by default ./xw, or xw on the PATH)

Most cases use a lattice of 5 by 5 with six lights, which cross in letters 1, 3 and 5 of their words. SHADE and STARE have S A E
there, ALONE and ATONE have A O E, ELEGY and ENEMY have E E Y. So each of these pairs is feasible in two lights, and TABLE in none.
The last line is 'N passed, M failed'.
"""
import os
import pathlib
import pty
import shutil
import signal
import subprocess
import sys
import tempfile

EXAMPLES = pathlib.Path(__file__).resolve().parent
WORDS = "table shade stare alone atone elegy enemy"
# ADOBE has A O E, too, so that ALONE is not needed.
GRADED = "shade;80 stare;70 alone;60 atone;90 adobe;75 elegy;85 enemy;95"
LATTICE = "down right # right right # up left left left "

FIRST = """
>1s. -.2a. -.3e
  -  #  -  #  -
 4a  -  o  n  e
  -  #  n  #  -
 5e  -  e  -  y

1 across, feasible 2: SHADE STARE
letters: S
without a word: none
least grade: 0; worst word: none
"""

FILLED = """
>1S. H.2A. D.3E
  T  #  L  #  L
 4A  T  O  N  E
  R  #  N  #  G
 5E  N  E  M  Y

1 across, feasible 1: SHADE
letters: S
without a word: none
least grade: 0; worst word: 50, 1 across
"""

DEAD = """
.1X> !.2!. !.3!
  !  #  !  #  !
 4!  !  !  !  !
  !  #  !  #  !
 5!  !  !  !  !

1 across, feasible 0:
letters: -
without a word: 1 across, 1 down, 2 down, 3 down, 4 across, 5 across
least grade: 0; worst word: none
"""

# what the case shows, its keys, its screen
CASES = [
    ("blocks are toggled with their images, and a letter that is forced is drawn small", LATTICE, FIRST),
    ("two letters leave one word, and so one letter in the fourth cell", LATTICE + "S h", """
.1S. H>2a. d.3e
  -  #  -  #  -
 4a  -  o  n  e
  -  #  n  #  -
 5e  -  e  -  y

1 across, feasible 1: SHADE
letters: A
without a word: none
least grade: 0; worst word: none
"""),
    ("tab turns to the light down", LATTICE + "tab S", """
.1S  - 2a  - 3e
v -  #  -  #  -
.4a  -  o  n  e
. -  #  n  #  -
.5e  -  e  -  y

1 down, feasible 2: SHADE STARE
letters: HT
without a word: none
least grade: 0; worst word: none
"""),
    ("the last letter is taken back", LATTICE + "S H ^Z left left", FIRST.replace("1s", "1S")),
    ("backspace steps back and empties, space empties and steps on", LATTICE + "S H backspace left space left", FIRST),
    ("no word has this letter, so no cell of the lattice has one that is feasible", LATTICE + "X", DEAD),
    ("nor has a cell that had some before it was a block; the watch does not tell it", LATTICE + "right # left X #", DEAD),
    ("a block is opened, with lights of three cells and no such words; the watch does not tell the opened cells",
     LATTICE + "right right right down #", """
 1!  ! 2!.3! 4!
  !  # 5!v !  !
 6! 7!  !. !  !
 8!  !  !  #  !
 9!  !  !  !  !

3 down, feasible 0:
letters: -
without a word: 1 across, 1 down, 2 down, 3 down, 4 down, 5 across, 6 across, 7 down, 8 across, 9 across
least grade: 0; worst word: none
"""),
    ("a block that was opened is closed again by undo", LATTICE + "right right right down # ^Z up left left left", FIRST),
    ("a letter at the image is in the way of a block", LATTICE + "S down down down down right right right #", """
 1S  - 2a  - 3e
  -  #  -  #  -
 4a  -  o  n  e
  -  #  n  #  -
.5e. -. e. -> y

5 across, feasible 2: ELEGY ENEMY
letters: Y
without a word: none
least grade: 0; worst word: none
a letter stands where a block would
"""),
    ("a block takes no letter, and no light goes through it", LATTICE + "down right A", """
 1s  - 2a  - 3e
  -> #  -  #  -
 4a  -  o  n  e
  -  #  n  #  -
 5e  -  e  -  y

without a word: none
least grade: 0; worst word: none
a block is here
"""),
    ("the next word is for the first of the lights with the fewest words", LATTICE + "down down down right ?",
     FIRST + "SHADE? enter places it\n"),
    ("enter places it; a repeat has no bearing on what is feasible", LATTICE + "enter", """
>1S. H.2A. D.3E
  -  #  -  #  -
 4a  -  o  n  e
  -  #  n  #  -
 5e  -  e  -  y

1 across, feasible 1: SHADE
letters: S
without a word: none
least grade: 0; worst word: 50, 1 across
"""),
    ("a light without words is gone to", LATTICE + "X down down ?",
     DEAD.replace(".1X> !", ">1X. !") + "no word fits here\n"),
    ("the letter that leaves no word is marked", LATTICE + "X !", DEAD.replace(".1X>", "*1X>") + "these letters leave no word\n"),
    ("with words in all lights none is", LATTICE + "!", FIRST + "each light here has a word\n"),
    ("and there is no fill", LATTICE + "X ^F", DEAD + "there is no fill\n"),
    ("a fill takes the words in their order, and none twice", LATTICE + "^F", FILLED + "filled\n"),
    ("after it every light is entered", LATTICE + "^F ?", FILLED + "every light is entered\n"),
    ("a letter of it that is emptied is the only one that is feasible there", LATTICE + "^F right space left left",
     FILLED.replace(" H", " h").replace("50, 1 across", "50, 1 down")),
    ("another search finds that there is none, too", LATTICE + "X ^A", DEAD + "there is no fill\n"),
    ("and finds the only letter of a cell", LATTICE + "^F right space left left ^A", FILLED + "filled\n"),
    ("a fill is one edit", LATTICE + "^F ^Z", FIRST),
    ("undo goes back to the empty grid, and no further; there no word fits all five lights down that it crosses",
     LATTICE + "S H ^F left left ^Z ^Z ^Z ^Z ^Z ^Z ^Z", """
>1!.2!.3!.4!.5!
 6!  !  !  !  !
 7!  !  !  !  !
 8!  !  !  !  !
 9!  !  !  !  !

1 across, feasible 0:
letters: -
without a word: 1 across, 1 down, 2 down, 3 down, 4 down, 5 down, 6 across, 7 across, 8 across, 9 across
least grade: 0; worst word: none
"""),
]

# these letters leave one place to each word but ALONE and ADOBE
FORCED = LATTICE + "S {} down down left T down down left N up up up up left left left "

BEST = """
>1S. H.2A. D.3E
  T  #  D  #  L
 4A  T  O  N  E
  R  #  B  #  G
 5E  N  E  M  Y

1 across, feasible 1: SHADE
letters: S
without a word: none
least grade: 0; worst word: 70, 1 down
the worst new word has grade 70, and no fill is better
"""

# what the case shows, the keys that make its grid, its other keys, its screen; with the list that has grades
GRADED_CASES = [
    ("the best fill has ADOBE in place of ALONE; none is better, since STARE is needed", FORCED.format("H"), "^B", BEST),
    ("the letters S T fit no word that is better than STARE", FORCED.format("T"), "^B", """
>1S. T.2A. R.3E
  H  #  D  #  L
 4A  T  O  N  E
  D  #  B  #  G
 5E  N  E  M  Y

1 across, feasible 1: STARE
letters: S
without a word: none
least grade: 0; worst word: 70, 1 across
the worst new word has grade 70, and no fill is better: 1 across fits none of 71 or better
"""),
    ("the best fill is one edit", FORCED.format("H"), "^B ^Z ^B", BEST),
    ("after it no cell is left to fill", FORCED.format("H"), "^B ^B", BEST.replace("\nthe worst new word has grade 70, and no fill is better", "\nevery light is entered")),
    ("there is no best fill", LATTICE, "X ^B", DEAD + "there is no fill\n"),
    ("words below the least grade are left out, so TABLE and ALONE are", LATTICE + "S down down left ", "+ + + + + + +", """
 1S  - 2a  - 3e
  -  #  -  #  -
>4a. -. o. -. e
  -  #  -  #  -
 5e  -  e  -  y

4 across, feasible 2: ATONE ADOBE
letters: A
without a word: none
least grade: 70; worst word: none
"""),
    ("the best fill has no word below it, and a fill with better ones only is not looked for", FORCED.format("H"), "+ + + + + + + ^B",
     BEST.replace("least grade: 0", "least grade: 70")),
    ("at 90 no word is left for the lights with an S", LATTICE, "+ + + + + + + + +", """
>1!. !.2!. !.3!
  !  #  !  #  !
 4!  !  !  !  !
  !  #  !  #  !
 5!  !  !  !  !

1 across, feasible 0:
letters: -
without a word: 1 across, 1 down, 2 down, 3 down, 4 across, 5 across
least grade: 90; worst word: none
"""),
    ("the least grade is lowered again, and taken back by undo", FORCED.format("H"), "+ + + - ^Z ^Z ^Z ^Z ^B", BEST),
]

LOG = """\
size 5 5
sym half
block 2 2
block 2 4
set 1 1 S
set 1 2 H
set 1 3 A
set 1 4 D
set 1 5 E
set 2 1 T
set 2 3 L
set 2 5 L
set 3 1 A
set 3 2 T
set 3 3 O
set 3 4 N
set 3 5 E
set 4 1 R
set 4 3 N
set 4 5 G
set 5 1 E
set 5 2 N
set 5 3 E
set 5 4 M
set 5 5 Y
"""


class Folder:
    """A folder with a word list in which the board runs."""

    def __init__(self, name, program, words=WORDS):
        self.path, self.program = pathlib.Path(name), program
        self.words, self.log, self.keys = (self.path / file for file in ("words.txt", "board.log", "keys.txt"))
        self.words.write_text("\n".join(words.split()))

    def call(self, *more):
        words = [sys.executable, EXAMPLES / "board.py", "--xw", self.program, "--dict", self.words, "--log", self.log,
                 "--size", "5x5", *more]
        return [str(word) for word in words]

    def screen(self, keys):
        self.keys.write_text(keys)
        run = subprocess.run(self.call("--keys", self.keys), stdout=subprocess.PIPE, stderr=subprocess.PIPE, encoding="utf-8",
                             timeout=60)
        return run.stdout if run.returncode == 0 else f"status {run.returncode}\n{run.stderr}"

    def press(self, keys):
        """Sends bytes to the board in a terminal, once the board is drawn."""
        child, terminal = pty.fork()
        if child == 0:
            os.environ["TERM"] = "xterm"
            signal.alarm(60)
            os.execv(sys.executable, self.call())
        drawn = b""
        try:
            while b"without a word" not in drawn:
                drawn += os.read(terminal, 4096)
            os.write(terminal, keys)
            while os.read(terminal, 4096):
                pass
        except OSError:
            pass  # the board has ended, and closed the terminal
        os.waitpid(child, 0)
        os.close(terminal)

    def shown(self):
        """The grid that the program shows after the commands of the log, with no word list."""
        commands = self.log.read_text() + "show\n"
        return subprocess.run([self.program, "edit"], input=commands, stdout=subprocess.PIPE, encoding="utf-8", timeout=60).stdout


def agrees(what, seen, expected):
    if seen.strip("\n") == expected.strip("\n"):
        return True
    print(f"failed: {what}\n--- expected\n{expected}\n--- seen\n{seen}")
    return False


def screens(program):
    for what, keys, expected in CASES:
        with tempfile.TemporaryDirectory() as name:
            yield agrees(what, Folder(name, program).screen(keys), expected)
    for what, first, keys, expected in GRADED_CASES:
        with tempfile.TemporaryDirectory() as name:
            yield agrees(what, Folder(name, program, GRADED).screen(first + keys), expected)


def saved_logs(program):
    with tempfile.TemporaryDirectory() as name:
        folder = Folder(name, program)
        saved = FILLED + f"saved: {folder.log}\n"
        yield agrees("the log is saved", folder.screen(LATTICE + "S H ^F left left ^S"), saved)
        yield agrees("it has the commands, and a fill as its letters", folder.log.read_text(), LOG)
        answers = "ok\n" * LOG.count("\n") + "S H A D E\nT # L # L\nA T O N E\nR # N # G\nE N E M Y\nok\n"
        yield agrees("the program makes the grid again of it", folder.shown(), answers)
        yield agrees("the board begins with it, and does not take it back", folder.screen("^Z"), FILLED)
        folder.screen("down left Q ^Z")
        yield agrees("what is not saved leaves it as it is", folder.log.read_text(), LOG)
        folder.screen("space ^Q A ^S")
        yield agrees("the board saves when it quits, and takes no further key", folder.log.read_text(), LOG + "clear 1 1\n")
        folder.log.write_text("\n# a note\n" + LOG + "set 2 2 A\n")
        yield agrees("a line that is refused is told", folder.screen(""), FILLED + "set 2 2 A: OnBlock\n")
        folder.log.write_text("set 1 2 A\n")
        row = "> 1!. 2A" + "".join(f".{column:2}!" for column in range(3, 16))
        yield agrees("without a size, undo goes back to a grid of 15 by 15", folder.screen("B ^Z left").splitlines()[0], row)
        folder.log = folder.path / "nowhere" / "board.log"
        seen = folder.screen("^S").splitlines()[-1]
        yield agrees("where it cannot be saved, this is told", seen.split(":")[0], "not saved")


def terminals(program):
    up, down, right, left, backspace = b"\x1bOA", b"\x1bOB", b"\x1bOC", b"\x1bOD", b"\x7f"
    undo, quit = b"\x1a", b"\x11"
    with tempfile.TemporaryDirectory() as name:
        folder = Folder(name, program)
        folder.press(down + right + b"#" + 2 * right + b"#" + up + 3 * left + b"\t\tSh" + backspace + b" ?\r" + undo + undo
                     + b"?\r" + quit)
        log = folder.log.read_text() if folder.log.exists() else "no log"
        yield agrees("keys of a terminal", log, "\n".join(LOG.split("\n")[:6]) + "\nclear 1 2\nplace 1 across SHADE\n")


def main():
    program = sys.argv[1] if len(sys.argv) > 1 else shutil.which("xw", path=EXAMPLES.parent) or "xw"
    subprocess.run([program, "--version"], stdout=subprocess.DEVNULL, check=True)  # builds ./xw if it is not up to date
    passed = [*screens(program), *saved_logs(program), *terminals(program)]
    print(f"{passed.count(True)} passed, {passed.count(False)} failed")
    sys.exit(0 if all(passed) else 1)


if __name__ == "__main__":
    main()
