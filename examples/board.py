#!/usr/bin/env python3
"""An example front end: draws a grid in a terminal, edits it by keys, and runs `xw edit` behind a pair of pipes.

    arrows       move to the next cell, and turn across or down
    tab          turns between across and down
    a letter     enters it, and steps on
    space        clears the cell, and steps on
    backspace    steps back, and clears that cell
    #            toggles a block, with its images under the symmetry
    ?            proposes a word, and moves to its light
    enter        places the proposed word
    !            marks the letters that leave no word, about the cell that was edited last
    ^F           searches for the first fill in the order of the word list
    ^A           searches for any fill; pressed again, in another order
    ^B           searches for the fill whose worst word is best, until it is known to be, or a key is pressed
    + -          raises and lowers the least grade of the words that are used, by 10
    ^Z           undoes the last edit
    ^S           saves the log
    ^Q, ^C       saves the log and quits; quits without saving

A capital is an entry. A small letter is the only feasible one of its cell, `!` is a cell without a feasible letter, `-` any other
empty cell, `#` a block. `>` or `v` marks the cell under the cursor, `.` the other cells of its light, `*` a letter that leaves no
word. Bars are not drawn.

Below the grid stand the light under the cursor with its words, the letters of the cell, the lights without a word, the least grade,
and the worst grade of the words in the grid, with its first light.

The log has the commands that make this grid, with a fill as the letters that it entered: `xw edit --dict WORDS <LOG` makes the
grid again. If the log exists at the start, the board begins with its commands.
"""
import argparse
import itertools
import os
import pathlib
import shutil
import subprocess
import sys

TOP = pathlib.Path(__file__).resolve().parent.parent
ARROWS = {"up": ("down", -1), "down": ("down", 1), "left": ("across", -1), "right": ("across", 1)}
TERMINAL_KEYS = {"KEY_UP": "up", "KEY_DOWN": "down", "KEY_LEFT": "left", "KEY_RIGHT": "right", "^I": "tab", "^J": "enter",
                 " ": "space", "KEY_BACKSPACE": "backspace", "^?": "backspace", "^H": "backspace"}
REFUSALS = {"OnBlock": "a block is here", "Occupied": "a letter stands where a block would", "Memory": "out of memory"}
FILLS = {"filled": "filled", "nofill": "there is no fill", "limit": "no fill was found"}
PROPOSALS = {"done": "every light is entered", "try": "{2}? enter places it", "dead": "no word fits here",
             "noword": "no word here leaves every light a word"}
MOST_PLACED, MOST_TRIED = 10000, 5000
# A slice of a search for the best fill takes 0.1 to 0.3 s in a large grid. A search ends after so many slices.
SLICE, MOST_SLICES = 2000, 100
STEP, BEST_GRADE = 10, 100
# The encoding of texts in .puz files. A byte without a character is kept too.
TEXTS = {"encoding": "cp1252", "errors": "surrogateescape"}


class Refused(Exception):
    """A command was refused, by this name."""


class Session(subprocess.Popen):
    """`xw edit` behind a pair of pipes."""

    def ask(self, command):
        """The lines that answer a command. Never ask a blank line or a comment: it has no answer."""
        print(command, file=self.stdin, flush=True)
        lines = []
        for line in self.stdout:
            line = line.rstrip("\n")
            if line == "ok":
                return lines
            if line.startswith("no "):
                raise Refused(line[3:])
            lines.append(line)
        raise EOFError


def read_grid(lines):
    """The contents of each cell, from the lines of `show`: every other byte is a cell; a line with `=` has bars."""
    rows = [line[::2] for line in lines if "=" not in line]
    return {(row, column): entry for row, line in enumerate(rows, 1) for column, entry in enumerate(line, 1)}


def read_lights(lines):
    """The cells of each light by its name, from the lines of `lights`."""
    lights = {}
    for line in lines:
        number, direction, row, column, letters = line.split()
        across, down = direction == "across", direction == "down"
        cells = [(int(row) + step * down, int(column) + step * across) for step in range(len(letters))]
        lights[f"{number} {direction}"] = cells
    return lights


class Board:
    """The grid as the program last told it, the log of its edits, and the actions of the keys."""

    def __init__(self, session, log_file, first):
        self.session, self.log_file = session, log_file
        self.log = [first]  # the commands that the board began with, then those of each edit
        self.grid, self.lights, self.letters = {}, {}, {}
        self.cursor, self.direction = (1, 1), "across"
        self.edited, self.reason = (1, 1), []
        self.open, self.message, self.seed, self.least = True, "", 0, 0
        self.is_stopped = lambda: False  # whether a search is to end after this slice
        self.actions = {"tab": self.turn, "?": self.suggest, "enter": self.accept, "!": self.explain, "^F": self.fill,
                        "^A": self.autofill, "^B": self.best, "+": self.raise_least, "-": self.lower_least, "^Z": self.undo,
                        "^S": self.save, "^Q": self.quit}

    def begin(self):
        """Runs the whole log on the grid and the least grade that the program starts with."""
        for command in ["size 15 15", "least 0", *itertools.chain(*self.log)]:
            try:
                self.session.ask(command)
                self.note_least(command)
            except Refused as refusal:
                self.message = f"{command}: {refusal}"
        self.session.ask("watch on")
        self.look(self.session.ask("cells"))

    def look(self, cells):
        """Takes the lines of `cells` or of the watch, and asks for the grid and its lights."""
        for line in cells:
            _, row, column, letters = line.split()
            self.letters[int(row), int(column)] = letters
        self.grid = read_grid(self.session.ask("show"))
        self.lights = read_lights(self.session.ask("lights"))
        # the watch tells neither a block nor an opened cell without letters
        self.letters = {cell: letters for cell, letters in self.letters.items() if self.grid[cell] != "#"}

    def press(self, key):
        self.message, self.reason = "", []
        try:
            self.act(key)
        except Refused as refusal:
            self.message = REFUSALS.get(str(refusal), str(refusal))

    def act(self, key):
        if key in ARROWS:
            self.direction, cells = ARROWS[key]
            self.step(cells)
        elif key in self.actions:
            self.actions[key]()
        elif key == "#":
            self.edit("block {} {}".format(*self.cursor))
        elif key == "backspace":
            self.step(-1)
            self.edit("clear {} {}".format(*self.cursor))
        elif key == "space":
            self.edit("clear {} {}".format(*self.cursor))
            self.step(1)
        elif len(key) == 1 and key.isascii() and key.isalpha():
            self.edit("set {} {} {}".format(*self.cursor, key.upper()))
            self.step(1)

    def note_least(self, command):
        if command.startswith("least "):
            self.least = int(command.split()[1])

    def edit(self, command):
        cells = self.session.ask(command)
        self.log.append([command])
        self.note_least(command)
        self.edited = self.cursor
        self.look(cells)

    def step(self, cells):
        row, column = self.cursor
        cell = (row + cells, column) if self.direction == "down" else (row, column + cells)
        if cell in self.grid:
            self.cursor = cell

    def turn(self):
        self.direction = "across" if self.direction == "down" else "down"

    def suggest(self):
        what, *rest = self.session.ask("suggest")[0].split()
        self.message = PROPOSALS[what].format(*rest)
        if rest:
            self.cursor, self.direction = self.lights[f"{rest[0]} {rest[1]}"][0], rest[1]

    def accept(self):
        what, *rest = self.session.ask("suggest")[0].split()
        if what == "try":
            self.edit("place {} {} {}".format(*rest))

    def explain(self):
        """Marks the shortest reason why a light through the cell that was edited last has no feasible word."""
        reasons = [self.reason_for(name) for name, cells in self.lights.items() if self.edited in cells]
        dead = [reason for reason in reasons if reason is not None]
        self.reason = min(dead, key=len, default=[])
        self.message = "these letters leave no word" if self.reason else "the words and blocks leave none" if dead else "each light here has a word"

    def reason_for(self, light):
        """The cells of a reason why a light has no feasible word, or None if it has one."""
        try:
            lines = self.session.ask(f"why {light}")
        except Refused:
            return None
        return [tuple(map(int, line.split()[1:3])) for line in lines]

    def fill(self):
        self.search(f"fill {MOST_PLACED}")

    def autofill(self):
        self.search(f"autofill {MOST_TRIED} {self.seed}")
        self.seed += 1

    def search(self, command):
        answer, = self.session.ask(command)
        self.message = FILLS[answer]
        if answer == "filled":
            self.log.append(self.entered())
            self.look(self.session.ask("cells"))  # the watch does not tell of a fill

    def entered(self):
        """The commands that enter the letters that a search entered."""
        grid = read_grid(self.session.ask("show"))
        return [f"set {row} {column} {entry}" for (row, column), entry in grid.items() if entry != self.grid[row, column]]

    def best(self):
        """Searches in slices for the fill whose worst new word is best, until it is proved to be, or the search is stopped.

        After each fill its letters are taken back, and the search goes on with the words that are better than its worst one. Each bound
        is proved and stays true with fewer words, so the least one holds.
        """
        least, letters, bound = self.least, None, BEST_GRADE + 1
        try:
            for _ in range(MOST_SLICES):
                answer, *lines = self.session.ask(f"best {SLICE} {self.seed}")
                grades = {name: int(grade) for name, grade in map(str.split, lines)}
                bound = min(bound, grades.get("bound", least))
                if answer == "filled":
                    letters, least = self.entered(), grades["least"] + 1
                    self.take_back(letters)
                self.message = self.result(letters, least, bound)
                if bound <= least or self.is_stopped():
                    break
                if answer == "filled":
                    self.session.ask(f"least {least}")
            if letters and bound <= BEST_GRADE:
                self.message += self.cause(bound)
        finally:
            self.session.ask(f"least {self.least}")
            self.enter(letters or [])

    def take_back(self, letters):
        for command in letters:
            _, row, column, _ = command.split()
            self.session.ask(f"clear {row} {column}")

    def enter(self, letters):
        """Enters the letters of a fill, as one edit."""
        for command in letters:
            self.session.ask(command)
        if letters:
            self.log.append(letters)
        self.look(self.session.ask("cells"))

    def result(self, letters, least, bound):
        """What a search for the best fill found and proved."""
        if letters == []:
            return PROPOSALS["done"]
        if letters is None and bound <= least:
            return FILLS["nofill"]
        found = FILLS["limit"] if letters is None else f"the worst new word has grade {least - 1}"
        if bound <= least:
            return f"{found}, and no fill is better"
        return found if bound > BEST_GRADE else f"{found}; each fill has a word below {bound}"

    def cause(self, bound):
        """The first light whose letters fit no word of this grade or better, if there is one."""
        self.session.ask(f"least {bound}")
        lights = self.session.ask("unmatched")
        return f": {lights[0].rsplit(maxsplit=1)[0]} fits none of {bound} or better" if lights else ""

    def raise_least(self):
        self.edit(f"least {min(self.least + STEP, BEST_GRADE)}")

    def lower_least(self):
        self.edit(f"least {max(self.least - STEP, 0)}")

    def undo(self):
        """Runs the log again without the last edit. The commands that the board began with stay."""
        if len(self.log) > 1:
            self.log.pop()
            self.begin()
            self.message = ""

    def save(self):
        """Writes a new log and renames it over the old one. Returns whether that worked."""
        new = f"{self.log_file}.new"
        try:
            pathlib.Path(new).write_text("".join(f"{command}\n" for command in itertools.chain(*self.log)), **TEXTS)
            os.replace(new, self.log_file)
            self.message = f"saved: {self.log_file}"
            return True
        except OSError as fault:
            self.message = f"not saved: {fault}"
            return False

    def quit(self):
        self.open = not self.save()

    def light(self):
        """The name of the light under the cursor, or an empty string."""
        names = (name for name, cells in self.lights.items() if name.endswith(self.direction) and self.cursor in cells)
        return next(names, "")

    def screen(self):
        """The grid, with a mark, a number and a face for each cell, and then the panel."""
        marks = dict.fromkeys(self.lights.get(self.light(), []), ".")
        marks[self.cursor] = "v" if self.direction == "down" else ">"
        marks.update(dict.fromkeys(self.reason, "*"))
        numbers = {cells[0]: name.split()[0] for name, cells in self.lights.items()}
        digits = max(map(len, numbers.values()), default=1)
        rows = {}
        for cell in self.grid:
            rows.setdefault(cell[0], []).append(marks.get(cell, " ") + numbers.get(cell, "").rjust(digits) + self.face(cell))
        return [*map("".join, rows.values()), "", *self.panel()]

    def face(self, cell):
        entry, feasible = self.grid[cell], self.letters.get(cell, "-")
        if entry != "-" or len(feasible) > 1:
            return entry
        return "!" if feasible == "-" else feasible.lower()

    def panel(self):
        """The light and the cell under the cursor, the lights without a feasible word, and the message."""
        light = self.light()
        if light:
            count, *words = self.session.ask(f"words {light} 8")
            yield " ".join([f"{light}, feasible {count}:", *words])
        if self.grid[self.cursor] != "#":
            yield "letters: " + self.session.ask("letters {} {}".format(*self.cursor))[0]
        counts = [line.rsplit(maxsplit=1) for line in self.session.ask("counts")]
        yield "without a word: " + (", ".join(name for name, count in counts if count == "0") or "none")
        yield f"least grade: {self.least}; worst word: {self.worst()}"
        yield self.message

    def worst(self):
        """The worst grade of the words in the grid, and the first light that has it; words that are not known have no grade."""
        graded = [line.rsplit(maxsplit=1) for line in self.session.ask("grades")]
        known = [(int(grade), name) for name, grade in graded if grade != "-"]
        return "{}, {}".format(*min(known, key=lambda word: word[0])) if known else "none"


def press_in_terminal(board):
    import curses

    def draw(window, lines):
        height, width = window.getmaxyx()
        window.erase()
        for index, line in enumerate(lines[:height]):
            window.addnstr(index, 0, line, width - 1)
        window.refresh()

    def is_stopped(window):
        """Draws what a search found so far. Returns whether a key was pressed since the last slice."""
        draw(window, [board.message, "any key stops the search"])
        window.nodelay(True)
        code = window.getch()
        window.nodelay(False)
        return code >= 0

    def loop(window):
        curses.raw()
        board.is_stopped = lambda: is_stopped(window)
        key = ""
        while board.open and key != "^C":
            draw(window, board.screen())
            code = window.getch()
            if code < 0:
                raise EOFError
            key = curses.keyname(code).decode()
            board.press(TERMINAL_KEYS.get(key, key))

    curses.wrapper(loop)


def press_from_file(board, file):
    for key in pathlib.Path(file).read_text(**TEXTS).split():
        if board.open:
            board.press(key)
    print(*(line.rstrip() for line in board.screen()), sep="\n")


def first_commands(options):
    """The commands of the saved log, or those of a new grid."""
    if not os.path.exists(options.log):
        return ["size " + options.size.replace("x", " "), f"sym {options.sym}"]
    lines = pathlib.Path(options.log).read_text(**TEXTS).split("\n")
    return [line for line in lines if line.strip() and not line.lstrip().startswith("#")]


def main():
    parser = argparse.ArgumentParser(description=__doc__, formatter_class=argparse.RawDescriptionHelpFormatter)
    parser.add_argument("--dict", metavar="WORDS", help="a word list")
    parser.add_argument("--log", metavar="LOG", default="board.xw", help="the file of the log (default: %(default)s)")
    parser.add_argument("--size", metavar="WxH", default="15x15", help="size of a new grid (default: %(default)s)")
    parser.add_argument("--sym", metavar="KIND", default="half", help="symmetry of a new grid (default: %(default)s)")
    parser.add_argument("--keys", metavar="FILE", help="take the keys from a file, separated by white space (`up space enter "
                        "^F A`), and print the last screen, without a terminal")
    parser.add_argument("--xw", metavar="PROGRAM", default=shutil.which("xw", path=TOP) or "xw", help="the program (default: %(default)s)")
    options = parser.parse_args()
    call = [options.xw, "edit", *(["--dict", options.dict] if options.dict else [])]
    try:
        with Session(call, stdin=subprocess.PIPE, stdout=subprocess.PIPE, **TEXTS) as session:
            board = Board(session, options.log, first_commands(options))
            board.begin()
            if options.keys:
                press_from_file(board, options.keys)
            else:
                press_in_terminal(board)
    except (BrokenPipeError, EOFError):
        if board.grid:
            board.save()
        sys.exit(f"board: the program or the terminal has ended; {board.message or 'nothing was begun'}")


if __name__ == "__main__":
    main()
