"""Puzzles that are written over other files: what the call would lose is kept under another name."""
from samples import CIRCLED, PLAIN, STARTED, TEXT
from steps import FIRST, FORMAT, absent, compare, holds, link, run, write

from runs.journals import Session, record, rename
from runs.refused_lines import unread_kept

MINE = record(b"set 1 1 A\n", b"set 1 2 T\n")
MARK = b"\xef\xbb\xbf"

# Sections of a `.puz` file: rebus cells, the time that a solver took, and one that no program knows.
REBUS = b"GRBS\x04\0\x10\0\x01\0\0\0\0"
TIME = b"LTIM\x03\0\x12\x341,0\0"
UNKNOWN = b"ZZZZ\0\0\0\0\0"
SOLVED = b"RUSR\x04\0\0\0AB\0\0\0"

NO_REBUS = b"xw: r.puz: rebus cells are not kept\n"
NO_TIME = b"xw: r.puz: the timer is not kept\n"
NO_LETTERS = b"xw: r.puz: the letters of a solver are not kept\n"
NO_SECTION = b"xw: r.puz: unknown sections are not kept\n"


def keeps(words, data, errors, wanted=PLAIN):
    """A puzzle that is written over its own file, of which something is lost: it is named, and the file is kept."""
    return [
        write("r.puz", data),
        run(words, errors=errors + unread_kept("r.puz")),
        holds("r.puz", wanted),
        holds("r.puz~", data),
    ]


def gets_the_name(old, new):
    """A file that gets the name of the file to write while the session runs."""

    def step(room, program):
        session = Session(room, program, f"edit --from t.txt --to {new}")
        session.ask(b"show", b"A T\nS O\nok\n")
        rename(old, new)(room, program)
        compare("end", session.end(), (b"", unread_kept(new), 0))

    return step


CASES = {
    # A session is no file to lose: it is kept, whatever its name.
    "over a session, convert": [
        write("t.txt", TEXT),
        write("mine.xw", MINE),
        run("convert t.txt mine.xw", errors=unread_kept("mine.xw") + b"xw: mine.xw: written as text\n"),
        holds("mine.xw", TEXT),
        holds("mine.xw~", MINE),
        # what is there now is no session
        run("convert t.txt mine.xw", errors=b"xw: mine.xw: written as text\n"),
        absent("mine.xw~2"),
    ],
    "over a session, edit": [
        write("t.txt", TEXT),
        write("mine.xw", MINE),
        run("edit --from t.txt --to mine.xw", errors=unread_kept("mine.xw")),
        holds("mine.xw", TEXT),
        holds("mine.xw~", MINE),
    ],
    "over a session, by a link": [
        write("t.txt", TEXT),
        write("mine.xw", MARK + MINE),
        link("l.txt", "mine.xw"),
        run("convert t.txt l.txt", errors=unread_kept("l.txt")),
        holds("mine.xw", TEXT),
        holds("l.txt~", MARK + MINE),
    ],
    "over a session, named as a puzzle": [
        write("t.txt", TEXT),
        write("new.puz", FIRST),
        write("new.puz~", b"old"),
        run("convert t.txt new.puz", errors=unread_kept("new.puz", 2)),
        holds("new.puz", PLAIN),
        holds("new.puz~", b"old"),
        holds("new.puz~2", FIRST),
    ],
    "over a session, that gets the name": [
        write("t.txt", TEXT),
        write("mine.xw", MINE),
        gets_the_name("mine.xw", "new.txt"),
        holds("new.txt", TEXT),
        holds("new.txt~", MINE),
    ],
    "over a session, beside the one that is saved": [
        write("t.txt", TEXT),
        write("mine.xw", MINE),
        run("edit --from t.txt --to mine.xw --save mine.xw~", errors=unread_kept("mine.xw", 2)),
        holds("mine.xw", TEXT),
        holds("mine.xw~2", MINE),
    ],
    # Other files are replaced as before.
    "over other files": [
        write("t.txt", TEXT),
        *(
            step
            for name, data in {"words.txt": b"CAT\n", "old.puz": STARTED + REBUS, "note.txt": b"# xw session\n", "empty.txt": b""}.items()
            for step in (write(name, data), run(f"convert t.txt {name}"), holds(name, PLAIN if name.endswith(".puz") else TEXT), absent(f"{name}~"))
        ),
    ],
    # If the puzzle cannot be made, no file is kept.
    "over a session, of no puzzle": [
        write("circled.puz", CIRCLED),
        write("mine.xw", MINE),
        run("convert circled.puz mine.xw", errors=b"xw: mine.xw: Circled\n", status=FORMAT),
        holds("mine.xw", MINE),
        absent("mine.xw~"),
    ],
    # Of a puzzle that is written over its own file, what no puzzle keeps is lost for ever.
    "over its own file, everything": keeps("convert r.puz r.puz", STARTED + REBUS + TIME + UNKNOWN, NO_REBUS + NO_TIME + NO_LETTERS + NO_SECTION),
    "over its own file, rebus cells": keeps("convert r.puz r.puz", PLAIN + REBUS, NO_REBUS),
    "over its own file, a time": keeps("convert r.puz r.puz", CIRCLED + TIME, NO_TIME, CIRCLED),
    "over its own file, letters": keeps("convert r.puz r.puz", STARTED, NO_LETTERS),
    "over its own file, letters of rebus cells": keeps("convert r.puz r.puz", PLAIN + SOLVED, NO_LETTERS),
    "over its own file, nothing": [
        write("r.puz", CIRCLED),
        run("convert r.puz r.puz"),
        holds("r.puz", CIRCLED),
        write("t.txt", TEXT),
        run("convert t.txt t.txt"),
        holds("t.txt", TEXT),
        absent("r.puz~"),
        absent("t.txt~"),
    ],
    "over its own file, by a link": [
        write("real.puz", PLAIN + TIME),
        link("r.puz", "real.puz"),
        run("convert real.puz r.puz", errors=NO_TIME + unread_kept("r.puz")),
        holds("real.puz", PLAIN),
        holds("r.puz~", PLAIN + TIME),
    ],
    "over its own file, edit": keeps("edit --from r.puz --to r.puz", PLAIN + TIME, NO_TIME),
    "over its own file, edit with a session": [
        write("mine.xw", b"old"),
        write("r.puz", PLAIN + TIME),
        run("edit --from r.puz --save mine.xw --to r.puz", errors=unread_kept("mine.xw") + NO_TIME + unread_kept("r.puz")),
        holds("r.puz", PLAIN),
        holds("r.puz~", PLAIN + TIME),
        # the session has the puzzle, but the file that is there was not read
        write("r.puz", PLAIN + TIME),
        run("edit --resume mine.xw --to r.puz"),
        holds("r.puz", PLAIN),
        absent("r.puz~2"),
    ],
    # Into another file nothing of it is lost.
    "into another file": [
        write("r.puz", STARTED + TIME),
        run("convert r.puz new.puz"),
        holds("r.puz", STARTED + TIME),
        absent("new.puz~"),
    ],
}
