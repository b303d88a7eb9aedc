"""Files with lines that are refused, as words of another list: the file that has them is not lost."""
from steps import FAILED, FIRST, REFUSED, absent, compare, exists, holds, link, remove, run, write

from runs.journals import Session, record
from runs.replacing import has_mode, is_link, set_mode

# A session over a list with the words AT and SO, of which it strikes one.
LINES = b"strike AT\nadd OX\nsize 2 1\n"
MINE = FIRST + LINES
LIST = write("words.txt", b"AT\nSO\n")
LOADED = b"xw: words.txt: 2 added, 0 skipped\n"
UNKNOWN = b"xw: mine.xw: line 2: Unknown\n"


def backed_up(name, number=""):
    return f"xw: {name}: refused lines; the old file is kept as {name}~{number}\n".encode()


def unread_kept(name, number=""):
    """The message of a file that is kept because the call did not read it."""
    return f"xw: {name}: the old file is kept as {name}~{number}\n".encode()


def loses_its_journal(room, program):
    session = Session(room, program)
    session.ask(b"show", b"- -\nok\n")
    remove("mine.xw")(room, program)
    compare("end", session.end(), (b"", UNKNOWN + b"xw: mine.xw: replaced\n", FAILED))


# The record without the line that was refused.
WITHOUT = record(words=b"add OX\n")

CASES = {
    # The journal keeps its lines, and gets the new ones. With its own list it is replaced again.
    "journal": [
        write("mine.xw", MINE),
        run("edit --journal mine.xw", b"set 1 1 A\nshow\n", b"ok\nA -\nok\n", errors=UNKNOWN, status=REFUSED),
        holds("mine.xw", MINE + b"set 1 1 A\n"),
        absent("mine.xw~"),
        run("edit --journal mine.xw", errors=UNKNOWN, status=REFUSED),
        holds("mine.xw", MINE + b"set 1 1 A\n"),
        LIST,
        run("edit --dict words.txt --journal mine.xw", b"match ..\n", b"SO\nOX\nok\n", errors=LOADED),
        holds("mine.xw", record(b"set 1 1 A\n", words=b"add OX\nstrike AT\n")),
    ],
    "journal, without the first line": [
        write("mine.xw", LINES),
        run("edit --journal mine.xw", b"set 1 1 A\n", b"ok\n", errors=b"xw: mine.xw: line 1: Unknown\n", status=REFUSED),
        holds("mine.xw", MINE + b"set 1 1 A\n"),
    ],
    # A line that is refused in the input is nothing to keep.
    "journal, a line of the input": [
        write("mine.xw", FIRST + b"size 2 1\n"),
        run("edit --journal mine.xw", b"strike AT\nset 1 1 A\n", b"no Unknown\nok\n", status=REFUSED),
        holds("mine.xw", record(b"set 1 1 A\n")),
    ],
    # It is looked for at the end all the same, though it is not replaced then.
    "journal, that is not there any more": [write("mine.xw", MINE), loses_its_journal, absent("mine.xw")],
    # The other files are written all the same.
    "journal, with other files": [
        write("mine.xw", MINE),
        run("edit --journal mine.xw --save new.xw --to new.puz", b"place 1 across AT\n", b"ok\n", errors=UNKNOWN, status=REFUSED),
        holds("mine.xw", MINE + b"place 1 across AT\n"),
        holds("new.xw", record(b"set 1 1 A\n", b"set 1 2 T\n", words=b"add OX\n")),
        exists("new.puz"),
    ],
    # A session that is saved into its own file.
    "saved": [
        write("mine.xw", MINE),
        run("edit --resume mine.xw --save mine.xw", b"set 1 1 A\n", b"ok\n", errors=UNKNOWN + backed_up("mine.xw"), status=REFUSED),
        holds("mine.xw", record(b"set 1 1 A\n", words=b"add OX\n")),
        holds("mine.xw~", MINE),
    ],
    # The old file that is kept is no more public than it was.
    "saved, a private file": [
        write("mine.xw", MINE),
        set_mode("mine.xw", 0o600),
        run("edit --resume mine.xw --save mine.xw", errors=UNKNOWN + backed_up("mine.xw"), status=REFUSED),
        has_mode("mine.xw", 0o600),
        has_mode("mine.xw~", 0o600),
    ],
    "saved, by other paths": [
        write("mine.xw", LINES),
        link("mine.link", "mine.xw"),
        run(
            "edit --resume mine.xw --save ./mine.xw",
            errors=b"xw: mine.xw: line 1: Unknown\n" + backed_up("./mine.xw"),
            status=REFUSED,
        ),
        holds("mine.xw", WITHOUT),
        holds("mine.xw~", LINES),
        remove("mine.xw~"),
        write("mine.xw", LINES),
        run(
            "edit --resume ./mine.xw --save mine.link",
            errors=b"xw: ./mine.xw: line 1: Unknown\n" + backed_up("mine.link"),
            status=REFUSED,
        ),
        holds("mine.xw", WITHOUT),
        is_link("mine.link"),
        holds("mine.link~", LINES),
        absent("mine.xw~"),
    ],
    "saved, no line refused": [
        LIST,
        write("mine.xw", MINE),
        run("edit --dict words.txt --resume mine.xw --save mine.xw", b"frob\n", b"no Command\n", errors=LOADED, status=REFUSED),
        holds("mine.xw", record(words=b"add OX\nstrike AT\n")),
        absent("mine.xw~"),
    ],
    "saved, into another file": [
        write("mine.xw", MINE),
        write("other.xw", b"old"),
        run("edit --resume mine.xw --save other.xw", errors=UNKNOWN + unread_kept("other.xw"), status=REFUSED),
        holds("mine.xw", MINE),
        holds("other.xw", WITHOUT),
        absent("mine.xw~"),
        holds("other.xw~", b"old"),
    ],
    # What is kept is never replaced: the second run of a session without its list keeps another file.
    "saved, twice": [
        write("mine.xw", MINE),
        run("edit --resume mine.xw --save mine.xw", errors=UNKNOWN + backed_up("mine.xw"), status=REFUSED),
        write("mine.xw", MINE + b"set 1 1 A\n"),
        run("edit --resume mine.xw --save mine.xw", errors=UNKNOWN + backed_up("mine.xw", 2), status=REFUSED),
        write("mine.xw", MINE + b"set 1 1 B\n"),
        run("edit --resume mine.xw --save mine.xw", errors=UNKNOWN + backed_up("mine.xw", 3), status=REFUSED),
        holds("mine.xw~", MINE),
        holds("mine.xw~2", MINE + b"set 1 1 A\n"),
        holds("mine.xw~3", MINE + b"set 1 1 B\n"),
    ],
    # Nor is what another program keeps there, such as an editor, or what is no file.
    "saved, beside a file of another program": [
        write("mine.xw", MINE),
        write("mine.xw~", b"an editor's"),
        write("mine.xw~2", b""),
        lambda room, program: (room / "mine.xw~3").mkdir(),
        run("edit --resume mine.xw --save mine.xw", errors=UNKNOWN + backed_up("mine.xw", 4), status=REFUSED),
        holds("mine.xw", WITHOUT),
        holds("mine.xw~", b"an editor's"),
        holds("mine.xw~2", b""),
        holds("mine.xw~4", MINE),
    ],
    "saved, beside a link": [
        write("mine.xw", MINE),
        write("other", b"old"),
        link("mine.xw~", "other"),
        link("mine.xw~2", "gone"),
        run("edit --resume mine.xw --save mine.xw", errors=UNKNOWN + backed_up("mine.xw", 3), status=REFUSED),
        holds("other", b"old"),
        is_link("mine.xw~"),
        is_link("mine.xw~2"),
        absent("gone"),
        holds("mine.xw~3", MINE),
    ],
    # Nor a file that the call writes afterwards.
    "saved, beside the puzzle": [
        write("mine.xw", MINE + b"place 1 across OX\nclue 1 across an ox\n"),
        write("mine.xw~", b"an editor's"),
        run("edit --resume mine.xw --save mine.xw --to ./mine.xw~2", errors=UNKNOWN + backed_up("mine.xw", 3), status=REFUSED),
        holds("mine.xw~", b"an editor's"),
        holds("mine.xw~3", MINE + b"place 1 across OX\nclue 1 across an ox\n"),
        run("check mine.xw~2", output=b"text 2x1 1 lights\n"),
    ],
    # A word that the list has is lost too: it is not in the session that is saved, and the list may be another one next time.
    "saved, a word that is known": [
        write("mine.xw", FIRST + b"add AT 90\nadd OX\nsize 2 1\n"),
        LIST,
        run(
            "edit --dict words.txt --resume mine.xw --save mine.xw", errors=LOADED + b"xw: mine.xw: line 2: Known\n" + backed_up("mine.xw"), status=REFUSED
        ),
        holds("mine.xw", record(words=b"add OX\n")),
        holds("mine.xw~", FIRST + b"add AT 90\nadd OX\nsize 2 1\n"),
        run("edit --resume mine.xw~", b"match ..\n", b"AT\nOX\nok\n"),
    ],
    "saved, a word that is known, explained": [
        write("mine.xw", FIRST + b"add AT\nsize 2 1\nset 9 9 A\nadd SO\n"),
        LIST,
        run(
            "edit --dict words.txt --resume mine.xw --save mine.xw --explain",
            errors=LOADED
            + b"xw: 0 of 2 lines have a grade\n"
            + b"xw: mine.xw: line 2: Known\nxw: the list has this word\nxw: mine.xw: line 4: OutOfGrid\n"
            + b"xw: mine.xw: line 5: Known\nxw: the list has this word\n"
            + backed_up("mine.xw"),
            status=REFUSED,
        ),
        holds("mine.xw~", FIRST + b"add AT\nsize 2 1\nset 9 9 A\nadd SO\n"),
    ],
    "journal, a word that is known": [
        write("mine.xw", FIRST + b"add AT 90\nsize 2 1\n"),
        LIST,
        run("edit --dict words.txt --journal mine.xw", errors=LOADED + b"xw: mine.xw: line 2: Known\n", status=REFUSED),
        holds("mine.xw", FIRST + b"add AT 90\nsize 2 1\n"),
    ],
}
