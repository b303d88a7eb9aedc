"""Sessions that are saved and resumed."""
import os

from samples import PLAIN
from steps import ACCEPTED, FAILED, FIRST, FORMAT, REFUSED, USAGE, absent, call, compare, differs, holds, link, run, write

from runs.journals import Session, record, rename
from runs.refused_lines import unread_kept


def resumed(lines, typed, **wanted):
    """Resumes a session from a file, and checks that the file stays unchanged."""
    return [write("mine.xw", lines), run("edit --resume mine.xw", typed, **wanted), holds("mine.xw", lines)]


# Saves an unfinished grid with a bar, a word, a text, a clue and a circle.
BEGUN = run(
    "edit --save goes.xw",
    b"size 3 3\nsym half\nbar 1 1 right\nset 2 2 A\nadd CAT\ntitle Mine\ncircle 1 2\nclue 1 down Told\n",
    output=b"ok\n" * 8,
)

# The record of a grid of 2 columns and 1 row with a letter.
A_RECORD = b"size 2 1\nsym none\nset 1 1 A\ntext title \ntext author \ntext copyright \ntext notes \nwatch off\n"

# Resumes that session, checks its contents, and toggles blocks with their images there and back.
GOES_ON = run(
    "edit --resume goes.xw --save goes.xw",
    b"show\nmatch ...\ntexts\ncircles\nblock 1 3\nshow\nblock 3 1\n",
    output=b"-|- -\n- A -\n- -|-\nok\nCAT\nok\ntitle Mine\nclue 1 down Told\nok\n1 2\nok\nok\n-|- #\n- A -\n# -|-\nok\nok\n",
)


def stopped_at(number, name, line, told=b""):
    """Checks that a line that is not a command ends the run: no input is read, and no file is written."""
    lines = b"size 2 1\nadd cat\nadd CAT\n" + line + b"\nset 9 9 A\nfrob\n"
    return [
        write("mine.xw", lines),
        write("kept.txt", b"old"),
        run(
            "edit --resume mine.xw --save mine.xw --to kept.txt",
            b"show\n",
            errors=b"xw: mine.xw: line 3: Known\n" + told + f"xw: mine.xw: line {number}: {name}\n".encode(),
            status=FORMAT,
        ),
        holds("mine.xw", lines),
        holds("kept.txt", b"old"),
    ]


def goes_on_as_saved(room, program):
    """Checks that a session can be resumed and saved repeatedly without a change, including the added words."""
    saved = (room / "goes.xw").read_bytes()
    for _ in range(2):
        GOES_ON(room, program)
        compare("goes.xw", (room / "goes.xw").read_bytes(), saved)


def word_list_resumed(words, typed=b"", sentence=b""):
    """Resumes a word list by mistake, which ends the run at its first line."""
    return run(f"edit {words}", typed, errors=b"xw: words.txt: line 1: Command\n" + sentence, status=FORMAT)


# Many lines that are executed at once. Two of them are refused: one between the others, and the last one.
EDITS = (
    b"size 6 6\nsym half\nblock 1 1\nblock 2 2\nbar 1 2 right\nbar 3 3 below\nset 1 3 A\nset 1 4 b\nset 2 4 C\nclear 1 4\nblock 2 2\n"
    b"bar 1 2 right\nsym quarter\nblock 3 1\nbar 2 3 right\nset 4 4 D\nsym none\nblock 6 2\nclear 4 4\n"
    b"block 1 3\n"
    b"sym updown\nblock 2 1\nbar 1 1 below\nset 1 3 e\n"
    + b"".join(b"set 2 %d F\nclear 2 %d\n" % (column, column) for column in range(2, 7))
    + b"set 2 5 G\nsym none\nblock 6 6\nbar 4 4 right\ntitle Mine\nclue 1 across Told\ncircle 1 2\nset 9 9 A\n"
)
REFUSED_EDITS = b"xw: mine.xw: line 20: Occupied\nxw: mine.xw: line 42: OutOfGrid\n"


def mixed():
    """Returns edits of the grid with other lines between them: each with the name of its refusal, if it is refused."""
    yield from [(b"size 7 7", None), (b"# a note", None)]
    for row in (1, 2, 3, 5, 6, 7):
        yield from [(b"block %d 4" % row, None), (b"title Turn %d" % row, None), (b"clue 1 across Told %d" % row, None), (b"", None)]
        yield from [(b"set %d 1 A" % row, None), (b"lights", None), (b"circle %d 2" % row, None), (b"bar %d 5 right" % row, None)]
        yield from [(b"text clue %d 1 down One\\nTwo" % row, None), (b"place 1 across C%cT" % (64 + row), None), (b"dups", None)]
        if row == 5:
            yield from [(b"set 9 9 A", b"OutOfGrid"), (b"clue 99 down No", b"NoLight"), (b"circle 5 4", b"OnBlock"), (b"set 1 1 7", b"BadLetter")]
            yield from [(b"place 1 across FOUR", b"PlaceLength"), (b"title \0", b"NulByte"), (b"text clue 8 1 down No", b"OutOfGrid")]
            yield from [(b"letters 5 4", b"OnBlock"), (b"words 99 down", b"NoLight")]
    yield from [(b"set 4 %d %c" % (column, 64 + column), None) for column in range(1, 8)]
    yield from [(b"erase 1 across", None), (b"clue 1 down Last", None), (b"clear 4 7", None), (b"watch on", None)]


MIXED = list(mixed())


def replayed_as_typed(lines, errors):
    """Checks that a session that is resumed from lines is the same as one in which their changes were typed, which have one answer each."""

    def step(room, program):
        typed = [line + b"\n" for line in lines.split(b"\n") if line and not line.startswith((b"#", b"lights", b"dups", b"letters", b"words"))]
        answers = call(room, program, "edit", b"".join(typed) + b"show\nrecord\n").stdout
        (room / "mine.xw").write_bytes(lines)
        output = answers.split(b"\n", len(typed))[-1]
        run("edit --resume mine.xw", b"show\nrecord\n", output, errors, REFUSED)(room, program)

    return [step]


def meanwhile(*changes, words="edit --save mine.xw", errors, status=ACCEPTED):
    """Does something to files while a session of one line runs, and then ends its input."""

    def step(room, program):
        session = Session(room, program, words)
        session.ask(b"size 2 1", b"ok\n")
        for change in changes:
            change(room, program)
        compare("end", session.end(), (b"", errors, status))

    return step


MARK = b"\xef\xbb\xbf"

# A session that was saved before.
MINE = record(b"set 1 1 A\n", b"set 1 2 T\n")

# Lines of the file get no answers. Refused lines are reported with their numbers.
CASES = {
    # The last line has no LF.
    "lines_resumed, some refused": resumed(
        b"size 3 1\r\nadd cat\n\n# a note\nadd cat\n set 1 1 7\nset 9 9 A\ntitle \0\nshow\nset 1 1 c",
        b"show\nmatch ...\n",
        output=b"C - -\nok\nCAT\nok\n",
        errors=b"xw: mine.xw: line 5: Known\nxw: mine.xw: line 6: BadLetter\n"
        b"xw: mine.xw: line 7: OutOfGrid\nxw: mine.xw: line 8: NulByte\n",
        status=REFUSED,
    ),
    "lines_resumed, many edits of the grid": replayed_as_typed(EDITS, REFUSED_EDITS),
    "lines_resumed, edits of the grid between other lines": replayed_as_typed(
        b"".join(line + b"\n" for line, _ in MIXED),
        b"".join(b"xw: mine.xw: line %d: %s\n" % (number, name) for number, (_, name) in enumerate(MIXED, 1) if name),
    ),
    "lines_resumed, none refused": resumed(b"size 2 1\n\nwatch on\n", b"show\n", output=b"- -\nok\n"),
    # The first line of a saved session is a note.
    "lines_resumed, with the first line": resumed(
        FIRST + b"size 2 1\nset 9 9 A\nset 1 1 A\n",
        b"show\n",
        output=b"A -\nok\n",
        errors=b"xw: mine.xw: line 3: OutOfGrid\n",
        status=REFUSED,
    ),
    "lines_resumed, the first line alone": resumed(FIRST, b"circles\n", output=b"ok\n"),
    "lines_resumed, a part of the first line": resumed(FIRST[:-4], b"circles\n", output=b"ok\n"),
    "lines_resumed, none there": resumed(b"", b"frob\n", output=b"no Command\n", status=REFUSED),
    # A line has at most 4,096 bytes, not counting its LF but counting its CR.
    "long_lines_resumed, 4,096 bytes": resumed(b" " * 4088 + b"add CAT\r\nadd DOG\r\n", b"match D..\n", output=b"DOG\nok\n"),
    "long_lines_resumed, 4,097 bytes": resumed(
        b" " * 4089 + b"add CAT\r\nadd DOG\r\n",
        b"match D..\n",
        errors=b"xw: mine.xw: line 1: LineTooLong\n",
        status=FORMAT,
    ),
    # The first line that is no command ends the run, before any input is read.
    "no_command_resumed, Command": stopped_at(4, "Command", b"frob"),
    "no_command_resumed, Command, of another byte": stopped_at(4, "Command", b"\xff\r"),
    "no_command_resumed, Arguments, too few": stopped_at(4, "Arguments", b"add"),
    "no_command_resumed, Arguments, too many": stopped_at(4, "Arguments", b"show all"),
    "no_command_resumed, Arguments, a number": stopped_at(4, "Arguments", b"size 2 x"),
    "no_command_resumed, LineTooLong": stopped_at(4, "LineTooLong", b"title " + b"T" * 4091),
    "no_command_resumed, Escape": stopped_at(4, "Escape", b"text title \\x"),
    "no_command_resumed, Escape, cut": stopped_at(4, "Escape", b"more notes one\\"),
    # A wrong escape is told before a cell that is not there, and no text has one where it is spelled without escapes.
    "no_command_resumed, Escape, of a cell that is not there": stopped_at(4, "Escape", b"text clue 9 9 down \\x"),
    "no_command_resumed, after blank lines and notes": stopped_at(7, "Command", b"\n# frob\ntitle \\x\nfrob"),
    "no_command_resumed, after a refused line": stopped_at(5, "Command", b"block 9 9\nfrob", told=b"xw: mine.xw: line 4: OutOfGrid\n"),
    "no_command_resumed, after many edits": [
        write("mine.xw", EDITS + b"frob\nset 9 9 A\n"),
        run(
            "edit --resume mine.xw --save mine.xw",
            b"show\n",
            errors=REFUSED_EDITS + b"xw: mine.xw: line 43: Command\n",
            status=FORMAT,
        ),
        holds("mine.xw", EDITS + b"frob\nset 9 9 A\n"),
    ],
    # A word list that is resumed by mistake stays.
    "word_list_resumed": [
        write("words.txt", b"CAT\nCOT\n"),
        word_list_resumed("--resume words.txt --save words.txt", b"add DOG\n"),
        holds("words.txt", b"CAT\nCOT\n"),
        # The same with what it means. Its location is told already.
        word_list_resumed("--explain --resume words.txt --save words.txt", b"add DOG\n", b"xw: this is no journal; nothing in it was changed\n"),
        holds("words.txt", b"CAT\nCOT\n"),
        word_list_resumed("--resume words.txt --save new.xw"),
        absent("new.xw"),
    ],
    # A byte order mark before the first line, as some editors add, counts for nothing.
    "lines_resumed, behind a byte order mark": resumed(MARK + FIRST + b"size 2 1\nset 1 1 A\n", b"show\n", output=b"A -\nok\n"),
    "lines_resumed, behind a byte order mark, cut": resumed(
        MARK + FIRST + b"size 2 1\nset 1 1 A\nset 1", b"show\n", output=b"A -\nok\n", errors=b"xw: mine.xw: an incomplete last command is ignored\n"
    ),
    "lines_resumed, a byte order mark without the first line": resumed(
        MARK + b"size 2 1\n", b"show\n", errors=b"xw: mine.xw: line 1: Command\n", status=FORMAT
    ),
    "session_goes_on": [BEGUN, goes_on_as_saved],
    # A saved session is the first line and the record; the command `record` does not list the first line.
    "first_line": [
        run("edit --save mine.xw", b"size 2 1\nset 1 1 A\nrecord\n", b"ok\nok\n" + A_RECORD + b"ok\n"),
        holds("mine.xw", FIRST + A_RECORD),
        write("old.xw", A_RECORD),
        run("edit --resume old.xw --save old.xw", b"record\n", A_RECORD + b"ok\n"),
        holds("old.xw", FIRST + A_RECORD),
        # Into a session the file may be typed.
        run("edit", FIRST + A_RECORD + b"show\n", b"ok\n" * 8 + b"A -\nok\n"),
    ],
    "nothing_to_resume": [
        run(
            "edit --resume gone.xw --save gone.xw",
            b"add CAT\n",
            errors=b"xw: gone.xw: cannot read\n",
            status=FAILED,
        ),
        absent("gone.xw"),
    ],
    # A session is saved even if commands were refused or the puzzle cannot be written.
    "sessions_saved": [
        write("plain", PLAIN),
        write("kept.xw", b"old"),
        run("edit --save kept.xw", b"frob\nadd CAT\n", output=b"no Command\nok\n", errors=unread_kept("kept.xw"), status=REFUSED),
        differs("kept.xw", b"old"),
        absent("kept.puz"),
        write("kept.xw", b"old"),
        run(
            "edit --save kept.xw --to kept.puz",
            b"frob\nadd CAT\n",
            output=b"no Command\nok\n",
            errors=unread_kept("kept.xw", 2) + b"xw: kept.puz: NotFilled\n",
            status=FORMAT,
        ),
        differs("kept.xw", b"old"),
        absent("kept.puz"),
        write("kept.xw", b"old"),
        run("edit --from plain --save=kept.xw", b"frob\nadd CAT\n", output=b"no Command\nok\n", errors=unread_kept("kept.xw", 3), status=REFUSED),
        differs("kept.xw", b"old"),
        absent("kept.puz"),
    ],
    # A file that the call did not read is kept, and no file is replaced for this. An empty one is nothing to keep.
    "unread_kept, a session": [
        write("mine.xw", MINE),
        run("edit --save mine.xw", errors=unread_kept("mine.xw")),
        holds("mine.xw~", MINE),
        write("mine.xw", b"a letter"),
        run("edit --save mine.xw", errors=unread_kept("mine.xw", 2)),
        holds("mine.xw~", MINE),
        holds("mine.xw~2", b"a letter"),
        write("mine.xw", b""),
        run("edit --save mine.xw"),
        absent("mine.xw~3"),
    ],
    "unread_kept, by a link": [
        write("mine.xw", MINE),
        link("l", "mine.xw"),
        run("edit --save l", b"size 2 1\n", b"ok\n", errors=unread_kept("l")),
        holds("l~", MINE),
        holds("mine.xw", record()),
    ],
    "unread_kept, with a journal": [
        write("mine.xw", MINE),
        run("edit --journal j --save mine.xw", b"size 2 1\n", b"ok\n", errors=unread_kept("mine.xw")),
        holds("mine.xw~", MINE),
        holds("mine.xw", record()),
    ],
    # What has the same bytes already is not lost.
    "unread_kept, unless it is the same": [
        write("mine.xw", record()),
        run("edit --save mine.xw", b"size 2 1\n", b"ok\n"),
        run("edit --journal j --save mine.xw", b"size 2 1\n", b"ok\n"),
        run("edit --journal j --save mine.xw"),
        holds("mine.xw", record()),
        absent("mine.xw~"),
    ],
    # A file to write may have the name `-`, which is then not the input.
    "unread_kept, a file named as the input": [
        write("-", MINE),
        run("edit --save -", b"size 2 1\n", b"ok\n", errors=unread_kept("-")),
        holds("-", record()),
        holds("-~", MINE),
    ],
    # Of two sessions on one file neither is lost.
    "unread_kept, of two sessions": [
        write("mine.xw", record()),
        meanwhile(
            run("edit --resume mine.xw --save mine.xw", b"set 1 1 A\nset 1 2 T\n", b"ok\nok\n"),
            words="edit --resume mine.xw --save mine.xw",
            errors=unread_kept("mine.xw"),
        ),
        holds("mine.xw", record()),
        holds("mine.xw~", MINE),
    ],
    "unread_kept, a file that gets the name": [
        write("words.txt", b"CAT\n"),
        meanwhile(rename("words.txt", "mine.xw"), errors=unread_kept("mine.xw")),
        holds("mine.xw", record()),
        holds("mine.xw~", b"CAT\n"),
    ],
    # A session that cannot be saved is left in another file.
    "left_elsewhere, beside it": [
        meanwhile(
            lambda room, program: (room / "mine.xw").mkdir(),
            errors=b"xw: mine.xw: not saved; the session is kept as mine.xw~\nxw: mine.xw: cannot write\n",
            status=FAILED,
        ),
        holds("mine.xw~", record()),
    ],
    "left_elsewhere, in the current folder": [
        lambda room, program: (room / "inner").mkdir(),
        write("mine.xw~", b"old"),
        meanwhile(
            lambda room, program: (room / "inner").rmdir(),
            words="edit --save inner/mine.xw",
            errors=b"xw: inner/mine.xw: not saved; the session is kept as mine.xw~2\nxw: inner/mine.xw: cannot write\n",
            status=FAILED,
        ),
        holds("mine.xw~", b"old"),
        holds("mine.xw~2", record()),
    ],
    # No file is made beside a device.
    "left_elsewhere, a full device": [
        run(
            "edit --save /dev/full",
            b"size 2 1\n",
            b"ok\n",
            errors=b"xw: /dev/full: not saved; the session is kept as full~\nxw: /dev/full: cannot write\n",
            status=FAILED,
        ),
        holds("full~", record()),
        lambda room, program: compare("/dev/full~ is there", os.path.exists("/dev/full~"), False),
    ],
    # Nor is it waited for that somebody reads a pipe.
    "left_elsewhere, a pipe without a reader": [
        lambda room, program: os.mkfifo(room / "pipe"),
        run(
            "edit --save pipe",
            b"size 2 1\n",
            b"ok\n",
            errors=b"xw: pipe: not saved; the session is kept as pipe~\nxw: pipe: cannot write\n",
            status=FAILED,
        ),
        holds("pipe~", record()),
    ],
    # The record must not replace the word list or the puzzle.
    "record_kept_apart": [
        write("here.txt", b"cat\n"),
        run(
            "edit --dict here.txt --save ./here.txt",
            b"add DOG\n",
            errors=b"xw: ./here.txt: the word list cannot be the file to write\n",
            status=USAGE,
        ),
        run(
            "edit --to here.txt --save ./here.txt",
            b"add DOG\n",
            errors=b"xw: ./here.txt: the puzzle and the session cannot be written into one file\n",
            status=USAGE,
        ),
        run(
            "edit --to there.txt --save there.txt",
            b"add DOG\n",
            errors=b"xw: there.txt: the puzzle and the session cannot be written into one file\n",
            status=USAGE,
        ),
        holds("here.txt", b"cat\n"),
    ],
}
