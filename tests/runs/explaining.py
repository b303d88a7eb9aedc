"""Runs with `--explain`, which prints the location of a fault and a sentence that says what it means."""
import os

from samples import CIRCLED, PLAIN, TEXT, WRONG_SUM
from steps import FAILED, FIRST, FORMAT, USAGE, holds, run, write

# The sentences: docs/commands.md, "Where a fault is".
CUT_OFF = "the file is cut off"
NO_PUZZLE = "this is no puzzle file"
# What follows an empty cell if no file keeps the session.
LOST = "xw: the session is not kept; --save or --journal keeps it\n"
SESSION = "this is a session; use --resume to go on with it"


# The message for an empty grid of a session that is kept.
EMPTY = b"xw: new.puz: NotFilled\nxw: row 1, column 1\nxw: the grid has empty cells, the first at row 1, column 1; nothing was written\n"


def told(data, fault, location, sentence):
    """Checks the message for a file with a fault, without and with its location."""
    return [
        write("told", data),
        run("check told", errors=f"xw: told: {fault}\n".encode(), status=FORMAT),
        run("check --explain told", errors=f"xw: told: {fault}\nxw: {location}\nxw: {sentence}\n".encode(), status=FORMAT),
    ]


def is_no_command(option, data, line, fault, sentence):
    """Checks the message for a line of a file that is no command, without and with the sentence. The file stays as it was."""
    message = f"xw: lines: line {line}: {fault}\n"
    return [
        write("lines", data),
        run(f"edit {option} lines", errors=message.encode(), status=FORMAT),
        run(f"edit --explain {option} lines", errors=f"{message}xw: {sentence}\n".encode(), status=FORMAT),
        holds("lines", data),
    ]


def is_not_written(file, typed, fault, sentence, location=None):
    """Runs commands on the plain puzzle, and checks the fault of writing it."""
    errors = f"xw: {file}: {fault}\n" + (f"xw: {location}\n" if location else "") + f"xw: {sentence}; nothing was written\n"
    errors += LOST if fault == "NotFilled" else ""
    output = b"ok\n" * typed.count(b"\n")
    return [
        write("refused", PLAIN),
        run(f"edit --explain --from refused --to {file}", typed, output, errors.encode(), FORMAT),
    ]


def fails(words, errors, reason=None, typed=b"", output=b""):
    """Checks the message for a file that the system refuses, without and with the reason."""
    more = f"xw: {reason}\n" if reason else ""
    return [
        run(words, typed, output, errors.encode(), FAILED),
        run(f"{words} --explain", typed, output, (errors + more).encode(), FAILED),
    ]


def makes(folder):
    return lambda room, program: (room / folder).mkdir()


CASES = {
    # The errors of the system, as the C library names them.
    "device_told, no file": [
        *fails("check gone", "xw: gone: cannot read\n", "No such file or directory"),
        *fails("convert gone new.txt", "xw: gone: cannot read\n", "No such file or directory"),
        *fails("edit --dict gone", "xw: gone: cannot read\n", "No such file or directory"),
        *fails("edit --from gone", "xw: gone: cannot read\n", "No such file or directory"),
        *fails("edit --resume gone", "xw: gone: cannot read\n", "No such file or directory"),
    ],
    "device_told, no folder": [
        write("plain.puz", PLAIN),
        *fails("convert plain.puz no/such/folder.puz", "xw: no/such/folder.puz: cannot write\n", "No such file or directory"),
        *fails("edit --save no/such/folder", "xw: no/such/folder: cannot write\n", "No such file or directory"),
        *fails("edit --journal no/such/folder", "xw: no/such/folder: cannot write\n", "No such file or directory"),
    ],
    "device_told, a folder": [
        makes("folder"),
        write("plain.puz", PLAIN),
        *fails("check folder", "xw: folder: cannot read\n", "Is a directory"),
        *fails("check plain.puz/inside", "xw: plain.puz/inside: cannot read\n", "Not a directory"),
        *fails("edit --save folder", "xw: folder: cannot write\n", "Is a directory"),
        # The program refuses it, and not the system.
        *fails("edit --journal folder", "xw: folder: cannot write\n"),
    ],
    "device_told, a full device": [
        write("plain.puz", PLAIN),
        *fails("convert plain.puz /dev/full", "xw: /dev/full: cannot write\n", "No space left on device"),
    ],
    # Other failures have no second line.
    "device_told, wrong usage": [
        run("edit --explain --dict a --to a", errors=b"xw: a: the word list cannot be the file to write\n", status=USAGE),
    ],
    # A `.puz` file that is cut off at several offsets.
    "puz_faults_told, notes": told(PLAIN[:71], "NoNul", "notes", CUT_OFF),
    "puz_faults_told, clue": told(PLAIN[:66], "NoNul", "clue 2 (1 down)", CUT_OFF),
    "puz_faults_told, header": told(PLAIN[:51], "Short", "header", CUT_OFF),
    "puz_faults_told, boards": told(PLAIN[:59], "Short", "boards", CUT_OFF),
    "wrong_sum_told": told(WRONG_SUM, "BadSum", "file checksum", "the file is damaged: a checksum is wrong"),
    # The faulty line of a text file, or its end.
    "text_faults_told, line": told(TEXT[:20], "Tag", "line 2", "a tag is expected here"),
    "text_faults_told, end": told(b"\n\n", "Header", "end of file", NO_PUZZLE),
    "text_faults_told, byte": told(b"<ACROSS PUZZLE>\n\n<\0", "NulByte", "line 3", NO_PUZZLE),
    # A cell of a text file is reported by row and column.
    "bad_cell_told": told(
        b"<ACROSS PUZZLE>\n<TITLE>\n<AUTHOR>\n<COPYRIGHT>\n<SIZE>\n2x2\n<GRID>\nAT\nS?\n",
        "BadCell",
        "row 2, column 2",
        "a cell is neither a letter nor a block",
    ),
    # Puzzles that the output format cannot hold.
    "empty_cell_told": is_not_written("empty.puz", b"clear 2 1\nclear 2 2\n", "NotFilled", "the grid has empty cells, the first at row 2, column 1", "row 2, column 1"),
    "unspelled_clue_told": is_not_written("clue.txt", b"clue 2 down\n", "Field", "the file cannot hold one of the texts", "clue 3 (2 down)"),
    "unspelled_title_told": is_not_written("title.txt", b"title <x>\n", "Field", "the file cannot hold one of the texts", "title"),
    "empty_cell_told, of a session that is kept": [
        run(f"edit --explain --to new.puz {kept}", b"size 2 1\n", b"ok\n", EMPTY, FORMAT)
        for kept in ("--save mine.xw", "--journal mine.journal")
    ],
    # A session is no puzzle.
    "session_told": [
        step
        for data in (FIRST + b"size 2 1\n", FIRST, FIRST[:-1], b"\xef\xbb\xbf" + FIRST, FIRST[:-1] + b"\r\n")
        for step in (
            *told(data, "Header", "line 1", SESSION),
            run("edit --explain --from told", errors=f"xw: told: Header\nxw: line 1\nxw: {SESSION}\n".encode(), status=FORMAT),
        )
    ],
    "no_session_told, of another file": told(FIRST[:-2] + b"\n", "Header", "line 1", NO_PUZZLE),
    # A journal has to be a regular file.
    "device_told, a pipe as a journal": [
        lambda room, program: os.mkfifo(room / "pipe"),
        *fails("edit --journal pipe", "xw: pipe: cannot write\n", "not a regular file"),
        *fails("edit --journal /dev/null", "xw: /dev/null: cannot write\n", "not a regular file"),
    ],
    # Lines that are no commands.
    "no_journal_told": is_no_command("--journal", PLAIN, 1, "Command", "this is no journal; nothing in it was changed"),
    "no_list_as_journal_told": is_no_command("--journal", b"cat\ndog\n", 1, "Command", "this is no journal; nothing in it was changed"),
    "no_session_told": is_no_command("--resume", b"cat\ndog\n", 1, "Command", "this is no journal; nothing in it was changed"),
    "wrong_line_told": is_no_command("--resume", b"add cat\nadx dog\n", 2, "Command", "not a session file: it has an unknown command; nothing in it was changed"),
    "wrong_words_told": is_no_command(
        "--resume", b"add cat\nsize 5\n", 2, "Arguments", "the arguments of the command are wrong; nothing in the file was changed"
    ),
    "long_line_told": is_no_command(
        "--resume", b"#" * 4097 + b"\n", 1, "LineTooLong", "the line has more than 4,096 bytes; nothing in the file was changed"
    ),
    "cut_line_told": is_no_command(
        "--journal", b"add cat\nadd dog", 2, "Cut", "the last line has no line feed, so this may not be a journal; nothing in it was changed"
    ),
    # The fault of a bar has no location.
    "barred_told": is_not_written("barred.txt", b"bar 1 1 right\n", "Barred", "a puzzle file cannot hold bars"),
    "circle_told": [
        write("circled", CIRCLED),
        run(
            "convert circled --explain circled.txt",
            errors=b"xw: circled.txt: Circled\nxw: row 1, column 1\nxw: a text file cannot hold circles; nothing was written\n",
            status=FORMAT,
        ),
    ],
}
