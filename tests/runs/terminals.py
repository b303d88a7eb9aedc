"""Messages on a terminal: a long word list is loading, failures are explained as with `--explain`, and who types commands is greeted."""
import os
import pty
import subprocess
import termios

from samples import PLAIN
from steps import FAILED, FORMAT, SECONDS, absent, compare, holds, run, write

# As many line feeds as a list may have before it is called long.
MOST = 1000000


def told(messages):
    """A terminal writes a carriage return before each line feed."""
    return messages.replace(b"\n", b"\r\n")


def read_all(terminal):
    """What was written to a terminal whose other end is closed."""
    found = b""
    try:
        while more := os.read(terminal, 4096):
            found += more
    except OSError:
        pass  # there is no more
    os.close(terminal)
    return found


def tells(words, messages, status=0):
    """Runs the program with a terminal as standard error, and without input."""

    def step(room, program):
        terminal, other = pty.openpty()
        call = ["xw", *words.split()]
        streams = {"stdin": subprocess.DEVNULL, "stdout": subprocess.PIPE, "stderr": other}
        ended = subprocess.run(call, executable=program, cwd=room, env={}, timeout=SECONDS, **streams)
        os.close(other)
        compare(f"messages of xw {words}", read_all(terminal), told(messages))
        compare(f"output and status of xw {words}", (ended.stdout, ended.returncode), (b"", status))

    return step


GREETING = b"xw: type one command per line; help lists them, and Ctrl D ends the session\n"
# The greeting if no file keeps the session.
UNKEPT = GREETING + b"xw: the session is not kept; --save or --journal keeps it\n"
END = b"\x04"
# What follows an empty cell if no file keeps the session.
LOST = b"xw: the session is not kept; --save or --journal keeps it\n"


def silent_terminal():
    """A terminal that does not echo what is typed, so all that it shows was written by the program."""
    terminal, other = pty.openpty()
    modes = termios.tcgetattr(other)
    modes[3] &= ~termios.ECHO
    termios.tcsetattr(other, termios.TCSANOW, modes)
    return terminal, other


def read_up_to(stream, end):
    found = b""
    while not found.endswith(end):
        more = os.read(stream, 1)
        assert more, f"the program ended after {found}"
        found += more
    return found


def greets(words, first=b"", greeting=UNKEPT):
    """Types a command, and Ctrl D after its answer. `first` is told before the greeting."""

    def step(room, program):
        terminal, other = silent_terminal()
        streams = {"stdin": other, "stdout": subprocess.PIPE, "stderr": other}
        with subprocess.Popen(["xw", *words.split()], executable=program, cwd=room, env={}, **streams) as started:
            os.close(other)
            compare(f"greeting of xw {words}", read_up_to(terminal, told(greeting)), told(first + greeting))
            os.write(terminal, b"set 1 1 A\n")
            compare(f"answer of xw {words}", read_up_to(started.stdout.fileno(), b"\n"), b"ok\n")
            os.write(terminal, END)
            compare(f"status of xw {words}", started.wait(timeout=SECONDS), 0)
        compare(f"other messages of xw {words}", read_all(terminal), b"")

    return step


def greets_nobody(words):
    """Types no command on a terminal, where the messages go elsewhere."""

    def step(room, program):
        terminal, other = silent_terminal()
        os.write(terminal, END)
        ended = subprocess.run(["xw", *words.split()], executable=program, cwd=room, env={}, timeout=SECONDS, stdin=other, stdout=subprocess.PIPE, stderr=subprocess.PIPE)
        os.close(other)
        os.close(terminal)
        compare(f"xw {words}", (ended.stdout, ended.stderr, ended.returncode), (b"", b"", 0))

    return step


def shows(words, typed, output, messages, is_shown=(True, True)):
    """Runs the program with terminals as standard output and standard error, or pipes, and checks what each gets."""

    def step(room, program):
        ends = [pty.openpty() if it else os.pipe() for it in is_shown]
        (room / "typed").write_bytes(typed)
        with open(room / "typed", "rb") as given:
            streams = {"stdin": given, "stdout": ends[0][1], "stderr": ends[1][1]}
            with subprocess.Popen(["xw", *words.split()], executable=program, cwd=room, env={}, **streams) as started:
                for _, other in ends:
                    os.close(other)
                found = [read_all(end) for end, _ in ends]
                started.wait(timeout=SECONDS)
        wanted = [told(text) if it else text for it, text in zip(is_shown, (output, messages))]
        compare(f"output and messages of xw {words}", found, wanted)

    return step


# A title and a clue with control characters: escape, carriage return, tab, DEL, and CSI in UTF-8; and the name of a file.
CONTROLS = b"title A\x1b[2J\x7f\xc2\x9b\xc2\xa0\xc3\xa9\x01\ntexts\n"
RAW = b"ok\ntitle A\x1b[2J\x7f\xc2\x9b\xc2\xa0\xc3\xa9\x01\nok\n"
SHOWN = b"ok\ntitle A\\x1b[2J\\x7f\\x9b\xc2\xa0\xc3\xa9\\x01\nok\n"
NAMED = "edit --dict a\x1b[2J\x80\x07b"
RAW_NAME = "xw: a\x1b[2J\x80\x07b: 1 added, 0 skipped\n".encode()
SHOWN_NAME = b"xw: a\\x1b[2J\\x80\\x07b: 1 added, 0 skipped\nxw: 0 of 1 lines have a grade\n"

NOTED = b"xw: 0 of 1000001 lines have a grade\n"
LONG = [write("long.txt", b"\n" * (MOST + 1))]
COUNTED = b"xw: long.txt: 0 added, 1000001 skipped\n"

CASES = {
    "a long list is loading": [*LONG, tells("edit --dict long.txt", b"xw: long.txt: loading\n" + COUNTED + NOTED)],
    "a long list, without a terminal": [*LONG, run("edit --dict long.txt", errors=COUNTED)],
    # The last line has no line feed.
    "a list that is not long": [
        write("short.txt", b"\n" * MOST + b"cat"),
        tells("edit --dict short.txt", b"xw: short.txt: 1 added, 1000000 skipped\n" + NOTED),
    ],
    "a grid with empty cells": [
        tells(
            "edit --to mine.puz",
            b"xw: mine.puz: NotFilled\nxw: row 1, column 1\nxw: the grid has empty cells, the first at row 1, column 1; nothing was written\n" + LOST,
            FORMAT,
        ),
        absent("mine.puz"),
    ],
    "a file that is no puzzle": [
        write("words.txt", b"cat\n"),
        tells("check words.txt", b"xw: words.txt: Header\nxw: line 1\nxw: this is no puzzle file\n", FORMAT),
        tells("check words.txt gone", b"xw: words.txt: Header\nxw: line 1\nxw: this is no puzzle file\nxw: gone: cannot read\nxw: No such file or directory\n", FAILED),
    ],
    "a file that is no journal": [
        write("p.puz", PLAIN),
        tells("edit --journal p.puz", b"xw: p.puz: line 1: Command\nxw: this is no journal; nothing in it was changed\n", FORMAT),
        holds("p.puz", PLAIN),
    ],
    "a file that cannot be written": [
        tells("edit --save no/such/folder", b"xw: no/such/folder: cannot write\nxw: No such file or directory\n", FAILED),
    ],
    "a long list before another fault": [
        *LONG,
        write("bad.puz", PLAIN[:60]),
        tells("edit --dict long.txt --from bad.puz", b"xw: long.txt: loading\n" + COUNTED + NOTED + b"xw: bad.puz: NoNul\nxw: title\nxw: the file is cut off\n", FORMAT),
    ],
    "a greeting": [greets("edit")],
    "a greeting with a journal": [greets("edit --journal mine.xw", greeting=GREETING)],
    "a greeting after the reports of the files": [
        write("list", b"cat\n"),
        greets("edit --dict list --save mine.xw", b"xw: list: 1 added, 0 skipped\nxw: 0 of 1 lines have a grade\n", GREETING),
    ],
    # Control characters of texts and names move no cursor. Elsewhere the bytes stay.
    "control characters": [
        lambda room, program: (room / NAMED.split()[-1]).write_bytes(b"cat\n"),
        shows(NAMED, CONTROLS, SHOWN, SHOWN_NAME),
        shows(NAMED, CONTROLS, SHOWN, RAW_NAME, (True, False)),
        shows(NAMED, CONTROLS, RAW, SHOWN_NAME, (False, True)),
        shows(NAMED, CONTROLS, RAW, RAW_NAME, (False, False)),
    ],
    # A character of two bytes may come in two writes: the second byte is shown as an escape.
    "control characters, many": [
        shows(
            "edit",
            b"title " + b"a" * 3000 + b"\xc2\x9b" * 400 + b"\n" + b"texts\n" * 40,
            b"ok\n" + (b"title " + b"a" * 3000 + b"\\x9b" * 400 + b"\nok\n") * 40,
            b"",
        ),
    ],
    "no greeting, since the messages go elsewhere": [greets_nobody("edit")],
    "no greeting, since the lines come from elsewhere": [tells("edit", b"")],
}
