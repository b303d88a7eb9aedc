"""A last line of the input without a line feed, which may have been cut: it is answered, and the session before it is kept."""
import os
import subprocess

from steps import FIRST, FORMAT, REFUSED, SECONDS, absent, compare, holds, run, write

from runs.journals import record
from runs.terminals import UNKEPT, read_all, silent_terminal, told

TOLD = b"xw: the last line had no end\n"
EXPLAINED = TOLD + b"xw: it was run as it stands, but its end may be missing\n"


def kept(name, number=""):
    return f"xw: {name}: the session before the last line is kept as {name}~{number}\n".encode()


def typed_to_an_end(room, program):
    """Types a line on a terminal, and Ctrl D twice in place of its end."""
    terminal, other = silent_terminal()
    streams = {"stdin": other, "stdout": subprocess.PIPE, "stderr": other}
    with subprocess.Popen(["xw", "edit"], executable=program, cwd=room, env={}, **streams) as started:
        os.close(other)
        os.write(terminal, b"size 15 1\x04\x04")
        compare("answer", started.stdout.read(), b"ok\n")
        compare("status", started.wait(timeout=SECONDS), 0)
    compare("messages", read_all(terminal), told(UNKEPT + EXPLAINED))


# The sessions of these cases, before the last line and after it.
BEFORE = record(b"set 1 1 A\n")
AFTER = record(b"set 1 1 A\n", b"set 1 2 B\n")
LINES = b"size 2 1\nset 1 1 A\n"

CASES = {
    "a journal": [
        run("edit --journal mine.xw", LINES + b"set 1 2 B", b"ok\nok\nok\n", errors=TOLD + kept("mine.xw")),
        holds("mine.xw", AFTER),
        holds("mine.xw~", BEFORE),
    ],
    "a saved session": [
        write("mine.xw", FIRST + LINES),
        run("edit --resume mine.xw --save mine.xw --explain", b"set 1 2 B", b"ok\n", errors=EXPLAINED + kept("mine.xw")),
        holds("mine.xw", AFTER),
        holds("mine.xw~", BEFORE),
    ],
    # The name is the next one that is free.
    "a saved session, twice": [
        write("mine.xw~", b"an editor's"),
        run("edit --save mine.xw", LINES + b"set 1 2 B", b"ok\nok\nok\n", errors=TOLD + kept("mine.xw", 2)),
        holds("mine.xw~", b"an editor's"),
        holds("mine.xw~2", BEFORE),
        holds("mine.xw", AFTER),
    ],
    "a journal and a saved session": [
        run("edit --journal mine.xw --save other.xw", LINES + b"set 1 2 B", b"ok\nok\nok\n", errors=TOLD + kept("other.xw")),
        holds("mine.xw", AFTER),
        holds("other.xw", AFTER),
        holds("other.xw~", BEFORE),
        absent("mine.xw~"),
    ],
    # A copy never takes the name of the puzzle.
    "a journal beside the puzzle": [
        run(
            "edit --journal mine.xw --to mine.xw~",
            LINES + b"set 1 2 B",
            b"ok\nok\nok\n",
            errors=TOLD + kept("mine.xw", 2) + b"xw: mine.xw~: Field\n",
            status=FORMAT,
        ),
        holds("mine.xw~2", BEFORE),
        absent("mine.xw~"),
    ],
    "no file for the session": [run("edit", b"size 15 1", b"ok\n", errors=TOLD)],
    "a terminal": [typed_to_an_end],
    # It was cut, and is another command than the one that was meant.
    "a size": [
        run("edit --journal mine.xw", b"size 2 1\nsize 15 1", b"ok\nok\n", errors=TOLD + kept("mine.xw")),
        holds("mine.xw~", record()),
    ],
    # Nothing is told of a line that changes nothing.
    "a query": [
        run("edit --journal mine.xw", LINES + b"show", b"ok\nok\nA -\nok\n"),
        run("edit --journal mine.xw", b"show 3", b"no Arguments\n", status=REFUSED),
        run("edit --journal mine.xw", b"set 9 9 A", b"no OutOfGrid\n", status=REFUSED),
        run("edit --journal mine.xw", b"set 1 1 A", b"ok\n"),
        run("edit --journal mine.xw", b"# a comment"),
        run("edit --journal mine.xw", b"   "),
        holds("mine.xw", BEFORE),
        absent("mine.xw~"),
    ],
    "lines with ends": [run("edit --journal mine.xw", LINES, b"ok\nok\n"), absent("mine.xw~"), holds("mine.xw", BEFORE)],
    "a carriage return is no end": [
        run("edit --save mine.xw", LINES + b"set 1 2 B\r", b"ok\nok\nok\n", errors=TOLD + kept("mine.xw")),
        holds("mine.xw~", BEFORE),
    ],
    # The other lines count as refused as before.
    "a line refused before": [
        run("edit --save mine.xw", LINES + b"frob\nset 1 2 B", b"ok\nok\nno Command\nok\n", errors=TOLD + kept("mine.xw"), status=REFUSED),
    ],
}
