"""The name `-`, which stands for standard input."""
import subprocess

from samples import PLAIN, TEXT
from steps import FAILED, FIRST, FORMAT, USAGE, absent, compare, end, holds, run, write

TWICE = b"xw: -: standard input can be read only once\n"


def from_a_pipe(words, parts, output, errors=b""):
    """Sends the input in parts, over a pipe."""

    def step(room, program):
        with subprocess.Popen(
            ["xw", *words.split()], executable=program, cwd=room, env={}, stdin=subprocess.PIPE, stdout=subprocess.PIPE, stderr=subprocess.PIPE
        ) as process:
            for part in parts:
                process.stdin.write(part)
                process.stdin.flush()
            compare("output and messages", process.communicate(), (output, errors))
            compare("status", process.returncode, 0)

    return step


def has_no_input(words, errors):
    """Standard input cannot be read."""

    def step(room, program):
        with open(room / "unread", "wb") as source:
            ended = end(room, program, words, stdin=source, stdout=subprocess.PIPE)
        compare("output, messages and status", (ended.stdout, ended.stderr, ended.returncode), (b"", errors, FAILED))

    return step


CASES = {
    "check": [
        run("check -", PLAIN, b"puz 2x2 4 lights\n"),
        run("check -", TEXT, b"text 2x2 4 lights\n"),
        run("check -", b"", errors=b"xw: -: Header\n", status=FORMAT),
        run("check --explain -", b"x\n", errors=b"xw: -: Header\nxw: line 1\nxw: this is no puzzle file\n", status=FORMAT),
        from_a_pipe("check -", (PLAIN[:1], PLAIN[1:60], PLAIN[60:]), b"puz 2x2 4 lights\n"),
        has_no_input("check -", b"xw: -: cannot read\n"),
    ],
    # A file with this name is another one.
    "check, a file with this name": [
        write("-", TEXT),
        run("check ./-", PLAIN, b"text 2x2 4 lights\n"),
        run("check -", PLAIN, b"puz 2x2 4 lights\n"),
    ],
    "convert": [
        run("convert - new.txt", PLAIN),
        holds("new.txt", TEXT),
        run("convert - new.puz", TEXT),
        holds("new.puz", PLAIN),
        run("convert - new.puz", b"x\n", errors=b"xw: -: Header\n", status=FORMAT),
        holds("new.puz", PLAIN),
    ],
    # The session has the commands of the other file to start with.
    "edit, word list": [
        run("edit --dict - --save new.xw", b"cat\nx\n", errors=b"xw: -: 1 added, 1 skipped\n"),
        write("start.xw", FIRST + b"size 3 1\nset 1 1 C\nfill 10\nclue 1 across x\n"),
        run("edit --dict - --resume start.xw --to new.txt", b"cat\n", errors=b"xw: -: 1 added, 0 skipped\n"),
        run("check new.txt", output=b"text 3x1 1 lights\n"),
    ],
    "edit, puzzle": [run("edit --from - --to new.puz", TEXT), holds("new.puz", PLAIN)],
    "edit, commands": [
        run("edit --resume - --save new.xw", FIRST + b"size 2 1\nset 1 1 A\n"),
        run("edit --resume new.xw", b"show\n", b"A -\nok\n"),
        # The file that is written is not the one that was resumed.
        run("edit --resume - --save -", FIRST + b"size 2 1\nset 9 9 A\n", errors=b"xw: -: line 3: OutOfGrid\n", status=1),
        absent("-~"),
    ],
    "edit, twice": [
        run("edit --dict - --from - --to new.puz", TEXT, errors=TWICE, status=USAGE),
        run("edit --dict - --resume - --save new.xw", b"", errors=TWICE, status=USAGE),
        absent("new.puz"),
        absent("new.xw"),
    ],
}
