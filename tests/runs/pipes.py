"""Sessions over pipes, in which each answer has to come before the next line is sent: a front end that reads it would else wait for ever."""
import os
import re
import select
import subprocess
import time

from steps import ACCEPTED, REFUSED, SECONDS, compare


def read_to(stream, deadline, is_whole):
    """What the stream has up to there, or to its end."""
    data = b""
    while not is_whole(data):
        ready, _, _ = select.select([stream], [], [], max(0, deadline - time.monotonic()))
        assert ready, f"there is no whole answer after {SECONDS} seconds, but {data[-200:]!r}"
        more = os.read(stream.fileno(), 65536)
        if not more:
            break
        data += more
    return data


def is_answer(data):
    """Whether this ends with a line `ok`, or with one that begins with `no` and a space."""
    return re.search(rb"(?:^|\n)(?:ok|no .*)\n\Z", data)


def talk(program, room, exchanges, last):
    """Sends each text once the answer to the one before it has come, and then the last one and the end of the input."""
    deadline = time.monotonic() + SECONDS
    pipes = {"stdin": subprocess.PIPE, "stdout": subprocess.PIPE, "stderr": subprocess.PIPE}
    with subprocess.Popen(["xw", "edit"], executable=program, cwd=room, env={}, bufsize=0, **pipes) as session:
        try:
            for sent, answer in exchanges:
                session.stdin.write(sent)
                if answer:
                    compare(f"answer to {sent[:40]!r}", read_to(session.stdout, deadline, is_answer), answer)
            session.stdin.write(last[0])
            session.stdin.close()
            compare("answers at the end", read_to(session.stdout, deadline, lambda data: False), last[1])
            compare("messages", session.stderr.read(), b"")
            return session.wait(timeout=max(0, deadline - time.monotonic()))
        finally:
            session.kill()


def converses(*exchanges, last=(b"", b"")):
    """Pairs of what is sent and its whole answer; a blank answer is none."""

    def step(room, program):
        is_refused = any(answer.startswith(b"no ") for _, answer in [*exchanges, last])
        compare("status", talk(program, room, exchanges, last), REFUSED if is_refused else ACCEPTED)

    return [step]


# The feasible letters of each cell of a large grid: some 380,000 bytes, more than a pipe holds.
CELLS = b"".join(b"cell %d %d -\n" % (row, col) for row in range(1, 201) for col in range(1, 201)) + b"ok\n"

CASES = {
    "answered_before_the_next: edits": converses((b"size 3 1\n", b"ok\n"), (b"watch on\n", b"ok\n"), (b"add CAT\n", b"cell 1 1 C\ncell 1 2 A\ncell 1 3 T\nok\n")),
    "answered_before_the_next: a long answer": converses((b"size 200 200\n", b"ok\n"), (b"cells\n", CELLS), (b"add A\n", b"no Length\n")),
    "answered_before_the_next: refusals": converses((b"frob\n", b"no Command\n"), (b"add 4\n", b"no BadLetter\n"), (b"size 1 1\n", b"ok\n")),
    "answered_before_the_next: lines that are too long": converses(
        (b"a" * 4097 + b"\n", b"no LineTooLong\n"), (b"#" * 4097 + b"\n", b"no LineTooLong\n"), (b"size 1 1\n", b"ok\n")
    ),
    "answered_before_the_next: after lines without an answer": converses(
        (b"# a note\n", b""), (b"size 2 1\n", b"ok\n"), (b"\n \t\r\n# a note\nshow\n", b"- -\nok\n"), (b"# a note\n", b"")
    ),
    # A line that is sent in pieces, and one that only the end of the input ends.
    "answered_before_the_next: pieces of a line": converses((b"size ", b""), (b"2 1\n", b"ok\n"), last=(b"show", b"- -\nok\n")),
    "answered_before_the_next: a last line": converses((b"size 1 1\n", b"ok\n"), last=(b"frob", b"no Command\n")),
}
