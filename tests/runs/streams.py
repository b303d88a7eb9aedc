"""Standard streams that are closed or do not block, and signals."""
import fcntl
import os
import signal
import subprocess
import time

from samples import PLAIN, TEXT
from steps import ACCEPTED, FAILED, FIRST, SECONDS, compare, end, holds, run, write

from runs.devices import wait_until
from runs.journals import CUT, Session, record


def start(room, program, words, closed, **streams):
    """Starts the program with some of its streams closed."""

    def close():
        for number in closed:
            os.close(number)

    return subprocess.Popen(["xw", *words.split()], executable=program, cwd=room, env={}, bufsize=0, preexec_fn=close, **streams)


def journals_without_output(closed, begun=FIRST):
    """Kills a session whose output is closed, and whose answers stand nowhere."""

    def step(room, program):
        process = start(room, program, "edit --journal mine.xw", closed, stdin=subprocess.PIPE)
        kept = begun
        for line in (b"size 2 1\n", b"set 1 1 A\n", b"set 1 2 B\n"):
            process.stdin.write(line)
            kept += line
            wait_until(lambda: (room / "mine.xw").exists() and line in (room / "mine.xw").read_bytes(), f"the line {line}")
        process.kill()
        process.wait()
        process.stdin.close()
        compare("journal", (room / "mine.xw").read_bytes(), kept)

    return step


def has_no_input(words, errors=b"xw: input fault\n", status=FAILED):
    """Runs the program with its input closed."""

    def step(room, program):
        process = start(room, program, words, [0], stdout=subprocess.PIPE, stderr=subprocess.PIPE)
        output, messages = process.communicate(timeout=SECONDS)
        compare("output, messages and status", (output, messages, process.returncode), (b"", errors, status))

    return step


def goes_without(closed, words, typed, output, errors, status=ACCEPTED):
    """Runs the program with its output or its messages closed; what it writes to the other."""

    def step(room, program):
        pipes = {name: subprocess.PIPE for number, name in ((1, "stdout"), (2, "stderr")) if number not in closed}
        process = start(room, program, words, closed, stdin=subprocess.PIPE, **pipes)
        found = process.communicate(typed, timeout=SECONDS)
        compare("output, messages and status", (*found, process.returncode), (output, errors, status))

    return step


def journals_without_messages(wanted):
    """Kills a session whose messages are closed, once it has answered."""

    def step(room, program):
        process = start(room, program, "edit --journal mine.xw", [2], stdin=subprocess.PIPE, stdout=subprocess.PIPE)
        process.stdin.write(b"set 1 1 A\n")
        compare("answer", process.stdout.read(3), b"ok\n")
        process.kill()
        process.wait()
        process.stdin.close()
        process.stdout.close()
        compare("journal", (room / "mine.xw").read_bytes(), wanted + b"set 1 1 A\n")

    return step


def ends_by(number):
    """Sends a signal to a session that waits for its next line."""

    def step(room, program):
        for words, saved in (("edit --journal mine.xw --save new.xw --to new.txt", FIRST + b"size 2 1\n"), ("edit --save new.xw --to new.txt", None)):
            session = Session(room, program, words)
            session.ask(b"size 2 1", b"ok\n")
            session.process.send_signal(number)
            compare("end", session.end(), (b"", b"", -number))
            if saved:
                holds("mine.xw", saved)(room, program)
            compare("other files", ((room / "new.xw").exists(), (room / "new.txt").exists()), (False, False))

    return step


def is_not_read(room, program):
    """An output that nobody reads any more."""
    read, write = os.pipe()
    os.close(read)
    ended = end(room, program, "edit --journal mine.xw --save new.xw", input=b"size 2 1\nset 1 1 A\n", stdout=write)
    os.close(write)
    compare("messages and status", (ended.stderr, ended.returncode), (b"", FAILED))
    holds("mine.xw", FIRST + b"size 2 1\n")(room, program)
    holds("new.xw", record())(room, program)


def ends_unread(words):
    """Runs a call whose only output nobody reads."""

    def step(room, program):
        read, write = os.pipe()
        os.close(read)
        ended = end(room, program, words, input=b"", stdout=write)
        os.close(write)
        compare(f"messages and status of xw {words}", (ended.stderr, ended.returncode), (b"", FAILED))

    return step


def stops_reading(room, program):
    """Reads the beginning of a long answer, and closes the pipe while the rest of it is written."""
    with subprocess.Popen(
        ["xw", "edit", "--save", "new.xw"], executable=program, cwd=room, env={}, stdin=subprocess.PIPE, stdout=subprocess.PIPE, stderr=subprocess.PIPE
    ) as process:
        process.stdin.write(b"size 200 200\ncells\n")
        process.stdin.flush()
        compare("answer", process.stdout.read(3), b"ok\n")
        process.stdout.close()
        process.stdin.close()
        compare("messages", process.stderr.read(), b"")
        compare("status", process.wait(timeout=SECONDS), FAILED)
    assert (room / "new.xw").exists()


def does_not_block(stream):
    fcntl.fcntl(stream, fcntl.F_SETFL, fcntl.fcntl(stream, fcntl.F_GETFL) | os.O_NONBLOCK)


def breaks_off_without_input(room, program):
    """An input that does not block, and has a line and no end."""
    read, write = os.pipe()
    does_not_block(read)
    os.write(write, b"size 2 1\n")
    ended = end(room, program, "edit --journal mine.xw --save new.xw", stdin=read, stdout=subprocess.PIPE)
    for stream in (read, write):
        os.close(stream)
    compare("output, messages and status", (ended.stdout, ended.stderr, ended.returncode), (b"ok\n", b"xw: input fault\n", FAILED))
    holds("mine.xw", FIRST + b"size 2 1\n")(room, program)
    holds("new.xw", record())(room, program)


def breaks_off_without_room(room, program):
    """An output that does not block, and is not read."""
    read, write = os.pipe()
    does_not_block(write)
    ended = end(room, program, "edit --journal mine.xw", input=b"size 200 200\ncells\nset 1 1 A\n", stdout=write)
    for stream in (read, write):
        os.close(stream)
    compare("messages and status", (ended.stderr, ended.returncode), (b"xw: output fault\n", FAILED))
    holds("mine.xw", FIRST + b"size 200 200\n")(room, program)


def searches_on(room, program):
    """Closes the pipes of a session that searches: there are fifteen lights that do not cross, and fourteen words for them."""
    session = Session(room, program)
    lines = ["size 5 29", *(f"block {row} {col}" for row in range(2, 29, 2) for col in range(1, 6)), *(f"add ABCD{chr(65 + at)}" for at in range(14))]
    for line in lines:
        session.ask(line.encode(), b"ok\n")
    before = (room / "mine.xw").read_bytes()
    session.send(b"fill 999999999999999999")
    session.close()
    try:
        for _ in range(2):
            time.sleep(0.1)
            run("edit --journal mine.xw", errors=b"xw: mine.xw: in use\n", status=FAILED)(room, program)
            compare("whether it runs", session.process.poll(), None)
    finally:
        session.process.kill()
        session.process.wait()
    holds("mine.xw", before)(room, program)
    run("edit --journal mine.xw", b"circles\n", b"ok\n")(room, program)


CASES = {
    # No answer is written into a file that the program opens.
    "closed, output of a journal": [
        journals_without_output([1]),
        run("edit --journal mine.xw", b"show\n", b"A B\nok\n"),
        holds("mine.xw", record(b"set 1 1 A\n", b"set 1 2 B\n")),
    ],
    "closed, output and messages of a journal": [journals_without_output([1, 2]), run("edit --journal mine.xw", b"show\n", b"A B\nok\n")],
    # No message is written into one either.
    "closed, messages of a journal": [
        write("mine.xw", FIRST + b"size 2 1\nset 9 9 A\nset 1 1"),
        journals_without_messages(FIRST + b"size 2 1\nset 9 9 A\n"),
    ],
    "closed, messages": [
        write("words.txt", b"cat\n"),
        goes_without([2], "edit --dict words.txt --save new.xw", b"size 2 1\n", b"ok\n", None),
        holds("new.xw", record()),
        holds("words.txt", b"cat\n"),
        write("plain.puz", PLAIN),
        goes_without([2], "convert plain.puz plain.txt", b"", b"", None),
        holds("plain.txt", TEXT),
    ],
    # A journal, or a session to start with, is not taken for the input.
    "closed, input": [
        has_no_input("edit"),
        has_no_input("edit --save new.xw"),
        write("mine.xw", FIRST + b"size 2 1\nset 1 1 A\n"),
        has_no_input("edit --journal mine.xw --save saved.xw --to new.puz"),
        holds("mine.xw", FIRST + b"size 2 1\nset 1 1 A\n"),
        holds("saved.xw", record(b"set 1 1 A\n")),
        has_no_input("edit --resume mine.xw --save other.xw"),
        holds("other.xw", record(b"set 1 1 A\n")),
        # A new journal has its first line only, if any.
        has_no_input("edit --journal first.xw"),
        run("edit --journal first.xw", b"size 2 1\n", b"ok\n"),
        holds("first.xw", record()),
    ],
    "closed, input of a cut journal": [
        write("mine.xw", FIRST + b"size 2 1\nset 1 1"),
        has_no_input("edit --journal mine.xw", errors=CUT + b"xw: input fault\n"),
        holds("mine.xw", FIRST + b"size 2 1\n"),
    ],
    # No signal of a pipe without a reader ends the program: the session is saved.
    "not_read, output": [is_not_read],
    "not_read, rest of the output": [stops_reading],
    "not_read, output of other calls": [write("plain.puz", PLAIN), ends_unread("check plain.puz"), ends_unread("check plain.puz gone"), ends_unread("--help"), ends_unread("--version")],
    # A stream that does not block is a fault where the program would have to wait.
    "not_blocking, input": [breaks_off_without_input],
    "not_blocking, output": [breaks_off_without_room],
    # A search goes on when nobody waits for its answer, and the journal stays locked so long.
    "search_without_a_front_end": [searches_on],
    # No signal is handled: the program ends, and what was answered is in the journal. Without one the session is lost.
    **{f"signal {name.name}": [ends_by(name)] for name in (signal.SIGINT, signal.SIGTERM, signal.SIGHUP, signal.SIGKILL)},
}
