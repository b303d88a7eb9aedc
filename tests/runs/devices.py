"""Runs with a broken input or a full output."""
import socket
import struct
import subprocess
import time

from samples import PLAIN
from steps import FAILED, FORMAT, SECONDS, absent, compare, differs, end, exists, holds, run, run_between, write


def wait_until(is_so, what):
    deadline = time.monotonic() + SECONDS
    while not is_so():
        assert time.monotonic() < deadline, f"{what} has not come after {SECONDS} seconds"
        time.sleep(0.001)


def fails(words, fault, typed=b"", can_be_read=True):
    """Runs the program with a full output, or with an input that cannot be read, and checks the message and the exit status."""

    def step(room, program):
        (room / "input").write_bytes(typed)
        with open(room / "input", "rb" if can_be_read else "ab") as source, open("/dev/full", "wb") as full:
            ended = end(room, program, words, stdin=source, stdout=full)
        compare("messages and status", (ended.stderr, ended.returncode), (f"xw: {fault}\n".encode(), FAILED))

    return step


def cannot_read(words, fault):
    return fails(words, fault, can_be_read=False)


def breaks_off(room, program):
    """Runs a session over a connection that is reset after an answer, so that the next read fails."""
    with socket.create_server(("127.0.0.1", 0)) as server, socket.create_connection(server.getsockname()) as sending:
        receiving, _ = server.accept()
        with receiving, open(room / "answers", "wb") as output:
            words = ["xw", "edit", "--from", "plain", "--save", "saved.xw", "--to", "kept.puz"]
            streams = {"stdin": receiving, "stdout": output, "stderr": subprocess.PIPE}
            process = subprocess.Popen(words, executable=program, cwd=room, env={}, **streams)
        sending.sendall(b"add CAT\n")
        wait_until(lambda: (room / "answers").read_bytes(), "an answer")
        # Not to linger is to reset.
        sending.setsockopt(socket.SOL_SOCKET, socket.SO_LINGER, struct.pack("ii", 1, 0))
    messages = process.communicate(timeout=SECONDS)[1]
    compare("messages and status", (messages, process.returncode), (b"xw: input fault\n", FAILED))
    compare("answers", (room / "answers").read_bytes(), b"ok\n")
    assert b"add CAT\n" in (room / "saved.xw").read_bytes()


def is_saved_up_to_the_fault(room, program):
    """Checks that no line is executed after an answer that could not be written."""
    saved = (room / "saved.xw").read_bytes()
    assert b"add CAT\n" in saved and b"add DOG\n" not in saved, saved


TWO_WORDS = b"add CAT\nadd DOG\n"

# The puzzle is filled, so that it could be written after the fault; the commands leave it filled.
FILLED = [write("plain", PLAIN), write("kept.puz", b"old")]


def no_puzzle_after(fault, failing, *typed):
    """Checks that no puzzle is written after a fault, neither a new file nor over an old one."""
    return [
        *FILLED,
        *(failing(f"edit --from plain --to {name}", fault, *typed) for name in ("new.puz", "new.txt", "kept.puz")),
        holds("kept.puz", b"old"),
        absent("new.puz"),
        absent("new.txt"),
        run("edit --from plain --to kept.puz"),
        differs("kept.puz", b"old"),
    ]


CASES = {
    "input_fault": no_puzzle_after("input fault", cannot_read),
    "output_fault": no_puzzle_after("output fault", fails, TWO_WORDS),
    # One that comes only with the last answer, which is flushed at the end.
    "output_fault, of the last answer": no_puzzle_after("output fault", fails, b"show\n"),
    "output_fault_of_a_check": [write("checked", PLAIN), fails("check checked", "output fault")],
    "output_fault_of_a_check, of several files": [write("checked", PLAIN), fails("check checked gone checked", "output fault")],
    # The session is saved although the output failed.
    "output_fault_of_a_flush": [
        *FILLED,
        fails("edit --from plain --save saved.xw --to kept.puz", "output fault", TWO_WORDS),
        is_saved_up_to_the_fault,
        holds("kept.puz", b"old"),
    ],
    "input_fault_of_a_session": [*FILLED, cannot_read("edit --from plain --save saved.xw --to kept.puz", "input fault"), exists("saved.xw"), holds("kept.puz", b"old")],
    # A device without an end is refused, and one that ends is read.
    "endless_device": [
        run("check /dev/zero", errors=b"xw: /dev/zero: cannot read\n", status=FAILED),
        run("check --explain /dev/full", errors=b"xw: /dev/full: cannot read\nxw: File too large\n", status=FAILED),
        run("edit --dict /dev/zero", errors=b"xw: /dev/zero: cannot read\n", status=FAILED),
        run("edit --resume /dev/zero", errors=b"xw: /dev/zero: cannot read\n", status=FAILED),
        run("edit --journal /dev/full", errors=b"xw: /dev/full: cannot write\n", status=FAILED),
        run_between("check -", "/dev/zero", errors=b"xw: -: cannot read\n", status=FAILED),
        run_between("check --explain -", "/dev/full", errors=b"xw: -: cannot read\nxw: File too large\n", status=FAILED),
        run_between("edit --dict -", "/dev/zero", errors=b"xw: -: cannot read\n", status=FAILED),
        run_between("edit --resume -", "/dev/zero", errors=b"xw: -: cannot read\n", status=FAILED),
    ],
    "device_that_ends": [
        run("check /dev/null", errors=b"xw: /dev/null: Header\n", status=FORMAT),
        run("edit --dict /dev/null", errors=b"xw: /dev/null: 0 added, 0 skipped\n"),
        run("edit --dict /dev/stdin", b"cat\n", errors=b"xw: /dev/stdin: 1 added, 0 skipped\n"),
        run("check /dev/stdin", PLAIN, output=b"puz 2x2 4 lights\n"),
        run_between("edit --dict -", "/dev/null", errors=b"xw: -: 0 added, 0 skipped\n"),
    ],
    # A fault after lines that were answered.
    "input_fault, after answers": [*FILLED, breaks_off, holds("kept.puz", b"old")],
}
