"""A session on the Python package, with the arguments, the answers and the exit statuses of `xw edit`, as tests/web/session.mjs.

python3 session.py serve    many sessions, one after another: `tests/embedded` asks for them
"""
import base64
import json
import os
import pathlib
import re
import sys

from xw import Fault, Session, encode

ACCEPTED, REFUSED, FORMAT, FAILED = 0, 1, 3, 4


class End(Exception):
    """How a session ends before its end: the status and the message."""


def bytes_of(file):
    try:
        return pathlib.Path(file).read_bytes() if file else b""
    except OSError:
        raise End(FAILED, f"xw: {file}: cannot read\n") from None


def write(file, data):
    try:
        pathlib.Path(file).write_bytes(data)
    except OSError:
        raise End(FAILED, f"xw: {file}: cannot write\n") from None


def done(file, call):
    """Does a call, and ends with the name of its fault."""
    try:
        return call()
    except Fault as fault:
        if fault.status == "NoCommand":
            raise End(FORMAT, str(fault).partition(": ")[2] + "\n") from None
        name = file if isinstance(file, (str, type(None))) else file(fault.status)
        raise End(*((FAILED, "xw: memory\n") if fault.status == "Memory" else (FORMAT, f"xw: {name}: {fault.status}\n"))) from None


def session(words, typed, answers, messages):
    """Runs a session, and adds what it writes to two lists. Returns the exit status."""
    files = dict(zip(words[1::2], words[2::2]))
    listed, puzzle, record = (bytes_of(files.get(f"--{name}")) for name in ("dict", "from", "resume"))
    name = lambda status: files.get("--dict" if status == "Full" else "--from")
    with done(name, lambda: Session(listed, puzzle, record)) as opened:
        messages.extend(f"{line}\n" for line in opened.reports)
        is_refused = any(line.startswith("xw: record: line ") for line in opened.reports)
        for line in typed.split(b"\n")[: None if not typed.endswith(b"\n") else -1]:
            answers.append(opened.answer(line))
            is_refused |= re.search(rb"^no .*\n\Z", answers[-1]) is not None
        if "--save" in files:
            write(files["--save"], done(files["--save"], opened.record))
        if "--to" in files:
            to = files["--to"]
            write(to, done(to, opened.to_puz if to.lower().endswith(".puz") else opened.to_text))
    return REFUSED if is_refused else ACCEPTED


def run(words, typed):
    """Runs a session, and returns all that it writes, and its status."""
    answers, messages = [], []
    try:
        status = session(words, typed, answers, messages)
    except End as end:
        status, message = end.args
        messages.append(message)
    return b"".join(answers), encode("".join(messages)), status


def serve():
    for line in sys.stdin:
        asked = json.loads(line)
        os.chdir(asked["room"])
        answers, messages, status = run(asked["words"], base64.b64decode(asked["typed"]))
        told = {"answers": answers, "messages": messages}
        print(json.dumps({"status": status, **{name: base64.b64encode(it).decode() for name, it in told.items()}}), flush=True)


if __name__ == "__main__":
    serve()
