"""Steps that refuse every allocation of the program in turn, alone and together with all that follow it.

The program runs with refuse.c preloaded. Whatever is refused, the program has to end by itself and free all that it holds, and one of these
has to be true:

- everything is as without the refusal;
- a command is answered `no Memory`, and everything else is as if its line were not there;
- the run ends with `xw: memory` and status 4, and each file has its old bytes or its new ones. If both the session and the puzzle are to be
  written, each may have this message, or the session alone, with a fault of the puzzle after it.
"""
import mmap
import os
import re
import struct

from preload import library
from steps import ACCEPTED, FAILED, REFUSED, compare

# The page that the program shares, as refuse.c lays it out.
FIELDS = "count first last refused live waits at length status".split()
INPUT, PAGE = 4096, 1 << 20

# The last allocation to refuse, where all that follow the first one are refused.
ALL = (1 << 64) - 1

REFUSAL, MESSAGE = b"no Memory\n", b"xw: memory\n"

# Commands that show the whole state of a session.
STATE = b"show,lights,cells,counts,texts,circles,dups,unlisted,record,stats,suggest,match ..,match ...,match ....,match .....".split(b",")


class Stopped:
    """A run of the program that is stopped before main, or before a read that needs more input."""

    def __init__(self, room, program, words):
        with open(room / ".page", "w+b") as file:
            file.truncate(PAGE)
            self.page = mmap.mmap(file.fileno(), PAGE)
        self["waits"] = 1
        how = os.O_RDWR | os.O_CREAT | os.O_APPEND | os.O_TRUNC
        self.output, self.errors = os.open(room / ".output", how), os.open(room / ".errors", how)
        self.start(room, program, words)
        self.wait_for(b"R")

    def start(self, room, program, words):
        orders, self.orders = os.pipe()
        self.reports, reports = os.pipe()
        null = os.open(os.devnull, os.O_RDONLY)
        streams = {0: null, 1: self.output, 2: self.errors, 100: orders, 101: reports}
        env = {"LD_PRELOAD": library("refuse"), "REFUSE_PAGE": str(room / ".page")}
        actions = [(os.POSIX_SPAWN_DUP2, file, number) for number, file in streams.items()]
        here = os.getcwd()
        os.chdir(room)
        self.process = os.posix_spawn(program, ["xw", *words], env, file_actions=actions)
        os.chdir(here)
        for file in (null, orders, reports):
            os.close(file)

    def __getitem__(self, name):
        return struct.unpack_from("<Q", self.page, 8 * FIELDS.index(name))[0]

    def __setitem__(self, name, value):
        struct.pack_into("<Q", self.page, 8 * FIELDS.index(name), value)

    def wait_for(self, wanted):
        report = os.read(self.reports, 1)
        assert report == wanted, f"the program ended with {self.status()}" if report == b"D" else f"report {report}"

    def order(self, order, wanted):
        os.write(self.orders, order)
        self.wait_for(wanted)

    def fork(self):
        self.order(b"F", b"R")

    def refuse(self, first=0, last=0):
        """Counts allocations from 1 again, and refuses those of these numbers."""
        self["count"], self["first"], self["last"], self["refused"] = 0, first, last, 0

    def hand_in(self, text):
        self.page[INPUT : INPUT + len(text)] = text
        self["at"], self["length"] = 0, len(text)

    def send(self, lines):
        """Hands in lines, and returns what is answered before more is read."""
        self.hand_in(b"".join(line + b"\n" for line in lines))
        if lines:
            self.order(b"G", b"R")
        return self.take(self.output)

    def take(self, file):
        """What was written since the last time."""
        data = os.pread(file, PAGE << 4, 0)
        os.ftruncate(file, 0)
        return data

    def status(self):
        return os.waitstatus_to_exitcode(self["status"])

    def end(self, live):
        """Ends a fork's input, and returns its status. `live` is how many blocks the parent holds."""
        self.order(b"E", b"D")
        compare("blocks that are not freed", self["live"], 0)
        self["waits"], self["live"] = 1, live
        return self.status()

    def run(self, text, first=0, last=0):
        """Runs a fork to its end on some input; returns its status, output and messages."""
        self["live"] = 0
        self.fork()
        self.refuse(first, last)
        self.hand_in(text)
        self["waits"] = 0
        self.order(b"G", b"D")
        self["waits"] = 1
        compare("blocks that are not freed", self["live"], 0)
        return self.status(), self.take(self.output), self.take(self.errors)

    def close(self):
        os.write(self.orders, b"X")
        os.waitpid(self.process, 0)
        for file in (self.orders, self.reports, self.output, self.errors):
            os.close(file)


def answers_of(output):
    return re.findall(rb"(?:(?!ok\n|no ).*\n)*(?:ok|no .*)\n", output)


# How many words a line has at least where docs/commands.md names `Memory` for its command.
MAY_BE_REFUSED = {
    **dict.fromkeys(b"add size block bar dups unlisted why fill autofill best circle".split(), 1),
    **dict.fromkeys(b"title author copyright notes".split(), 2),
    **dict.fromkeys(b"text more".split(), 3),
    b"clue": 4,
}


def may_be_refused(line):
    words = line.split() or [b""]
    if words[0] in (b"text", b"more") and words[1:2] == [b"clue"]:
        return len(words) >= 6
    return words[0] in MAY_BE_REFUSED and len(words) >= MAY_BE_REFUSED[words[0]]


class Line:
    """A line of a session, and what it comes to where memory is ample. A `!` marks one that may not be refused though its command may: a
    word that returns, a circle that is taken away."""

    def __init__(self, session, marked, rest):
        self.text = marked.removeprefix(b"!")
        self.rest = [line.removeprefix(b"!") for line in rest] + STATE
        self.live = session["live"]
        session.fork()
        session.refuse()
        self.answer, self.count = session.send([self.text]), session["count"]
        self.state, self.done = session.send(STATE), session.send(self.rest)
        session.end(self.live)
        self.may_be_refused = may_be_refused(marked) and not self.answer.startswith(b"no ")
        if self.count:
            session.fork()
            self.left_out = session.send(self.rest)
            session.end(self.live)

    def try_refused(self, session, before, number, last):
        """Does the line in a fork with allocations refused, and goes on with the rest of the session."""
        what = f"{self.text[:60]!r}, allocation {number}{'..' if last == ALL else ''}: "
        session.fork()
        session.refuse(number, last)
        found = session.send([self.text])
        assert session["refused"], what + "it was not asked for"
        session.refuse()
        if found == self.answer:
            compare(what + "state after it was done", session.send(STATE), self.state)
            compare(what + "answers after it was done", session.send(self.rest), self.done)
        else:
            compare(what + "answer", found, REFUSAL)
            assert self.may_be_refused, what + "no Memory"
            compare(what + "state after it was refused", session.send(STATE), before)
            self.repeat(session, what)
            compare(what + "answers after it was refused", session.send(self.rest), self.left_out)
        assert session.end(self.live) in (ACCEPTED, REFUSED), what + "status"

    def repeat(self, session, what):
        """Sends the refused line once more in a fork, with ample memory."""
        live = session["live"]
        session.fork()
        compare(what + "answer to it once more", session.send([self.text]), self.answer)
        compare(what + "answers after that", session.send(self.rest), self.done)
        session.end(live)


def each_line(words, lines):
    """Refuses the allocations of each line of a session: each one alone, and each one with all others of the line that follow it."""

    def step(room, program):
        session = Stopped(room, program, words.split())
        session.order(b"G", b"R")
        before = session.send(STATE)
        for index, marked in enumerate(lines):
            line = Line(session, marked, lines[index + 1 :])
            for number in range(1, line.count + 1):
                line.try_refused(session, before, number, number)
                line.try_refused(session, before, number, ALL)
            session.refuse()
            compare(line.text, session.send([line.text]), line.answer)
            before = line.state
        session.close()

    return step


def without_memory(before, typed, output):
    """Does some lines with ample memory and then others with none at all, which have to be answered all the same."""

    def step(room, program):
        session = Stopped(room, program, ["edit"])
        session.order(b"G", b"R")
        session.send(before)
        session.refuse(1, ALL)
        compare("answers without memory", session.send(typed), output)
        session.close()

    return step


class Call:
    """A call of the program on some input, and what it comes to where memory is ample. It may write `files`, which have these bytes before
    it, or are absent where they are None. If it ends early, the file of `journal`, if there is one, may also hold its lines so far: one of
    these texts."""

    def __init__(self, room, program, words, lines, files, journal):
        self.room, self.words, self.lines, self.files, self.journal = room, words, lines, files, journal
        self.known = {}
        self.program = Stopped(room, program, words.split())
        # whether a session that is not saved is reported before the puzzle is written
        self.writes_both = "--save" in words and "--to" in words
        self.ample = self.wanted()
        self.count = self.program["count"]
        self.names = set(os.listdir(room)) | set(files)

    def run(self, lines, first=0, last=0):
        """Its status, output and messages, and what the files hold after it."""
        for name, data in self.files.items():
            (self.room / name).unlink(missing_ok=True)
            if data is not None:
                (self.room / name).write_bytes(data)
        ended = self.program.run(b"".join(line + b"\n" for line in lines), first, last)
        paths = {name: self.room / name for name in self.files}
        return *ended, {name: path.read_bytes() if path.exists() else None for name, path in paths.items()}

    def wanted(self, without=frozenset()):
        """A run with ample memory, without some of its lines."""
        if without not in self.known:
            self.known[without] = self.run([line for index, line in enumerate(self.lines) if index not in without])
        return self.known[without]

    def try_refused(self, number, last):
        what = f"xw {self.words}, allocation {number}{'..' if last == ALL else ''}: "
        found = self.run(self.lines, number, last)
        assert self.program["refused"], what + "it was not asked for"
        extra = set(os.listdir(self.room)) - self.names
        assert not extra, f"{what}{extra} is there"
        if found == self.ample:
            return
        if found[2].endswith(MESSAGE) or self.writes_both and MESSAGE in found[2]:
            self.has_ended(what, *found)
        else:
            self.has_refused(what, *found)

    def refused_lines(self, what, output):
        """The indices of the lines that were refused with `Memory`."""
        indices = frozenset(index for index, answer in enumerate(answers_of(output)) if answer == REFUSAL)
        for index in indices:
            assert may_be_refused(self.lines[index]), f"{what}no Memory to {self.lines[index]!r}"
        return indices

    def has_refused(self, what, status, output, errors, left):
        """Some lines were refused, and all else is as without them."""
        indices = self.refused_lines(what, output)
        ample = self.wanted(indices)
        compare(what + "other answers", [it for it in answers_of(output) if it != REFUSAL], answers_of(ample[1]))
        compare(what + "messages", errors, ample[2])
        compare(what + "files", left, ample[3])
        compare(what + "status", status, REFUSED if indices and ample[0] == ACCEPTED else ample[0])

    def has_ended(self, what, status, output, errors, left):
        """The run ended because an allocation failed: before it answered any line, or after it answered all of them."""
        indices = self.refused_lines(what, output) if output else frozenset(range(len(self.lines)))
        ample = self.wanted(indices)
        compare(what + "status", status, FAILED)
        told = errors.replace(MESSAGE, b"") if self.writes_both else errors.removesuffix(MESSAGE)
        # where the session is not saved, no old file of it is kept
        is_told = ample[2].startswith(told) or self.writes_both and ample[2].endswith(told)
        assert is_told, f"{what}messages {errors!r}"
        if output:
            compare(what + "other answers", [it for it in answers_of(output) if it != REFUSAL], answers_of(ample[1]))
        for name, data in left.items():
            assert data in (ample[3][name], self.files[name], *self.journal.get(name, ())), f"{what}{name} holds {data!r}"


def each_call(words, lines=(), files={}, journal={}):
    """Refuses the allocations of a call of the program, from its start to its end: each one alone, and each one with all that follow."""

    def step(room, program):
        call = Call(room, program, words, lines, files, journal)
        for number in range(1, call.count + 1):
            call.try_refused(number, number)
            call.try_refused(number, ALL)
        call.program.close()

    return step
