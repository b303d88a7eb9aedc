"""Tests of the Python package beside its answers: texts, what a session takes, searches that are left, and the examples of docs/python.md.

python3 tests/python/package.py WHEEL [TEST..]

The package and its library are found by PYTHONPATH and XW_LIBRARY; WHEEL is unpacked and used without them. All tests are run, or the named ones. One that needs
something that is not installed is skipped. The last line is 'N passed, M failed', and ', K skipped' follows if tests were skipped.
"""
import asyncio
import concurrent.futures
import copy
import doctest
import errno
import fcntl
import html.parser
import inspect
import os
import pathlib
import pickle
import random
import re
import resource
import shutil
import signal
import subprocess
import sys
import tempfile
import threading
import time
import zipfile

import deadly
import xw
import xw.many
import xw.race
import xw.slices
import xw.workers
from xw import Died, Entry, Fault, Light, Refusal, Session, aio

sys.dont_write_bytecode = True
TOP = pathlib.Path(__file__).resolve().parents[2]
sys.path.insert(0, str(TOP / "tests"))

from counts import run_cases
from needs import needs

SQUARE = ["as", "at", "so", "to"]
# grades with which the best fill of a square has the worst word 60
GRADED = [("as", 90), ("at", 80), ("so", 60), ("to", 70), ("ti", 50), ("si", 40)]
TESTS = []
# a cluster, of Debian's Python
DASK = "/usr/lib/python3/dist-packages/distributed"


def test(function):
    """Adds a test. It gets a folder as `room`, and the path of the wheel as `wheel`, if it takes them."""
    TESTS.append(function)
    return function


def square(words=SQUARE):
    session = Session(words)
    session.size(2, 2)
    return session


def raises(kind, call, **fields):
    try:
        call()
    except kind as error:
        for name, value in fields.items():
            assert getattr(error, name) == value, (name, getattr(error, name), value)
        return
    raise AssertionError(f"{kind.__name__} is not raised")


@test
def each_byte_is_a_character():
    data = bytes(range(256))
    assert len(xw.decode(data)) == 256 and xw.encode(xw.decode(data)) == data
    assert xw.decode(b"\x80\x81\x93\xe9") == "\u20ac\x81\u201c\u00e9"
    raises(Fault, lambda: xw.encode("caf\u00e9 \u0142"), status="Character")


@test
def strange_texts_are_not_sent():
    session = square()
    session.title("One")
    raises(Fault, lambda: session.title("x" * 4000 + "\u0142"), status="Character")
    assert session.texts() == {"title": "One"}


@test
def texts_with_a_nul_change_nothing():
    session = square()
    session.title("One")
    session.clue("1 across", "First")
    for text in ("\0", "x" * 2000 + "\0", "x" * 1499 + "\0" + "x" * 3000):
        raises(Refusal, lambda: session.title(text), name="NulByte")
        raises(Refusal, lambda: session.clue("1 across", text), name="NulByte")
        assert session.texts() == {"title": "One", "1 across": "First"}, len(text)


@test
def texts_come_back():
    session = square()
    for text in ("", " a\tb ", "one\ntwo\\n", "x" * 5000, " " * 4000, "\n" * 4000, "a\\" * 3000):
        session.notes(text)
        session.clue("2 down", text)
        assert session.texts() == ({"notes": text, "2 down": text} if text else {}), text[:20]
    raises(Refusal, lambda: session.title("a\0"), name="NulByte")
    raises(Refusal, lambda: session.clue("9 down", "x"), name="NoLight")


@test
def lists_are_taken_in_each_form(room):
    (room / "list.txt").write_bytes(b"as;90\nat\n")
    for words in (b"as;90\nat\n", "as;90\nat\n", room / "list.txt", [("as", 90), "at"], (it for it in (("as", 90), "at"))):
        session = Session(words)
        session.least(51)
        assert session.match("..") == ["AS"], words


@test
def open_files_and_mappings_are_lists(room):
    (room / "list.txt").write_bytes(b"as;90\r\nat\n")
    for mode in ("r", "rb"):
        with open(room / "list.txt", mode) as file:
            assert Session(file).listed == (2, 0), mode
    with open(room / "list.txt") as file:
        session = Session(line for line in file)
    session.least(51)
    assert session.match("..") == ["AS"] and session.listed == (2, 0)
    session = Session({"as": 90, "at": 40})
    session.least(41)
    assert session.match("..") == ["AS"]


@test
def words_are_counted():
    # the example of docs/formats.md, "Word lists"
    assert Session(b"CAT;50\nco-t\n\nx\ncat\nDOG;x\n").listed == (3, 3)
    assert Session().listed == (0, 0) and Session(b"\n").listed == (0, 1) and Session(b"\xef\xbb\xbfcat").listed == (1, 0)
    longest = "a" * 255
    assert Session([longest, longest + "a", "a", "caf\u00e9", "as", "AS", ("at", 0)]).listed == (3, 4)
    session = Session(["as", "at"], record=b"strike as\nadd so\n")
    assert session.listed == (2, 0) and session.match("..") == ["AT", "SO"]


@test
def what_is_no_list_is_refused(room):
    (room / "list.txt").write_bytes(b"as\n")
    for words in (str(room / "list.txt"), "cat"):
        raises(ValueError, lambda: Session(words), args=(f"words is the string {words!r}, which has no line; pass pathlib.Path(...) for a file",))
    raises(ValueError, lambda: Session(puzzle="a.puz"))
    raises(FileNotFoundError, lambda: Session(room / "none.txt"))
    for grade in (200, -1, 101, "x", "50", 50.5, None):
        told = f"the grade of 'cat' is {grade!r}, which is not a whole number from 0 to 100"
        raises(ValueError, lambda: Session(["as", ("cat", grade)]), args=(told,))
        raises(ValueError, lambda: Session({"cat": grade}), args=(told,))
    for item in (5, None, b"cat", ("cat",), ("cat", 5, 6), (5, "cat"), ["cat", 5]):
        raises(TypeError, lambda: Session([item]), args=(f"{item!r} is neither a string nor a tuple of a string and a grade",))
    for item, word in (("cat\ndog", "cat\ndog"), (("cat\n", 5), "cat\n"), (("cat;9", 5), "cat;9")):
        raises(ValueError, lambda: Session([item]), args=(f"{word!r} is not one word",))
    for number in (5, [1, 2]):
        raises(TypeError, lambda: Session(record=number))
    assert Session([("cat", 0), ("cot", 100)]).listed == (2, 0) and Session("").listed == (0, 0)


@test
def lights_are_named_in_each_form():
    session = square()
    first = session.lights()[0]
    assert first == Light(1, "across", 1, 1, "..")
    for light in (first, "1 across", (1, "across")):
        assert session.words(light).total == 2
    assert session.words("1 across", 1).words == ("AS",)


@test
def answers_are_values():
    session = square()
    assert [tuple(it) for it in session.choices("1 across", 9)] == [("AS", 1), ("AT", 1)]
    assert [tuple(it) for it in session.tally(1, 2)] == [("S", 1, 1), ("T", 1, 1)]
    assert [(it.row, it.column, "".join(sorted(it.letters))) for it in session.cells()] == [(1, 1, "A"), (1, 2, "ST"), (2, 1, "ST"), (2, 2, "O")]
    assert tuple(session.suggest()) == ("try", "1 across", "AS")
    session.set(1, 1, "x")
    assert session.letters(1, 2) == frozenset() and session.suggest().kind == "dead"
    assert session.why("1 across") == [Entry(1, 1, "X")]
    raises(Refusal, lambda: square().why("1 across"), name="Alive", command="why 1 across")


@test
def each_query_has_a_method():
    # docs/commands.md, "The grid": the example of `stats`, with a circle
    session = Session()
    session.size(5, 3)
    session.place("1 across", "story")
    for row, column, side in ((2, 3, "right"), (2, 2, "right")):
        session.bar(row, column, side)
    session.block(2, 2)
    session.block(2, 4)
    assert session.stats() == (15, 2, 2, 5, 5, {3: 3, 5: 2}, 7, 3.8, {"O": 1, "R": 1, "S": 1, "T": 1, "Y": 1}), session.stats()
    assert session.longest() == ("1 across", 5) and session.circles() == []
    session.circle(3, 2)
    session.circle(1, 5)
    assert session.circles() == [(1, 5), (3, 2)]
    session.size(1, 1)
    assert session.longest() is None and session.stats().mean == 0 and session.stats().lengths == session.stats().letters == {}


@test
def words_in_the_grid_are_judged():
    # docs/commands.md, "Repeats, suggestions and fills"
    session = square()
    assert session.counts() == [("1 across", 2), ("1 down", 2), ("2 down", 2), ("3 across", 2)]
    session.place("1 across", "at")
    session.place("1 down", "at")
    assert session.dups() == [("1 down", "1 across", "AT")] and session.unlisted() == []
    session.place("1 across", "xt")
    assert session.unlisted() == [("1 across", "XT"), ("1 down", "XT")] and session.dups() == [("1 down", "1 across", "XT")]
    assert session.grades() == [("1 across", None), ("1 down", None)]
    session.add("xt", 40)
    session.strike("xt")
    assert session.grades(["3 across", (1, "down")]) == [("3 across", None), ("1 down", 40)]
    raises(Refusal, lambda: session.grades(["4 across"]), name="NoLight")
    assert session.grade("xt") == 40
    raises(Refusal, lambda: session.grade("XX"), name="Unknown")
    session.clear(1, 2)
    session.clear(2, 1)
    assert session.unmatched() == [("1 across", "X."), ("1 down", "X.")]


@test
def edits_are_watched():
    session = square()
    session.set(1, 2, "t")
    assert session.changed == []
    session.clear(1, 2)
    session.watch()
    session.set(1, 2, "t")
    assert session.changed == [(1, 2, frozenset("T"))]
    in_threads(lambda: session.changed == [] or sys.exit("another thread has the cells"))
    session.set(1, 2, "x")
    assert [(it.row, it.column, "".join(it.letters)) for it in session.changed] == [(1, 1, ""), (1, 2, ""), (2, 1, ""), (2, 2, "")]
    session.clear(1, 2)
    session.strike("as")
    # AT and TO are left, once across and once down
    assert [(it.row, it.column, "".join(it.letters)) for it in session.changed] == [(1, 2, "T"), (2, 1, "T")]
    raises(Refusal, lambda: session.set(9, 9, "a"), name="OutOfGrid")
    session.watch(False)
    session.add("as")
    assert session.changed == []


class Tags(html.parser.HTMLParser):
    """The tags of a page, with the texts between them."""

    def __init__(self, text):
        super().__init__()
        self.found = []
        self.feed(text)
        self.close()

    def handle_starttag(self, tag, attributes):
        self.found.append((tag, dict(attributes).get("style", "")))

    def handle_data(self, data):
        self.found.append(("", data))


@test
def sessions_show_their_grids():
    session = square()
    session.set(1, 1, "a")
    assert repr(session) == "<Session of 2 by 2>\nA -\n- -"
    session.symmetry("none")
    session.bar(1, 1, "right")
    session.bar(1, 2, "below")
    session.block(2, 1)
    assert repr(session) == "<Session of 2 by 2>\nA|-\n..=\n# -"
    session.circle(1, 1)
    session.title("</caption><script>alert('x')</script> & more")
    found = Tags(session._repr_html_()).found
    tags = [tag for tag, _ in found if tag]
    assert set(tags) == {"table", "caption", "tr", "td", "span"} and tags.count("tr") == 2 and tags.count("td") == 4, tags
    assert ("", "</caption><script>alert('x')</script> & more") in found
    first, second, block, last = (style for tag, style in found if tag == "td")
    assert "border-right: 3px" in first and "border-bottom: 3px" in second and "border-bottom" not in first and "#222" in block and "#222" not in last
    # the letter is in the circle
    assert found[[style for _, style in found].index("A") - 1][0] == "span" and "radius" in found[[style for _, style in found].index("A") - 1][1]
    session.close()
    assert repr(session) == "<Session, closed>" and session._repr_html_() == "<pre>&lt;Session, closed&gt;</pre>"
    assert repr(Session.__new__(Session)) == "<Session, closed>"


@test
def bars_are_no_rows():
    session = Session()
    session.size(2, 2)
    session.symmetry("none")
    session.bar(1, 2, "below")
    session.block(2, 1)
    assert session.show()[1].endswith("=") and session.rows() == ("--", "#-")


@test
def searches_end():
    assert square().fill(3) == "limit" and square().fill(4) == "filled"
    session = square()
    assert session.autofill(0) == "limit" and session.rows() == ("--", "--")
    session.set(1, 1, "x")
    assert session.autofill() == "nofill" and session.autofill(lights=["2 down"], seed=3) == "nofill"


@test
def best_climbs():
    session = square(GRADED)
    fills = list(session.best())
    assert [it.grade for it in fills] == sorted(it.grade for it in fills) and fills[-1].grade == 60 and fills[-1].is_best
    assert session.rows() == fills[-1].rows and not any("-" in row for row in session.rows())
    session.add("zz", 0)
    assert session.match("zz") == ["ZZ"], "the least grade is what it was"


@test
def fills_have_a_mean():
    session = square(GRADED)
    # both fills have the words 90, 80, 70 and 60, whose mean is 75
    assert [it.mean for it in session.best()][-1] == 75
    assert next(session.best()).mean == 100
    session.size(2, 2)
    session.place("1 across", "as")
    # the words AT, SO and TO are new
    assert [it.mean for it in session.best()][-1] == 70


@test
def best_is_left():
    session = square(GRADED)
    session.set(1, 1, "a")
    search = session.best(least=10)
    first = next(search)
    search.close()
    assert session.rows() == first.rows and session.match("si") == ["SI"]
    assert list(square([]).best()) == []
    raises(Refusal, lambda: list(square().best(lights=["9 down"])), name="NoLight")


@test
def full_grids_are_their_own_fills():
    session = square([("as", 90), ("at", 80), ("so", 60), ("to", 70)])
    session.fill(9)
    rows = session.rows()
    # docs/commands.md, `best`: no word is new then, so the grade is 100 if no cell is empty
    assert list(session.best()) == [(100, 101, rows, 100)] and session.rows() == rows and next(session.best()).is_best
    # words that were entered are not judged, but no fill has one twice
    session.set(1, 1, "x")
    assert list(session.best()) == [(100, 101, ("X" + rows[0][1], rows[1]), 100)]
    session.set(2, 1, session.rows()[0][1])
    assert list(session.best()) == []


@test
def progress_ends_a_search():
    told = []
    session = Session(["cat", "cot", "dog", "tag"])
    assert session.autofill(limit=2500, progress=lambda step: told.append(step.placements) or True) in ("limit", "nofill")
    assert told in ([], [1000]), told


class Searched(Session):
    """A session whose searches find nothing: it notes the placements of each, which takes so many seconds by the clock of the slices."""

    def __init__(self, seconds_of):
        super().__init__()
        self.seconds_of, self.sent, self.now = seconds_of, [], 0.0
        xw.slices.clock = lambda: self.now

    def line(self, command):
        if not command.startswith(("autofill", "best")):
            return super().line(command)
        self.sent.append(int(command.split()[1]))
        self.now += self.seconds_of(self.sent[-1])
        return ["limit", "bound 101"][: 1 + command.startswith("best")]


def searched(seconds_of, kind, **options):
    """What a search of such a session sends."""
    session = Searched(seconds_of)
    try:
        if kind == "best":
            assert not list(session.best(**options))
        else:
            assert session.autofill(**options) == "limit"
    finally:
        xw.slices.clock = time.monotonic
    return session.sent


@test
def slices_take_a_tenth_of_a_second():
    watched = {"limit": 200_000, "progress": lambda told: False}
    for kind in ("autofill", "best"):
        # a slow grid, one with 12,500 placements a second, and a fast one: the slices grow twofold at most
        assert set(searched(lambda placements: placements / 4000, kind, **watched)) == {1000}
        sent = searched(lambda placements: placements / 12500, kind, **watched)
        assert set(sent[1:-1]) == {1250} and sent[0] == 1000 and sum(sent) == 200_000
        sent = searched(lambda placements: placements / 64000, kind, **watched)
        assert sent[:6] == [1000, 2000, 4000, 6400, 6400, 6400] and max(sent) == 6400 and sum(sent) == 200_000
        assert searched(lambda placements: placements / 8000, kind, **{**watched, "every": 0.5})[:4] == [1000, 2000, 4000, 4000]
    # a slice that took long is followed by a short one, and one that took no time by one of twice as many
    times = iter([0.05, 0.4, 0, 0.1, 0.1])
    assert searched(lambda placements: next(times), "autofill", limit=6500, progress=lambda told: False) == [1000, 2000, 1000, 2000, 500]
    # a search that ends at once never gets slices that would take long if the next one did not
    assert max(searched(lambda placements: 0, "autofill", limit=10**7, progress=lambda told: False)) == 100_000


@test
def searches_end_after_seconds():
    """The time is that of the slices, by their clock."""
    for kind in ("autofill", "best"):
        # 8,000 placements a second: slices of 0.125 s, of which eight take a second
        assert searched(lambda placements: placements / 8000, kind, seconds=1, progress=lambda told: False) == [1000] * 8
        # the last slice is as long as the time that is left, and has the fewest placements of a slice at least
        paced = {"seconds": 0.3125, "every": 0.125, "progress": lambda told: False}
        assert searched(lambda placements: placements / 32000, kind, **paced) == [1000, 2000, 4000, 3000]
        assert searched(lambda placements: placements / 10000, kind, seconds=0.15, progress=lambda told: False) == [1000, 1000]
        assert searched(lambda placements: placements, kind, seconds=5) == [1000]
        assert searched(lambda placements: placements / 10000, kind, limit=2500, seconds=1, progress=lambda told: False) == [1000, 1000, 500]
        # a slice that grows without a limit of time is cut by it
        sent = searched(lambda placements: placements / 8192, kind, seconds=20)
        assert 20 * 8192 <= sum(sent) <= 20 * 8192 + 1000, sum(sent)
    for seconds in (0, -1, float("nan")):
        raises(ValueError, lambda: square().autofill(seconds=seconds), args=(f"seconds is {seconds!r}, which is no time above 0",))


@test
def slices_that_nothing_is_told_grow_with_the_time():
    for kind in ("autofill", "best"):
        sent = searched(lambda placements: placements / 10000, kind, limit=2_000_000)
        for number, placements in enumerate(sent[:-1]):
            before = sum(sent[:number])
            assert placements <= max(1000, before / 10 + 1), (kind, number, placements)
        assert max(sent) > 100_000 and sum(sent) == 2_000_000


@test
def an_interrupt_ends_a_search():
    """Without `progress` too: it comes between two slices, and the grid is as it was."""

    def interrupted(placements):
        if len(session.sent) == 2:
            signal.raise_signal(signal.SIGINT)
        return 0.1

    for call in (lambda: session.autofill(10**6), lambda: list(session.best(10**6))):
        session = Searched(interrupted)
        session.set(1, 1, "a")
        try:
            raises(KeyboardInterrupt, call)
        finally:
            xw.slices.clock = time.monotonic
        assert session.sent == [1000, 1000] and session.rows()[0] == "A" + "-" * 14


@test
def sessions_are_closed():
    with square() as session:
        assert not session.closed
        fills = session.best()
        next(fills)
    assert session.closed
    session.close()
    calls = [session.show, session.record, session.to_puz, session.to_text, session.texts, session.lights, session.autofill, session.best]
    calls += [lambda: session.set(1, 1, "a"), lambda: session.title("x"), lambda: session.clue("1 across", "x"), lambda: session.line("")]
    for call in [*calls, lambda: session.answer(b"show"), lambda: session.fill(9), lambda: next(fills)]:
        raises(Fault, call, status="Closed")
    # a generator that is left after its session says nothing
    left = square().best()
    next(left)
    left.gi_frame.f_locals["self"].session.close()
    left.close()
    raises(ValueError, lambda: square().line("show\nshow"))


def record_again(session):
    """Copies of a session, in each way."""
    return [copy.copy(session), copy.deepcopy(session), *(pickle.loads(pickle.dumps(session, it)) for it in range(2, pickle.HIGHEST_PROTOCOL + 1))]


@test
def sessions_are_copied():
    session = square([("as", 90), ("at", 80), "so", "to"])
    session.strike("at")
    session.add("at", 85)
    session.add("no", 7)
    session.strike("so")
    session.least(5)
    session.set(1, 1, "a")
    session.title("Caf\u00e9")
    session.watch()
    for other in record_again(session):
        assert other.record() == session.record() and other.listed == session.listed and other.match("..") == ["AS", "AT", "TO", "NO"]
        other.clear(1, 1)
        assert session.rows() == ("A-", "--") and other.rows() == ("--", "--")
        other.close()
        assert not session.closed
    session.close()
    raises(Fault, lambda: pickle.dumps(session), status="Closed")


@test
def a_copy_knows_the_files_of_its_session(room):
    (room / "words.txt").write_bytes(b"as\nat\nso\nto\n")
    session = Session(room / "words.txt")
    session.save(room / "a.xw")
    other = pickle.loads(pickle.dumps(session))
    raises(ValueError, lambda: other.save(room / "words.txt"))
    assert other.save(room / "a.xw") is None and sorted(it.name for it in room.iterdir()) == ["a.xw", "words.txt"]
    # but the session does not have what its copy has written
    (room / "a.xw").unlink()
    session.save(room / "a.xw")
    for number, copies in enumerate((copy.copy, copy.deepcopy)):
        copied = copies(session)
        copied.title(f"Copy {number}")
        session.title(f"First {number}")
        assert copied.save(room / "a.xw") is None
        kept = session.save(room / "a.xw")
        assert kept and b"Copy %d" % number in kept.read_bytes()


@test
def sessions_are_restored():
    """A session is then what a new one is, whatever it was before."""
    records = [b"size 3 2\nset 1 1 A\ntitle Two\n", b"", b"# xw session 1\nadd on 3\nstrike as\nsize 2 2\nset 1 1 A\nwatch on\ntitle Cut", b"size 2 2\nset 9 9 A\n"]
    for first in records:
        session = Session(SQUARE, record=first)
        session.author("One")
        session.symmetry("half")
        for record in records:
            new = Session(SQUARE, record=record)
            assert session.restore(record) == session.reports == new.reports and session.record() == new.record(), (first, record)
            assert [session.words(light) for light in session.lights()] == [new.words(light) for light in new.lights()]


@test
def a_record_with_a_fault_restores_nothing():
    for change in ("title One", "strike as"):
        session = square()
        session.line(change)
        session.set(1, 1, "a")
        before = session.record()
        raises(Fault, lambda: session.restore(b"size 4 4\nadd on\nfrob\n"), status="NoCommand", message="xw: record: line 3: Command")
        assert session.record() == before and session.reports == []
        raises(TypeError, lambda: session.restore(7))
        raises(FileNotFoundError, lambda: session.restore(pathlib.Path("no such file")))
        assert session.record() == before
        session.close()
        raises(Fault, lambda: session.restore(b""), status="Closed")


@test
def a_restored_session_keeps_its_old_file(room):
    session = square()
    session.save(room / "a.xw")
    session.restore(b"size 3 3\n")
    assert session.save(room / "a.xw") == room / "a.xw~" and b"size 2 2" in (room / "a.xw~").read_bytes()
    # one that is restored from a file has all that it had
    path = (room / "a.xw~").rename(room / "b.xw")
    session.restore(path)
    assert session.rows() == ("--", "--") and session.save(path) is None
    raises(Fault, lambda: session.restore(b"frob\n"), status="NoCommand")
    assert session.save(path) is None


def refused(name, command):
    """Raises a refusal, in a worker."""
    raise Refusal(name, command)


def at_fault(status, message):
    raise Fault(status, message)


DEATHS = ((Died(12, -9), "worker 12 was ended by signal 9"), (Died(12, 3), "worker 12 ended with status 3"))


@test
def results_are_pickled():
    session = square(GRADED)
    found = [session.lights(), session.words("1 across"), session.cells(), session.counts(), session.stats(), session.longest(), session.suggest(), session.listed]
    found += [list(session.best()), session.grades(), xw.Progress(5, 6, 7), xw.Filled(1, "filled", error=Refusal("NoLight", "x"), died=(Died(1, -9),))]
    for result in found[:-1]:
        assert pickle.loads(pickle.dumps(result)) == result
    assert str(pickle.loads(pickle.dumps(found[-1]))) == str(found[-1])


@test
def errors_are_pickled():
    for error, text in ((Refusal("NoLight", "clue 9 down x"), "NoLight: clue 9 down x"), (Fault("Closed"), "Closed"), (Fault("Full", "a list"), "Full: a list"), *DEATHS):
        for other in (copy.copy(error), copy.deepcopy(error), *(pickle.loads(pickle.dumps(error, it)) for it in range(pickle.HIGHEST_PROTOCOL + 1))):
            assert (type(other), str(other), vars(other)) == (type(error), text, vars(error)), other
    with concurrent.futures.ProcessPoolExecutor(1) as pool:
        raises(Refusal, pool.submit(refused, "OnBlock", "set 1 1 A").result, name="OnBlock", command="set 1 1 A")
        raises(Fault, pool.submit(at_fault, "NotFilled", "").result, status="NotFilled", message="")


@test
def versions_are_those_of_the_sources():
    (version,) = re.findall('^pub const VERSION: &str = "(.*)";$', (TOP / "crates/xw_commands/src/version.rt").read_text(), re.M)
    assert xw.version() == version and xw.__version__ == version.split()[1]


@test
def files_are_named_by_their_kind(room):
    session = square()
    session.fill(9)
    for name, data in (("a.puz", session.to_puz()), ("A.PUZ", session.to_puz()), ("b.xw", b"# xw session 1\n" + session.record())):
        assert session.save(room / name) is None and (room / name).read_bytes() == data, name
    raises(Fault, lambda: session.save(str(room / "a.txt")), status="Field")
    for light in session.lights():
        session.clue(light, "Clue")
    session.save(str(room / "a.txt"))
    assert (room / "a.txt").read_bytes() == session.to_text()
    for name in ("a", "a.puzzle", "", ".puz", "a.puz.bak"):
        raises(ValueError, lambda: session.save(room / name if name else name))
    assert Session(puzzle=room / "a.puz").rows() == Session(SQUARE, record=room / "b.xw").rows() == session.rows()
    assert sorted(it.name for it in room.iterdir()) == ["A.PUZ", "a.puz", "a.txt", "b.xw"]


@test
def files_are_replaced_whole(room):
    session, path = square(), room / "a.puz"
    path.write_bytes(b"old")
    path.chmod(0o640)
    raises(Fault, lambda: session.save(path), status="NotFilled")
    assert path.read_bytes() == b"old"
    session.fill(9)
    (room / "b.puz").symlink_to("a.puz")
    # what is no puzzle is kept
    assert session.save(room / "b.puz") == room / "b.puz~" and (room / "b.puz~").read_bytes() == b"old"
    assert path.read_bytes() == session.to_puz() and path.stat().st_mode & 0o7777 == 0o640 and (room / "b.puz").is_symlink()
    # a new file that another run has left is not taken
    (room / ".xw-0.new").write_bytes(b"left")
    assert session.save(path) is None and (room / ".xw-0.new").read_bytes() == b"left"
    (room / "c.puz").mkdir()
    raises(IsADirectoryError, lambda: session.save(room / "c.puz"))
    raises(FileNotFoundError, lambda: session.save(room / "none/a.puz"))
    os.mkfifo(room / "d.puz")
    raises(OSError, lambda: session.save(room / "d.puz"))
    assert sorted(it.name for it in room.iterdir()) == [".xw-0.new", "a.puz", "b.puz", "b.puz~", "c.puz", "d.puz"]


@test
def a_write_that_fails_leaves_the_old_file(room):
    session, path = square(), room / "a.puz"
    session.fill(9)
    session.save(path)
    before, replaced = path.read_bytes(), os.replace

    def fails(*_):
        raise OSError(5, "a device failed")

    session.title("New")
    os.replace = fails
    try:
        raises(OSError, lambda: session.save(path))
    finally:
        os.replace = replaced
    assert path.read_bytes() == before and [it.name for it in room.iterdir()] == ["a.puz"]


@test
def a_full_disk_leaves_the_old_file(room):
    """A limit of the size of files stands for it: each write ends in the middle."""
    session = square()
    session.fill(9)
    # a puzzle that is replaced, a session that is kept before that, and a new file
    (room / "a.puz").write_bytes(session.to_puz())
    (room / "b.xw").write_bytes(b"# xw session 1\nsize 3 3\n" + b"title Another\n" * 20)
    session.title("New")
    before = {path.name: path.read_bytes() for path in room.iterdir()}
    limits = resource.getrlimit(resource.RLIMIT_FSIZE)
    for name in (*before, "new.xw", "new.puz"):
        for most in (0, 1, 40):
            resource.setrlimit(resource.RLIMIT_FSIZE, (most, limits[1]))
            try:
                raises(OSError, lambda: session.save(room / name), errno=errno.EFBIG)
            finally:
                resource.setrlimit(resource.RLIMIT_FSIZE, limits)
            assert {path.name: path.read_bytes() for path in room.iterdir()} == before, (name, most)
    assert session.save(room / "b.xw") == room / "b.xw~"


@test
def nothing_is_written_over_in_silence(room):
    (room / "words.txt").write_bytes(b"as\nat\nso\nto\n")
    (room / "start.xw").write_bytes(b"size 2 2\n")
    session = Session(room / "words.txt", record=room / "start.xw")
    session.fill(9)
    for light in session.lights():
        session.clue(light, "Clue")
    (room / "link.txt").symlink_to("words.txt")
    for name in ("words.txt", "link.txt"):
        raises(ValueError, lambda: session.save(room / name), args=(f"{str(room / name)!r} is the word list, which is not written over",))
    # the session has all that its record had, and what it wrote itself
    assert session.save(room / "start.xw") is None and session.save(room / "start.xw") is None
    other = Session(room / "words.txt")
    assert other.save(room / "start.xw") == room / "start.xw~" and session.save(room / "start.xw") == room / "start.xw~2"
    assert b"size 15 15" in (room / "start.xw~2").read_bytes() and b"size 2 2" in (room / "start.xw~").read_bytes()
    # one that lacks a line of its record keeps the record
    (room / "strikes.xw").write_bytes(b"strike of\n")
    lacking = Session(room / "words.txt", record=room / "strikes.xw")
    assert lacking.reports and lacking.save(room / "strikes.xw") == room / "strikes.xw~"
    # a puzzle replaces a puzzle of its format, but no session and no other file
    assert session.save(room / "a.puz") is None and Session(room / "words.txt", puzzle=room / "a.puz").save(room / "a.puz") is None
    assert session.save(room / "a.txt") is None and session.save(room / "a.txt") is None
    (room / "notes.txt").write_bytes(b"Notes.\n")
    assert session.save(room / "notes.txt") == room / "notes.txt~"
    (room / "session.txt").write_bytes(b"# xw session 1\n")
    assert session.save(room / "session.txt") == room / "session.txt~"
    (room / "record.txt").write_bytes(b"size 2 2\n")
    raises(ValueError, lambda: Session(record=room / "record.txt").save(room / "record.txt"))
    (room / "puzzle.xw").write_bytes((room / "a.puz").read_bytes())
    raises(ValueError, lambda: Session(puzzle=room / "puzzle.xw").save(room / "puzzle.xw"))


@test
def puzzles_with_more_are_kept(room):
    """A timer, and letters of a solver: docs/formats.md."""
    session = square()
    session.fill(9)
    plain = session.to_puz()
    timed = plain + b"LTIM" + (3).to_bytes(2, "little") + b"\0\0" + b"0,0" + b"\0"
    solved = plain[: 0x34 + 4] + b"AS--" + plain[0x34 + 8 :]
    for name, data, is_kept in (("a", plain, False), ("b", timed, True), ("c", solved, True), ("d", plain[:40], True)):
        path = room / f"{name}.puz"
        path.write_bytes(data)
        session.title(name)
        assert (session.save(path) is not None) == is_kept, name
        assert path.read_bytes() == session.to_puz() and (not is_kept or (room / f"{name}.puz~").read_bytes() == data)
    session.circle(1, 1)
    session.save(room / "a.puz")
    # circles are a section that a puzzle keeps
    assert b"GEXT" in (room / "a.puz").read_bytes() and session.save(room / "a.puz") is None
    session.title("Other")
    assert session.save(room / "a.puz") is None


@test
def files_in_use_are_refused(room):
    session, path = square(), room / "a.xw"
    path.write_bytes(b"# xw session 1\n")
    with open(path, "rb") as journal:
        fcntl.flock(journal, fcntl.LOCK_EX)
        raises(BlockingIOError, lambda: session.save(path))
        assert path.read_bytes() == b"# xw session 1\n"
    assert session.save(path) == room / "a.xw~"


def in_threads(*calls):
    """Runs calls side by side, and raises what one of them raises."""
    with concurrent.futures.ThreadPoolExecutor(len(calls)) as pool:
        for done in [pool.submit(call) for call in calls]:
            done.result()


@test
def threads_get_their_own_answers():
    session = square()

    def asks(command, answer):
        for _ in range(2000):
            assert session.line(command) == answer, command

    before = sys.getswitchinterval()
    sys.setswitchinterval(1e-6)
    try:
        in_threads(lambda: asks("match a.", ["AS", "AT"]), lambda: asks("match .o", ["SO", "TO"]), lambda: asks("letters 1 1", ["A"]))
    finally:
        sys.setswitchinterval(before)
    # a text of many pieces is set whole
    texts = [letter * 9000 for letter in "abc"]
    in_threads(*(lambda text=text: [session.notes(text) for _ in range(20)] for text in texts))
    assert session.texts()["notes"] in texts


@test
def threads_ask_between_slices():
    """Another thread is answered while a search goes on."""
    session, answered, told = Searched(lambda placements: 0.1), threading.Event(), []
    searched = session.line

    def line(command):
        # a call of the library lets other threads run
        with session._handle.lock:
            time.sleep(0.001)
            return searched(command)

    def asks():
        while not told:
            pass
        for _ in range(20):
            session.answer(b"show")
        answered.set()

    def progress(step):
        told.append(step)
        return answered.is_set() or len(told) == 100_000

    session.line = line
    try:
        in_threads(asks, lambda: session.autofill(progress=progress))
    finally:
        xw.slices.clock = time.monotonic
    assert len(told) < 100_000


@test
def records_are_resumed():
    session = square()
    session.place("1 across", "as")
    again = Session(SQUARE, record=session.record())
    assert again.rows() == ("AS", "--") and again.reports == [] and again.record() == session.record()
    assert Session(record=b"set 9 99 A\nset 1 1 B\n").reports == ["xw: record: line 1: OutOfGrid"]
    raises(Fault, lambda: Session(record=b"frob\n"), status="NoCommand")
    raises(Fault, lambda: Session(puzzle=b"no puzzle"), status="Header")
    raises(Fault, square().to_puz, status="NotFilled")


# puzzles for fill_many over the words of a square: two have a fill, which has A in the first cell, and two have none
PUZZLES = (b"size 2 2\n", b"size 2 2\nset 1 1 X\n", b"size 2 2\nset 1 2 S\nset 9 9 A\ntitle Three\n", b"size 3 3\n")
ANSWERS = ["filled", "nofill", "filled", "nofill"]


def expect_filled(found, answers, faulty=()):
    """Each puzzle is there once and in order, and what was filled is a fill."""
    assert [it.number for it in found] == list(range(len(answers))), found
    assert [it.answer for it in found] == answers, found
    for filled in found:
        assert (filled.error is None) == (filled.number not in faulty), filled
        if filled.answer == "filled":
            assert filled.rows in (("AS", "TO"), ("AT", "SO")) and Session(SQUARE, record=filled.record).rows() == filled.rows


@test
def many_puzzles_are_filled(room):
    for workers in (1, 3):
        found = list(xw.fill_many(PUZZLES * 3, SQUARE, workers))
        expect_filled(found, ANSWERS * 3)
        assert found[2].rows == ("AS", "TO") and b"text title Three\n" in found[2].record
        # no puzzle gets anything of the one before it
        assert all(b"Three" not in it.record for it in found if it.number % 4 != 2)
        assert [it.reports for it in found[:4]] == [(), (), ("xw: record: line 3: OutOfGrid",), ()] and not any(it.died for it in found)
    assert list(xw.fill_many([], SQUARE)) == []
    (limited,) = xw.fill_many([b"size 2 2\n"], SQUARE, limit=0)
    assert limited.answer == "limit" and limited.rows == ("--", "--")


@test
def puzzles_are_taken_in_each_form(room):
    session = square()
    session.fill(9)
    for light in session.lights():
        session.clue(light, "Clue")
    (room / "a.puz").write_bytes(session.to_puz())
    (room / "a.xw").write_bytes(session.record())
    mapping = {"dimensions": {"width": 2, "height": 2}, "puzzle": [[1, 2], [3, 0]]}
    puzzles = [session.to_puz(), session.to_text(), session.record(), room / "a.puz", room / "a.xw", "size 2 2\n", mapping]
    expect_filled(list(xw.fill_many(puzzles, SQUARE, 2)), ["filled"] * 7)
    # what cannot be read is named, and the others are filled
    puzzles = [room / "none", b"size 2 2\n", "a.puz", b"frob\n", 7, session.to_puz()[:60], b"size 2 2\n"]
    found = list(xw.fill_many(puzzles, SQUARE, 2))
    expect_filled(found, [None, "filled", None, None, None, None, "filled"], faulty=(0, 2, 3, 4, 5))
    assert [type(it.error).__name__ for it in found if it.error] == ["FileNotFoundError", "ValueError", "Fault", "TypeError", "Fault"]
    assert str(found[3].error) == "NoCommand: xw: record: line 1: Command"


@test
def words_are_taken_in_each_form(room):
    (room / "words.txt").write_bytes(b"as\nat\nso\nto\n")
    for words in (room / "words.txt", b"as\nat\nso\nto\n", {"as": 1, "at": 2, "so": 3, "to": 4}):
        expect_filled(list(xw.fill_many([b"size 2 2\n"], words, 1)), ["filled"])
    raises(ValueError, lambda: list(xw.fill_many([b""], "words.txt")))


@test
def executors_fill_puzzles():
    for executor in (concurrent.futures.ThreadPoolExecutor(2), concurrent.futures.ProcessPoolExecutor(2)):
        with executor:
            expect_filled(list(xw.fill_many([*PUZZLES * 5, 7], SQUARE, 2, executor=executor)), [*ANSWERS * 5, None], faulty=(20,))


def deadly_puzzles(path, word):
    return [*PUZZLES, b"size 2 2\n# %s %s\n" % (word, os.fsencode(path)), *PUZZLES]


@test
def a_worker_that_dies_is_named(room):
    xw.many.fill_one = deadly.fill_or_die
    try:
        found = list(xw.fill_many(deadly_puzzles(room / "pids", b"once"), SQUARE, 2))
        expect_filled(found, [*ANSWERS, "filled", *ANSWERS])
        (pid,) = map(int, (room / "pids").read_text().split())
        assert [(it.worker, it.code) for it in found[4].died] == [(pid, -signal.SIGKILL)] and not any(it.died for it in found if it.number != 4)
        # a puzzle that every worker dies of is given up
        found = list(xw.fill_many(deadly_puzzles(room / "others", b"always"), SQUARE, 2))
        expect_filled(found, [*ANSWERS, None, *ANSWERS], faulty=(4,))
        pids = [int(pid) for pid in (room / "others").read_text().split()]
        assert [it.worker for it in found[4].died] == pids and len(pids) == 2
        assert str(found[4].error) == f"worker {pids[1]} was ended by signal 9"
    finally:
        xw.many.fill_one = fill_one


fill_one = xw.many.fill_one


@test
def an_executor_that_loses_a_worker_loses_no_puzzle():
    fill_part = xw.many.fill_part
    xw.many.fill_part = deadly.die
    try:
        with concurrent.futures.ProcessPoolExecutor(1) as executor:
            found = list(xw.fill_many(PUZZLES * 5, SQUARE, 1, executor=executor))
    finally:
        xw.many.fill_part = fill_part
    expect_filled(found, [None] * 20, faulty=range(20))
    assert all(isinstance(it.error, concurrent.futures.process.BrokenProcessPool) for it in found)


@test
def executors_race():
    for executor in (concurrent.futures.ThreadPoolExecutor(2), concurrent.futures.ProcessPoolExecutor(2)):
        with executor:
            found = xw.best(GRADED, b"size 2 2\n", workers=2, executor=executor)
            assert (found.answer, found.fill.grade, found.bound, found.is_best, found.died) == ("filled", 60, 61, True, ())
            assert xw.best(GRADED, b"size 2 2\n", workers=2, limit=0, executor=executor).placements == 0
            assert xw.best(SQUARE, b"size 3 3\n", workers=2, executor=executor).answer == "nofill"
            raises(Fault, lambda: xw.best(SQUARE, b"frob\n", workers=2, executor=executor), status="NoCommand")


@test
def an_executor_that_loses_each_leg_is_told():
    leg = xw.race.leg
    xw.race.leg = deadly.die
    try:
        with concurrent.futures.ProcessPoolExecutor(1) as executor:
            raises(concurrent.futures.process.BrokenProcessPool, lambda: xw.best(GRADED, b"size 2 2\n", workers=1, executor=executor))
    finally:
        xw.race.leg = leg


@test
def a_cluster_loses_nothing(room):
    """Puzzles and a race on a scheduler and two workers of Dask, one of which is killed."""
    needs(DASK)
    env = {**os.environ, "PYTHONPATH": f"{TOP / 'python'}:{TOP / 'tests/python'}"}
    ended = subprocess.run(["/usr/bin/python3", TOP / "tests/python/cluster.py", room], env=env, capture_output=True, text=True)
    assert ended.returncode == 0, ended.stderr[-4000:]


def is_there(pid):
    try:
        os.kill(pid, 0)
    except ProcessLookupError:
        return False
    return True


def pids_in(path, count):
    """The processes that a file names, once it names so many."""
    while not path.exists() or path.read_text().count("\n") < count:
        time.sleep(0.01)
    return [int(pid) for pid in path.read_text().split()]


@test
def an_interrupt_ends_all_workers(room):
    """It comes while two workers wait for ever, and a third puzzle is done."""
    puzzles = [PUZZLES[0], *[b"# wait %s\n" % os.fsencode(room / "pids")] * 4]
    xw.many.fill_one = deadly.fill_or_die
    found = []

    def interrupts():
        pids_in(room / "pids", 2)
        os.kill(os.getpid(), signal.SIGINT)

    thread = threading.Thread(target=interrupts)
    try:
        thread.start()
        raises(KeyboardInterrupt, lambda: found.extend(xw.fill_many(puzzles, SQUARE, 2)))
    finally:
        xw.many.fill_one = fill_one
        thread.join()
    assert not any(map(is_there, pids_in(room / "pids", 2))) and [it.answer for it in found] in ([], ["filled"])


@test
def a_loop_that_is_left_ends_all_workers(room):
    xw.many.fill_one = deadly.fill_or_die
    try:
        filling = xw.fill_many([PUZZLES[0], b"# wait %s\n" % os.fsencode(room / "pids")], SQUARE, 2)
        assert next(filling).answer == "filled"
        pids = pids_in(room / "pids", 1)
        assert is_there(pids[0])
        filling.close()
        assert not is_there(pids[0])
    finally:
        xw.many.fill_one = fill_one


@test
def workers_end_with_their_parent(room):
    """In the middle of a call too: the parent dies, and its worker reads that it has none."""
    code = f"""
import deadly, os, signal, threading, xw.workers
worker = xw.workers.Worker()
worker.ask(deadly.Session, b"")
threading.Thread(target=worker.ask, args=(deadly.fill_or_die, 0, {b'# wait %s' % os.fsencode(room / "pids")!r}, {{}}), daemon=True).start()
while not os.path.exists({str(room / "pids")!r}):
    pass
print(worker.number, flush=True)
os.kill(os.getpid(), signal.SIGKILL)
"""
    path = os.pathsep.join([str(TOP / "tests/python"), os.environ.get("PYTHONPATH", "")])
    ended = subprocess.run([sys.executable, "-c", code], env={**os.environ, "PYTHONPATH": path}, stdout=subprocess.PIPE)
    assert ended.returncode == -signal.SIGKILL
    # the pipe of the output has an end when the worker has ended, which also has it
    assert pids_in(room / "pids", 1) == [int(ended.stdout)]


@test
def workers_race_for_the_best_fill():
    told = []
    for workers in (1, 3):
        found = xw.best(GRADED, b"size 2 2\nset 9 9 A\n", workers, progress=told.append)
        assert (found.answer, found.bound, found.fill.grade, found.fill.bound, found.fill.mean, found.is_best) == ("filled", 61, 60, 61, 75, True), found
        assert found.fill.rows in (("AS", "TO"), ("AT", "SO")) and found.reports == ("xw: record: line 2: OutOfGrid",) and not found.died
        assert found.placements == told[-1].placements and (told[-1].grade, told[-1].bound) == (60, 61)
    # no fill has the grade 61
    found = xw.best(GRADED, b"size 2 2\n", 2, least=61)
    assert (found.answer, found.bound, found.fill, found.is_best) == ("nofill", 61, None, False)
    # a grid that is full is its own fill
    found = xw.best(GRADED, b"size 2 2\nset 1 1 A\nset 1 2 S\nset 2 1 T\nset 2 2 O\n", 2)
    assert (found.answer, found.fill) == ("filled", (100, 101, ("AS", "TO"), 100)) and found.is_best


def many_words():
    """Graded words of six letters of which a few thousand placements prove no best fill of a grid of 6 by 6 without a block."""
    draw = random.Random(1)
    return {"".join(draw.choices("abcdefgh", k=6)): draw.randrange(101) for _ in range(3000)}


@test
def a_race_ends_in_each_way():
    words, record = many_words(), b"size 6 6\n"
    found = xw.best(words, record, 2, limit=2000)
    assert found.placements == 4000 and not found.is_best, found
    assert xw.best(words, record, 2, seconds=0.001).placements >= 1000
    told = []
    assert xw.best(words, record, 2, progress=lambda it: told.append(it) or True).placements == told[0].placements and len(told) == 1
    raises(Refusal, lambda: xw.best(GRADED, b"size 2 2\n", 2, lights=["9 across"]), name="NoLight")
    raises(Fault, lambda: xw.best(GRADED, b"frob\n", 2), status="NoCommand", message="xw: record: line 1: Command")
    raises(ValueError, lambda: xw.best("words.txt"))
    assert xw.best(GRADED, b"size 2 2\n", 1, lights=[(1, "across")]).fill.rows[0] in ("AS", "AT")


class Scripted:
    """Workers that tell what a test wants: the n-th one has the steps of `scripts[n]`, each a call that gets the least grade."""

    scripts = ()
    started = 0

    def __init__(self):
        self.steps, self.number = iter(Scripted.scripts[Scripted.started]), Scripted.started
        Scripted.started += 1

    def ask(self, call, *given):
        return next(self.steps)(*given) if call is xw.race.step else None

    def end(self):
        pass


def raced(*scripts, **options):
    Scripted.scripts, Scripted.started, worker = scripts, 0, xw.race.Worker
    xw.race.Worker = Scripted
    try:
        return xw.best([], workers=len(scripts), **options)
    finally:
        xw.race.Worker = worker


def a_step(bound, grade=None, mean=0.0, is_over=False):
    fill = grade and xw.Best(grade, bound, (f"{grade}",), mean)
    return xw.race.Step(fill, bound, 1000, is_over, ())


@test
def workers_are_told_of_the_fills_of_others():
    taken, aboves = threading.Event(), []

    def waits(above):
        # a slice that began before any fill was known
        aboves.append(above)
        taken.wait()
        return a_step(101)

    def ends(above):
        aboves.append(above)
        return a_step(above)

    # the first one finds a fill, and the other one proves that it is the best one
    found = raced([lambda above: a_step(80, 40, 45.0, True)], [waits, waits, ends], progress=lambda told: told.grade == 40 and taken.set())
    assert aboves[0] in (0, 41) and aboves[-1] == 41 and found.fill == (40, 41, ("40",), 45) and found.is_best and found.placements == 2000


@test
def what_workers_found_is_one_answer():
    # the better fill counts, and of two with one worst word that with the better mean; the lowest bound is one of all
    fills = [a_step(90, 40, 50.0, True)], [a_step(70, 30, 99.0, True)], [a_step(80, 40, 60.0, True)], [a_step(101, is_over=True)]
    found = raced(*[[lambda above, step=step: step for step in steps] for steps in fills])
    assert (found.answer, found.bound, found.fill, found.is_best) == ("filled", 70, (40, 70, ("40",), 60), False)
    # a bound at the least grade says that there is no fill
    found = raced([lambda above: a_step(50)], [lambda above: a_step(101, is_over=True)], least=50)
    assert (found.answer, found.bound) == ("nofill", 50)
    found = raced([lambda above: a_step(51, is_over=True)], least=50)
    assert (found.answer, found.bound) == ("limit", 51)


@test
def a_race_goes_on_without_a_worker_that_dies():
    step = xw.race.step
    xw.race.step = deadly.step_or_die
    try:
        found = xw.best(many_words(), b"size 6 6\n", 2, limit=2000)
        # the other worker makes its 2,000 placements, and the one that dies had made 1,000
        assert [it.code for it in found.died] == [-signal.SIGKILL] and found.placements == 3000, found
        xw.race.step = deadly.die
        raises(Died, lambda: xw.best(GRADED, b"size 2 2\n", 2), code=-signal.SIGKILL)
    finally:
        xw.race.step = step


@test
def an_interrupt_ends_a_race(room):
    step, path = xw.race.step, room / "pids"

    def interrupts():
        pids_in(path, 2)
        os.kill(os.getpid(), signal.SIGINT)

    thread = threading.Thread(target=interrupts)
    xw.race.step = deadly.step_or_wait
    try:
        thread.start()
        raises(KeyboardInterrupt, lambda: xw.best(GRADED, b"title %s\n" % os.fsencode(path), 2))
    finally:
        xw.race.step = step
        thread.join()
    assert not any(map(is_there, pids_in(path, 2)))


async def all_of(filling):
    return [it async for it in filling]


@test
def puzzles_are_filled_in_a_loop(room):
    """As fill_many does, in processes and by executors."""
    for workers in (1, 3):
        expect_filled(asyncio.run(all_of(aio.fill_many(PUZZLES * 3, SQUARE, workers))), ANSWERS * 3)
    for executor in (concurrent.futures.ThreadPoolExecutor(2), concurrent.futures.ProcessPoolExecutor(2)):
        with executor:
            found = asyncio.run(all_of(aio.fill_many([*PUZZLES * 3, room / "none", PUZZLES[0]], SQUARE, 2, executor=executor)))
            expect_filled(found, [*ANSWERS * 3, None, "filled"], faulty=[12])
    assert asyncio.run(all_of(aio.fill_many([], SQUARE))) == []
    found = asyncio.run(all_of(aio.fill_many([b"size 2 2\n", room / "none", b"frob\n"], SQUARE, limit=0)))
    expect_filled(found, ["limit", None, None], faulty=[1, 2])
    raises(ValueError, lambda: asyncio.run(all_of(aio.fill_many([], "words.txt"))))
    fill_part = xw.many.fill_part
    xw.many.fill_part = deadly.die
    try:
        with concurrent.futures.ProcessPoolExecutor(1) as executor:
            found = asyncio.run(all_of(aio.fill_many(PUZZLES, SQUARE, 1, executor=executor)))
    finally:
        xw.many.fill_part = fill_part
    expect_filled(found, [None] * 4, faulty=range(4))


@test
def a_race_is_awaited():
    told = []

    def progress(step):
        told.append((step, asyncio.get_running_loop() is not None))

    async def ends(step):
        await asyncio.sleep(0)
        told.append(step)
        return True

    found = asyncio.run(aio.best(GRADED, b"size 2 2\nset 9 9 A\n", 2, progress=progress))
    assert (found.answer, found.bound, found.fill.grade, found.fill.mean, found.is_best) == ("filled", 61, 60, 75, True), found
    assert found.reports == ("xw: record: line 2: OutOfGrid",) and told[-1] == ((found.placements, 60, 61), True)
    del told[:]
    found = asyncio.run(aio.best(many_words(), b"size 6 6\n", 2, progress=ends))
    assert len(told) == 1 and found.placements == told[0].placements and not found.is_best
    with concurrent.futures.ProcessPoolExecutor(2) as executor:
        assert asyncio.run(aio.best(SQUARE, b"size 3 3\n", 2, executor=executor)).answer == "nofill"
    raises(Refusal, lambda: asyncio.run(aio.best(GRADED, b"size 2 2\n", 2, lights=["9 across"])), name="NoLight")
    raises(Fault, lambda: asyncio.run(aio.best(GRADED, b"frob\n", 2)), status="NoCommand")
    raises(ValueError, lambda: asyncio.run(aio.best("words.txt")))
    step, xw.race.step = xw.race.step, deadly.die
    try:
        raises(Died, lambda: asyncio.run(aio.best(GRADED, b"size 2 2\n", 2)), code=-signal.SIGKILL)
    finally:
        xw.race.step = step


async def cancelled(call, path, count):
    """The processes of a call, which is cancelled once a file names so many. Meanwhile the loop goes on."""
    task = asyncio.ensure_future(call)
    pids = await asyncio.get_running_loop().run_in_executor(None, pids_in, path, count)
    assert all(map(is_there, pids)) and not task.done()
    task.cancel()
    try:
        await task
    except asyncio.CancelledError:
        return pids
    raise AssertionError("the task is not cancelled")


@test
def a_task_that_is_cancelled_ends_all_workers(room):
    step = xw.race.step
    xw.many.fill_one, xw.race.step = deadly.fill_or_die, deadly.step_or_wait
    waits = [b"# wait %s\n" % os.fsencode(room / "filling")] * 4
    try:
        pids = asyncio.run(cancelled(all_of(aio.fill_many([PUZZLES[0], *waits], SQUARE, 2)), room / "filling", 2))
        pids += asyncio.run(cancelled(aio.best(GRADED, b"title %s\n" % os.fsencode(room / "racing"), 2), room / "racing", 2))
    finally:
        xw.many.fill_one, xw.race.step = fill_one, step
    assert len(set(pids)) == 4 and not any(map(is_there, pids))


@test
def a_loop_that_is_left_in_the_middle_ends_all_workers(room):
    async def leaves():
        filling = aio.fill_many([PUZZLES[0], b"# wait %s\n" % os.fsencode(room / "pids")], SQUARE, 2)
        async for filled in filling:
            assert filled.answer == "filled"
            break
        pids = pids_in(room / "pids", 1)
        assert is_there(pids[0])
        await filling.aclose()
        assert not is_there(pids[0])

    xw.many.fill_one = deadly.fill_or_die
    try:
        asyncio.run(leaves())
    finally:
        xw.many.fill_one = fill_one


@test
def objects_are_puzzles():
    session = square()
    session.fill(9)
    session.title("Caf\u00e9")

    class Puz:
        """What the package `puz` makes."""

        def tobytes(self):
            return session.to_puz()

    assert Session(puzzle=Puz()).rows() == session.rows()


@test
def mappings_are_puzzles():
    puzzle = {
        "dimensions": {"width": 3, "height": 2},
        "title": "T",
        "puzzle": [[0, {"cell": 5, "style": {"shapebg": "circle", "barred": "L"}}, "#"], [{"cell": 7, "style": {"barred": "TL"}}, 0, None]],
        "solution": [["A", {"value": "S"}, "#"], ["T", "O", None]],
        "clues": {"Across": [[7, "Seven"]], "Down": [{"number": "5", "clue": "Five"}]},
    }
    session = Session(puzzle=puzzle)
    assert session.show() == ["A|S #", "=....", "T O #"] and session.rows() == ("AS#", "TO#")
    assert session.circles() == [(1, 2)]
    assert session.texts() == {"title": "T", "2 across": "Seven", "1 down": "Five"}
    puzzle["solution"][0][0] = "HEART"
    raises(Fault, lambda: Session(puzzle=puzzle), status="BadCell")


@test
def package_is_typed():
    needs("mypy")
    ended = subprocess.run(["mypy", "--strict", "--cache-dir", os.devnull, TOP / "python/xw"], capture_output=True, text=True)
    assert not ended.returncode, ended.stdout


@test
def documents_run():
    for name in ("docs/python.md", "docs/publishers.md", "docs/list-makers.md", "python/README.md"):
        failed, tried = doctest.testfile(str(TOP / name), module_relative=False)
        assert tried and not failed, name


@test
def wheel_stands_alone(room, wheel):
    """The package of the wheel is used outside the checkout, with the document and the example as they are installed."""
    with zipfile.ZipFile(wheel) as archive:
        archive.extractall(room / "site")
    (room / "list.txt").write_text("".join(f"{word};{grade}\n" for word, grade in GRADED))
    (room / "grid.xw").write_text("size 2 2\n")
    (room / "doc/examples").mkdir(parents=True)
    shutil.copy(TOP / "docs/python.md", room / "doc")
    (example,) = re.findall(r"\bexamples/\w+\.py", (TOP / "docs/python.md").read_text())
    shutil.copy(TOP / example, room / "doc/examples")
    bare = {name: value for name, value in os.environ.items() if name not in ("PYTHONPATH", "XW_LIBRARY", "LD_LIBRARY_PATH")}
    code = "import xw, sys; print(xw.version(), xw.__file__)"
    called = lambda *words: subprocess.run([sys.executable, *words], cwd=room, env={**bare, "PYTHONPATH": str(room / "site")}, capture_output=True, text=True)
    assert called("-c", code).stdout.split() == [*xw.version().split(), str(room / "site/xw/__init__.py")]
    (metadata,) = (room / "site").glob("xw-*.dist-info/METADATA")
    fields, _, description = metadata.read_text(encoding="utf-8").partition("\n\n")
    assert description == (TOP / "python/README.md").read_text(encoding="utf-8") and f"\nVersion: {xw.__version__}\n" in fields
    told = called("-m", "doctest", room / "doc/python.md")
    assert told.returncode == 0, told.stdout
    filled = called(room / "doc" / example, "list.txt", "grid.xw", "--puz", "made.puz")
    assert filled.returncode == 0 and (room / "made.puz").stat().st_size, filled.stderr


def in_a_room(test, wheel):
    """A function that runs a test, with what it asks for: a folder of its own, and the wheel."""

    def case():
        with tempfile.TemporaryDirectory() as folder:
            there = {"room": pathlib.Path(folder), "wheel": wheel}
            test(**{name: there[name] for name in inspect.signature(test).parameters})

    return case


def main(wheel, *names):
    # a process that a shell runs in the background ignores the signal, and so do those that it starts
    signal.signal(signal.SIGINT, signal.default_int_handler)
    return run_cases({test.__name__: in_a_room(test, wheel) for test in TESTS if not names or test.__name__ in names})


if __name__ == "__main__":
    sys.exit(main(*sys.argv[1:]))
