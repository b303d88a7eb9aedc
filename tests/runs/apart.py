"""Calls that would write one file over another: they are refused, by whatever path they name it."""
import fcntl
import os
import threading

from samples import PLAIN, TEXT
from steps import ACCEPTED, FAILED, FIRST, REFUSED, SECONDS, USAGE, absent, compare, holds, link, run, run_between, write

from runs.journals import Session, record
from runs.refused_lines import LIST, LOADED, MINE, UNKNOWN, WITHOUT, backed_up, unread_kept
from runs.replacing import folder, is_link, is_none, set_mode

OLD = b"what stood there"


def is_refused(words, message):
    """The call is wrong usage: it reads no input, and writes nothing."""
    return run(f"edit {words}", b"size 2 1\n", errors=f"xw: {message}\n".encode(), status=USAGE)


def is_over_list(words, name):
    return is_refused(words, f"{name}: the word list cannot be the file to write")


def is_in_one(words, name):
    return is_refused(words, f"{name}: the puzzle and the session cannot be written into one file")


def is_shared(words, name):
    return is_refused(words, f"{name}: the journal cannot be another file of the call")


def is_over_puzzle(words, name):
    return is_refused(words, f"{name}: the session cannot be written over the puzzle to start with")


def is_as_puz(words, name):
    return is_refused(words, f"{name}: the session cannot be written as .puz")


def is_refused_between(words, source, message, target=None):
    """The call is wrong usage, with its input from a file and perhaps its output to one: it writes nothing."""
    return run_between(words, source, target, errors=f"xw: {message}\n".encode(), status=USAGE)


OVER_INPUT = "standard input cannot be the file to write"
SHARED_OUTPUT = "standard output cannot be another file of the call"
SHARED_JOURNAL = "the journal cannot be another file of the call"

# A list of words, and a session over it.
WORDS = b"cat\ndog\n"
SESSION = FIRST + b"size 3 1\n"


def cannot_write(words, name, typed=b"size 9 9\n"):
    """The call is refused before anything is read: no list is loaded, and no command is answered."""
    return run(f"edit --dict words.txt {words}", typed, errors=f"xw: {name}: cannot write\n".encode(), status=FAILED)


def is_unwritable(name, *steps):
    """Does steps on a file, or below a folder, without write permission, unless the user may write everywhere."""

    def step(room, program):
        if not os.access(room / name, os.W_OK):
            for each in steps:
                each(room, program)

    return step


LEFT = b"xw: inner/mine.xw: not saved; the session is kept as mine.xw~\n"


def loses_its_folder(room, program):
    """The folder of the session goes while it runs: it cannot be saved, and the puzzle is written all the same."""
    session = Session(room, program, "edit --save inner/mine.xw --to new.txt")
    for line in (b"size 2 1", b"place 1 across AT", b"clue 1 across a"):
        session.ask(line, b"ok\n")
    (room / "inner").rmdir()
    compare("end", session.end(), (b"", LEFT + b"xw: inner/mine.xw: cannot write\n", FAILED))
    assert (room / "mine.xw~").read_bytes().startswith(FIRST)
    assert b"<GRID>" in (room / "new.txt").read_bytes()


def loses_its_folder_unfilled(room, program):
    """The session cannot be saved, and the grid is unfinished: both are reported."""
    session = Session(room, program, "edit --save inner/mine.xw --to new.puz")
    session.ask(b"size 2 1", b"ok\n")
    (room / "inner").rmdir()
    compare("end", session.end(), (b"", LEFT + b"xw: inner/mine.xw: cannot write\nxw: new.puz: NotFilled\n", FAILED))
    compare("new.puz exists", (room / "new.puz").exists(), False)


def is_no_puzzle(name):
    """The file is none that `--to` wrote."""

    def step(room, program):
        found = (room / name).read_bytes() if (room / name).exists() else b""
        assert b"<GRID>" not in found and b"ACROSS&DOWN" not in found, f"{name}: {found!r}"

    return step


def with_whole_path(step, words, name):
    """A step on a call in which `HERE` is the folder of the case."""

    def stepped(room, program):
        here = str(room.resolve())
        step(words.replace("HERE", here), name.replace("HERE", here))(room, program)

    return stepped


def hard_link(name, to):
    return lambda room, program: os.link(room / to, room / name)


def changes_before_the_end(words, *changes, errors, status, typed=(b"size 2 1", b"place 1 across AT", b"clue 1 across a")):
    """Does something to the files once the session runs, and then ends its input."""

    def step(room, program):
        session = Session(room, program, words)
        for line in typed:
            session.ask(line, b"ok\n")
        for change in changes:
            change(room, program)
        compare("end", session.end(), (b"", errors, status))

    return step


def while_locked(name, *steps):
    """Does steps while this process has a file locked, as the journal of another program."""

    def step(room, program):
        with open(room / name, "rb") as file:
            fcntl.flock(file, fcntl.LOCK_EX)
            for each in steps:
                each(room, program)

    return step


def while_journaled(*steps):
    """Does steps while a program has mine.xw as its journal, which goes on after them."""

    def step(room, program):
        session = Session(room, program)
        session.ask(b"size 2 1", b"ok\n")
        for each in steps:
            each(room, program)
        session.ask(b"set 1 1 A", b"ok\n")
        compare("end", session.end(), (b"", b"", ACCEPTED))
        holds("mine.xw", record(b"set 1 1 A\n"))(room, program)

    return step


def is_in_use(words, name, typed=b"size 9 9\n"):
    return run(words, typed, errors=f"xw: {name}: in use\n".encode(), status=FAILED)


def is_piped(words, wanted, errors=b""):
    """Runs the program while a thread reads the pipe `pipe`, which is open to read before and is written once."""

    def step(room, program):
        found = []
        # The first read must wait for the program to write.
        both_ends = os.open(room / "pipe", os.O_RDWR)
        reader = threading.Thread(target=lambda: found.append(os.read(both_ends, 100_000)), daemon=True)
        reader.start()
        run(words, errors=errors)(room, program)
        reader.join(SECONDS)
        os.close(both_ends)
        compare("what the pipe had", found, [wanted])

    return step


USERS = [
    is_in_use("edit --save mine.xw", "mine.xw"),
    is_in_use("edit --to ./mine.xw", "./mine.xw"),
    is_in_use("edit --resume mine.xw --save mine.link", "mine.link"),
    is_in_use("edit --journal other.xw --save mine.xw", "mine.xw"),
    is_in_use("edit --save new.xw --to mine.xw", "mine.xw"),
    is_in_use("convert plain.puz mine.xw", "mine.xw"),
    is_in_use("convert plain.puz mine.link", "mine.link"),
    absent("new.xw"),
]

CASES = {
    # Files that are not there yet: their folder is one, and their last name.
    "not_there_yet, by another path": [
        folder("inner"),
        is_shared("--journal j --to ./j", "j"),
        is_shared("--journal ./j --save j", "./j"),
        is_shared("--journal inner/../j --to j", "inner/../j"),
        is_shared("--journal j --dict .//j", "j"),
        with_whole_path(is_shared, "--journal HERE/j --to j", "HERE/j"),
        is_in_one("--to y --save ./y", "./y"),
        is_in_one("--to inner/y --save inner/../inner/y", "inner/../inner/y"),
        with_whole_path(is_in_one, "--to y --save HERE/y", "HERE/y"),
        is_over_list("--dict d --to ./d", "./d"),
        is_over_list("--dict ./d --save d", "d"),
        absent("j"),
        absent("y"),
        absent("inner/y"),
    ],
    "not_there_yet, through a link to nothing": [
        folder("inner"),
        link("l", "gone"),
        link("inner/l", "../gone"),
        link("k", "l"),
        is_shared("--journal l --to gone", "l"),
        is_shared("--journal gone --save k", "gone"),
        is_in_one("--to inner/l --save gone", "gone"),
        is_in_one("--to gone --save ./k", "./k"),
        is_in_one("--to l --save inner/l", "inner/l"),
        is_over_list("--dict gone --to l", "l"),
        absent("gone"),
        is_link("l"),
        is_link("k"),
    ],
    "not_there_yet, in a folder with two names": [
        folder("inner"),
        link("other", "inner"),
        is_shared("--journal inner/j --to other/j", "inner/j"),
        is_in_one("--to inner/y --save other/y", "other/y"),
        absent("inner/j"),
        absent("inner/y"),
    ],
    # Names that are not one file.
    "not_there_yet, two files": [
        folder("inner"),
        folder("other"),
        link("l", "inner/y"),
        run("edit --to y --save inner/y", b"size 2 1\nplace 1 across AT\nclue 1 across a\n", b"ok\nok\nok\n"),
        holds("inner/y", record(b"set 1 1 A\n", b"set 1 2 T\n").replace(b"watch", b"text clue 1 1 across a\nwatch")),
        run(
            "edit --journal other/y --save l --to inner/z",
            b"size 2 1\nplace 1 across AT\nclue 1 across a\n",
            b"ok\nok\nok\n",
        ),
        is_link("l"),
    ],
    # What becomes one file only while the session runs is seen before it is replaced.
    "one_file_at_the_end, by a link": [
        changes_before_the_end(
            "edit --to t --save s",
            link("t", "s"),
            errors=b"xw: s: the puzzle and the session cannot be written into one file\n",
            status=USAGE,
        ),
        is_link("t"),
        is_no_puzzle("s"),
    ],
    "one_file_at_the_end, by a hard link": [
        write("s", OLD),
        changes_before_the_end(
            "edit --to t --save s",
            hard_link("t", "s"),
            errors=unread_kept("s") + b"xw: s: the puzzle and the session cannot be written into one file\n",
            status=USAGE,
        ),
        holds("t", OLD),
        holds("s~", OLD),
    ],
    "one_file_at_the_end, the list": [
        write("d", b"AT\n"),
        changes_before_the_end(
            "edit --dict d --to t",
            link("t", "d"),
            errors=b"xw: d: 1 added, 0 skipped\nxw: t: the word list cannot be the file to write\n",
            status=USAGE,
        ),
        holds("d", b"AT\n"),
        is_link("t"),
    ],
    "one_file_at_the_end, the journal": [
        changes_before_the_end(
            "edit --journal j --to t",
            link("t", "j"),
            errors=b"xw: j: the journal cannot be another file of the call\n",
            status=USAGE,
        ),
        is_link("t"),
        is_no_puzzle("j"),
    ],
    # The name `-` leads to the file that standard input is read from.
    "over_the_input, the list": [
        write("wl.txt", WORDS),
        is_refused_between("edit --dict - --save wl.txt", "wl.txt", "wl.txt: the word list cannot be the file to write"),
        is_refused_between("edit --dict - --to ./wl.txt", "wl.txt", "./wl.txt: the word list cannot be the file to write"),
        is_refused_between("edit --dict - --journal wl.txt", "wl.txt", f"wl.txt: {SHARED_JOURNAL}"),
        holds("wl.txt", WORDS),
    ],
    "over_the_input, the puzzle": [
        write("keep.txt", TEXT),
        link("l", "keep.txt"),
        is_refused_between("edit --from - --save keep.txt", "keep.txt", "keep.txt: the session cannot be written over the puzzle to start with"),
        is_refused_between("edit --from - --save l", "keep.txt", "l: the session cannot be written over the puzzle to start with"),
        holds("keep.txt", TEXT),
        # The puzzle may be.
        run_between("edit --from - --to keep.txt", "keep.txt"),
        holds("keep.txt", TEXT),
    ],
    "over_the_input, the commands to start with": [
        write("k.xw", SESSION),
        is_refused_between("edit --resume - --to k.xw", "k.xw", "k.xw: the puzzle cannot be written over the session to start with"),
        is_refused("--resume k.xw --to ./k.xw", "./k.xw: the puzzle cannot be written over the session to start with"),
        holds("k.xw", SESSION),
        run_between("edit --resume - --save k.xw", "k.xw"),
        run("edit --resume k.xw", b"show\n", b"- - -\nok\n"),
    ],
    # The session may replace the file, which is kept if a line of it was refused.
    "over_the_input, a line that was refused": [
        write("k.xw", MINE),
        run_between("edit --resume - --save k.xw", "k.xw", errors=b"xw: -: line 2: Unknown\n" + backed_up("k.xw"), status=REFUSED),
        holds("k.xw", WITHOUT),
        holds("k.xw~", MINE),
    ],
    "over_the_input, the commands": [
        write("s", b"size 2 1\n"),
        hard_link("t", "s"),
        is_refused_between("edit --save s", "s", f"s: {OVER_INPUT}"),
        is_refused_between("edit --save t", "s", f"t: {OVER_INPUT}"),
        is_refused_between("edit --to ./s", "s", f"./s: {OVER_INPUT}"),
        is_refused_between("edit --to /dev/stdin", "s", f"/dev/stdin: {OVER_INPUT}"),
        holds("s", b"size 2 1\n"),
        # They may be read twice.
        run_between("edit --resume s", "s", output=b"ok\n"),
    ],
    # Nothing is lost in a device.
    "over_the_input, no file": [run_between("edit --save /dev/null --journal j", "/dev/null"), run_between("edit --save /dev/null", "/dev/null")],
    # A journal that is also the input would read what it writes.
    "the_input_as_journal": [
        write("js", b"size 2 1\n"),
        link("l", "js"),
        is_refused_between("edit --journal js", "js", f"js: {SHARED_JOURNAL}"),
        is_refused_between("edit --journal l", "js", f"l: {SHARED_JOURNAL}"),
        is_refused_between("edit --journal /dev/stdin", "js", f"/dev/stdin: {SHARED_JOURNAL}"),
        is_refused("--journal /dev/stdin", f"/dev/stdin: {SHARED_JOURNAL}"),
        holds("js", b"size 2 1\n"),
    ],
    "the_output_as_another_file": [
        write("typed", b"size 2 1\n"),
        write("wl.txt", WORDS),
        write("p.txt", TEXT),
        write("k.xw", SESSION),
        write("js", b"size 2 1\n"),
        is_refused_between("edit --dict wl.txt", "typed", f"wl.txt: {SHARED_OUTPUT}", "wl.txt"),
        is_refused_between("edit --from p.txt", "typed", f"p.txt: {SHARED_OUTPUT}", "p.txt"),
        is_refused_between("edit --resume k.xw", "typed", f"k.xw: {SHARED_OUTPUT}", "k.xw"),
        is_refused_between("edit --save k.xw", "typed", f"k.xw: {SHARED_OUTPUT}", "k.xw"),
        is_refused_between("edit --to p.txt", "typed", f"p.txt: {SHARED_OUTPUT}", "p.txt"),
        is_refused_between("edit --to /dev/stdout", "typed", f"/dev/stdout: {SHARED_OUTPUT}", "p.txt"),
        is_refused_between("edit --journal js", "typed", f"js: {SHARED_JOURNAL}", "js"),
        is_refused_between("edit", "typed", f"-: {SHARED_OUTPUT}", "typed"),
        holds("typed", b"size 2 1\n"),
        holds("wl.txt", WORDS),
        holds("p.txt", TEXT),
        holds("k.xw", SESSION),
        holds("js", b"size 2 1\n"),
        # An output that is no file may have the puzzle too.
        run("edit --from p.txt --to /dev/stdout", output=TEXT),
    ],
    # The file that is kept beside the session is none of the call.
    "the_kept_file": [
        write("k.xw", MINE),
        write("k.xw~", WORDS),
        is_over_list("--dict k.xw~ --resume k.xw --save k.xw", "k.xw~"),
        is_in_one("--resume k.xw --save k.xw --to k.xw~", "k.xw~"),
        is_in_one("--save new.xw --to ./new.xw~", "./new.xw~"),
        holds("k.xw", MINE),
        holds("k.xw~", WORDS),
        # It may be what the session begins with.
        write("k.xw~", MINE),
        LIST,
        run("edit --dict words.txt --resume k.xw~ --save k.xw", errors=LOADED + unread_kept("k.xw", 2)),
        holds("k.xw~2", MINE),
        holds("k.xw", record(words=b"add OX\nstrike AT\n")),
        holds("k.xw~", MINE),
    ],
    # What cannot be written at the end is told at the beginning.
    "cannot_be_written, in no folder": [
        cannot_write("--save no/such/mine.xw", "no/such/mine.xw"),
        cannot_write("--to no/such/mine.puz", "no/such/mine.puz"),
        cannot_write("--to mine.txt --save no/such/mine.xw", "no/such/mine.xw"),
        cannot_write("--save mine.xw --to new.txt/", "new.txt/"),
        link("l", "no/such/file"),
        cannot_write("--save l", "l"),
        is_link("l"),
        absent("mine.txt"),
        absent("mine.xw"),
    ],
    "cannot_be_written, a folder": [
        folder("inner"),
        cannot_write("--save inner", "inner"),
        cannot_write("--to inner", "inner"),
        cannot_write("--to .", "."),
        cannot_write("--journal mine.xw --to inner", "inner"),
        absent("mine.xw"),
    ],
    "cannot_be_written, read only": [
        folder("closed"),
        write("closed/shut", OLD),
        set_mode("closed/shut", 0o444),
        is_unwritable("closed/shut", cannot_write("--save closed/shut", "closed/shut"), cannot_write("--to closed/shut", "closed/shut")),
        set_mode("closed/shut", 0o644),
        set_mode("closed", 0o555),
        is_unwritable("closed", cannot_write("--save closed/shut", "closed/shut"), cannot_write("--to closed/new", "closed/new")),
        set_mode("closed", 0o755),
        holds("closed/shut", OLD),
    ],
    # The trial leaves nothing, and changes nothing.
    "cannot_be_written, tried": [
        write("mine.xw", SESSION),
        write(".xw-0.new", OLD),
        run("edit --dict gone --save mine.xw --to new.txt", errors=b"xw: gone: cannot read\n", status=FAILED),
        holds("mine.xw", SESSION),
        holds(".xw-0.new", OLD),
        absent("new.txt"),
        is_none(".xw-1.new"),
    ],
    "cannot_be_written, only at the end": [folder("inner"), loses_its_folder],
    "cannot_be_written, nor the puzzle": [folder("inner"), loses_its_folder_unfilled],
    # The session is not written over the puzzle that it began with, nor into a file that is called a puzzle.
    "over_the_puzzle": [
        write("plain", PLAIN),
        link("one", "plain"),
        hard_link("two", "plain"),
        is_over_puzzle("--from plain --save plain", "plain"),
        is_over_puzzle("--from plain --save ./plain", "./plain"),
        is_over_puzzle("--from plain --save one", "one"),
        is_over_puzzle("--from one --save plain", "plain"),
        is_over_puzzle("--from one --save two --to three", "two"),
        with_whole_path(is_over_puzzle, "--from plain --save HERE/plain", "HERE/plain"),
        holds("plain", PLAIN),
        is_link("one"),
        absent("three"),
        # The puzzle may be.
        run("edit --from plain --to plain"),
        holds("plain", TEXT),
    ],
    "over_the_puzzle, before it is read": [write("plain", b"frob"), is_over_puzzle("--from plain --save plain", "plain"), holds("plain", b"frob")],
    "as_puz": [
        write("old.puz", PLAIN),
        is_as_puz("--save new.puz", "new.puz"),
        is_as_puz("--save old.puz", "old.puz"),
        is_as_puz("--save .puz", ".puz"),
        is_as_puz("--save new.PUZ", "new.PUZ"),
        is_as_puz("--save inner/new.Puz --to new.txt", "inner/new.Puz"),
        is_as_puz("--journal mine.xw --save new.puz", "new.puz"),
        is_as_puz("--resume gone.xw --save new.puz", "new.puz"),
        holds("old.puz", PLAIN),
        absent("new.puz"),
        absent("new.txt"),
        absent("mine.xw"),
        # Other names are none.
        run("edit --save puz", b"size 2 1\n", b"ok\n"),
        run("edit --save new.puz.xw", b"size 2 1\n", b"ok\n"),
        run("edit --save new.puzz", b"size 2 1\n", b"ok\n"),
        holds("puz", record()),
    ],
    # A file that another program has as its journal is not replaced.
    "in_use": [
        write("plain.puz", PLAIN),
        write("mine.xw", FIRST + b"size 2 1\n"),
        link("mine.link", "mine.xw"),
        while_locked("mine.xw", *USERS),
        holds("mine.xw", FIRST + b"size 2 1\n"),
        run("edit --resume mine.xw --save mine.xw", b"set 1 1 A\n", b"ok\n"),
        holds("mine.xw", record(b"set 1 1 A\n")),
    ],
    "in_use, by another session": [write("plain.puz", PLAIN), link("mine.link", "mine.xw"), while_journaled(*USERS), is_link("mine.link")],
    # A session may be read while it is a journal, and files beside it may be written.
    "in_use, but read": [
        while_journaled(
            run("edit --resume mine.xw --save other.xw", b"show\n", b"- -\nok\n"),
            holds("other.xw", record()),
        )
    ],
    # A pipe that nobody reads is not waited for.
    "no_file, a pipe without a reader": [
        write("plain.puz", PLAIN),
        lambda room, program: os.mkfifo(room / "pipe"),
        run("convert plain.puz pipe", errors=b"xw: pipe: cannot write\n", status=FAILED),
        run("edit --from plain.puz --to pipe", errors=b"xw: pipe: cannot write\n", status=FAILED),
    ],
    # Anything but a regular file is written in place, as before.
    "no_file": [
        write("plain.puz", PLAIN),
        lambda room, program: os.mkfifo(room / "pipe"),
        is_piped("convert plain.puz pipe", TEXT, b"xw: pipe: written as text\n"),
        is_piped("edit --from plain.puz --to pipe", TEXT),
        run("convert plain.puz /dev/stdout", output=TEXT, errors=b"xw: /dev/stdout: written as text\n"),
        run("edit --from plain.puz --to /dev/null"),
    ],
}
