"""Sessions with a journal: what was answered is kept, whatever ends the program."""
import fcntl
import os
import resource
import signal
import subprocess

from samples import ALL_TEXTS, PLAIN, STARTED, TEXT
from steps import ACCEPTED, FAILED, FIRST, FORMAT, REFUSED, SECONDS, USAGE, absent, compare, end, exists, holds, link, remove, run, write

from runs.devices import fails
from runs.replacing import folder, has_mode, is_link, is_no_file, set_mode

# Lines that are typed, and the journal that they make.
BEGUN = b"size 2 1\nset 1 1 A\n"
KEPT = FIRST + BEGUN


def record(*letters, words=b"", title=b"", watch=b"off"):
    """A file with the record of a grid of 2 columns and 1 row with these letters: docs/commands.md, "The record of a session"."""
    texts = b"text title " + title + b"\ntext author \ntext copyright \ntext notes \n"
    return FIRST + words + b"size 2 1\nsym none\n" + b"".join(letters) + texts + b"watch " + watch + b"\n"


def heed_signals():
    """Has a program end by these signals, which what a shell starts in the background may ignore."""
    for number in (signal.SIGINT, signal.SIGHUP):
        signal.signal(number, signal.SIG_DFL)


class Session:
    """The program over pipes, with a journal."""

    def __init__(self, room, program, words="edit --journal mine.xw"):
        pipes = {"stdin": subprocess.PIPE, "stdout": subprocess.PIPE, "stderr": subprocess.PIPE}
        how = {"executable": program, "cwd": room, "env": {}, "bufsize": 0, "preexec_fn": heed_signals}
        self.process = subprocess.Popen(["xw", *words.split()], **how, **pipes)
        self.output = os.fdopen(os.dup(self.process.stdout.fileno()), "rb")

    def send(self, line):
        self.process.stdin.write(line + b"\n")

    def ask(self, line, answer):
        """Sends a line, and reads its answer."""
        self.send(line)
        compare(f"answer to {line}", b"".join(self.output.readline() for _ in answer.split(b"\n")[:-1]), answer)

    def close(self):
        self.output.close()
        for stream in (self.process.stdin, self.process.stdout, self.process.stderr):
            stream.close()

    def kill(self):
        self.process.kill()
        self.process.wait()
        self.close()

    def end(self):
        """Ends the input, and returns what is left of the output, the messages and the status."""
        self.process.stdin.close()
        rest = self.output.read(), self.process.stderr.read(), self.process.wait()
        self.close()
        return rest


def grows(*exchanges, words="edit --journal mine.xw", begun=FIRST):
    """Sends lines, and checks after each answer what has come to the journal before it; then kills the program, and resumes."""

    def step(room, program):
        session, kept = Session(room, program, words), begun
        for line, answer, more in exchanges:
            session.ask(line, answer)
            kept += more
            compare(f"journal after {line}", (room / "mine.xw").read_bytes(), kept)
        session.kill()
        compare("journal after the kill", (room / "mine.xw").read_bytes(), kept)

    return step


def has_no_room(limit, words, typed=b"", output=b"", errors=b"xw: mine.xw: cannot write\n", status=FAILED, is_signalled=False):
    """Runs the program with a limit to the length of files, whose signal is ignored or not."""

    def set_limit():
        resource.setrlimit(resource.RLIMIT_FSIZE, (limit, limit))

    def step(room, program):
        ended = end(
            room, program, words, input=typed, stdout=subprocess.PIPE, preexec_fn=set_limit, restore_signals=is_signalled
        )
        compare("output, messages and status", (ended.stdout, ended.stderr, ended.returncode), (output, errors, status))

    return step


def is_locked(how):
    """Runs the program while this one has the journal locked."""

    def step(room, program):
        with open(room / "mine.xw", "rb") as file:
            fcntl.flock(file, how)
            run("edit --journal mine.xw", b"show\n", errors=b"xw: mine.xw: in use\n", status=FAILED)(room, program)

    return step


def is_locked_by_another(*typed):
    """A second program is refused, and the first goes on. `typed` is what the first gets before."""

    def step(room, program):
        session = Session(room, program)
        for line in [*typed, b"title"]:
            session.ask(line, b"ok\n")
        before = (room / "mine.xw").read_bytes()
        for words in ("edit --journal mine.xw", "edit --journal ./mine.xw --save mine.new", "edit --journal mine.link"):
            name = words.split()[2]
            run(words, b"size 9 9\n", errors=f"xw: {name}: in use\n".encode(), status=FAILED)(room, program)
        compare("journal", (room / "mine.xw").read_bytes(), before)
        session.ask(b"set 1 1 A", b"ok\n")
        compare("journal", (room / "mine.xw").read_bytes(), before + b"set 1 1 A\n")
        compare("end", session.end(), (b"", b"", ACCEPTED))

    return step


def pipe(name):
    return lambda room, program: os.mkfifo(room / name)


def cannot_write(name):
    """No session begins with this journal."""
    return run(f"edit --journal {name}", b"size 2 1\n", errors=f"xw: {name}: cannot write\n".encode(), status=FAILED)


def is_shared(words, name):
    errors = f"xw: {name}: the journal cannot be another file of the call\n".encode()
    return run(f"edit {words}", b"size 2 1\n", errors=errors, status=USAGE)


def rights_kept(room, program):
    """Checks journals and folders without write permission, unless the user may write everywhere."""
    has_every_right = os.access(room / "closed/shut.xw", os.W_OK)
    typed, output = b"set 1 2 B\n", b"ok\n"
    ended = record(b"set 1 1 A\n", b"set 1 2 B\n")
    if has_every_right:
        steps = [run(f"edit --journal closed/{name}", typed, output) for name in ("shut.xw", "open.xw", "new.xw")]
        steps += [holds("closed/shut.xw", ended), holds("closed/open.xw", ended)]
    else:
        steps = [
            cannot_write("closed/shut.xw"),
            holds("closed/shut.xw", KEPT),
            # Lines can be appended, but no new file can be made in the folder at the end.
            run("edit --journal closed/open.xw", typed, output, errors=b"xw: closed/open.xw: cannot write\n", status=FAILED),
            holds("closed/open.xw", KEPT + typed),
            # Nor one that begins with the first line.
            cannot_write("closed/plain.xw"),
            holds("closed/plain.xw", BEGUN),
            cannot_write("closed/new.xw"),
            absent("closed/new.xw"),
        ]
    for step in [*steps, set_mode("closed", 0o755)]:
        step(room, program)


def loses_its_journal(*changes, line=b"set 1 1 A", words="edit --journal mine.xw", kept=b"set 1 2 B\n"):
    """Changes what the name of the journal leads to. Then the program answers queries, and ends at the next line that is a change, before
    its answer, or if there is none at the end of its input. It never writes to another file of that name; what is there then is `kept`, or
    no file."""

    def step(room, program):
        session = Session(room, program, words)
        session.ask(b"size 2 1", b"ok\n")
        for change in changes:
            change(room, program)
        session.ask(b"show", b"- -\nok\n")
        if line:
            session.send(line)
        compare("end", session.end(), REPLACED)
        compare("mine.xw", (room / "mine.xw").read_bytes() if (room / "mine.xw").exists() else None, kept)

    return step


def append(name, data):
    def step(room, program):
        with open(room / name, "ab") as file:
            file.write(data)

    return step


def writes_messages_into_its_journal(room, program):
    """The message of the cut line comes into the journal: the shell's `2>>`."""
    with open(room / "mine.xw", "ab") as messages:
        streams = {"input": b"set 1 1 A\nset 1 2 B\n", "stdout": subprocess.PIPE, "stderr": messages, "timeout": SECONDS}
        ended = subprocess.run(["xw", "edit", "--journal", "mine.xw"], executable=program, cwd=room, env={}, **streams)
    compare("output and status", (ended.stdout, ended.returncode), (b"", FAILED))
    is_begun_by("mine.xw", FIRST + b"size 2 1\n" + CUT)(room, program)


def loses_by_a_search(room, program):
    """The letters of a search are a change, and a search that finds none is no change."""
    session = Session(room, program, "edit --journal mine.xw")
    session.ask(b"size 2 1", b"ok\n")
    session.ask(b"add AB", b"ok\n")
    remove("mine.xw")(room, program)
    session.ask(b"fill 0", b"limit\nok\n")
    session.send(b"fill 9")
    compare("end", session.end(), REPLACED)


def loses_a_folder(words, name):
    """The folder of the session to write goes while the session runs."""

    def step(room, program):
        session = Session(room, program, words)
        for line in BEGUN.splitlines():
            session.ask(line, b"ok\n")
        (room / name).rmdir()
        left = b"xw: inner/new.xw: not saved; the session is kept as new.xw~\n"
        compare("end", session.end(), (b"", left + b"xw: inner/new.xw: cannot write\n", FAILED))

    return step


def loses_its_journal_at_the_end(words):
    def step(room, program):
        session = Session(room, program, words)
        session.ask(b"show", b"A T\nok\n")
        remove("mine.xw")(room, program)
        compare("end", session.end(), REPLACED)

    return step


def is_begun_by(name, data):
    def step(room, program):
        found = (room / name).read_bytes()
        assert found.startswith(data), f"{name}: {found!r}"

    return step


def finds_its_journal_again(room, program):
    """The name of a journal may lead elsewhere between two changes."""
    session = Session(room, program)
    session.ask(b"size 2 1", b"ok\n")
    rename("mine.xw", "away.xw")(room, program)
    session.ask(b"show", b"- -\nok\n")
    rename("away.xw", "mine.xw")(room, program)
    session.ask(b"set 1 1 A", b"ok\n")
    compare("end", session.end(), (b"", b"", ACCEPTED))


def rename(name, to):
    return lambda room, program: (room / name).rename(room / to)


def stops(lines, *errors, status=FORMAT):
    """Checks that no input is read and no file is written."""
    return [
        write("mine.xw", lines),
        write("kept.txt", b"old"),
        run("edit --journal mine.xw --save new.xw --to kept.txt", b"show\n", errors=b"".join(errors), status=status),
        holds("mine.xw", lines),
        holds("kept.txt", b"old"),
        absent("new.xw"),
    ]


def stops_at_puzzles(*puzzles, made):
    """A puzzle file is no journal, nor is one that the program writes."""
    steps = [step for data in puzzles for step in [write("mine.xw", data), is_no_journal("mine.xw"), holds("mine.xw", data)]]
    return [*steps, run("edit --to a.puz", made, b"ok\n" * made.count(b"\n")), is_no_journal("a.puz")]


def is_no_journal(name):
    """Checks that the program does not take a file as its journal, and leaves it as it is."""

    def step(room, program):
        before = (room / name).read_bytes()
        run(f"edit --journal {name}", b"show\n", errors=f"xw: {name}: line 1: Command\n".encode(), status=FORMAT)(room, program)
        holds(name, before)(room, program)

    return step


A_B = record(b"set 1 1 A\n", b"set 1 2 B\n")
CUT = b"xw: mine.xw: an incomplete last command is ignored\n"

# The first lines of a journal that is longer than a small puzzle file, and lines that fill a grid.
LONG = FIRST + b"# " + b"a note " * 100 + b"\n"
FILLED = b"size 2 1\nplace 1 across AT\n"

# Room for a journal with the lines that fill a grid, and for its puzzle, but not for the record.
ROOM = 80

# What a fill of a square with AS, AT, SO and TO comes to in a journal.
SEARCHED = b"# xw begin\nset 1 1 A\nset 1 2 S\nset 2 1 T\nset 2 2 O\n# xw end\n"

REPLACED = b"", b"xw: mine.xw: replaced\n", FAILED

CASES = {
    "first_journal": [
        run("edit --journal mine.xw", BEGUN, b"ok\nok\n"),
        holds("mine.xw", record(b"set 1 1 A\n")),
        run("edit --journal mine.xw", b"show\nset 1 2 b\n", b"A -\nok\nok\n"),
        holds("mine.xw", A_B),
        # Nothing is changed, and nothing at all is typed.
        run("edit --journal mine.xw", b"show\n", b"A B\nok\n"),
        run("edit --journal mine.xw"),
        holds("mine.xw", A_B),
    ],
    "empty_journal": [write("mine.xw", b""), run("edit --journal mine.xw", BEGUN, b"ok\nok\n"), holds("mine.xw", record(b"set 1 1 A\n"))],
    # The first line comes with the opening, before any answer.
    "first_line": [
        grows((b"circles", b"ok\n", b"")),
        run("edit --journal mine.xw", b"circles\n", b"ok\n"),
        write("mine.xw", b""),
        grows((b"circles", b"ok\n", b"")),
        write("mine.xw", FIRST),
        grows((b"circles", b"ok\n", b""), (b"size 2 1", b"ok\n", b"size 2 1\n")),
        run("edit --journal mine.xw", b"show\n", b"- -\nok\n"),
    ],
    # Lines of commands without it are a journal too, which gets it when it is opened, by a new file with the same rights.
    "first_line_added": [
        write("mine.xw", b"# a note\n\n size 2  1\r\nset 1 1 a\n"),
        set_mode("mine.xw", 0o600),
        link("mine.link", "mine.xw"),
        grows((b"show", b"A -\nok\n", b""), begun=FIRST + b"# a note\n\n size 2  1\r\nset 1 1 a\n", words="edit --journal mine.link"),
        has_mode("mine.xw", 0o600),
        is_link("mine.link"),
        absent(".xw-0.new"),
        grows((b"set 1 2 B", b"ok\n", b"set 1 2 B\n"), begun=FIRST + b"# a note\n\n size 2  1\r\nset 1 1 a\n"),
        run("edit --journal mine.xw", b"show\n", b"A B\nok\n"),
        holds("mine.xw", A_B),
        has_mode("mine.xw", 0o600),
    ],
    "first_line_added, to no command": [write("mine.xw", b"\n \t\n"), grows((b"circles", b"ok\n", b""), begun=FIRST + b"\n \t\n")],
    # The end of a journal would lose the comments.
    "no_journal, comments alone": [
        *stops(b"\n# a note\n", b"xw: mine.xw: line 1: Command\n"),
        *stops(b" # a note\r\n\t# another\r\n", b"xw: mine.xw: line 1: Command\n"),
    ],
    # The new file is locked as well.
    "first_line_added, in use": [link("mine.link", "mine.xw"), write("mine.xw", b"size 2 1\n"), is_locked_by_another(), absent("mine.new")],
    "first_line_added, without room for it": [
        write("mine.xw", FILLED),
        has_no_room(len(FILLED) + 1, "edit --journal mine.xw --to new.puz"),
        holds("mine.xw", FILLED),
        absent("new.puz"),
        absent(".xw-0.new"),
    ],
    "first_line, without room for it": [
        has_no_room(len(FIRST) - 1, "edit --journal mine.xw"),
        run("edit --journal mine.xw", BEGUN, b"ok\nok\n"),
        holds("mine.xw", record(b"set 1 1 A\n")),
    ],
    "refused_lines_at_the_end": [
        run("edit --journal mine.xw", BEGUN + b"frob\n", b"ok\nok\nno Command\n", status=REFUSED),
        holds("mine.xw", record(b"set 1 1 A\n")),
    ],
    # The line of each change stands in the journal once its answer is read, as it was typed; queries and refused lines never do.
    "line_before_its_answer": [
        grows(
            (b"size 2 1", b"ok\n", b"size 2 1\n"),
            (b"# a note", b"", b""),
            (b"show", b"- -\nok\n", b""),
            (b" set 1  1 a", b"ok\n", b" set 1  1 a\n"),
            (b"set 9 9 A", b"no OutOfGrid\n", b""),
            (b"frob", b"no Command\n", b""),
            (b"add ab", b"ok\n", b"add ab\n"),
            (b"add AB", b"no Known\n", b""),
            (b"match ..", b"AB\nok\n", b""),
            (b"watch on", b"ok\n", b"watch on\n"),
            (b"strike AB", b"cell 1 1 -\ncell 1 2 -\nok\n", b"strike AB\n"),
            (b"add AB", b"cell 1 1 A\ncell 1 2 B\nok\n", b"add AB\n"),
            (b"title  Mine ", b"ok\n", b"title  Mine \n"),
            (b"circle 1 2", b"ok\n", b"circle 1 2\n"),
            (b"record", b"add AB\nsize 2 1\ncircle 1 2\nsym none\nset 1 1 A\ntext title Mine\ntext author \ntext copyright \ntext notes \nwatch on\nok\n", b""),
        ),
        run("edit --journal mine.xw", b"show\nmatch ..\ncircles\ntexts\n", b"A -\nok\nAB\nok\n1 2\nok\ntitle Mine\nok\n"),
        holds("mine.xw", FIRST + b"add AB\nsize 2 1\ncircle 1 2\nsym none\nset 1 1 A\ntext title Mine\ntext author \ntext copyright \ntext notes \nwatch on\n"),
    ],
    # A search is kept as the letters that it entered: neither a word list nor a search is needed to do it again.
    "letters_of_a_search": [
        write("words.txt", b"AB\n"),
        grows(
            (b"size 2 1", b"ok\n", b"size 2 1\n"),
            (b"fill 0", b"limit\nok\n", b""),
            (b"set 1 1 A", b"ok\n", b"set 1 1 A\n"),
            (b"fill 9", b"filled\nok\n", b"# xw begin\nset 1 2 B\n# xw end\n"),
            (b"fill 9", b"filled\nok\n", b""),
            (b"clear 1 2", b"ok\n", b"clear 1 2\n"),
            (b"autofill 9", b"filled\nok\n", b"# xw begin\nset 1 2 B\n# xw end\n"),
            (b"clear 1 2", b"ok\n", b"clear 1 2\n"),
            (b"best 9", b"filled\nleast 50\nbound 51\nok\n", b"# xw begin\nset 1 2 B\n# xw end\n"),
            (b"best 9", b"filled\nleast 100\nbound 101\nok\n", b""),
            (b"clear 1 2", b"ok\n", b"clear 1 2\n"),
            (b"best 0", b"limit\nbound 51\nok\n", b""),
            (b"place 1 across BB", b"ok\n", b"place 1 across BB\n"),
            (b"clear 1 2", b"ok\n", b"clear 1 2\n"),
            (b"fill 9", b"nofill\nok\n", b""),
            (b"autofill 9", b"nofill\nok\n", b""),
            (b"best 9", b"nofill\nok\n", b""),
            (b"place 1 across AB", b"ok\n", b"place 1 across AB\n"),
            words="edit --dict words.txt --journal mine.xw",
        ),
        run("edit --journal mine.xw", b"show\n", b"A B\nok\n"),
        holds("mine.xw", A_B),
    ],
    # The letters of a search stand together, in reading order; those that stood before are not among them.
    "letters_of_a_search, in reading order": [
        write("words.txt", b"AS\nAT\nSO\nTO\n"),
        grows(
            (b"size 2 2", b"ok\n", b"size 2 2\n"),
            (b"set 2 1 T", b"ok\n", b"set 2 1 T\n"),
            (b"fill 9", b"filled\nok\n", b"# xw begin\nset 1 1 A\nset 1 2 S\nset 2 2 O\n# xw end\n"),
            words="edit --dict words.txt --journal mine.xw",
        ),
        run("edit --journal mine.xw", b"show\n", b"A S\nT O\nok\n"),
    ],
    "line_before_its_answer, synced": [
        grows((b"size 2 1", b"ok\n", b"size 2 1\n"), (b"set 1 1 A", b"ok\n", b"set 1 1 A\n"), words="edit --journal mine.xw --sync"),
        run("edit --sync --journal=mine.xw", b"set 1 2 B\n", b"ok\n"),
        holds("mine.xw", A_B),
    ],
    "journal_begins_with_a_record": [
        write("mine.xw", record(b"set 1 1 A\n")),
        grows((b"set 1 2 B", b"ok\n", b"set 1 2 B\n"), begun=record(b"set 1 1 A\n")),
        run("edit --journal mine.xw", b"show\n", b"A B\nok\n"),
    ],
    # A last line without a line feed is dropped, a command or not.
    "cut_line_dropped": [
        write("mine.xw", KEPT + b"set 1 2 B"),
        run("edit --journal mine.xw", b"show\n", b"A -\nok\n", errors=CUT),
        holds("mine.xw", record(b"set 1 1 A\n")),
    ],
    "cut_line_dropped, no command": [
        write("mine.xw", KEPT + b"set 1 2 "),
        run("edit --journal mine.xw", b"show\n", b"A -\nok\n", errors=CUT),
        holds("mine.xw", record(b"set 1 1 A\n")),
    ],
    "cut_line_dropped, no other": [
        write("mine.xw", FIRST + b"siz"),
        run("edit --journal mine.xw", BEGUN, b"ok\nok\n", errors=CUT),
        holds("mine.xw", record(b"set 1 1 A\n")),
    ],
    "cut_line_dropped, new lines after the whole ones": [write("mine.xw", KEPT + b"set 1 2 "), grows((b"set 1 2 C", b"ok\n", b"set 1 2 C\n"), begun=KEPT)],
    # The lines are done as those of --resume.
    "lines_refused": [
        write("mine.xw", FIRST + b"size 2 1\nset 9 9 A\n\n# a note\nset 1 1 7\nset 1 1 A\nset"),
        run(
            "edit --journal mine.xw",
            b"show\n",
            b"A -\nok\n",
            errors=b"xw: mine.xw: line 3: OutOfGrid\nxw: mine.xw: line 6: BadLetter\n" + CUT,
            status=REFUSED,
        ),
        holds("mine.xw", FIRST + b"size 2 1\nset 9 9 A\n\n# a note\nset 1 1 7\nset 1 1 A\n"),
    ],
    "no_command, Command": stops(b"size 2 1\nfrob\nset 1 1 A\n", b"xw: mine.xw: line 2: Command\n"),
    "no_command, Arguments": stops(b"size 2 1\nset\n", b"xw: mine.xw: line 2: Arguments\n"),
    "no_command, Escape": stops(b"text title \\x\n", b"xw: mine.xw: line 1: Escape\n"),
    "no_command, after a refused line": stops(b"set 9 9 A\nset 99 9 A\nadd\n", b"xw: mine.xw: line 2: OutOfGrid\n", b"xw: mine.xw: line 3: Arguments\n"),
    "no_command, before a cut line": stops(FIRST + b"frob\nset 1 1", b"xw: mine.xw: line 2: Command\n"),
    "no_command, a line that is too long": stops(b"title " + b"T" * 4091 + b"\n", b"xw: mine.xw: line 1: LineTooLong\n"),
    # Files that are no journals, such as a puzzle: not a byte of them changes.
    "no_journal, a puzzle": stops_at_puzzles(PLAIN, STARTED, ALL_TEXTS, made=b"size 2 1\nplace 1 across AT\n"),
    "no_journal, a puzzle as text": [*stops(TEXT, b"xw: mine.xw: line 1: Command\n"), *stops(TEXT[:-1], b"xw: mine.xw: line 1: Command\n")],
    "no_journal, a word list": [*stops(b"cat\ncot\n", b"xw: mine.xw: line 1: Command\n"), *stops(b"cat\ncot", b"xw: mine.xw: line 1: Command\n")],
    # Lines of commands of which the last one is cut, in a file that does not begin with the first line.
    "no_journal, Cut": [
        *stops(b"size 2 1", b"xw: mine.xw: line 1: Cut\n"),
        *stops(BEGUN + b"set 1 2 B", b"xw: mine.xw: line 3: Cut\n"),
        *stops(b"\n# a note\n" + BEGUN + b"title", b"xw: mine.xw: line 5: Cut\n"),
        *stops(BEGUN + b"# a note", b"xw: mine.xw: line 3: Cut\n"),
        # The first line stands elsewhere, or is another one.
        *stops(b"\n" + KEPT + b"title", b"xw: mine.xw: line 5: Cut\n"),
        *stops(b"# xw session 2\n" + BEGUN + b"title", b"xw: mine.xw: line 4: Cut\n"),
        *stops(b"# xw session 10\ntitle", b"xw: mine.xw: line 2: Cut\n"),
        *stops(b"# xw session 11", b"xw: mine.xw: line 1: Cut\n"),
        *stops(b"# another note", b"xw: mine.xw: line 1: Cut\n"),
    ],
    # Another program that has the file locked, in whatever way.
    "in_use": [
        write("mine.xw", KEPT),
        is_locked(fcntl.LOCK_EX),
        is_locked(fcntl.LOCK_SH),
        holds("mine.xw", KEPT),
        # Neither the first line is written, nor a cut line dropped.
        *(step for data in (b"", BEGUN, KEPT + b"set") for step in (write("mine.xw", data), is_locked(fcntl.LOCK_EX), holds("mine.xw", data))),
    ],
    "in_use, by another session": [
        link("mine.link", "mine.xw"),
        is_locked_by_another(b"size 2 1"),
        absent("mine.new"),
        holds("mine.xw", record(b"set 1 1 A\n")),
        is_link("mine.link"),
    ],
    "in_use no longer, after a kill": [grows((b"size 2 1", b"ok\n", b"size 2 1\n")), run("edit --journal mine.xw", b"show\n", b"- -\nok\n")],
    # A journal whose name leads to no file any more, or to another one. What was answered stands in the file that it had.
    "replaced, by nothing": [
        loses_its_journal(rename("mine.xw", "away.xw"), kept=None),
        is_begun_by("away.xw", FIRST + b"size 2 1\n"),
        loses_its_journal(remove("mine.xw"), kept=None),
        loses_its_journal(remove("mine.xw"), line=b"", kept=None),
        loses_its_journal(remove("mine.xw"), words="edit --journal mine.xw --sync", kept=None),
    ],
    "replaced, by another file": [
        loses_its_journal(rename("mine.xw", "away.xw"), write("mine.xw", b"set 1 2 B\n")),
        is_begun_by("away.xw", FIRST + b"size 2 1\n"),
        remove("mine.xw"),
        loses_its_journal(write("other.xw", b"set 1 2 B\n"), rename("other.xw", "mine.xw")),
        remove("mine.xw"),
        loses_its_journal(write("other.xw", b"set 1 2 B\n"), rename("other.xw", "mine.xw"), line=b""),
        absent(".xw-0.new"),
    ],
    "replaced, by a search": [loses_by_a_search],
    "replaced, through a link": [
        write("one.xw", b""),
        write("two.xw", b"set 1 2 B\n"),
        link("mine.xw", "one.xw"),
        loses_its_journal(remove("mine.xw"), link("mine.xw", "two.xw")),
        is_begun_by("one.xw", FIRST + b"size 2 1\n"),
        holds("two.xw", b"set 1 2 B\n"),
    ],
    # The other files: the session is saved, and no puzzle is written.
    "replaced, with other files": [
        write("mine.xw", FIRST + FILLED),
        write("kept.puz", b"old"),
        loses_its_journal_at_the_end("edit --journal mine.xw --save new.xw --to kept.puz"),
        holds("new.xw", record(b"set 1 1 A\n", b"set 1 2 T\n")),
        holds("kept.puz", b"old"),
    ],
    # Another program that writes into the journal itself is noticed by its length, and what it left stays.
    "replaced, by an empty one in place": [loses_its_journal(write("mine.xw", b""), kept=b"")],
    "replaced, by an empty one in place, at the end": [loses_its_journal(write("mine.xw", b""), line=None, kept=b"")],
    "replaced, by a longer one in place": [loses_its_journal(append("mine.xw", b"# a note\n"), kept=FIRST + b"size 2 1\n# a note\n")],
    "replaced, by a longer one in place, at the end": [
        loses_its_journal(append("mine.xw", b"set 1 2 B\n"), line=None, kept=FIRST + b"size 2 1\nset 1 2 B\n")
    ],
    "replaced, by a message": [write("mine.xw", FIRST + b"size 2 1\nset"), writes_messages_into_its_journal],
    "replaced, and there again": [finds_its_journal_again, holds("mine.xw", record(b"set 1 1 A\n"))],
    # A byte order mark before the first line is dropped.
    "begun_behind_a_byte_order_mark": [write("mine.xw", b"\xef\xbb\xbf" + KEPT), grows((b"set 1 2 T", b"ok\n", b"set 1 2 T\n"), begun=KEPT)],
    # Anything but a regular file is refused, and a pipe is not waited for.
    "no_file, a folder": [folder("mine.xw"), cannot_write("mine.xw"), is_no_file("mine.xw")],
    "no_file, a pipe": [pipe("mine.xw"), cannot_write("mine.xw"), is_no_file("mine.xw")],
    "no_file, a device": [cannot_write("/dev/null"), cannot_write("/dev/full")],
    "no_file, in no folder": [cannot_write("no/such/mine.xw")],
    "links_followed": [
        link("one.xw", "mine.xw"),
        run("edit --journal one.xw", BEGUN, b"ok\nok\n"),
        holds("mine.xw", record(b"set 1 1 A\n")),
        is_link("one.xw"),
        link("ring", "ring"),
        cannot_write("ring"),
        is_link("ring"),
    ],
    "rights_kept": [
        folder("closed"),
        write("closed/shut.xw", KEPT),
        write("closed/open.xw", KEPT),
        write("closed/plain.xw", BEGUN),
        set_mode("closed/shut.xw", 0o444),
        set_mode("closed", 0o555),
        rights_kept,
    ],
    # A write that fails ends the run before its answer does, and what it wrote is taken back. No puzzle is written, though there is room for it.
    "no_room": [
        write("mine.xw", LONG + FILLED),
        has_no_room(len(LONG + FILLED) + 1, "edit --journal mine.xw --to new.puz", b"show\nset 1 2 B\nset 1 2 C\n", b"A T\nok\n"),
        absent("new.puz"),
        holds("mine.xw", LONG + FILLED),
        run("edit --journal mine.xw --to new.puz", b"show\n", b"A T\nok\n"),
        exists("new.puz"),
    ],
    "no_room, after lines that had room": [
        has_no_room(len(KEPT) + 1, "edit --journal mine.xw --sync", BEGUN + b"set 1 2 B\n", b"ok\nok\n"),
        holds("mine.xw", KEPT),
        run("edit --journal mine.xw", b"show\n", b"A -\nok\n"),
    ],
    # Of a search, too: it is undone whole.
    "no_room, for a search": [
        write("words.txt", b"AS\nAT\nSO\nTO\n"),
        *(
            step
            for room in range(1, len(SEARCHED))
            for step in (
                write("mine.xw", FIRST + b"size 2 2\n"),
                has_no_room(
                    len(FIRST + b"size 2 2\n") + room,
                    "edit --dict words.txt --journal mine.xw",
                    b"fill 9\nshow\n",
                    errors=b"xw: words.txt: 4 added, 0 skipped\nxw: mine.xw: cannot write\n",
                ),
                holds("mine.xw", FIRST + b"size 2 2\n"),
            )
        ),
        run("edit --journal mine.xw", b"show\n", b"- -\n- -\nok\n"),
    ],
    # The signal of the limit is a kill: what it let through is a cut line.
    "no_room, with a signal": [
        has_no_room(len(KEPT) + 1, "edit --journal mine.xw", BEGUN + b"set 1 2 B\n", b"ok\nok\n", b"", -signal.SIGXFSZ, True),
        holds("mine.xw", KEPT + b"s"),
        run("edit --journal mine.xw", b"show\n", b"A -\nok\n", errors=CUT),
    ],
    # Or a search of which some letters are there, and which is dropped whole.
    "no_room, with a signal, for a search": [
        write("words.txt", b"AS\nAT\nSO\nTO\n"),
        has_no_room(
            len(FIRST + b"size 2 2\n") + 35,
            "edit --dict words.txt --journal mine.xw",
            b"size 2 2\nfill 9\n",
            b"ok\n",
            b"xw: words.txt: 4 added, 0 skipped\n",
            -signal.SIGXFSZ,
            True,
        ),
        holds("mine.xw", FIRST + b"size 2 2\n" + SEARCHED[:35]),
        run("edit --journal mine.xw", b"show\n", b"- -\n- -\nok\n", errors=CUT),
        holds("mine.xw", record().replace(b"size 2 1", b"size 2 2")),
    ],
    # A journal that cannot be replaced at the end keeps its lines, and no puzzle is written, though there is room for it.
    "no_room_at_the_end": [
        has_no_room(ROOM, "edit --journal mine.xw --to new.puz", FILLED, b"ok\nok\n"),
        absent("new.puz"),
        absent(".xw-0.new"),
        holds("mine.xw", FIRST + FILLED),
        has_no_room(ROOM, "edit --resume mine.xw --to new.puz", errors=b"", status=ACCEPTED),
        exists("new.puz"),
        run("edit --journal mine.xw", b"show\n", b"A T\nok\n"),
        holds("mine.xw", record(b"set 1 1 A\n", b"set 1 2 T\n")),
    ],
    # A run that does not come to the end of its input leaves the journal as it is.
    "input_fault": [
        write("mine.xw", LONG + FILLED),
        write("kept.puz", b"old"),
        *(
            step
            for name in ("kept.puz", "new.puz")
            for step in (
                fails(f"edit --journal mine.xw --save new.xw --to {name}", "input fault", can_be_read=False),
                holds("mine.xw", LONG + FILLED),
                holds("new.xw", record(b"set 1 1 A\n", b"set 1 2 T\n")),
                remove("new.xw"),
            )
        ),
        holds("kept.puz", b"old"),
        absent("new.puz"),
    ],
    "output_fault": [
        write("mine.xw", LONG + FILLED),
        write("kept.puz", b"old"),
        fails("edit --journal mine.xw --save new.xw --to kept.puz", "output fault", b"set 1 2 S\nset 1 2 M\n"),
        holds("mine.xw", LONG + FILLED + b"set 1 2 S\n"),
        holds("new.xw", record(b"set 1 1 A\n", b"set 1 2 S\n")),
        holds("kept.puz", b"old"),
        fails("edit --journal mine.xw --to new.puz", "output fault", b"set 1 2 N\nset 1 2 M\n"),
        holds("mine.xw", LONG + FILLED + b"set 1 2 S\nset 1 2 N\n"),
        absent("new.puz"),
    ],
    # The other files are written as without a journal.
    "other_files": [
        run("edit --journal mine.xw --save new.xw --to new.txt", BEGUN + b"set 1 2 B\nclue 1 across It purrs\n", b"ok\nok\nok\nok\n"),
        holds("mine.xw", A_B.replace(b"watch", b"text clue 1 1 across It purrs\nwatch")),
        holds("new.xw", A_B.replace(b"watch", b"text clue 1 1 across It purrs\nwatch")),
        holds("new.txt", b"<ACROSS PUZZLE>\n<TITLE>\n\t\n<AUTHOR>\n\t\n<COPYRIGHT>\n\t\n<SIZE>\n\t2x1\n<GRID>\n\tAB\n<ACROSS>\n\tIt purrs\n<DOWN>\n"),
    ],
    "other_files, a puzzle that is not written": [
        run("edit --journal mine.xw --to new.puz", BEGUN, b"ok\nok\n", errors=b"xw: new.puz: NotFilled\n", status=FORMAT),
        holds("mine.xw", record(b"set 1 1 A\n")),
        absent("new.puz"),
    ],
    "other_files, a session that is not saved": [
        run("edit --journal mine.xw --save no/such/folder.xw", BEGUN, errors=b"xw: no/such/folder.xw: cannot write\n", status=FAILED),
        absent("mine.xw"),
        # If this shows at the end only, the journal stays as it is.
        folder("inner"),
        loses_a_folder("edit --journal mine.xw --save inner/new.xw", "inner"),
        holds("mine.xw", KEPT),
    ],
    # A word list that cannot be read ends the run before the journal is made.
    "other_files, a word list that is not there": [
        run("edit --dict gone.txt --journal mine.xw", BEGUN, errors=b"xw: gone.txt: cannot read\n", status=FAILED),
        absent("mine.xw"),
    ],
    # The journal is no other file of the call, by whatever path.
    "kept_apart": [
        write("mine.xw", BEGUN),
        link("mine.link", "mine.xw"),
        is_shared("--journal mine.xw --dict mine.xw", "mine.xw"),
        is_shared("--journal ./mine.xw --dict mine.xw", "./mine.xw"),
        is_shared("--journal mine.link --to mine.xw", "mine.link"),
        is_shared("--journal mine.xw --to ./mine.xw", "mine.xw"),
        is_shared("--journal mine.xw --save mine.link", "mine.xw"),
        is_shared("--sync --save there.xw --journal there.xw", "there.xw"),
        absent("there.xw"),
        holds("mine.xw", BEGUN),
    ],
    "wrong_calls": [
        write("mine.xw", BEGUN),
        write("plain", PLAIN),
        *(
            run(words, BEGUN, errors=b"xw: --journal cannot be given with --from or --resume\n", status=USAGE)
            for words in ("edit --journal new.xw --resume mine.xw", "edit --from plain --journal new.xw", "edit --sync --resume mine.xw --journal new.xw")
        ),
        *(run(words, BEGUN, errors=b"xw: --sync needs --journal\n", status=USAGE) for words in ("edit --sync", "edit --resume mine.xw --sync", "edit --from plain --sync")),
        run("edit --journal new.xw --resume mine.xw --from plain", errors=b"xw: --from and --resume cannot be given together\n", status=USAGE),
        absent("new.xw"),
    ],
}
