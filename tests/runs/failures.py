"""Calls of the system that fail, each in turn: a file is replaced whole or stays as it was, no answered command is lost, and what was not
done is reported."""
import errno
import pathlib
import re

from cases import dialogues, exchange
from failing import ALL, INPUT, OUTPUT, Failing, each_failing
from samples import PLAIN, TEXT
from steps import ACCEPTED, FAILED, FIRST, REFUSED, compare, link, write

from runs.journals import CUT, record

# Calls on files whose failure is reported, but for those on the folder, which not every file system can bring to the device. The failure of
# another call may be: without a lock, a file is replaced all the same.
REPORTED = "read readlink open-to-write create write ftruncate fsync fdatasync fchmod rename".split()
ON_THE_FOLDER = ("open .", "fsync .")

NEW_FILE = ".xw-0.new"


def is_reported(call):
    return call.split()[0] in REPORTED and call not in ON_THE_FOLDER


def is_statx(call):
    return call.startswith("statx ")


def holds_now(room, name):
    path = room / name
    return path.read_bytes() if path.exists() else None


def put_back(room, files):
    for name, data in files.items():
        (room / name).unlink(missing_ok=True)
        if data is not None:
            (room / name).write_bytes(data)


def has_ended(ended, messages):
    """Checks that a run was accepted without a message, or failed with one of these; it failed if a call failed whose failure is reported."""
    found = ended.status, ended.errors
    assert found in [(ACCEPTED, b""), *((FAILED, told) for told in messages)], f"{ended.what}: {found}"
    if any(map(is_reported, ended.failed)):
        compare(f"status of {ended.what}", ended.status, FAILED)
    if all(call in ON_THE_FOLDER for call in ended.failed):
        compare(f"status of {ended.what}", ended.status, ACCEPTED)


def is_swept(room, ended):
    """Checks that no new file is left under its first name, unless the call to remove it failed."""
    if (room / NEW_FILE).exists():
        assert f"unlink {NEW_FILE}" in ended.failed, f"{ended.what}: {NEW_FILE} is left"
        (room / NEW_FILE).unlink()


def message(name, fault):
    return f"xw: {name}: {fault}\n".encode()


def replaces(words, name, new, old, typed=b"", read=(), links=()):
    """Replaces a file while calls fail, and checks that it is whole or as it was. `read` are the files that are read before, and `links`
    are those that stay links."""
    told = links[0] if links else name
    messages = [message(told, "cannot write"), *(message(it, "cannot read") for it in read)]

    def step(room, program):
        def run(first, last):
            put_back(room, {name: old})
            return Failing(room, program, words, typed, first=first, last=last, piece=30)

        for ended in each_failing(run):
            has_ended(ended, messages)
            compare(f"{name} after {ended.what}", holds_now(room, name), new if ended.status == ACCEPTED else old)
            compare(f"links after {ended.what}", [it for it in links if (room / it).is_symlink()], list(links))
            is_swept(room, ended)

    return step


# A session with a line that is refused, so that saving it into its own file keeps the old one beside it.
MINE = FIRST + b"size 2 1\nset 9 9 A\n"
REFUSED_LINE = b"xw: mine.xw: line 3: OutOfGrid\n"
KEPT_BESIDE = b"xw: mine.xw: refused lines; the old file is kept as mine.xw~\n"


def is_left(room, ended, name, session):
    """Checks the file in which a session is left that is not saved, if the messages name one, and takes both away. Returns whether there
    was one."""
    found = re.search(rf"xw: {name}: not saved; the session is kept as (.*)\n".encode(), ended.errors)
    if found:
        path = room / found[1].decode()
        compare(f"{path} after {ended.what}", path.read_bytes(), session)
        path.unlink()
        ended.errors = ended.errors.replace(found[0], b"")
    return found is not None


def leaves_none(step):
    """Takes away the files that a step leaves in /tmp. Where the call fails that removes a new file there, it stays."""

    def stepped(room, program):
        before = {*pathlib.Path("/tmp").glob("mine.xw~*")}
        try:
            step(room, program)
        finally:
            for path in {*pathlib.Path("/tmp").glob("mine.xw~*")} - before:
                path.unlink()

    return stepped


UNREAD_KEPT = b"xw: mine.xw: the old file is kept as mine.xw~\n"


@leaves_none
def keeps_a_file_that_is_not_read(room, program):
    """Saves a session over a file that the call did not read while calls fail: what the file has is never gone, nor is the session if one
    call fails alone."""

    def run(first, last):
        put_back(room, {"mine.xw": OLD, "mine.xw~": None, "mine.xw~2": None})
        return Failing(room, program, "edit --save mine.xw", b"size 2 1\n", first=first, last=last, piece=30)

    for ended in each_failing(run):
        was_left = is_left(room, ended, "mine.xw", record())
        is_saved = ended.status == ACCEPTED
        compare(f"mine.xw after {ended.what}", holds_now(room, "mine.xw"), record() if is_saved else OLD)
        beside = holds_now(room, "mine.xw~")
        unkept = (None, b"") if "unlink mine.xw~" in ended.failed else (None,)
        assert beside == OLD or (beside in unkept and not is_saved), f"mine.xw~ after {ended.what}: {beside}"
        unsaved = [message("mine.xw", "cannot read"), message("mine.xw", "cannot write"), message("mine.xw~", "cannot write")]
        unsaved.append(UNREAD_KEPT + unsaved[1])
        assert ended.errors == UNREAD_KEPT if is_saved else ended.errors in unsaved, f"{ended.what}: {ended.errors}"
        assert is_saved or was_left or len(ended.failed) > 1 or not ended.output, f"{ended.what}: the session is lost"
        is_swept(room, ended)


def keeps_the_old_file(old):
    """Saves a session into its own file while calls fail: the old lines are never gone."""

    @leaves_none
    def step(room, program):
        def run(first, last):
            put_back(room, {"mine.xw": MINE, "mine.xw~": old, "mine.xw~2": None, "mine.xw~3": None})
            return Failing(room, program, "edit --resume mine.xw --save mine.xw", first=first, last=last)

        for ended in each_failing(run):
            is_left(room, ended, "mine.xw", record())
            is_saved = ended.status == REFUSED
            compare(f"mine.xw after {ended.what}", holds_now(room, "mine.xw"), record() if is_saved else MINE)
            beside = holds_now(room, "mine.xw~")
            kept, name = (beside, "mine.xw~") if old is None else (holds_now(room, "mine.xw~2"), "mine.xw~2")
            assert old is None or beside == old, f"mine.xw~ after {ended.what}: {beside}"
            # Where the call that removes it failed, it may be left without its bytes.
            unkept = (None, b"") if f"unlink {name}" in ended.failed else (None,)
            assert kept == MINE or (kept in unkept and not is_saved), f"{name} after {ended.what}: {kept}"
            told = KEPT_BESIDE if old is None else KEPT_BESIDE.replace(b"mine.xw~", b"mine.xw~2")
            unread, *unwritten = message("mine.xw", "cannot read"), message("mine.xw", "cannot write"), message("mine.xw~", "cannot write")
            # The message has the name that was tried when the call failed.
            unwritten += [message("mine.xw~2", "cannot write")] if old is not None else []
            # Where the call fails that tells which file is read, the one that is replaced counts as another.
            kept_told = [told, told.replace(b"refused lines; ", b"")] if any(map(is_statx, ended.failed)) else [told]
            unsaved = [unread, unwritten[0], *(REFUSED_LINE + why for why in (unread, *unwritten, *(it + unwritten[0] for it in kept_told)))]
            saved = [REFUSED_LINE + it for it in kept_told]
            assert ended.errors in (saved if is_saved else unsaved), f"{ended.what}: {ended.errors}"
            is_swept(room, ended)

    return step


# Lines of a session, each with its answer, and with the text that a journal has of it.
BEGINNING = [(b"size 2 1\n", b"ok\n", b"size 2 1\n"), (b"set 1 1 A\n", b"ok\n", b"set 1 1 A\n")]
MORE = [
    (b"add AB\n", b"ok\n", b"add AB\n"),
    (b"show\n", b"A -\nok\n", b""),
    (b"fill 9\n", b"filled\nok\n", b"# xw begin\nset 1 2 B\n# xw end\n"),
    (b"title One\n", b"ok\n", b"title One\n"),
]
RECORD = record(b"set 1 1 A\n", b"set 1 2 B\n", words=b"add AB\n", title=b"One")
BEGUN = b"size 2 1\nset 1 1 A\n"


class Journaling:
    """Runs with a journal in which calls fail. The journal has these bytes before, and begins with `kept`."""

    def __init__(self, old, kept, lines, option, piece=0):
        self.old, self.kept, self.lines, self.piece = old, kept, lines, piece
        self.words = "edit --journal mine.xw" + option

    def __call__(self, room, program):
        def run(first, last):
            put_back(room, {"mine.xw": self.old})
            return Failing(room, program, self.words, b"".join(line for line, _, _ in self.lines), first=first, last=last, piece=self.piece)

        for ended in each_failing(run):
            ended.errors = ended.errors.removeprefix(CUT)
            has_ended(ended, [message("mine.xw", "cannot read"), message("mine.xw", "cannot write")])
            self.is_kept(ended, holds_now(room, "mine.xw"))
            is_swept(room, ended)

    def answered(self, ended):
        """How many lines were answered, each in whole."""
        answers = [b"".join(answer for _, answer, _ in self.lines[:count]) for count in range(len(self.lines) + 1)]
        assert ended.output in answers, f"{ended.what}: output {ended.output}"
        return answers.index(ended.output)

    def is_kept(self, ended, data):
        """Checks that the journal has what was answered, and nothing else; a part of the next text only if the call that cuts it off failed."""
        count = self.answered(ended)
        texts = [text for _, _, text in self.lines]
        whole = self.kept + b"".join(texts[:count])
        rest = b"".join(texts[count : count + 2]) if is_not_cut(ended) else b""
        wanted = [whole + rest[:length] for length in range(len(rest) + 1)]
        if count == 0:
            wanted += self.unbegun(ended)
        if ended.status == ACCEPTED:
            compare(f"number of answers after {ended.what}", count, len(self.lines))
            wanted = [RECORD]
        assert data in wanted, f"mine.xw after {ended.what}, with {count} answers: {data}"

    def unbegun(self, ended):
        """What a journal may have that did not begin. One without a whole first line has no command to lose."""
        if self.old and not FIRST.startswith(self.old):
            return [self.old]
        return [self.old, *(FIRST[:length] for length in range(len(FIRST) if is_not_cut(ended) else 1))]


def is_not_cut(ended):
    return any(call.startswith("ftruncate") for call in ended.failed)


def brings_lines(option, *each):
    """Checks that each change is one write to the journal before its answer, and that it is brought to the device then, and only then, if
    that is asked for."""

    def step(room, program):
        lines = b"size 2 1\n", b"set 1 1 A\n", b"title One\n"
        ended = Failing(room, program, "edit --journal mine.xw" + option, b"".join(lines))
        begin, end = ended.calls.index("read input"), len(ended.calls) - ended.calls[::-1].index("read input") - 1
        compare("calls", [call for call in ended.calls[begin + 1 : end] if not call.startswith("statx")], [*each] * len(lines))
        synced = [call for call in ended.calls if call.startswith("fdatasync")]
        assert option or not synced, synced

    return step


THREE_WORDS = b"add CAT\nadd COT\n\nmatch C.T\nadd CAT"
ANSWERS = b"ok\nok\nCAT\nCOT\nok\nno Known\n"


def breaks_off(typed, fault, output, saved, **how):
    """A session whose input or output fails: what was answered until then, and which words it has."""

    def step(room, program):
        # a file that a call does not read is kept
        (room / "new.xw").unlink(missing_ok=True)
        ended = Failing(room, program, "edit --save new.xw", typed, **how)
        ended.ends(FAILED, output, f"xw: {fault}\n".encode())
        words = [line[4:].decode() for line in holds_now(room, "new.xw").splitlines() if line.startswith(b"add ")]
        compare(f"words after {ended.what}", words, saved.split())

    return step


def comes_in_pieces(piece):
    return lambda room, program: Failing(room, program, "edit", THREE_WORDS, piece=piece).ends(REFUSED, ANSWERS, b"")


# How many reads of four bytes there are before one fails, how many bytes are answered, and the words that there are then.
READS = [(0, 0, ""), (1, 0, ""), (2, 3, "CAT"), (3, 3, "CAT"), (4, 6, "CAT COT"), (5, 6, "CAT COT"), (6, 6, "CAT COT"), (7, 17, "CAT COT"), (8, 17, "CAT COT"), (9, 17, "CAT COT")]

SQUARES = [
    "square_of_as_at_so_to_in",
    "square_with_one_entry",
    "square_emptied_and_restored",
    "square_filled_within_a_limit",
    "square_with_only_repeats_left",
]


def is_broken_off(name):
    """Lets the input and the output of a script fail at each of their calls: the answers are whole up to there."""
    typed, output = exchange(dialogues("sessions/square")[name])
    answers = [b""]
    for line in output.splitlines(keepends=True):
        answers[-1] += line
        if line == b"ok\n":
            answers.append(b"")

    def step(room, program):
        for kind, fault in ((INPUT, "input"), (OUTPUT, "output")):
            *broken, whole = each_failing(lambda first, last: Failing(room, program, "edit", typed, kind, first, last, piece=0 if kind == OUTPUT else 16))
            whole.ends(ACCEPTED, output, b"")
            assert len([ended for ended in broken if ended.failed]) > len(typed) // 16, f"{name}: {len(broken)} runs"
            for ended in broken:
                if ended.failed:
                    ended.ends(FAILED, ended.output, f"xw: {fault} fault\n".encode())
                    sent = typed[: 16 * (ended.calls.count("read input"))] if kind == INPUT else typed
                    count = sent.count(b"\n") if kind == INPUT else ended.calls.count("write output")
                    compare(f"answers after {ended.what}", ended.output, b"".join(answers[:count]))

    return step


# The record of a session that begins with the plain puzzle.
FROM_TEXT = (
    FIRST + b"size 2 2\nsym none\nset 1 1 A\nset 1 2 T\nset 2 1 S\nset 2 2 O\ntext title \ntext author \ntext copyright \ntext notes \n"
    b"text clue 1 1 across a\ntext clue 2 1 across d\ntext clue 1 1 down b\ntext clue 1 2 down c\nwatch off\n"
)


def ends_with_output(words, status, errors, files, **how):
    """A call whose output takes some bytes and then fails; the files that it leaves."""

    def step(room, program):
        put_back(room, {"in.txt": TEXT, "out.puz": None, "s.xw": None})
        ended = Failing(room, program, words, b"show\n", OUTPUT, **how)
        compare(f"status and messages of {ended.what}", (ended.status, ended.errors), (status, errors))
        compare(f"files after {ended.what}", {name: holds_now(room, name) for name in ("out.puz", "s.xw")}, {"out.puz": None, "s.xw": None, **files})

    return step


EDIT = "edit --from in.txt --to out.puz --save s.xw"
SAVED = {"s.xw": FROM_TEXT}
OLD = b"what stood there"

CASES = {
    "file_replaced, an old one": [write("plain.txt", TEXT), replaces("convert plain.txt out.puz", "out.puz", PLAIN, OLD, read=["plain.txt"])],
    "file_replaced, none": [write("plain.txt", TEXT), replaces("convert plain.txt out.puz", "out.puz", PLAIN, None, read=["plain.txt"])],
    "file_replaced, through links": [
        write("plain.txt", TEXT),
        link("one.puz", "two.puz"),
        link("two.puz", "real.puz"),
        *(replaces("convert plain.txt one.puz", "real.puz", PLAIN, old, read=["plain.txt"], links=["one.puz", "two.puz"]) for old in (OLD, None)),
    ],
    "file_replaced, by a session": [keeps_a_file_that_is_not_read],
    "old_file_kept_beside": [keeps_the_old_file(None), keeps_the_old_file(OLD)],
    "line_not_lost, of a new journal": [Journaling(None, FIRST, BEGINNING + MORE, " --sync")],
    "line_not_lost, of an empty journal": [Journaling(b"", FIRST, BEGINNING + MORE, "", piece=12)],
    "line_not_lost, after a cut first line": [Journaling(FIRST[:7], FIRST, BEGINNING + MORE, "")],
    "line_not_lost, of a journal": [Journaling(FIRST + BEGUN, FIRST + BEGUN, MORE, " --sync", piece=12)],
    "line_not_lost, after a cut line": [Journaling(FIRST + BEGUN + b"set 1 2", FIRST + BEGUN, MORE, "")],
    "line_not_lost, of lines without the first one": [Journaling(BEGUN, FIRST + BEGUN, MORE, "")],
    "line_is_one_write": [brings_lines("", "write mine.xw", "write output"), brings_lines(" --sync", "write mine.xw", "fdatasync mine.xw", "write output")],
    "answers_in_any_pieces": [comes_in_pieces(piece) for piece in (1, 2, 7, 100)],
    "input_fails": [breaks_off(THREE_WORDS, "input fault", ANSWERS[:size], words, kind=INPUT, first=count + 1, last=ALL, piece=4) for count, size, words in READS],
    "output_fails": [
        breaks_off(THREE_WORDS, "output fault", ANSWERS[:size], "CAT" if size < 3 else "CAT COT", kind=OUTPUT, first=size + 1, last=ALL, piece=1)
        for size in range(len(ANSWERS))
    ],
    "output_takes_nothing": [breaks_off(THREE_WORDS, "output fault", b"", "CAT", kind=OUTPUT, first=1, last=ALL, error=0)],
    "cut_off": [
        breaks_off(b"add CAT\nmat", "input fault", b"ok\n", "CAT", kind=INPUT, first=2, last=ALL),
        breaks_off(b"add CAT\n", "output fault", b"o", "CAT", kind=OUTPUT, first=2, last=ALL, piece=1),
    ],
    **{f"broken_off: {name}": [is_broken_off(name)] for name in SQUARES},
    # Nothing is written to the output, so it may fail.
    "output_fails, of a conversion": [
        ends_with_output("convert in.txt out.puz", ACCEPTED, b"", {"out.puz": PLAIN}, first=1, last=ALL),
        ends_with_output("convert none.txt out.puz", FAILED, b"xw: none.txt: cannot read\n", {}, first=1, last=ALL),
    ],
    # After an output fault the session is saved, and the puzzle is not written. If nobody reads the output, nothing is reported.
    "output_fails, of a session": [
        ends_with_output(EDIT, ACCEPTED, b"", {**SAVED, "out.puz": PLAIN}),
        ends_with_output(EDIT, FAILED, b"xw: output fault\n", SAVED, first=2, last=ALL, piece=5),
        ends_with_output(EDIT, FAILED, b"", SAVED, first=2, last=ALL, error=errno.EPIPE, piece=5),
        ends_with_output("edit --from none.txt --to out.puz --save s.xw", FAILED, b"xw: none.txt: cannot read\n", {}),
    ],
}
