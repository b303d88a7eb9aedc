"""Journals that were cut while they were written: the next start has each command whole or not at all."""
from steps import ACCEPTED, FIRST, REFUSED, call, compare, holds, run, write

from runs.journals import CUT, SEARCHED, grows, record

# The parts of a journal: what each command wrote, and the rows of the grid after it.
WORD, SQUARE = b"title One\n", b"size 2 2\n"
PARTS = [(WORD, None), (SQUARE, b"- -\n- -\n"), (SEARCHED, b"A S\nT O\n"), (b"clear 2 2\n", b"A S\nT -\n"), (b"# xw begin\nset 2 2 O\n# xw end\n", b"A S\nT O\n")]
EMPTY = b"- " * 14 + b"-\n"


def shown(count):
    """The grid after so many of the parts."""
    rows = [rows for _, rows in PARTS[:count]]
    return (rows[-1] if rows and rows[-1] else EMPTY * 15) + b"ok\n"


def is_whole_or_not_at_all(room, program):
    """Cuts the journal after each of its bytes, and starts from what is left."""
    whole = FIRST + b"".join(part for part, _ in PARTS)
    ends = [len(FIRST)]
    for part, _ in PARTS:
        ends.append(ends[-1] + len(part))
    for length in range(len(whole) + 1):
        (room / "mine.xw").write_bytes(whole[:length])
        kept = max((end for end in ends if end <= length), default=0)
        count = ends.index(kept) if kept else 0
        ended = call(room, program, "edit --journal mine.xw", b"show\ntexts\n")
        texts = b"title One\nok\n" if count else b"ok\n"
        is_cut = length not in (0, *ends)
        compare(f"answers after {length} bytes", ended.stdout, shown(count) + texts)
        compare(f"messages and status after {length} bytes", (ended.stderr, ended.returncode), (CUT if is_cut else b"", ACCEPTED))
        # Cut again, it goes on with a next command, which stands after the whole ones.
        (room / "mine.xw").write_bytes(whole[:length])
        grows((b"title Two", b"ok\n", b"title Two\n"), begun=whole[:kept] or FIRST)(room, program)


def is_begun(*beginnings):
    """A beginning of the first line is a journal without commands."""
    return [
        step
        for data in beginnings
        for step in (
            write("mine.xw", data),
            run("edit --journal mine.xw", b"size 2 1\nshow\n", b"ok\n- -\nok\n", errors=CUT if data else b""),
            holds("mine.xw", record()),
            write("mine.xw", data),
            grows((b"size 2 1", b"ok\n", b"size 2 1\n")),
        )
    ]


def drops(left, dropped, output):
    """The end of a journal that the next start drops."""
    return [
        write("mine.xw", left + dropped),
        grows((b"show", output, b""), (b"title One", b"ok\n", b"title One\n"), begun=left),
        write("mine.xw", left + dropped),
        run("edit --journal mine.xw", b"show\n", output, errors=CUT),
        write("mine.xw", left + dropped),
        run("edit --resume mine.xw", b"show\n", output, errors=CUT),
        holds("mine.xw", left + dropped),
    ]


TWO = FIRST + b"size 2 1\n"

CASES = {
    "whole_or_not_at_all": [is_whole_or_not_at_all],
    "first_line": is_begun(*(FIRST[:length] for length in range(len(FIRST)))),
    # The letters of a search without the line that ends them.
    "search, no letter": drops(TWO, b"# xw begin\n", b"- -\nok\n"),
    "search, one letter": drops(TWO, b"# xw begin\nset 1 1 A\n", b"- -\nok\n"),
    "search, a cut letter": drops(TWO, b"# xw begin\nset 1 1 A\nset 1 2", b"- -\nok\n"),
    "search, all letters": drops(TWO, b"# xw begin\nset 1 1 A\nset 1 2 B\n", b"- -\nok\n"),
    "search, a cut end": drops(TWO, b"# xw begin\nset 1 1 A\nset 1 2 B\n# xw end", b"- -\nok\n"),
    "search, after a whole one": drops(TWO + b"# xw begin\nset 1 1 A\n# xw end\n", b"# xw begin\nset 1 2 B\n# e", b"A -\nok\n"),
    # Whole searches, and notes, which a user may have written.
    "search, whole": [
        write("mine.xw", TWO + b"# xw begin\nset 1 1 A\nset 1 2 B\n# xw end\n# a note\n"),
        run("edit --journal mine.xw", b"show\n", b"A B\nok\n"),
        holds("mine.xw", record(b"set 1 1 A\n", b"set 1 2 B\n")),
    ],
    "search, whole, before a cut line": drops(TWO + b"# xw begin\nset 1 1 A\nset 1 2 B\n# xw end\n", b"clear 1 1", b"A B\nok\n"),
    # A refused line before the cut one.
    "refused, before a cut line": [
        write("mine.xw", TWO + b"set 9 9 A\nset 1 1 A"),
        run("edit --resume mine.xw", b"show\n", b"- -\nok\n", errors=CUT + b"xw: mine.xw: line 3: OutOfGrid\n", status=REFUSED),
    ],
    # Without the first line each line counts.
    "not cut, without the first line": [
        write("mine.xw", b"size 2 1\n# xw begin\nset 1 1 A"),
        run("edit --resume mine.xw", b"show\n", b"A -\nok\n"),
    ],
    # A journal can be resumed, too.
    "search, resumed": [
        write("mine.xw", TWO + b"# xw begin\nset 1 1 A\nset 1 2 B\n# xw end\n"),
        run("edit --resume mine.xw", b"show\n", b"A B\nok\n"),
        holds("mine.xw", TWO + b"# xw begin\nset 1 1 A\nset 1 2 B\n# xw end\n"),
    ],
}
