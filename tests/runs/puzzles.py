"""Runs on puzzle files."""
from samples import CIRCLED, PLAIN, STARTED, TEXT, WRONG_SUM
from steps import FAILED, FORMAT, REFUSED, absent, holds, run, write

CASES = {
    "puzzles_checked": [
        write("checked", PLAIN),
        run("check checked", output=b"puz 2x2 4 lights\n"),
        write("checked", TEXT),
        run("check checked", output=b"text 2x2 4 lights\n"),
    ],
    # With several files each line names its file. A fault is told, and the next file is checked.
    "puzzles_checked_in_turn": [
        write("monday.puz", PLAIN),
        write("monday.txt", TEXT),
        write("sum.puz", WRONG_SUM),
        run("check monday.puz monday.txt", output=b"monday.puz: puz 2x2 4 lights\nmonday.txt: text 2x2 4 lights\n"),
        run("check monday.puz monday.puz", output=b"monday.puz: puz 2x2 4 lights\n" * 2),
        run(
            "check sum.puz monday.puz",
            output=b"monday.puz: puz 2x2 4 lights\n",
            errors=b"xw: sum.puz: BadSum\n",
            status=FORMAT,
        ),
        run(
            "check gone monday.puz sum.puz --explain monday.txt",
            output=b"monday.puz: puz 2x2 4 lights\nmonday.txt: text 2x2 4 lights\n",
            errors=b"xw: gone: cannot read\nxw: No such file or directory\nxw: sum.puz: BadSum\nxw: file checksum\n"
            b"xw: the file is damaged: a checksum is wrong\n",
            status=FAILED,
        ),
        run(
            "check sum.puz gone sum.puz",
            errors=b"xw: sum.puz: BadSum\nxw: gone: cannot read\nxw: sum.puz: BadSum\n",
            status=FAILED,
        ),
        # Standard input is one of the files.
        run("check monday.puz -", TEXT, b"monday.puz: puz 2x2 4 lights\n-: text 2x2 4 lights\n"),
    ],
    # One light is reported as `1 lights`. A file name of fewer than four bytes gives a text file.
    "one_light_checked": [
        run("edit --to one", b"size 2 1\nset 1 1 A\nset 1 2 T\nclue 1 across a\n", output=b"ok\nok\nok\nok\n"),
        run("check one", output=b"text 2x1 1 lights\n"),
    ],
    # The name of a file decides in which format it is written, and its bytes decide in which format it is read.
    "puzzles_converted": [
        write("plain.puz", PLAIN),
        write("started", STARTED),
        run("convert plain.puz plain.txt"),
        holds("plain.txt", TEXT),
        run("convert plain.txt again.PUZ"),
        holds("again.PUZ", PLAIN),
        run("convert started .puz"),
        holds(".puz", PLAIN),
    ],
    # A name that asks for no format is told, but not that of a file that is not written.
    "text_told": [
        write("plain", PLAIN),
        run("convert plain new", errors=b"xw: new: written as text\n"),
        holds("new", TEXT),
        run("convert plain new.tex", errors=b"xw: new.tex: written as text\n"),
        run("convert plain txt", errors=b"xw: txt: written as text\n"),
        run("convert plain .txt"),
        run("convert plain new.TxT"),
        run("convert plain no/such/folder", errors=b"xw: no/such/folder: cannot write\n", status=FAILED),
        run("edit --from plain --to other"),
        holds("other", TEXT),
    ],
    "barred_grid_is_not_written": [
        write("barred.puz", PLAIN),
        run(
            "edit --from barred.puz --to out.puz",
            b"bar 1 1 right\n",
            output=b"ok\n",
            errors=b"xw: out.puz: Barred\n",
            status=FORMAT,
        ),
        absent("out.puz"),
        # An existing file stays unchanged, also if commands were refused.
        write("out.puz", b"old"),
        run(
            "edit --from barred.puz --to out.puz",
            b"clear 1 1\nfrob\n",
            output=b"ok\nno Command\n",
            errors=b"xw: out.puz: NotFilled\n",
            status=FORMAT,
        ),
        holds("out.puz", b"old"),
    ],
    # The puzzle is written although a command was refused.
    "circles_written": [
        write("circled", CIRCLED),
        run("edit --from circled --to circled.puz"),
        holds("circled.puz", CIRCLED),
        run(
            "edit --from circled --to circled.puz",
            b"circles\ncircle 1 1\nfrob\n",
            output=b"1 1\nok\nok\nno Command\n",
            status=REFUSED,
        ),
        holds("circled.puz", PLAIN),
        run("convert circled circled.txt", errors=b"xw: circled.txt: Circled\n", status=FORMAT),
        absent("circled.txt"),
    ],
    # From an empty grid to a finished file.
    "puzzle_made": [
        run(
            "edit --to made.puz",
            b"size 2 2\nplace 1 across at\nplace 3 across so\nclue 1 across a\nclue 1 down b\nclue 2 down c\nclue 3 across d\n",
            output=b"ok\nok\nok\nok\nok\nok\nok\n",
        ),
        holds("made.puz", PLAIN),
    ],
    # A faulty file ends the run before any command is read. The message on the word list comes first.
    "files_refused": [
        write("cut.puz", PLAIN[:71]),
        write("magic.puz", PLAIN[1:]),
        write("tag.txt", TEXT[:20]),
        write("empty.txt", b""),
        write("list", b"cat\n"),
        run("check cut.puz", errors=b"xw: cut.puz: NoNul\n", status=FORMAT),
        run("check magic.puz", errors=b"xw: magic.puz: NulByte\n", status=FORMAT),
        run("check tag.txt", errors=b"xw: tag.txt: Tag\n", status=FORMAT),
        run("check empty.txt", errors=b"xw: empty.txt: Header\n", status=FORMAT),
        run(
            "edit --dict list --from empty.txt",
            b"add CAT\n",
            errors=b"xw: list: 1 added, 0 skipped\nxw: empty.txt: Header\n",
            status=FORMAT,
        ),
        run("convert gone gone.puz", errors=b"xw: gone: cannot read\n", status=FAILED),
        write("plain", PLAIN),
        run("convert plain no/such/folder.puz", errors=b"xw: no/such/folder.puz: cannot write\n", status=FAILED),
    ],
    # A `.puz` file that is cut off within its magic is read as text.
    "cut_magic_is_text": [
        write("cut", PLAIN[:13]),
        run("check cut", errors=b"xw: cut: Header\n", status=FORMAT),
    ],
    # A name that ends in `puz` without a dot gives a text file. A session opened on a file has no symmetry.
    "opened_without_symmetry": [
        write("opened", PLAIN),
        run("convert opened xpuz", errors=b"xw: xpuz: written as text\n"),
        holds("xpuz", TEXT),
        run("edit --from xpuz", b"clear 1 1\nblock 1 1\nshow\n", output=b"ok\nok\n# T\nS O\nok\n"),
    ],
    # A fill enters letters only in lights, so a cell without a light may stay empty.
    "filled_but_for_a_lone_cell": [
        run(
            "edit --to lone.puz",
            b"size 4 1\nblock 1 3\nadd AS\nfill 9\nshow\n",
            output=b"ok\nok\nok\nfilled\nok\nA S # -\nok\n",
            errors=b"xw: lone.puz: NotFilled\n",
            status=FORMAT,
        ),
        absent("lone.puz"),
    ],
}
