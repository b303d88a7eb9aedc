"""Writing puzzles: the bytes of each format, and which fault of a puzzle is reported."""
from samples import BLOCKED, CIRCLED, CIRCLED_LAST, CIRCLED_TWICE, NO_CLUE, PLAIN, TEXT, TITLED, WITH_NOTES, explained
from steps import FORMAT, holds, run, write

from files.text import WITH_TEXTS

# One cell without a light, and a block in the first cell.
ONE_CELL = TEXT[: TEXT.index(b"\t2x2")] + b"\t1x1\n<GRID>\n\tZ\n<ACROSS>\n<DOWN>\n"
FIRST_BLOCKED = TEXT.replace(b"\tAT\n", b"\t.T\n").replace(b"\ta\n", b"").replace(b"\tb\n", b"")


def written(name, typed, data):
    """Changes the plain puzzle by some commands, and checks the file that is written."""
    return [write("plain", PLAIN), run(f"edit --from plain --to {name}", typed, b"ok\n" * typed.count(b"\n")), holds(name, data)]


def unwritten(name, typed, fault, location=None):
    """Changes the plain puzzle by some commands, and checks why it is not written."""
    errors = explained(name, fault, location).encode()
    # no file keeps the session
    errors += b"xw: the session is not kept; --save or --journal keeps it\n" if fault == "NotFilled" else b""
    return [write("plain", PLAIN), run(f"edit --explain --from plain --to {name}", typed, b"ok\n" * typed.count(b"\n"), errors, FORMAT)]


def in_order(name, data, *faults):
    """Commands that each make a fault, which is reported before those of the commands after it; without any, the file is written."""
    steps = written(name, b"", data)
    for index, (_, fault, location) in enumerate(faults):
        steps += unwritten(name, b"".join(typed + b"\n" for typed, _, _ in faults[index:]), fault, location)
    return steps


def escaped(text):
    for byte, spelling in ((b"\\", b"\\\\"), (b" ", b"\\s"), (b"\t", b"\\t"), (b"\r", b"\\r"), (b"\n", b"\\n")):
        text = text.replace(byte, spelling)
    return text


# The fields that a text file may or may not hold a text in, and their names in messages.
FIELDS = {b"title": "title", b"clue 1 1 across": "clue 1 (1 across)", b"notes": "notes"}


def is_spelled(texts, *fields):
    """Checks in which fields a text file can hold these texts."""
    steps = []
    for text in texts:
        for field, name in FIELDS.items():
            typed = b"text " + field + b" " + escaped(text) + b"\n"
            steps += [write("plain", PLAIN), run("edit --from plain --to out.txt", typed, b"ok\n")] if field in fields else unwritten("out.txt", typed, "Field", name)
    return steps


CASES = {
    "puz": written("out.puz", b"", PLAIN),
    "puz, a title": written("out.puz", b"title T\n", TITLED),
    "puz, notes": written("out.puz", b"title T\ntitle\nnotes n\n", WITH_NOTES),
    "puz, circles": [
        *written("out.puz", b"circle 1 1\n", CIRCLED),
        *written("out.puz", b"circle 1 1\ncircle 1 2\n", CIRCLED_TWICE),
        *written("out.puz", b"circle 1 1\ncircle 1 1\ncircle 2 2\n", CIRCLED_LAST),
    ],
    # A hidden clue and a hidden circle are not written, and an empty clue is.
    "puz, what is hidden": [
        *written("out.puz", b"text clue 2 2 across hidden\ntext clue 2 1 down hidden\n", PLAIN),
        *written("out.puz", b"clue 1 down\n", NO_CLUE),
        *written("out.puz", b"clue 1 down\ncircle 2 2\nclear 2 2\nblock 2 2\n", BLOCKED),
    ],
    "puz_faults_in_order": in_order(
        "out.puz",
        PLAIN,
        (b"bar 2 1 right", "Barred", None),
        (b"clear 1 2", "NotFilled", "row 1, column 2"),
        (b"clear 2 2", "NotFilled", "row 2, column 2"),
    ),
    "puz_faults, a bar beside a block": unwritten("out.puz", b"clear 1 1\nblock 1 1\nbar 1 1 below\n", "Barred"),
    "puz_faults, one cell": unwritten("out.puz", b"size 1 1\n", "NotFilled", "row 1, column 1"),
    "text": written("out.txt", b"", TEXT),
    # Texts with unusual bytes, and notes of several lines.
    "text, all texts": written(
        "out.txt", b"title A \t\xE9 <B\nauthor \x0Bme\x0C\ncopyright \xC2\xA0\ntext notes p\\nq q\\nr\nclue 2 down two words\n", WITH_TEXTS
    ),
    # A grid without lights. Its only cell must still be filled.
    "text, one cell": [*unwritten("out.txt", b"size 1 1\n", "NotFilled", "row 1, column 1"), *written("out.txt", b"size 1 1\nset 1 1 Z\n", ONE_CELL)],
    "text, what is hidden": written("out.txt", b"circle 1 1\nclear 1 1\nblock 1 1\n", FIRST_BLOCKED),
    "text_faults_in_order": in_order(
        "out.txt",
        TEXT,
        (b"bar 1 1 below", "Barred", None),
        (b"clear 1 2", "NotFilled", "row 1, column 2"),
        (b"clear 2 1", "NotFilled", "row 2, column 1"),
        (b"text title a\\rb", "Field", "title"),
        (b"text author \\sa", "Field", "author"),
        (b"text copyright a\\nb", "Field", "copyright"),
        (b"text clue 2 1 across d\\t", "Field", "clue 4 (3 across)"),
        (b"text clue 1 1 down", "Field", "clue 2 (1 down)"),
        (b"text clue 1 2 down <c", "Field", "clue 3 (2 down)"),
        (b"text notes a\\n\\nb", "Field", "notes"),
        (b"circle 2 1", "Circled", "row 2, column 1"),
        (b"circle 2 2", "Circled", "row 2, column 2"),
    ),
    "text_faults, a bar between blocks": unwritten("out.txt", b"size 2 1\nblock 1 1\nblock 1 2\nbar 1 1 right\n", "Barred"),
    "spelled, in all fields": is_spelled([b"a b", b"a<", b"\x0B", b"\xA0", b"\xFF\x85"], *FIELDS),
    "spelled, but not as a clue": is_spelled([b""], b"title", b"notes"),
    "spelled, as notes alone": is_spelled([b"a\nb"], b"notes"),
    "spelled, in no field": is_spelled(
        [b"a\n", b"\na", b"\n", b"a\n\nb", b"a\n<b", b"a\n b", b"a\nb\t", b"a\rb", b"a\r", b" a", b"a ", b"\ta", b"a\t", b" ", b"<a", b"<"]
    ),
}
