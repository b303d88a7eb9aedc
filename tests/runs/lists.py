"""Word lists, and dictionaries of many words: which lines are words, and where a word stands."""
from samples import PLAIN
from steps import REFUSED, run, write

LETTERS = "ABCDEFGHIJKLMNOPQRSTUVWXYZ"

# Numbers of words for which a chunk of 64 or a block of 512 is one short of full, full, or just begun.
BORDERS = (0, 1, 63, 64, 65, 511, 512, 513)

# How many words three letters spell here: more than two blocks of the index hold.
MANY = 1500


def is_loaded(data, added, skipped, typed=b"", output=b""):
    """Starts a session with a list, and checks how many of its lines are words."""
    return [write("list", data), run("edit --dict list", typed, output, f"xw: list: {added} added, {skipped} skipped\n".encode())]


def is_noted(data, added, skipped, *notes):
    """Starts a session with a list, without and with notes on it."""
    counts = f"xw: list: {added} added, {skipped} skipped\n"
    return [
        write("list", data),
        run("edit --dict list", errors=counts.encode()),
        run("edit --explain --dict list", errors=(counts + "".join(f"xw: {note}\n" for note in notes)).encode()),
    ]


def graded(count, lines):
    return f"{count} of {lines} lines have a grade"


def misplaced(separator):
    return f"a number follows {separator}; a grade must follow a semicolon, as in cat;70"


def pairs(count):
    return [LETTERS[index // 26] + LETTERS[index % 26] for index in range(count)]


def three_letters(index):
    return LETTERS[index // 676] + LETTERS[index // 26 % 26] + LETTERS[index % 26]


def lines(words):
    return "".join(f"{word}\n" for word in words)


def feasible(words):
    return f"{len(words)}\n{lines(words)}ok\n"


def at_a_border(count):
    """A dictionary of so many words, of which a third is struck and comes back."""
    words = pairs(count)
    struck, left = words[::3], [word for index, word in enumerate(words) if index % 3]
    typed, output = "size 2 1\n", "ok\n"
    for change in ("strike", "add"):
        known = words if change == "strike" else left
        typed += "match .B\nmatch B.\nmatch ..\nwords 1 across\nset 1 2 C\nwords 1 across\nclear 1 2\n"
        output += "".join(lines(it for it in known if it[place] == "B") + "ok\n" for place in (1, 0)) + lines(known) + "ok\n"
        output += feasible(known) + "ok\n" + feasible([it for it in known if it[1] == "C"]) + "ok\n"
        typed += lines(f"match {it}" for it in words)
        output += "".join(f"{it}\nok\n" if it in known else "ok\n" for it in words)
        typed += lines(f"{change} {it}" for it in struck)
        output += "ok\n" * len(struck)
    return is_loaded(lines(words).encode(), count, 0, (typed + "match ..\n").encode(), (output + lines(words) + "ok\n").encode())


def in_any_order(step):
    """Adds words in steps through the alphabet, and strikes half of them and then the others."""
    words = [three_letters(turn * step % MANY) for turn in range(MANY)]
    first, second = words[::2], words[1::2]
    typed = lines(f"add {it}" for it in words) + "match ...\n" + lines(f"strike {it}" for it in first) + "match ...\n"
    typed += lines(f"strike {it}" for it in second) + "match ...\nstrike CFS\nstrike ZZZ\n"
    output = "ok\n" * len(words) + lines(words) + "ok\n" + "ok\n" * len(first) + lines(second) + "ok\n"
    output += "ok\n" * len(second) + "ok\n" + "no Unknown\n" * 2
    return run("edit", typed.encode(), output.encode(), status=REFUSED)


SIXTY_FOUR = [three_letters(index) for index in range(64)]

CASES = {
    # Notes on a list: how many lines have a grade, and what it may be instead of a list.
    "noted, grades": is_noted(b"CAT;50\r\nco-t\n\nx; 7 ;8\ndog;-1\nowl;1x\nhen;1234567890\n", 5, 2, graded(3, 7)),
    "noted, no lines": is_noted(b"", 0, 0, graded(0, 0)),
    "noted, comma": is_noted(b"cat,70\ndog,60\n", 2, 0, graded(0, 2), misplaced("a comma")),
    "noted, tab": is_noted(b"cat\ndog\t60\r\n", 2, 0, graded(0, 2), misplaced("a tab")),
    "noted, space": is_noted(b"cat 70", 1, 0, graded(0, 1), misplaced("a space")),
    "noted, colon": is_noted(b"cat:70\n", 1, 0, graded(0, 1), misplaced("a colon")),
    "noted, other lines": is_noted(b"cat, 70 lives\n70,cat\nno. 1\n", 3, 0, graded(0, 3)),
    "noted, UTF-16": is_noted("cat\n".encode("utf-16"), 0, 2, graded(0, 2), "the list looks like UTF-16; save it as UTF-8"),
    "noted, a puzzle file": is_noted(PLAIN, 0, 1, graded(0, 1), "this is a puzzle file; use --from to start with it"),
    "noted, UTF-16 without a mark": is_noted("cat".encode("utf-16-be"), 1, 0, graded(0, 1), "the list looks like UTF-16; save it as UTF-8"),
    "noted, carriage returns": is_noted(b"cat\rdog\r", 1, 0, graded(0, 1), "the lines end in carriage returns alone; end them in line feeds"),
    "grades": is_loaded(
        b"cat;70\r\ncot ;\t250 ; 9\nCAT;3\nbat;-4\nhat;7.5\nmat\n",
        5,
        1,
        b"size 3 1\n" + b"".join(b"place 1 across %s\ngrades\n" % word for word in (b"cat", b"cot", b"bat", b"hat", b"mat", b"rat")),
        b"ok\n" + b"".join(b"ok\n1 across %s\nok\n" % grade for grade in (b"70", b"100", b"0", b"50", b"50", b"-")),
    ),
    "odd_lines, nothing": is_loaded(b"", 0, 0),
    "odd_lines, a byte order mark": is_loaded(b"\xEF\xBB\xBF", 0, 0),
    "odd_lines, the mark again": is_loaded(b"\xEF\xBB\xBFat\n\xEF\xBB\xBFto", 1, 1, b"match ..\n", b"AT\nok\n"),
    "odd_lines, a NUL and a digit": is_loaded(b"a\x00t\r\nT1o2\n", 2, 0, b"match ..\n", b"AT\nTO\nok\n"),
    "odd_lines, bytes above ASCII": is_loaded(b"caf\xC3\xA9\nat\x80\nok", 1, 2, b"match ..\n", b"OK\nok\n"),
    "odd_lines, empty ones": is_loaded(b"\n\n\n", 0, 3),
    "odd_lines, a return inside": is_loaded(b"at\rto\n", 1, 0, b"match ....\n", b"ATTO\nok\n"),
    # One more word than a chunk holds, and the first one struck and back.
    "sixty_four_and_one_more": is_loaded(
        lines(SIXTY_FOUR).encode(),
        64,
        0,
        b"size 3 1\nwatch on\nwords 1 across 0\nadd ACM\nwords 1 across\nstrike AAA\nwords 1 across 1\nadd AAA\nwords 1 across 1\n",
        f"ok\nok\n64\nok\nok\n{feasible([*SIXTY_FOUR, 'ACM'])}ok\n64\nAAB\nok\nok\n65\nAAA\nok\n".encode(),
    ),
    **{f"words_at_a_border, {count}": at_a_border(count) for count in BORDERS},
    **{f"words_in_any_order, by {step}": [in_any_order(step)] for step in (1, 1499, 701)},
}
