"""Runs on large inputs: no call runs out of memory while there is memory."""
from steps import REFUSED, holds, run, write


def times(count):
    """Returns the answers to this many accepted commands."""
    return b"ok\n" * count


def numbers(first, last, before, after):
    """Returns a line for each number of a range, with a text before and after the number."""
    return "".join(f"{before}{number}{after}\n" for number in range(first, last + 1)).encode()


def cells(word, rows, cols):
    """Returns a line for each of these rows and columns: a word, the row and the column."""
    return "".join(f"{word} {row} {col}\n" for row in rows for col in cols).encode()


def letter(number):
    """Returns the letter of a number, starting over after every 26 numbers."""
    return chr(ord("A") + number % 26)


def words(count):
    """Returns this many different words of five letters, at most 17,576."""
    return "".join(f"AB{letter(index // 676)}{letter(index // 26)}{letter(index)}\n" for index in range(count)).encode()


def letters(lines, count):
    """Returns lines of a tab and `count` letters. Each line starts one letter later in the alphabet."""
    return "".join("\t" + "".join(letter(line + index) for index in range(count)) + "\n" for line in range(lines)).encode()


# A text file with 255 by 255 letters, 510 clues and long texts.
LARGE = b"".join(
    [
        b"<ACROSS PUZZLE>\n<TITLE>\n",
        letters(1, 5000),
        b"<AUTHOR>\n",
        letters(1, 5000),
        b"<COPYRIGHT>\n\t\n<SIZE>\n\t255x255\n<GRID>\n",
        letters(255, 255),
        b"<ACROSS>\n",
        letters(255, 200),
        b"<DOWN>\n",
        letters(255, 300),
        b"<NOTEPAD>\n",
        letters(100, 100),
    ]
)

# Blocks of a grid of 255 by 255, each with a title and a clue after it.
SPOTS = [(row, column) for row in range(3, 255, 2) for column in range(5, 255, 60)]
TOLD = b"size 255 255\n" + b"".join(
    b"block %d %d\ntitle T%d\nclue 1 across C%d\n" % (row, column, index, index) for index, (row, column) in enumerate(SPOTS)
)

# The same with a letter in each block, which is refused.
WRONG = b"size 255 255\n" + b"".join(
    b"block %d %d\ntitle T%d\nclue 1 across C%d\nset %d %d A\n" % (row, column, index, index, row, column)
    for index, (row, column) in enumerate(SPOTS)
)


def resumed(lines, **wanted):
    """Resumes a session, and checks its blocks and its last texts."""
    last = len(SPOTS) - 1
    rows = [b" ".join(b"#" if (row, column) in SPOTS else b"-" for column in range(1, 256)) + b"\n" for row in range(1, 256)]
    output = b"title T%d\nclue 1 across C%d\nok\n" % (last, last) + b"".join(rows) + b"ok\n"
    return [write("told.xw", lines), run("edit --resume told.xw", b"texts\nshow\n", output=output, **wanted)]


CASES = {
    "blocks_between_clues_resumed": resumed(TOLD),
    "blocks_between_refused_lines_resumed": resumed(
        WRONG, errors=b"".join(b"xw: told.xw: line %d: OnBlock\n" % (4 * index + 5) for index in range(len(SPOTS))), status=REFUSED
    ),
    # Two lights that no other light crosses: all words of one leave the same to the other.
    "many_choices_uncrossed": [
        write("words", words(17576)),
        run(
            "edit --dict words",
            b"size 5 3\n" + cells("block", [2], range(1, 6)) + b"choices 1 across 999999\nset 3 1 A\nset 3 3 B\nchoices 1 across 2\nset 3 2 B\n"
            + b"set 3 4 C\nset 3 5 D\nchoices 1 across 2 ABAAC\nsize 6 5\nchoices 1 across 9\n",
            output=times(6)
            + words(17576).replace(b"\n", b" 17576\n")
            + b"ok\nok\nok\nABAAA 676\nABAAB 676\nok\nok\nok\nok\nABAAC done\nABAAD done\nok\nok\nok\n",
            errors=b"xw: words: 17576 added, 0 skipped\n",
        ),
    ],
    # A grid of 21 by 21 with 102 lights: four in each row, and one in each column without blocks. A bar is set and
    # removed, a search runs, and the grid is replaced. No word is known, so the grid has no fill.
    "many_lights": [
        run(
            "edit",
            b"size 21 21\n" + cells("block", range(1, 22), [6, 12, 18]) + b"bar 1 1 right\nbar 1 1 right\nfill 0\nsize 21 21\n",
            output=times(66) + b"nofill\nok\nok\n",
        )
    ],
    # A grid of 5 columns with 15 lights that do not cross, and 1,100 words. Each light takes the first word not used
    # yet, and one takes a late word, so the fill needs more than a hundred placements.
    "many_choices": [
        write("words", words(1100)),
        run(
            "edit --dict words",
            b"size 5 29\n"
            + cells("block", range(2, 29, 2), range(1, 6))
            + b"add zzzzz\nstrike ZZZZZ\nadd fghij\nadd zzzzz\nset 1 3 B\n"
            + b"fill 999999999999999999\ndups\nunlisted\nmatch fgh..\n",
            output=times(76) + b"filled\nok\nok\nok\nFGHIJ\nok\n",
            errors=b"xw: words: 1100 added, 0 skipped\n",
        ),
    ],
    # A grid of 120 rows of two cells, with 122 lights. When every cell is A, the lights spell two unknown words over
    # and over: one in each row, and one in each column of 120 cells.
    "many_entries": [
        write(
            "rows.txt",
            b"<ACROSS PUZZLE>\n<TITLE>\n<AUTHOR>\n<COPYRIGHT>\n<SIZE>\n2x120\n<GRID>\n"
            + b"--\n" * 120
            + b"<ACROSS>\n"
            + b"a\n" * 120
            + b"<DOWN>\nb\nc\n",
        ),
        run(
            "edit --from rows.txt",
            b"size 2 120\nblock 1 1\nblock 1 1\n"
            + b"bar 2 1 right\nbar 2 1 right\nfill 0\nplace 1 across AA\n"
            + numbers(3, 121, "place ", " across AA")
            + b"dups\nunlisted\n",
            output=times(5)
            + b"nofill\n"
            + times(121)
            + b"2 down 1 down "
            + b"A" * 120
            + b"\n"
            + numbers(3, 121, "", " across 1 across AA")
            + b"ok\n1 across AA\n1 down "
            + b"A" * 120
            + b"\n2 down "
            + b"A" * 120
            + b"\n"
            + numbers(3, 121, "", " across AA")
            + b"ok\n",
        ),
    ],
    # Lights in a row and a column of the largest grid have the numbers of their starts: the columns of the first row, and then the rows.
    "largest_grid": [
        run(
            "edit",
            b"size 255 255\nlights\n",
            output=b"ok\n"
            + b"1 across 1 1 " + b"." * 255 + b"\n"
            + b"".join(b"%d down 1 %d " % (number, number) + b"." * 255 + b"\n" for number in range(1, 256))
            + b"".join(b"%d across %d 1 " % (254 + row, row) + b"." * 255 + b"\n" for row in range(2, 256))
            + b"ok\n",
        )
    ],
    "many_words": [
        write("many.txt", words(5000)),
        run(
            "edit --dict many.txt",
            b"add zzzzz\nstrike ZZZZZ\nadd fghij\nmatch fgh..\n",
            output=b"ok\nok\nok\nFGHIJ\nok\n",
            errors=b"xw: many.txt: 5000 added, 0 skipped\n",
        ),
    ],
    "large_files": [
        write("large.txt", LARGE),
        run("convert large.txt large.puz"),
        run("check large.puz", output=b"puz 255x255 510 lights\n"),
        run("edit --from large.puz --to again.txt"),
        holds("again.txt", LARGE),
    ],
    # Circles in the whole first row.
    "large_circles": [
        write("round.txt", LARGE),
        run("edit --from round.txt --to round.puz", numbers(1, 255, "circle 1 ", ""), output=times(255)),
        run("edit --from round.puz", b"circles\n", output=numbers(1, 255, "1 ", "") + b"ok\n"),
    ],
}
