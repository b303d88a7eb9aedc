"""Text files: reading, and the line of each fault."""
from samples import TEXT, explained
from steps import CLUES, FORMAT, holds, is_read_as, run, write

# The sample text in parts.
TOP = b"<ACROSS PUZZLE>\n<TITLE>\n<AUTHOR>\n<COPYRIGHT>\n"
SIZE = b"<SIZE>\n2x2\n"
ROWS = b"<GRID>\nAT\nSO\n"
ACROSS = b"<ACROSS>\na\nd\n"
DOWN = b"<DOWN>\nb\nc\n"
WHOLE = TOP + SIZE + ROWS + ACROSS + DOWN

# CR LF, blanks at both ends and blank lines make no difference.
OTHER_LINE_ENDS = (
    b"\r\n \t<ACROSS PUZZLE>\t\r\n\r\n<TITLE>\r\n \r\n<AUTHOR> \r\n\t\t\r\n<COPYRIGHT>\r\n<SIZE>\r\n 2x2\r\n\n"
    b"<GRID>\r\n AT\t\r\n\r\nSO\r\n<ACROSS>\r\n\r\n a\r\n\td \t\r\n<DOWN>\r\nb\r\n \t \r\nc\r\n\r\n"
)

# The last line needs no LF, a byte order mark is ignored, and letters may be in lower case.
OTHER_SPELLINGS = (
    b"\xEF\xBB\xBF<across puzzle>\n<Title>\n<author>\n<copyRIGHT>\n<size>\n2x2\n<grid>\nat\nSo\n<across>\na\nd\n<down>\nb\nc"
)

# Texts with unusual bytes, and notes of several lines.
WITH_TEXTS = (
    b"<ACROSS PUZZLE>\n<TITLE>\n\tA \t\xE9 <B\n<AUTHOR>\n\t\x0Bme\x0C\n<COPYRIGHT>\n\t\xC2\xA0\n<SIZE>\n\t2x2\n<GRID>\n"
    b"\tAT\n\tSO\n<ACROSS>\n\ta\n\td\n<DOWN>\n\tb\n\ttwo words\n<NOTEPAD>\n\tp\n\tq q\n\tr\n"
)

# More rows than columns, and a down light before the first across light.
TALL = (
    b"<ACROSS PUZZLE>\n<TITLE>\n\t\n<AUTHOR>\n\t\n<COPYRIGHT>\n\t\n<SIZE>\n\t2x3\n<GRID>\n\t.A\n\tBC\n\tDE\n"
    b"<ACROSS>\n\tbc\n\tde\n<DOWN>\n\tace\n\tbd\n"
)


def is_plain(data, texts=b""):
    """Checks that a file is read as the sample puzzle with these texts."""
    return is_read_as(data, b"A T\nS O\n", texts=texts + CLUES)


def of_size(line):
    return is_plain(TOP + b"<SIZE>\n" + line + b"\n" + ROWS + ACROSS + DOWN)


def leaves_at(*texts):
    """Checks the fault and the location of each file."""

    def step(room, program):
        for data, fault, location in texts:
            (room / "file").write_bytes(data)
            run("check --explain file", errors=explained("file", fault, location).encode(), status=FORMAT)(room, program)

    return [step]


CASES = {
    "text_plain": is_plain(TEXT),
    "text_plain: its parts": is_plain(WHOLE),
    "other_spellings: line ends": is_plain(OTHER_LINE_ENDS),
    "other_spellings: letters": is_plain(OTHER_SPELLINGS),
    "texts_of_one_line": is_plain(
        b"<ACROSS PUZZLE>\n<TITLE>\n\t A \xE9 <B \n<AUTHOR>\n#\n<COPYRIGHT>\n\xC2\xA0\n" + SIZE + ROWS + ACROSS + DOWN,
        texts=b"title A \xE9 <B\nauthor #\ncopyright \xC2\xA0\n",
    ),
    # Only one CR right before an LF is dropped, and only spaces and tabs are trimmed.
    "carriage_returns_stay": is_read_as(
        b"<ACROSS PUZZLE>\n<TITLE>\n\r\r\n<AUTHOR>\nx\r \n<COPYRIGHT>\n\x0B\x0C\n" + SIZE + ROWS + ACROSS + b"<DOWN>\n\ry\nc\r",
        b"A T\nS O\n",
        texts=b"title \\r\nauthor x\\r\ncopyright \x0B\x0C\n"
        b"clue 1 across a\nclue 1 down \\ry\nclue 2 down c\\r\nclue 3 across d\n",
    ),
    # All lines after <NOTEPAD> are notes.
    "notes: two lines": is_plain(WHOLE + b"<notepad>\np\nq\n", texts=b"notes p\\nq\n"),
    "notes: lines like tags": is_plain(
        WHOLE + b"<NOTEPAD>\n p \n\n\t\n<q\n<NOTEPAD>", texts=b"notes p\\n<q\\n<NOTEPAD>\n"
    ),
    "notes: a blank line": is_plain(WHOLE + b"<NOTEPAD>\n \n"),
    "notes: none": is_plain(WHOLE + b"<NOTEPAD>"),
    "notes: a tag in blanks": is_plain(WHOLE + b" <NotePad>\t\r\nx\r\n", texts=b"notes x\n"),
    # Blanks beside the x and leading zeros make no difference.
    "sizes: capital X": of_size(b"2X2"),
    "sizes: blanks": of_size(b"2 \tx\t 2"),
    "sizes: zeros": of_size(b"002x02"),
    "sizes: blanks and zeros": of_size(b" 2x 002 "),
    "longest_side": is_read_as(
        TOP + b"<SIZE>\n255x1\n<GRID>\n" + b"." * 255 + b"\n<ACROSS>\n<DOWN>\n", b"# " * 254 + b"#\n", texts=b""
    ),
    # Blocks, and an empty cell.
    "blocks_and_empty_cells": is_read_as(
        TOP + b"<SIZE>\n3x2\n<GRID>\n.a-\nb.c\n<ACROSS>\none\n<DOWN>\ntwo\n",
        b"# A -\nB # C\n",
        texts=b"clue 1 across one\nclue 2 down two\n",
    ),
    "all_texts": is_read_as(
        WITH_TEXTS,
        b"A T\nS O\n",
        texts=b"title A \t\xE9 <B\nauthor \x0Bme\x0C\ncopyright \xC2\xA0\nnotes p\\nq q\\nr\n"
        b"clue 1 across a\nclue 1 down b\nclue 2 down two words\nclue 3 across d\n",
    ),
    "tall_grid": is_read_as(
        TALL, b"# A\nB C\nD E\n", texts=b"clue 1 down ace\nclue 2 across bc\nclue 2 down bd\nclue 3 across de\n"
    ),
    "rewritings: text_plain": [write("file", TEXT), run("convert file out.txt"), holds("out.txt", TEXT)],
    "rewritings: tall_grid": [write("file", TALL), run("convert file out.txt"), holds("out.txt", TALL)],
    # Blank lines count.
    "above_the_grid": leaves_at(
        (b"", "Header", "end of file"),
        (b"\n \r\nx\n", "Header", "line 3"),
        (b"a\nb\n\0", "NulByte", "line 3"),
        (b"<ACROSS PUZZLE>\r\n\r\n<AUTHOR>\n", "Tag", "line 3"),
        (b"<ACROSS PUZZLE>\n<title>\nx\n\ny\n", "Tag", "line 5"),
        (b"<ACROSS PUZZLE>\n<TITLE>\n\n", "Tag", "end of file"),
    ),
    "in_the_grid": leaves_at(
        (TOP + b"<SIZE>\n0x2\n", "SizeLine", "line 6"),
        (TOP + b"<SIZE>\n2x2\nx\n", "Tag", "line 7"),
        (TOP + b"<SIZE>\n2x2\n<GRID>\nAT\n\nS\n", "GridLine", "line 10"),
        (TOP + b"<SIZE>\n2x2\n<GRID>\nAT\n", "GridLine", "end of file"),
        (TOP + b"<SIZE>\n2x2\n<GRID>\nAT\nSO\nXX\n", "Tag", "line 10"),
    ),
    "below_the_grid": leaves_at(
        (TOP + SIZE + ROWS + b"<ACROSS>\na\n<DOWN>\nb\n", "AcrossCount", "line 12"),
        (TOP + SIZE + ROWS + b"<ACROSS>\na\nd\ne\n<DOWN>\n", "AcrossCount", "line 13"),
        (TOP + SIZE + ROWS + b"<ACROSS>\na\nd\n<NOTEPAD>\n", "Tag", "line 13"),
        (TOP + SIZE + ROWS + b"<ACROSS>\na\nd\n<DOWN>\nb\n", "DownCount", "end of file"),
        (TOP + SIZE + ROWS + b"<ACROSS>\na\nd\n<DOWN>\nb\nc\n<X>\n", "Tag", "line 16"),
    ),
    # An invalid cell is reported by row and column.
    "no_line: a cell": leaves_at((TOP + SIZE + b"<GRID>\nA1\n", "BadCell", "row 1, column 2")),
    "no_line: text plain": [write("file", TEXT), run("check --explain file", output=b"text 2x2 4 lights\n")],
}
