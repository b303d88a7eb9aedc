"""The faults of puzzle files, each with its location, and which of several is reported."""
from samples import BAD_CELL, BAD_CELL_AND_COUNT, CLUE_COUNT, MORE_CLUES, PLAIN, TEXT, explained
from steps import FORMAT, run, write

from files.text import ACROSS, DOWN, ROWS, SIZE, TOP


def told(*files):
    """Checks all files in one call: what is told of the fault of each, or nothing if it can be read."""
    names = [f"file-{index}" for index in range(len(files))]
    output, errors = b"", b""
    for name, (data, fault, location) in zip(names, files):
        if fault:
            errors += explained(name, fault, location).encode()
        else:
            output += f"{name}: {'puz' if data[13:14] == PLAIN[13:14] else 'text'} 2x2 4 lights\n".encode()
    steps = [write(name, data) for name, (data, _, _) in zip(names, files)]
    return [*steps, run(f"check --explain {' '.join(names)}", output=output, errors=errors, status=FORMAT)]


def spanned(make, spans):
    """Files that `make(number)` makes, with their faults. Each row of the spans applies up to and including its number."""
    files, number = [], 0
    for last, fault, location in spans:
        files += [(make(at), fault, location) for at in range(number, last + 1)]
        number = last + 1
    return told(*files)


def turned(*places, data=PLAIN):
    """Returns the plain file with bits turned, each by its offset."""
    data = bytearray(data)
    for offset, bits in places:
        data[offset] ^= bits
    return bytes(data)


# The faults of the plain file where it is cut off at each length. Without a whole magic it is a text.
CUTS = [
    (0, "Header", "end of file"),
    (13, "Header", "line 1"),
    (51, "Short", "header"),
    (59, "Short", "boards"),
    (60, "NoNul", "title"),
    (61, "NoNul", "author"),
    (62, "NoNul", "copyright"),
    (64, "NoNul", "clue 1 (1 across)"),
    (66, "NoNul", "clue 2 (1 down)"),
    (68, "NoNul", "clue 3 (2 down)"),
    (70, "NoNul", "clue 4 (3 across)"),
    (71, "NoNul", "notes"),
    (72, None, None),
]

# The faults where all bits of one byte are turned, by its offset. With another magic it is a text, which has a NUL.
ALTERED = [
    (0x01, "BadSum", "file checksum"),
    (0x0D, "NulByte", "line 1"),
    (0x0F, "BadSum", "CIB checksum"),
    *((0x0F + number, "BadSum", f"masked byte {number}") for number in range(1, 9)),
    (0x1B, "Version", None),
    (0x2B, None, None),
    (0x2D, "Short", "boards"),
    (0x2F, "NoNul", "clue 6"),
    (0x31, "BadSum", "CIB checksum"),
    (0x33, "Scrambled", None),
    (0x3B, "BadSum", "file checksum"),
    (0x3E, "NoNul", "notes"),
    (0x3F, "BadSum", "file checksum"),
    (0x40, "NoNul", "notes"),
    (0x41, "BadSum", "file checksum"),
    (0x42, "NoNul", "notes"),
    (0x43, "BadSum", "file checksum"),
    (0x44, "NoNul", "notes"),
    (0x45, "BadSum", "file checksum"),
    (0x47, "NoNul", "notes"),
]

# Bits that are all turned at first and then turned back one by one. The fault of each is reported before those after it.
ALL_TURNED = [
    ((0x1A, 7), "Version", None),
    ((0x32, 4), "Scrambled", None),
    ((0x2D, 2), "Size", None),
    ((0x10, 1), "BadSum", "masked byte 1"),
]

# The faults of the plain text where it is cut off at each length.
TEXT_CUTS = [
    (14, "Header"),
    (56, "Tag"),
    (61, "SizeLine"),
    (68, "Tag"),
    (76, "GridLine"),
    (85, "Tag"),
    (91, "AcrossCount"),
    (98, "Tag"),
    (104, "DownCount"),
    (106, None),
]


def cut_text():
    """The plain text cut off at each length. A part of a line is a wrong line; after whole lines the next one is missing."""
    files, lines = [], [line.strip() for line in TEXT.split(b"\n")]
    for length in range(len(TEXT) + 1):
        *above, line = TEXT[:length].split(b"\n")
        fault = next(fault for last, fault in TEXT_CUTS if length <= last)
        files.append((TEXT[:length], fault, "end of file" if line.strip() in lines else f"line {len(above) + 1}"))
    return told(*files)


def between(before, after, *rows):
    """Files that have the same bytes before and after what each row has, with its fault and location."""
    return told(*((before + data + after, fault, location) for data, fault, location in rows))


ABOVE = b"<TITLE>\n<AUTHOR>\n<COPYRIGHT>\n"
BELOW = SIZE + ROWS + ACROSS + DOWN

CASES = {
    "puz_cut_off": spanned(lambda length: PLAIN[:length], CUTS),
    "puz_altered": spanned(lambda offset: turned((offset, 0xFF)), ALTERED),
    "puz_altered, one bit": told(
        (turned((0x13, 1)), "BadSum", "masked byte 4"),
        (turned((0x32, 4)), "Scrambled", None),
        (turned((0x1A, 7)), "Version", None),
        (turned((0x00, 1)), "BadSum", "file checksum"),
        (turned((0x2C, 2)), "Size", None),
        (turned((0x2D, 2)), "Size", None),
    ),
    "puz_with_several_faults": told(
        (CLUE_COUNT, "ClueCount", None),
        (MORE_CLUES, "ClueCount", None),
        (BAD_CELL, "BadCell", "row 2, column 1"),
        (BAD_CELL_AND_COUNT, "BadCell", "row 2, column 1"),
        *((turned(*(place for place, _, _ in ALL_TURNED[index:])), fault, location) for index, (_, fault, location) in enumerate(ALL_TURNED)),
    ),
    # What is read as a `.puz` file, and what as text.
    "kinds": told(
        (PLAIN, None, None),
        (PLAIN[:14], "Short", "header"),
        (b"??ACROSS&DOWN\0", "Short", "header"),
        (PLAIN[:13], "Header", "line 1"),
        (PLAIN[2:], "NulByte", "line 1"),
        (b"", "Header", "end of file"),
        (b"<ACROSS PUZZLE>", "Tag", "end of file"),
        (b"??ACROSS&DOWN\n", "Header", "line 1"),
        (b"??Across&Down\0", "NulByte", "line 1"),
    ),
    "text_cut_off": cut_text(),
    "without_a_tag, above": between(
        b"",
        BELOW,
        (b"<TITLE>\n<AUTHOR>\n<COPYRIGHT>\n", "Header", "line 1"),
        (b"<ACROSS PUZZLE>\n<AUTHOR>\n<COPYRIGHT>\n", "Tag", "line 2"),
        (b"<ACROSS PUZZLE>\n<TITLE>\n<COPYRIGHT>\n", "Tag", "line 3"),
        (b"<ACROSS PUZZLE>\n<TITLE>\n<AUTHOR>\n", "Tag", "line 4"),
    ),
    "without_a_tag, below": between(
        TOP,
        b"",
        (b"2x2\n" + ROWS + ACROSS + DOWN, "Tag", "line 6"),
        (SIZE + b"AT\nSO\n" + ACROSS + DOWN, "Tag", "line 7"),
        (SIZE + ROWS + b"a\nd\n" + DOWN, "Tag", "line 10"),
        (SIZE + ROWS + ACROSS + b"b\nc\n", "AcrossCount", "line 13"),
        (b"<SIZE>\n", "SizeLine", "end of file"),
    ),
    "headers": between(
        b"",
        ABOVE + BELOW,
        (b"<ACROSS PUZZLE V2>\n", "Header", "line 1"),
        (b"<ACROSS  PUZZLE>\n", "Header", "line 1"),
        (b"ACROSS PUZZLE\n", "Header", "line 1"),
        (b"x\n<ACROSS PUZZLE>\n", "Header", "line 1"),
        (b"\xEF\xBB\xBF\xEF\xBB\xBF<ACROSS PUZZLE>\n", "Header", "line 1"),
        (b"\n\xEF\xBB\xBF<ACROSS PUZZLE>\n", "Header", "line 2"),
        (b" \t\r\n\n", "Header", "line 3"),
        (b"\xEF\xBB\xBF", "Header", "line 1"),
    ),
    # NULs are reported before any other fault.
    "nul_bytes": told(
        (b"\0", "NulByte", "line 1"),
        (b"no text\0\0", "NulByte", "line 1"),
        (TEXT + b"\0", "NulByte", "line 19"),
        (TEXT + b"<NOTEPAD>\n \0\n", "NulByte", "line 20"),
    ),
    # A tag must be the whole trimmed line.
    "lines_that_are_no_tag": between(
        b"<ACROSS PUZZLE>\n",
        b"\n<AUTHOR>\n",
        *((line, "Tag", "line 2") for line in (b"<TITLE >", b"<TITLE> x", b"<", b"<TITLE", b"< TITLE>", b"TITLE", b"<TITLE>\r ")),
    ),
    "lines_that_are_no_tag, the last": told((TOP + SIZE + ROWS + ACROSS + b"<DOWN>\r", "Tag", "line 13"), (TOP + SIZE + ROWS + ACROSS + b"<DOWN>\r\n", "DownCount", "end of file")),
    # Above the grid a text has at most one line, which must not start with `<`.
    "too_many_lines_of_a_text": told(
        (b"<ACROSS PUZZLE>\nx\n<TITLE>\n", "Tag", "line 2"),
        (b"<ACROSS PUZZLE>\n<TITLE>\nt\nu\n<AUTHOR>\n", "Tag", "line 4"),
        (b"<ACROSS PUZZLE>\n<TITLE>\n<t\n<AUTHOR>\n", "Tag", "line 3"),
        (b"<ACROSS PUZZLE>\n<TITLE>\n<AUTHOR>\na\nb\n<COPYRIGHT>\n", "Tag", "line 5"),
        (b"<ACROSS PUZZLE>\n<TITLE>\n<AUTHOR>\n<COPYRIGHT>\nc\nd\n<SIZE>\n", "Tag", "line 6"),
        (b"<ACROSS PUZZLE>\n<TITLE>\n<AUTHOR>\n<COPYRIGHT>\n<SIZE>\n2x2\nx\n<GRID>\n", "Tag", "line 7"),
    ),
    "size_lines": between(
        TOP + b"<SIZE>\n",
        b"\n" + ROWS + ACROSS + DOWN,
        *(
            (line, "SizeLine", "line 6")
            for line in b"2 by 2,2,x,2x,x2,2x2x2,0x2,2x000,256x2,2x999,0002x2,+2x2,2 2x2,2x2.,2x\r2,<2x2,<GRID>".split(b",")
        ),
    ),
    # Rows are checked one by one: the length of a row, then its bytes, then the next row.
    "rows": between(
        TOP + SIZE + b"<GRID>\n",
        b"<ACROSS>\n",
        (b"AT\nS?\n", "BadCell", "row 2, column 2"),
        (b"AT\nS\n", "GridLine", "line 9"),
        (b"AT\nSOX\n", "GridLine", "line 9"),
        (b"ATX\nS?\n", "GridLine", "line 8"),
        (b"A?\nS\n", "BadCell", "row 1, column 2"),
        (b"??\n??\n", "BadCell", "row 1, column 1"),
        (b"A T\nSO\n", "GridLine", "line 8"),
        (b"<T\nSO\n", "GridLine", "line 8"),
        (b"<?\n??\n", "GridLine", "line 8"),
        (b"AT\n<ACROSS>\n", "GridLine", "line 9"),
        (b"\xC3\x89\nSO\n", "BadCell", "row 1, column 1"),
        (b"A\r\nSO\n", "GridLine", "line 8"),
        (b"A\r \nSO\n", "BadCell", "row 1, column 2"),
        (b"AT\nSO\nXX\n", "Tag", "line 10"),
        (b"AT\nSO\n", "AcrossCount", "end of file"),
    ),
    # The count of clues is checked before the next tag.
    "counts_of_clues": between(
        TOP + SIZE + ROWS,
        b"",
        (b"<ACROSS>\na\nd\ne\n<DOWN>\nb\nc\n", "AcrossCount", "line 13"),
        (b"<ACROSS>\na\n<DOWN>\nb\nc\n", "AcrossCount", "line 12"),
        (b"<ACROSS>\na\n<NOTEPAD>\n", "AcrossCount", "line 12"),
        (b"<ACROSS>\na\n<d\n<DOWN>\nb\nc\n", "AcrossCount", "line 12"),
        (b"<ACROSS>\na\nd\n<NOTEPAD>\n", "Tag", "line 13"),
        (b"<ACROSS>\na\nd\n<d\n", "Tag", "line 13"),
        (b"<ACROSS>\na\nd\n<DOWN>\nb\n", "DownCount", "end of file"),
        (b"<ACROSS>\na\nd\n<DOWN>\nb\n<NOTES>\n", "DownCount", "line 15"),
        (b"<ACROSS>\na\nd\n<DOWN>\nb\nc\ne\n", "DownCount", "line 16"),
        (b"<ACROSS>\na\nd\n<DOWN>\nb\nc\ne\n<NOTEPAD>\n", "DownCount", "line 16"),
        (b"<ACROSS>\na\nd\n<DOWN>\nb\nc\n<NOTES>\n", "Tag", "line 16"),
        (b"<ACROSS>\na\nd\n<DOWN>\nb\nc\n<DOWN>\nb\nc\n", "Tag", "line 16"),
        (b"<DOWN>\nb\nc\n<ACROSS>\na\nd\n", "Tag", "line 10"),
    ),
}
