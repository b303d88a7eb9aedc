"""`.puz` files: reading, writing, and extra sections that are ignored or refused."""
from samples import (
    ALL_TEXTS,
    CIRCLED,
    CLUE_COUNT,
    CORNERS,
    CORNERS_CIRCLED,
    CORNERS_MARKED,
    EMPTY_CELL,
    LOWER_CASE,
    NO_CLUE,
    ONE_CELL,
    PLAIN,
    STARTED,
    TITLED,
    UNUSUAL,
    WIDE,
    WITH_NOTES,
)
from steps import CLUES, FORMAT, REFUSED, compare, holds, is_read_as, run, write


def is_rewritten(data, wanted):
    """Reads a file, writes it again, and checks the result."""
    return [write("file", data), run("convert file out.puz"), holds("out.puz", wanted)]


def is_refused(data, fault):
    return [write("file", data), run("check file", errors=f"xw: file: {fault}\n".encode(), status=FORMAT)]


def with_turned(offset):
    """Returns the plain file with all bits of one byte flipped."""
    return PLAIN[:offset] + bytes([PLAIN[offset] ^ 0xFF]) + PLAIN[offset + 1 :]


# The largest grid, with a letter in each cell and a one-letter clue for each light.
LARGEST = (
    b"<ACROSS PUZZLE>\n<TITLE>\n<AUTHOR>\n<COPYRIGHT>\n<SIZE>\n255x255\n<GRID>\n"
    + (b"A" * 255 + b"\n") * 255
    + b"<ACROSS>\n"
    + b"a\n" * 255
    + b"<DOWN>\n"
    + b"b\n" * 255
)


def is_as_long_as_due(room, program):
    """The length: a header, 3 bytes per cell, 4 NULs, 2 bytes for each of 510 clues, and the rest of a section."""
    compare("length", len((room / "largest.puz").read_bytes()), 52 + 3 * 65025 + 4 + 2 * 510 + 9)


# A section with a mark for the first of four cells.
FIRST = b"GEXT\x04\0\x10\0\x80\0\0\0\0"

# A section with a mark for the last of four cells.
LAST = b"GEXT\x04\0\x80\0\0\0\0\x80\0"

# Bytes that are ignored after any file.
NOT_WHOLE = {
    "marks behind a line end": b"\r\nGEXT\x04\0\x10\0\x80\0\0\0\0",
    "marks behind a NUL": b"\0GEXT\x04\0\x10\0\x80\0\0\0\0",
    "another name, and a name that is cut": b"gext\x04\0\x10\0\x80\0\0\0\0GEX",
    # The closing byte is not a NUL, or lies past the end of the file.
    "a time that is not closed": b"LTIM\x03\0\0\x001,0!",
    "a time that is longer than the file": b"LTIM\xFF\0\0\x001,0\0",
    "marks that are not closed": b"GEXT\x04\0\x10\0\x80\0\0\0!",
    "marks that are cut": b"GEXT\x04\0\x10",
    "marks but for the closing byte": b"GEXT\x04\0\x10\0\x80\0\0\0",
    "any bytes": b"any bytes at all",
}


# A section of rebus cells: one more than the number of a cell's spelling, in the first of four cells.
REBUS = b"GRBS\x04\0\x10\0\x01\0\0\0\0"

KEPT_NO_REBUS = b"xw: file: rebus cells are not kept\n"


def is_told_of(sections, data=PLAIN, wanted=PLAIN):
    """Checks that each call that reads a file with these sections reports the rebus cells once, and that nothing else changes."""
    return [
        write("file", data + sections),
        run("check file", output=b"puz 2x2 4 lights\n", errors=KEPT_NO_REBUS),
        run("check --explain file", output=b"puz 2x2 4 lights\n", errors=KEPT_NO_REBUS),
        run("convert file out.puz", errors=KEPT_NO_REBUS),
        holds("out.puz", wanted),
        run("edit --from file --to out.puz", b"show\nfrob\n", b"A T\nS O\nok\nno Command\n", KEPT_NO_REBUS, REFUSED),
        holds("out.puz", wanted),
    ]


def is_not_told_of(sections, output=b"puz 2x2 4 lights\n"):
    return [write("file", PLAIN + sections), run("check file", output=output)]


def is_passed_over(section):
    """Checks that a section after a file is ignored."""
    files = [(PLAIN, PLAIN), (STARTED, PLAIN), (WITH_NOTES, WITH_NOTES), (CIRCLED, CIRCLED)]
    return [step for data, wanted in files for step in is_rewritten(data + section, wanted)]


CASES = {
    "reads_the_plain_puzzle: PLAIN": is_read_as(PLAIN, b"A T\nS O\n"),
    "reads_the_plain_puzzle: STARTED": is_read_as(STARTED, b"A T\nS O\n"),
    "reads_the_plain_puzzle: LOWER_CASE": is_read_as(LOWER_CASE, b"A T\nS O\n"),
    "reads_the_plain_puzzle: UNUSUAL": is_read_as(UNUSUAL, b"A T\nS O\n"),
    "reads_other_puzzles: ALL_TEXTS": is_read_as(
        ALL_TEXTS, b"A T\nS O\n", texts=b"title T\nauthor by \xE9\xFF\ncopyright (c)\nnotes two\\nlines\n" + CLUES
    ),
    "reads_other_puzzles: TITLED": is_read_as(TITLED, b"A T\nS O\n", texts=b"title T\n" + CLUES),
    "reads_other_puzzles: WITH_NOTES": is_read_as(WITH_NOTES, b"A T\nS O\n", texts=b"notes n\n" + CLUES),
    "reads_other_puzzles: CORNERS": is_read_as(
        CORNERS,
        b"# A B\nC D E\nF G #\n",
        texts=b"title Corners\nauthor Me\ncopyright 2026\nnotes Some notes\n"
        b"clue 1 across one across\nclue 1 down one down\nclue 2 down two down\n"
        b"clue 3 across three across\nclue 4 across four across\n",
    ),
    "reads_other_puzzles: EMPTY_CELL": is_read_as(EMPTY_CELL, b"A -\nS O\n"),
    "reads_other_puzzles: ONE_CELL": is_read_as(ONE_CELL, b"Z\n", texts=b""),
    "reads_other_puzzles: WIDE": is_read_as(
        WIDE,
        b"# A B\nC D E\n",
        texts=b"clue 1 across a\nclue 1 down b\nclue 2 down c\nclue 3 across d\n",
        circles=b"1 2\n2 3\n",
    ),
    "writes_what_was_read: PLAIN": is_rewritten(PLAIN, PLAIN),
    "writes_what_was_read: TITLED": is_rewritten(TITLED, TITLED),
    "writes_what_was_read: WITH_NOTES": is_rewritten(WITH_NOTES, WITH_NOTES),
    "writes_what_was_read: CIRCLED": is_rewritten(CIRCLED, CIRCLED),
    "writes_what_was_read: CORNERS": is_rewritten(CORNERS, CORNERS),
    "writes_what_was_read: NO_CLUE": is_rewritten(NO_CLUE, NO_CLUE),
    "writes_what_was_read: ONE_CELL": is_rewritten(ONE_CELL, ONE_CELL),
    "writes_what_was_read: ALL_TEXTS": is_rewritten(ALL_TEXTS, ALL_TEXTS),
    "writes_what_was_read: WIDE": is_rewritten(WIDE, WIDE),
    "writes_what_was_read: STARTED": is_rewritten(STARTED, PLAIN),
    "writes_what_was_read: LOWER_CASE": is_rewritten(LOWER_CASE, PLAIN),
    "writes_what_was_read: UNUSUAL": is_rewritten(UNUSUAL, PLAIN),
    # Reserved bytes are ignored.
    "refuses_altered_files: reserved bytes": [step for offset in range(0x1C, 0x2C) for step in is_rewritten(with_turned(offset), PLAIN)],
    "keeps_the_largest_grid": [
        write("largest.txt", LARGEST),
        run("edit --from largest.txt --to largest.puz", b"circle 255 255\n", output=b"ok\n"),
        is_as_long_as_due,
        run("check largest.puz", output=b"puz 255x255 510 lights\n"),
        run("edit --from largest.puz", b"circles\nshow\n", output=b"255 255\nok\n" + (b"A " * 254 + b"A\n") * 255 + b"ok\n"),
    ],
    "circles_marked_cells: CIRCLED": is_read_as(CIRCLED, b"A T\nS O\n", circles=b"1 1\n"),
    # A mark on a block is ignored.
    "circles_marked_cells: CORNERS_MARKED": [
        write("file", CORNERS_MARKED),
        run("edit --from file", b"circles\n", output=b"1 2\nok\n"),
        *is_rewritten(CORNERS_MARKED, CORNERS_CIRCLED),
    ],
    "takes_the_first_marks: a line end": is_rewritten(PLAIN + FIRST + b"\r\n", CIRCLED),
    "takes_the_first_marks: other marks": is_rewritten(PLAIN + FIRST + LAST, CIRCLED),
    "takes_the_first_marks: a section that is not whole": is_rewritten(PLAIN + FIRST + b"GEXT\x04\0\0\0\x80", CIRCLED),
    "takes_the_first_marks: after a time": is_rewritten(PLAIN + b"LTIM\x03\0\x12\x341,0\0" + FIRST, CIRCLED),
    "takes_the_first_marks: after a time and before a line end": [
        *is_read_as(PLAIN + b"LTIM\x03\0\0\x001,0\0" + FIRST + b"\r\n", b"A T\nS O\n", circles=b"1 1\n"),
        *is_rewritten(PLAIN + b"LTIM\x03\0\0\x001,0\0" + FIRST + b"\r\n", CIRCLED),
    ],
    "takes_the_first_marks: after no bytes": is_rewritten(PLAIN + b"NONE\0\0\x99\x99\0" + FIRST, CIRCLED),
    "takes_the_first_marks: after another name": is_rewritten(PLAIN + b"gext\x04\0\0\0\0\0\0\x80\0" + FIRST, CIRCLED),
    "tells_of_rebus_cells": is_told_of(REBUS),
    "tells_of_rebus_cells: before marks": is_told_of(REBUS + FIRST, wanted=CIRCLED),
    "tells_of_rebus_cells: after marks": is_told_of(FIRST + REBUS, wanted=CIRCLED),
    "tells_of_rebus_cells: after other sections": is_told_of(b"LTIM\x03\0\x12\x341,0\0NONE\0\0\0\0\0" + REBUS),
    "tells_of_rebus_cells: after notes": is_told_of(REBUS, data=WITH_NOTES, wanted=WITH_NOTES),
    # The checksum and the length of such a section do not matter, and two are reported once.
    "tells_of_rebus_cells: of any sum": is_told_of(b"GRBS\x04\0\xFF\xFF\x01\0\0\0\0"),
    "tells_of_rebus_cells: of no bytes": is_told_of(b"GRBS\0\0\0\0\0"),
    "tells_of_rebus_cells: once": is_told_of(REBUS + REBUS),
    # A section that is cut off is none, and neither is what follows it. Names are case sensitive.
    "tells_of_no_rebus_cells: in other data": is_not_told_of(b"LTIM\x0D\0\0\0" + REBUS + b"\0"),
    "tells_of_no_rebus_cells: another case": is_not_told_of(b"grbs" + REBUS[4:]),
    "tells_of_no_rebus_cells: the spellings alone": is_not_told_of(b"RTBL\x06\0\0\0 0:AB;\0"),
    "tells_of_no_rebus_cells: not closed": is_not_told_of(REBUS[:-1] + b"!"),
    "tells_of_no_rebus_cells: cut": is_not_told_of(REBUS[:-1]),
    "tells_of_no_rebus_cells: behind a line end": is_not_told_of(b"\r\n" + REBUS),
    "tells_of_no_rebus_cells: behind marks that are cut": is_not_told_of(b"GEXT\x04\0\x10\0\x80\0\0\0!" + REBUS),
    # For a file with a fault only the fault is reported; for a puzzle that cannot be written, both are.
    "tells_of_no_rebus_cells: of a file that is not read": is_refused(with_turned(0) + REBUS, "BadSum"),
    "tells_of_rebus_cells: of a puzzle that is not written": [
        write("file", CIRCLED + REBUS),
        run("convert file out.txt", errors=KEPT_NO_REBUS + b"xw: out.txt: Circled\n", status=FORMAT),
    ],
    # Only the highest bit of a mark counts.
    "takes_the_first_marks: other bits": is_rewritten(PLAIN + b"GEXT\x04\0\xBF\x20\xFF\x7F\x01\x7F\0", CIRCLED),
    **{f"passes_over_what_is_not_whole: {name}": is_passed_over(section) for name, section in NOT_WHOLE.items()},
    "refuses_sections: sum": is_refused(PLAIN + b"GEXT\x04\0\x11\0\x80\0\0\0\0", "GextSum"),
    "refuses_sections: three bytes": is_refused(PLAIN + b"GEXT\x03\0\x20\0\x80\0\0\0", "GextSize"),
    "refuses_sections: no bytes": is_refused(PLAIN + b"GEXT\0\0\0\0\0", "GextSize"),
    "refuses_sections: five bytes": is_refused(PLAIN + b"GEXT\x05\0\x08\0\x80\0\0\0\0\0", "GextSize"),
    # The length is checked before the checksum.
    "refuses_sections: three bytes, and their sum": is_refused(PLAIN + b"GEXT\x03\0\x21\0\x80\0\0\0", "GextSize"),
    # Only the first section counts.
    "refuses_sections: the sum of the first of two": is_refused(PLAIN + b"GEXT\x04\0\x11\0\x80\0\0\0\0" + FIRST, "GextSum"),
    "refuses_sections: the first of two": is_refused(PLAIN + b"GEXT\x03\0\x20\0\x80\0\0\0" + FIRST, "GextSize"),
    "refuses_sections: after a number of clues that is too small": is_refused(CLUE_COUNT + b"GEXT\0\0\0\0\0", "ClueCount"),
}
