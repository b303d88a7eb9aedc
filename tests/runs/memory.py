"""Every allocation of the program refused in turn: in each command, each option, and each file that is read or written."""
import fcntl
import pathlib
import re

from refusing import STATE, each_call, each_line, without_memory
from samples import CIRCLED, CORNERS_MARKED, PLAIN, TEXT, WITH_NOTES, WRONG_SUM
from steps import FIRST, write

MANUAL = pathlib.Path(__file__).resolve().parents[2] / "docs/commands.md"


def lines(text):
    return text.encode().strip().split(b"\n")


def commands_of_the_manual():
    """The commands that the manual describes, each with its arguments."""
    headings = re.findall(r"^### ([a-z].*)$", MANUAL.read_text(), re.M)
    return [command for heading in headings for command in heading.split(", ")]


# The commands of the manual that take no arguments, all of them queries.
ALONE = [command.encode() for command in commands_of_the_manual() if " " not in command]


LONG = "It is told at length; " * 90

# Each command of the manual with arguments: accepted, refused for each reason, and taking away what it set. A line with '!' takes no memory.
COMMANDS = """size 5 5
sym half
watch on
add ON
add VERSE
add SEVEN
strike ON
!add ON
add on
add 4
add A
strike DOG
match .....
match 4
add FINE 30
!least 40
!add FINE 20
!least 101
!grade FINE
!grade GONE
!grades
!grades 1 across 1 down
!grades 99 down
!least 0
block 1 1
block 9 9
bar 2 2 right
bar 1 5 right
clue 1 across A clue
clue 1 across
clue 1 across Another
clue 99 down Nothing
title A title
author An author
copyright (c)
notes Some notes
title
more notes \\nand more
text clue 1 2 down Told
text notes \\x
text clue 9 9 down Nowhere
text clue 1 2 down
more clue 3 3 across New
more title \\sgoes on
text author \\\\
text copyright Changed
circle 2 1
circle 2 3
circle 1 1
!circle 2 1
circles
texts
block 1 1
place 1 across VERSE
place 1 across X
block 1 1
set 2 1 X
set 2 1 XX
clear 2 1
clear 6 1
words 1 across
words 2 down 1
words 99 down
choices 1 across 2
choices 2 down 9
choices 99 down 1
letters 2 2
tally 2 2
tally 1 1
tally 9 9
erase 99 down
show
lights
stats
cells
counts
dups
unlisted
unmatched
suggest
why 1 across
why 2 down
fill 100
fill 0
autofill 100
autofill 0 1 2 down 1 across
autofill 100 0 99 down
best 100
best 0 1 2 down 1 across
best 100 0 99 down
strike SEVEN
record
erase 1 across
watch off
bar 3 3 below
sym leftright
sym updown
sym none
sym quarter
block 3 3
size 4 4
size 256 1
!help
!help set
!help frob
nonsense

# a note
size 2 7
size 1 1
suggest
fill 1"""

# The square of AS, AT, SO, TO and IN, with each answer of `suggest` and of `fill`.
SQUARE = ["size 2 2", "add AS", "add AT", "add SO", "add TO", "add IN"]
FILLS = [*SQUARE, "watch on", "fill 3", "suggest", "fill 4", "suggest", "clear 1 1", "set 1 1 X", "suggest", "why 3 across", "fill 9", "clear 1 1", "strike SO", "fill 100", "dups", "autofill 100", "clear 1 2", "clear 2 1", "add SO", "autofill 100 3 1 across", "clear 1 1", "clear 1 2", "clear 2 1", "best 0 7", "best 100 3 1 across", "best 100", "tally 2 1"]

# One word more than a chunk of 64 holds, on lights of that length.
CHUNK = ["size 3 2", *(f"add A{chr(65 + number // 26)}{chr(65 + number % 26)}" for number in range(65))]
CHUNK += ["watch on", "add BAA", "strike AAA", "!add AAA", "size 7 1", "block 1 4", "block 1 4"]

# More lights that repeat a word, and more that are not listed, than a list has room for at first.
REPEATS = ["size 2 10", "add AA", *(f"place {number} across AA" for number in [1, *range(3, 11)]), "dups", "strike AA", "unlisted", "fill 3"]

# Texts that grow, a line that is too long, and more circles than a set has room for at first.
TEXTS = ["size 3 3", *(f"title {LONG}", f"more title {LONG}") * 2, f"clue 1 across {LONG}", f"more clue 1 1 across {LONG}", f"notes {LONG * 3}"]
TEXTS += [f"circle {row} {col}" for row in (1, 2, 3) for col in (1, 2, 3)] + ["!circle 1 1"]

# As many words of one length as a block of the index holds, and some of other lengths.
MANY = "".join(f"{chr(65 + n // 676)}{chr(65 + n // 26 % 26)}{chr(65 + n % 26)}\n" for n in range(512)) + "as\nabode\neased\n"

# Each line of these sessions is refused memory.
SESSIONS = {
    "commands": ("edit", lines(COMMANDS) + ALONE),
    "fills": ("edit", lines("\n".join(FILLS))),
    "many_words": ("edit", lines("\n".join(CHUNK))),
    "repeats": ("edit", lines("\n".join(REPEATS))),
    "texts": ("edit", lines("\n".join(TEXTS))),
    "a_list": ("edit --dict few", lines("size 5 3\nadd ABIDE\nblock 2 2\nfill 9\nsize 2 2\nfill 9")),
    "a_full_block": ("edit --dict many", lines("size 3 1\nadd ZZZ\nadd ZZY\nadd ABIDE")),
    "a_puzzle": ("edit --from puzzle", lines("block 3 3\nset 3 3 Z\nclue 1 across New\ncircle 3 3\n!circle 1 2\ntitle New\nsize 2 2")),
}

# A session to resume, with each kind of line.
BEGUN = b"""# a note
add CAT
add COT
strike COT
size 3 3
sym half
bar 1 1 right
block 1 3
set 2 2 A
title Mine
more title , and more
circle 1 2
text clue 1 1 down Told

watch on
"""

# Edits that are executed at once, with a line of each kind between them, and some that are refused.
EDITS = b"size 5 5\n" + b"".join(b"block %d 3\nset %d 3 A\n" % (row, row) for row in range(1, 5)) + b"""title Mine
set 1 1 A
place 1 across ON
clue 1 across Told
clue 99 down Told
circle 1 1
text clue 1 2 down Told
more title , and more
lights
watch on
set 5 1 A
set 5 2 B
clear 5 2
bar 1 1 right
bar 9 9 right
sym half
"""

OLD = b"old\n"
REFUSED_LINE = b"add CAT\nadd CAT\ntitle Mine\n"
FILES = {
    "few": b"as\nat\nSO;50\n\nto\nin\nabode\neased\nas\n",
    "many": MANY.encode(),
    "circled": CIRCLED,
    "puzzle": CORNERS_MARKED,
    "plain": PLAIN,
    "noted": WITH_NOTES,
    "wrong": WRONG_SUM,
    "cut": PLAIN[:66],
    "text": TEXT,
    "misshapen": TEXT.replace(b"\td\n", b""),
    "misspelt": TEXT.replace(b"SO", b"S?"),
    "mine.xw": BEGUN,
    "refused.xw": REFUSED_LINE,
    "broken.xw": b"add CAT\nfrob\ntitle Mine\n",
    "edits.xw": EDITS,
}

NEW_PUZ, NEW_TEXT, NEW_XW = {"new.puz": OLD}, {"new.txt": None}, {"new.xw": OLD, "new.xw~": None}

# Each allocation of these calls is refused: the words of the call, the lines that are typed, and the files that it may write.
CALLS = {
    "starting": ("edit --dict few", [b"add IT", *STATE], {}),
    "telling_how_far_searches_are": ("edit --dict few --progress", [b"size 2 2", b"choices 1 across 9", b"best 9", b"fill 9"], {}),
    "starting_over_many_words": ("edit --dict many", [b"add ZZZ"], {}),
    "reading_puz": ("edit --from puzzle", STATE, {}),
    "reading_text": ("edit --from text", STATE, {}),
    "writing_puz": ("edit --from text --to new.puz", [b"circle 1 1"], NEW_PUZ),
    "writing_text": ("edit --from noted --to new.txt", [b"title New"], NEW_TEXT),
    "saving": ("edit --resume mine.xw --save new.xw", [b"title New"], NEW_XW),
    "saving_both": ("edit --from text --save new.xw --to new.puz", [b"title New"], {"new.xw": None, "new.puz": None}),
    "saving_and_not_writing": ("edit --explain --save new.xw --to new.puz", [b"size 2 2", b"bar 1 1 right"], {**NEW_XW, **NEW_PUZ}),
    "resuming": ("edit --dict few --resume mine.xw", STATE, {}),
    "resuming_a_refused_line": ("edit --resume refused.xw", [b"record"], {}),
    "resuming_many_edits": ("edit --resume edits.xw", [b"record"], {}),
    "resuming_a_line_that_is_no_command": ("edit --resume broken.xw --save new.xw", [b"record"], NEW_XW),
    "puz_to_puz": ("convert noted new.puz", [], NEW_PUZ),
    "puz_to_text": ("convert noted new.txt", [], NEW_TEXT),
    "text_to_puz": ("convert text new.puz", [], NEW_PUZ),
    "text_to_text": ("convert text new.txt", [], NEW_TEXT),
    "a_fault_of_writing": ("convert --explain circled new.txt", [], NEW_TEXT),
    "a_field_that_is_not_written": ("edit --explain --from plain --to new.txt", [b"clue 2 down"], NEW_TEXT),
    "a_sum_that_is_wrong": ("check --explain wrong", [], {}),
    "a_text_without_end": ("check --explain cut", [], {}),
    "a_line_that_is_missing": ("check --explain misshapen", [], {}),
    "a_cell_that_is_wrong": ("check --explain misspelt", [], {}),
    "a_fault_without_its_location": ("check wrong", [], {}),
    "a_list_that_is_not_there": ("edit --dict gone", [], {}),
    "a_puzzle_that_is_not_there": ("edit --from gone", [], {}),
    "a_session_that_is_not_there": ("edit --resume gone --save new.xw", [], NEW_XW),
    "a_puzzle_for_no_folder": ("convert plain no/such/folder.puz", [], {}),
    "a_session_for_no_folder": ("edit --save no/such/folder.xw", [b"title New"], {}),
    "checking_puz": ("check plain", [], {}),
    "checking_text": ("check text", [], {}),
    "checking_several": ("check wrong gone --explain cut", [], {}),
    "checking_the_input": ("check -", [], {}),
    "a_reason_of_the_system": ("check --explain gone", [], {}),
    "text_under_another_name": ("convert noted new", [], {"new": None}),
    "help": ("--help", [], {}),
    "help_by_a_letter": ("-h", [], {}),
    "help_by_a_word": ("help", [], {}),
    "help_on_edit": ("edit --help", [], {}),
    "help_on_convert": ("convert --help", [], {}),
    "help_on_check": ("check --help", [], {}),
    "version": ("--version", [], {}),
    "no_options": ("edit", [], {}),
    "no_words": ("", [], {}),
    "no_subcommand": ("frob", [], {}),
    "no_option": ("edit --frob", [], {}),
    "an_extra_word": ("edit words.txt", [], {}),
    "a_missing_word": ("convert plain", [], {}),
    "a_missing_value": ("edit --dict", [], {}),
    "an_option_twice": ("edit --to a --to b", [], {}),
    "two_starts": ("edit --from plain --resume mine.xw", [], {}),
    "one_file_to_write": ("edit --to new --save new", [], {}),
    "the_list_to_write": ("edit --dict few --to few", [], {}),
    "the_list_to_write_by_another_path": ("edit --dict few --to ./few", [], {}),
    "one_file_to_write_by_another_path": ("edit --to new --save ./new", [], {}),
    "the_puzzle_to_save_over": ("edit --from plain --save plain", [], {"plain": PLAIN}),
    "a_puzzle_to_save_as": ("edit --save new.puz", [], NEW_PUZ),
    "saving_a_session_with_a_refused_line": ("edit --resume new.xw --save new.xw", [b"watch on"], {"new.xw": REFUSED_LINE, "new.xw~": None}),
}

# Lines of a journal, and those that it is given; each is done without memory.
BEGUN_LINES = b"add AT\nadd SO\nsize 2 1\n"
BEGUN_JOURNAL = FIRST + BEGUN_LINES
TYPED = [b"set 1 1 S", b"show", b"strike AT", b"fill 9"]
GROWN = b"set 1 1 S\nstrike AT\n"
FILLED = GROWN + b"# xw begin\nset 1 2 O\n# xw end\n"
NOT_THERE = b"set 9 9 A\n"

# The same with a journal: what it may hold besides its old lines and those of the whole session.
JOURNALED = {
    "a_new_journal": ("edit --dict few --journal new.xw", [b"watch on", b"show"], {"new.xw": None}, {"new.xw": (b"", FIRST, FIRST + b"watch on\n")}),
    "a_journal": (
        "edit --journal new.xw --sync",
        TYPED,
        {"new.xw": BEGUN_JOURNAL},
        {"new.xw": (BEGUN_JOURNAL + GROWN, BEGUN_JOURNAL + FILLED)},
    ),
    "a_journal_with_a_refused_line": (
        "edit --journal new.xw",
        TYPED,
        {"new.xw": BEGUN_JOURNAL + NOT_THERE},
        {"new.xw": (BEGUN_JOURNAL + NOT_THERE + GROWN, BEGUN_JOURNAL + NOT_THERE + FILLED)},
    ),
    "a_journal_without_its_first_line": (
        "edit --journal new.xw",
        TYPED,
        {"new.xw": BEGUN_LINES},
        {"new.xw": (BEGUN_JOURNAL, BEGUN_JOURNAL + GROWN, BEGUN_JOURNAL + FILLED)},
    ),
    "a_cut_journal": (
        "edit --journal new.xw",
        TYPED,
        {"new.xw": BEGUN_JOURNAL + b"add"},
        {"new.xw": (BEGUN_JOURNAL, BEGUN_JOURNAL + GROWN, BEGUN_JOURNAL + FILLED)},
    ),
    "a_cut_search": (
        "edit --journal new.xw",
        TYPED,
        {"new.xw": BEGUN_JOURNAL + b"# xw begin\nset 1 1 A\nset"},
        {"new.xw": (BEGUN_JOURNAL, BEGUN_JOURNAL + GROWN, BEGUN_JOURNAL + FILLED)},
    ),
    "a_cut_first_line": ("edit --journal new.xw", [b"watch on"], {"new.xw": FIRST[:7]}, {"new.xw": (b"", FIRST, FIRST + b"watch on\n")}),
    "a_file_that_is_no_journal": ("edit --journal cut.xw", [b"record"], {"cut.xw": BEGUN_LINES + b"title"}),
    "a_journal_with_a_line_that_is_no_command": ("edit --journal broken.xw", [b"record"], {}, {}),
    "a_journal_that_is_a_folder": ("edit --journal .", [b"record"], {}, {}),
    "a_journal_that_is_the_list": ("edit --dict few --journal few", [], {}, {}),
    "a_journal_that_is_not_there_twice": ("edit --journal new.xw --to ./new.xw", [], {"new.xw": None}, {}),
    "a_journal_and_a_start": ("edit --resume mine.xw --journal new.xw", [], {"new.xw": None}, {}),
    "sync_alone": ("edit --sync", [], {}, {}),
    "a_journal_and_a_puzzle": (
        "edit --journal new.xw --save new.too --to new.txt",
        [b"watch on"],
        {"new.xw": None, "new.too": None, **NEW_TEXT},
        {"new.xw": (b"", FIRST, FIRST + b"watch on\n")},
    ),
}


def has_each_of_the_manual(room, program):
    """Each command and each option of the manual is in a session or in a call above."""
    manual = MANUAL.read_text()
    commands = {command.split()[0] for command in commands_of_the_manual()}
    options = set(re.findall(r"--[a-z]+", manual.split("\n\n")[1])) | {"--help"}
    typed = {line.split()[0].decode().removeprefix("!") for _, typed in SESSIONS.values() for line in typed if line.split()}
    called = {word for words, *_ in [*CALLS.values(), *JOURNALED.values()] for word in words.split()}
    missing = (commands - typed) | (options - called)
    assert len(commands) > 30 and len(options) > 6 and not missing, f"no case has {missing}"


# Letters, placements, strikes and words that return take no memory, nor does a question.
WITHOUT_MEMORY = {
    b"set 1 1 X": b"ok\n",
    b"clear 1 1": b"ok\n",
    b"strike SO": b"ok\n",
    b"add SO": b"ok\n",
    b"sym half": b"ok\n",
    b"place 1 across AT": b"ok\n",
    b"words 1 across": b"1\nAT\nok\n",
    b"suggest": b"try 2 down TO\nok\n",
}
IN_THE_SQUARE = [b"!" + line for line in WITHOUT_MEMORY] + [b"add OX", b"clear 1 1", b"clear 1 2", b"block 1 1"]

WRITTEN = [write(name, data) for name, data in FILES.items()]


def while_locked(name, step):
    """Does a step while this process has a file locked."""

    def locked(room, program):
        with open(room / name, "rb") as file:
            fcntl.flock(file, fcntl.LOCK_EX)
            step(room, program)

    return locked


CASES = {
    "each_of_the_manual": [has_each_of_the_manual],
    "square_without_memory": [without_memory(lines("\n".join(SQUARE)), list(WITHOUT_MEMORY), b"".join(WITHOUT_MEMORY.values()))],
    "square_refused_line_by_line": [each_line("edit", lines("\n".join(SQUARE)) + IN_THE_SQUARE)],
    **{f"refused_in_{name}": [*WRITTEN, each_line(words, typed)] for name, (words, typed) in SESSIONS.items()},
    **{f"refused_in_{name}": [*WRITTEN, each_call(words, typed, files)] for name, (words, typed, files) in CALLS.items()},
    **{f"refused_in_{name}": [*WRITTEN, each_call(*call)] for name, call in JOURNALED.items()},
    "refused_in_a_journal_in_use": [*WRITTEN, while_locked("mine.xw", each_call("edit --journal mine.xw", [b"record"]))],
    "refused_in_saving_into_a_journal": [*WRITTEN, while_locked("mine.xw", each_call("edit --save mine.xw", [b"record"]))],
    "refused_in_converting_into_a_journal": [*WRITTEN, while_locked("mine.xw", each_call("convert plain mine.xw"))],
}
