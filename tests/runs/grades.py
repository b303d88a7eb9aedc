"""Words with grades: `autofill` prefers good words, and `least` leaves bad ones out. The contracts do not say the first, since a fill is one
with any words."""
from steps import FIRST, call, compare, holds, run, write

from runs.journals import grows

# Words of three letters, 64 good ones and then 64 bad ones. A is the commonest first letter, and only bad words have it. The first cell has
# the fewest letters, so a search begins there.
GOOD = [first + second + third for first in "BC" for second in "LMNO" for third in "PQRSTUVW"]
BAD = ["A" + second + third for second in "DEFGHIJK" for third in "DEFGHIJK"]


def listed(good, bad):
    """A word list. What follows each word is given for the good and for the bad ones."""
    lines = [word + good for word in GOOD] + [word + bad for word in BAD]
    return "".join(line + "\n" for line in lines).encode()


def filled(seed):
    """The word that `autofill` enters in a grid of one light."""

    def word(room, program, name):
        typed = f"size 3 1\nautofill 1000 {seed}\nshow\n".encode()
        lines = call(room, program, f"edit --dict {name}", typed).stdout.decode().splitlines()
        compare("answers", lines[:3], ["ok", "filled", "ok"])
        return lines[3].replace(" ", "")

    return word


def is_good(name, wanted):
    def step(room, program):
        word = filled(1)(room, program, name)
        assert (word in GOOD) == wanted, f"{name}: {word}"

    return step


def same(name, other):
    """Both lists lead to the same fills."""

    def step(room, program):
        for seed in range(4):
            compare(f"{name} and {other}, seed {seed}", filled(seed)(room, program, name), filled(seed)(room, program, other))

    return step


# A list of words of two letters. The third has the grade 50.
PAIRS = write("pairs", b"as;70\nat;30\nso\nto;55\nin;100\n")


def with_pairs(typed, output, words="edit --dict pairs"):
    return run(words, typed, output, errors=b"xw: pairs: 5 added, 0 skipped\n")


# The end of a record of a grid of 2 columns and 1 row.
A_GRID = b"size 2 1\nsym none\ntext title \ntext author \ntext copyright \ntext notes \nwatch off\n"

CASES = {
    "good_words_first": [write("graded", listed(";90", ";10")), is_good("graded", True)],
    "commonest_letter_without_grades": [write("plain", listed("", "")), is_good("plain", False)],
    "negative_is_nought": [write("graded", listed(";50", " ; -7 ;90\r")), is_good("graded", True)],
    "no_number_is_50": [write("graded", listed(";7.5", ";10")), is_good("graded", True)],
    "above_100_is_100": [write("graded", listed(";100", ";900")), write("plain", listed("", "")), same("graded", "plain")],
    "equal_grades_change_nothing": [write("graded", listed(";70", ";70")), write("plain", listed("", "")), same("graded", "plain")],
    "words_below_a_grade_left_out": [
        PAIRS,
        with_pairs(
            b"match ..\nleast 50\nmatch ..\nleast 71\nmatch ..\nsize 3 3\nmatch ..\nleast 0\nmatch ..\n",
            b"AS\nAT\nSO\nTO\nIN\nok\nok\nAS\nSO\nTO\nIN\nok\nok\nIN\nok\nok\nIN\nok\nok\nAS\nAT\nSO\nTO\nIN\nok\n",
        ),
    ],
    "no_fill_with_words_left_out": [
        write("graded", listed(";90", ";10")),
        run(
            "edit --dict graded",
            b"size 3 1\nleast 11\nwords 1 across 0\nleast 91\nwords 1 across 0\nautofill 1000\nfill 1000\nleast 0\nwords 1 across 0\n",
            b"ok\nok\n64\nok\nok\n0\nok\nnofill\nok\nnofill\nok\nok\n128\nok\n",
            errors=b"xw: graded: 128 added, 0 skipped\n",
        ),
    ],
    "grades_of_a_list": [
        PAIRS,
        with_pairs(
            b"size 2 2\nplace 1 across as\nplace 3 across to\nleast 60\ngrades\ngrades 2 down 1 across\nstrike as\nset 2 1 x\ngrades 1 across 1 down\n",
            b"ok\nok\nok\nok\n1 across 70\n1 down 30\n2 down 50\n3 across 55\nok\n2 down 50\n1 across 70\nok\nok\nok\n1 across 70\n1 down -\nok\n",
        ),
    ],
    # Words with grades that were given, raised, or not; one that is left out and comes back; and one that is struck with a new grade.
    "grades_recorded": [
        PAIRS,
        with_pairs(
            b"add it 20\nadd on\nstrike at\nadd at 90\nstrike as\nadd as 10\nstrike as\nleast 50\nadd it\nsize 2 1\n",
            b"ok\n" * 10,
            "edit --dict pairs --save mine.xw",
        ),
        holds(
            "mine.xw",
            FIRST + b"add IT 50\nadd ON\nstrike AS\nadd AS 10\nstrike AT\nadd AT 90\nstrike IT\nadd IT 50\nstrike AS\nleast 50\n" + A_GRID,
        ),
        with_pairs(
            b"match ..\nleast 0\nmatch ..\nadd as\nplace 1 across as\ngrades\nleast 10\nmatch A.\nleast 11\nmatch A.\n",
            b"AT\nSO\nTO\nIN\nIT\nON\nok\nok\nAT\nSO\nTO\nIN\nIT\nON\nok\nok\nok\n1 across 10\nok\nok\nAS\nAT\nok\nok\nAT\nok\n",
            "edit --dict pairs --resume mine.xw",
        ),
    ],
    # A word that is only left out is recorded as it was listed.
    "words_left_out_recorded": [
        PAIRS,
        with_pairs(b"least 100\nsize 2 1\n", b"ok\nok\n", "edit --dict pairs --save mine.xw"),
        holds("mine.xw", FIRST + b"least 100\n" + A_GRID),
        with_pairs(b"match ..\nleast 55\nmatch ..\n", b"IN\nok\nok\nAS\nTO\nIN\nok\n", "edit --dict pairs --resume mine.xw"),
    ],
    "grades_journaled": [
        grows(
            (b"size 2 1", b"ok\n", b"size 2 1\n"),
            (b"add on 30", b"ok\n", b"add on 30\n"),
            (b"least 40", b"ok\n", b"least 40\n"),
            (b"match ..", b"ok\n", b""),
            (b"grades", b"ok\n", b""),
            (b"least 101", b"no Arguments\n", b""),
            (b"add no 101", b"no Arguments\n", b""),
            (b" least  40", b"ok\n", b" least  40\n"),
        ),
        run("edit --journal mine.xw", b"match ..\nleast 30\nmatch ..\n", b"ok\nok\nON\nok\n"),
        holds("mine.xw", FIRST + b"add ON 30\nleast 30\n" + A_GRID),
    ],
}
