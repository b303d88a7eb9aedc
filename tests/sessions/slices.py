"""Searches in slices: `autofill` and `best` sent again go on where they ended."""
from steps import call, compare, write

# Placements of a slice, and more slices than a search needs.
SLICE = 1000
MOST_SLICES = 200
SEEDS = range(5)


def draws():
    """The numbers of a simple generator."""
    state = 1
    while True:
        state = (state * 6364136223846793005 + 1442695040888963407) % 2**64
        yield state >> 33


def drawn(count, length, letters):
    """Words of drawn letters: a square of them takes some thousands of placements."""
    words, numbers = set(), draws()
    while len(words) < count:
        words.add("".join(letters[next(numbers) % len(letters)] for _ in range(length)))
    return "".join(f"{word}\n" for word in sorted(words)).encode()


def graded(count, length, letters):
    """Words of drawn letters with drawn grades: the best square of them takes some thousands of placements."""
    grades, numbers = {}, draws()
    while len(grades) < count:
        word = "".join(letters[next(numbers) % len(letters)] for _ in range(length))
        grades.setdefault(word, next(numbers) % 101)
    return "".join(f"{word};{grade}\n" for word, grade in sorted(grades.items())).encode()


def found(room, program, commands):
    """How each search among the commands ended."""
    typed = "".join(f"{command}\n" for command in ["size 5 5", *commands])
    ended = call(room, program, "edit --dict words.txt", typed.encode())
    return [line for line in ended.stdout.decode().split("\n") if line in ("filled", "nofill", "limit")]


def slices(room, program, seed, between=(), most=MOST_SLICES):
    """The number of slices that the search with a seed takes, with other commands between them; None if it takes more than `most`."""
    ends = found(room, program, [f"autofill {SLICE} {seed}", *between] * most)
    return ends.index("filled") + 1 if "filled" in ends else None


def fill_what_one_search_fills(room, program):
    taken = []
    for seed in SEEDS:
        compare(f"end of the search with the seed {seed}", found(room, program, [f"autofill {SLICE * MOST_SLICES} {seed}"]), ["filled"])
        taken.append(slices(room, program, seed))
    assert None not in taken, f"slices to a fill: {taken}"
    assert max(taken) > 1, "each search ends in its first slice"


def go_on_after_queries_and_refusals(room, program):
    for seed in SEEDS:
        wanted = slices(room, program, seed)
        compare("slices to a fill", slices(room, program, seed, ["show", "cells", "set 9 9 A", "add AAAAAAA4", "autofill", "dups"]), wanted)


def begin_anew_after_a_change(room, program):
    taken = {seed: slices(room, program, seed) for seed in SEEDS}
    seed = min((seed for seed in SEEDS if taken[seed] > 1), key=taken.get)
    for change in [["watch on"], ["title A"], ["circle 1 1"], ["add ZZ", "strike ZZ"], ["autofill 1 99"]]:
        # each slice is the first one again
        compare(f"slices to a fill with {change} between", slices(room, program, seed, change, taken[seed]), None)


# The placements of a slice of `best`, how many slices are sent, and what empties the grid after each.
BEST_SLICE, BEST_SLICES = 250, 40
TAKE_BACK = [f"clear {row} {column}" for row in range(1, 5) for column in range(1, 5)]


def bests(room, program, slice_placements, slices, between=()):
    """The grade and the bound that each slice of `best` tells. The grade is 0 if there is no fill."""
    commands = ["size 4 4", *[f"best {slice_placements} 0", *TAKE_BACK, *between] * slices]
    ended = call(room, program, "edit --dict graded.txt", "".join(f"{command}\n" for command in commands).encode())
    told, grade = [], 0
    for line in ended.stdout.decode().splitlines():
        name, *number = line.split()
        if name == "least":
            grade = int(number[0])
        elif name == "bound":
            told.append((grade, int(number[0])))
            grade = 0
    return told


def bests_get_better(room, program):
    told = bests(room, program, BEST_SLICE, BEST_SLICES)
    (first, _), *later = told
    assert max(grade for grade, _ in later) > first, f"no slice fills better than the first: {told}"
    assert max(grade for grade, _ in told) < min(bound for _, bound in told), f"a fill is at a bound: {told}"


def bests_go_on_after_entries_and_least_grades(room, program):
    wanted = bests(room, program, BEST_SLICE, 10)
    between = ["show", "set 9 9 A", "set 1 1 A", "least 40", "autofill 0 5", "least 0", "place 1 down ABBA", "erase 1 down", *TAKE_BACK]
    compare("slices", bests(room, program, BEST_SLICE, 10, between), wanted)


def bests_begin_anew_after_other_changes(room, program):
    first, *others = bests(room, program, BEST_SLICE, 3)
    assert any(told != first for told in others), "each slice tells the same"
    for change in [["title A"], ["add ZZ", "strike ZZ"], ["block 1 1", "block 1 1"], ["set 1 1 A", f"best {BEST_SLICE} 0", *TAKE_BACK]]:
        told = bests(room, program, BEST_SLICE, 3, change)
        compare(f"slices with {change} between", told[:: len(told) // 3], [first] * 3)


WORDS = write("words.txt", drawn(380, 5, "ABCDEFGHI"))
GRADED = write("graded.txt", graded(300, 4, "ABCDEFGH"))

CASES = {
    "slices_fill_what_one_search_fills": [WORDS, fill_what_one_search_fills],
    "slices_go_on_after_queries_and_refusals": [WORDS, go_on_after_queries_and_refusals],
    "slices_begin_anew_after_a_change": [WORDS, begin_anew_after_a_change],
    "slices_of_best_get_better": [GRADED, bests_get_better],
    "slices_of_best_go_on_after_entries_and_least_grades": [GRADED, bests_go_on_after_entries_and_least_grades],
    "slices_of_best_begin_anew_after_other_changes": [GRADED, bests_begin_anew_after_other_changes],
}
