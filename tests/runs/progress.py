"""How far a long search is: a line on standard error, after each 5,000 placements, with `--progress` and on a terminal. It is written over, and cleared."""
import os
import pty
import random
import re
import subprocess

from steps import REFUSED, SECONDS, call, compare, run, write

from runs.streams import start
from runs.terminals import read_all

STEP = 5000


def words(count, size, alphabet, is_graded=False):
    """A list of random words, always the same one."""
    draw = random.Random(1)
    found = set()
    while len(found) < count:
        found.add("".join(draw.choice(alphabet) for _ in range(size)))
    return "".join(f"{it};{draw.randrange(1, 101)}\n" if is_graded else f"{it}\n" for it in sorted(found)).encode()


# Neither a fill nor that there is none is found in 20,000 placements of these words, each way and down, and in 20,000 of the graded ones no best fill is proved.
LIST = words(6000, 7, "aeiourstln")
GRADED = words(2000, 5, "aeorstln", is_graded=True)
LISTS = [write("list", LIST), write("graded", GRADED)]
LOADED = b"xw: list: 6000 added, 0 skipped\n"
LOADED_GRADED = b"xw: graded: 2000 added, 0 skipped\n"
SIZE, SMALL = b"size 7 7\n", b"size 5 5\n"


def line(search, made, limit):
    return f"{search}: {made:,} of {limit:,} placements".encode()


def lines(*shown):
    """What is written for these lines: each over the one before, and spaces over the last one. No line is shorter than the one before."""
    return b"".join(b"\r" + it for it in shown) + b"\r" + b" " * len(shown[-1]) + b"\r"


def of(search, limit):
    """The lines of a search of so many placements that is not decided."""
    return lines(*(line(search, made, limit) for made in range(STEP, limit + 1, STEP)))


def same_but(words, typed, told, loaded=LOADED, status=0):
    """With `--progress` the output and the status are the same, and these lines are on standard error, behind what is told of the list."""

    def step(room, program):
        without, ended = call(room, program, f"edit {words}", typed), call(room, program, f"edit --progress {words}", typed)
        compare(f"messages of xw edit {words}", without.stderr, loaded)
        compare("output with --progress", ended.stdout, without.stdout)
        compare("status", (without.returncode, ended.returncode), (status, status))
        compare("messages with --progress", ended.stderr, loaded + told)

    return step


SHOWN = re.compile(rb"\rbest: ([0-9,]+) of 20,000 placements(?:, worst (\d+))?(?:, no fill is better than (\d+))? *")


def tells_grades(room, program):
    """Each line of `best` tells of the fill and the bound of then: they close in on those of the answer."""
    ended = call(room, program, "edit --progress --dict graded", SMALL + b"best 20000 0\n")
    compare("list", ended.stderr[: len(LOADED_GRADED)], LOADED_GRADED)
    *shown, spaces, end = re.split(rb"(?=\r)", ended.stderr[len(LOADED_GRADED) :])[1:]
    compare("end", (spaces.strip(b" "), end), (b"\r", b"\r"))
    assert len(spaces) >= len(shown[-1].rstrip(b" ")), (spaces, shown[-1])
    told = [SHOWN.fullmatch(it) for it in shown]
    assert all(told), shown
    made = [int(it[1].replace(b",", b"")) for it in told]
    # a part counts 20 placements at once
    assert [it // STEP for it in made] == [1, 2, 3, 4] and all(it % STEP < 20 for it in made), made
    answer = re.fullmatch(rb"ok\nfilled\nleast (\d+)\nbound (\d+)\nok\n", ended.stdout)
    assert answer, ended.stdout
    least, bound = map(int, answer.groups())
    worst = [int(it[2]) for it in told if it[2]]
    best = [int(it[3]) for it in told if it[3]]
    assert worst and worst == sorted(worst) and worst[-1] <= least, (worst, least)
    assert best and best == sorted(best, reverse=True) and best[-1] >= bound - 1, (best, bound)


def on_terminals(words, typed, told, are_terminals):
    """The messages where standard output and standard error are terminals, or pipes."""

    def step(room, program):
        ends = [pty.openpty() if it else os.pipe() for it in are_terminals]
        (room / "typed").write_bytes(typed)
        with open(room / "typed", "rb") as given:
            streams = {"stdin": given, "stdout": ends[0][1], "stderr": ends[1][1]}
            with subprocess.Popen(["xw", *words.split()], executable=program, cwd=room, env={}, **streams) as started:
                for _, other in ends:
                    os.close(other)
                _, messages = [read_all(end) for end, _ in ends]
                started.wait(timeout=SECONDS)
        # a terminal writes a carriage return before each line feed
        compare(f"messages of xw {words}", messages.rpartition(b"\n")[2], told)

    return step


def goes_unheard(closed, errors="/dev/null"):
    """The answers with standard error closed, or on a full device."""

    def step(room, program):
        wanted = call(room, program, "edit --dict list", SIZE + b"autofill 5000\n").stdout
        with open(errors, "wb") as taken:
            process = start(room, program, "edit --progress --dict list", closed, stdin=subprocess.PIPE, stdout=subprocess.PIPE, stderr=taken)
            found, _ = process.communicate(SIZE + b"autofill 5000\n", timeout=SECONDS)
        compare("output and status", (found, process.returncode), (wanted, 0))

    return step


# the grid is sized, and the search does not decide
LIMIT = b"ok\nlimit\nok\n"

CASES = {
    "autofill": [*LISTS, same_but("--dict list", SIZE + b"autofill 20000\n", of("autofill", 20000)), run("edit --dict list", SIZE + b"autofill 20000\n", LIMIT, LOADED)],
    "fill": [*LISTS, same_but("--dict list", SIZE + b"fill 20000\n", of("fill", 20000)), run("edit --dict list", SIZE + b"fill 20000\n", LIMIT, LOADED)],
    # the light has 6,000 words
    "choices": [*LISTS, same_but("--dict list", SIZE + b"choices 1 across 9000\n", lines(line("choices", 5000, 6000)))],
    "best": [*LISTS, tells_grades, same_but("--dict list", SIZE + b"best 0\n", b"")],
    # each search counts its own placements
    "two searches": [*LISTS, same_but("--dict list", SIZE + b"autofill 5000\nautofill 6000 1\n", of("autofill", 5000) + lines(line("autofill", 5000, 6000)))],
    "a short search": [*LISTS, same_but("--dict list", SIZE + b"autofill 4999\nfill 4999\nbest 4999\nchoices 1 across 4999\n", b"")],
    "refused": [*LISTS, same_but("--dict list", SIZE + b"autofill 20000 0 9 down\nbest 20000 0 9 down\n", b"", status=REFUSED)],
    "a journal": [*LISTS, same_but("--dict list --journal mine.xw", SIZE + b"autofill 5000\n", of("autofill", 5000))],
    "a terminal": [
        *LISTS,
        on_terminals("edit --dict list", SIZE + b"autofill 10000\n", of("autofill", 10000), (False, True)),
        on_terminals("edit --dict list", SIZE + b"autofill 10000\n", of("autofill", 10000), (True, True)),
        on_terminals("edit --dict list", SIZE + b"autofill 10000\n", b"", (True, False)),
        # the lines of `choices` come while it works
        on_terminals("edit --dict list", SIZE + b"choices 1 across 9000\n", lines(line("choices", 5000, 6000)), (False, True)),
        on_terminals("edit --dict list", SIZE + b"choices 1 across 9000\n", b"", (True, True)),
    ],
    "closed messages": [*LISTS, goes_unheard([2])],
    "full messages": [*LISTS, goes_unheard([], "/dev/full")],
}
