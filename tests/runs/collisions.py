"""Words that a weak hash cannot tell apart load with as much work as others. Work is counted in instructions, by valgrind."""
import itertools
import re
import shutil
import subprocess

from needs import needs
from steps import SECONDS, compare, write

# 2^64 divided by the golden ratio, a common multiplier of hashes. The hash of a word may be the sum of its letters times powers of it.
FACTOR = 0x9E3779B97F4A7C15

# Two parts of a word that have the same sum modulo 2^64, wherever they stand, and two that have different sums.
ALIKE = ("CBEABGAAAAACAAFAEAAA", "AAAAAAECFDEAACABABBC")
APART = (ALIKE[0], ALIKE[1][::-1])

# So many parts make a word of 240 letters, and 4,096 words.
PARTS = 12


def words(parts):
    """Returns a list of all words of these parts."""
    return "".join("".join(word) + "\n" for word in itertools.product(parts, repeat=PARTS)).encode()


def total(part):
    """Returns the sum of the letters of a part times powers of the multiplier."""
    found = 0
    for letter in part:
        found = (found + ord(letter)) * FACTOR % 2**64
    return found


def instructions(room, program, name):
    """Returns how many instructions the program takes to load a list of 4,096 words."""
    needs("valgrind")
    counter = [shutil.which("valgrind"), "--tool=callgrind", "--callgrind-out-file=/dev/null"]
    ended = subprocess.run(
        [*counter, program, "edit", "--dict", name], cwd=room, env={}, stdin=subprocess.DEVNULL, capture_output=True, timeout=SECONDS
    )
    compare("status", ended.returncode, 0)
    told = ended.stderr.decode()
    assert f"xw: {name}: {2**PARTS} added, 0 skipped" in told, told
    return int(re.search(r"Collected : (\d+)", told).group(1))


def take_as_much(room, program):
    alike, apart = (instructions(room, program, name) for name in ("alike", "apart"))
    assert alike < 2 * apart, f"{alike} instructions for words with equal sums, {apart} for others"


def are_chosen(room, program):
    """The words are what they are meant to be."""
    compare("equal sums", total(ALIKE[0]), total(ALIKE[1]))
    assert total(APART[0]) != total(APART[1])


CASES = {"equal_sums": [are_chosen, write("alike", words(ALIKE)), write("apart", words(APART)), take_as_much]}
