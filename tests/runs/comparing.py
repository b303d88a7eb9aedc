"""Searches, reasons and the two engines against their definitions and one another, on a hundred random cases each: short runs of three tools."""
import shutil

from needs import skip
from steps import tool_ends


def engines_agree(room, program):
    if not shutil.which("rt"):
        skip("there is no rt, which builds the program over the plain engine")
    tool_ends("compare-engines", 100, 1)(room, program)


CASES = {
    "engines": [engines_agree],
    "fills": [tool_ends("compare-fills", 100, 1)],
    "reasons": [tool_ends("compare-reasons", 100, 1)],
}
