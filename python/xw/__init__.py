"""The crossword construction engine `xw`.

    from xw import Session

    with Session(words=["as", "at", "so", "to"]) as session:
        session.size(2, 2)
        session.fill(1000)
        print(session.show())
"""
from .answers import (
    Advice, Best, Cell, Choice, Circle, Count, Direction, Entry, Found, Grade, Light, LightName, Longest, Progress, Repeat, Side, Stats, Suggestion, Symmetry,
    Tally, Unlisted, Unmatched, Words,
)
from .errors import Died, Error, Fault, Refusal
from .library import STATUSES, version
from .lists import Listed
from .many import Filled, fill_many
from .race import Outcome, best
from .session import Session
from .text import decode, encode

__all__ = [
    "Advice", "Best", "Cell", "Choice", "Circle", "Count", "Died", "Direction", "Entry", "Error", "Fault", "Filled", "Found", "Grade", "Light", "LightName",
    "Listed", "Longest", "Outcome", "Progress", "Refusal", "Repeat", "STATUSES", "Session", "Side", "Stats", "Suggestion", "Symmetry", "Tally", "Unlisted",
    "Unmatched", "Words", "best", "decode", "encode", "fill_many", "version",
]

# The version of the package, which is that of the engine.
__version__ = "0.3.0"
