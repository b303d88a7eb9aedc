"""What commands answer."""
from typing import FrozenSet, Literal, Mapping, NamedTuple, Optional, Tuple, Union

# The words that commands take and answer.
Direction = Literal["across", "down"]
Side = Literal["right", "below"]
Symmetry = Literal["none", "half", "quarter", "leftright", "updown"]
Found = Literal["filled", "nofill", "limit"]
Advice = Literal["try", "noword", "dead", "done"]


class Light(NamedTuple):
    """A light: its number and direction, its first cell, and its letters, with a dot for each empty cell."""

    number: int
    direction: Direction
    row: int
    column: int
    letters: str

    @property
    def name(self) -> str:
        return f"{self.number} {self.direction}"


# A light, or its name: `"1 across"` or `(1, "across")`.
LightName = Union[Light, str, Tuple[int, Direction]]


class Words(NamedTuple):
    """The number of feasible words of a light, and the first of them in the order of the dictionary."""

    total: int
    words: Tuple[str, ...]


class Choice(NamedTuple):
    """A feasible word, and the least number of feasible words that it leaves a light: 0 for a dead end, None if it completes the grid."""

    word: str
    left: Optional[int]


class Tally(NamedTuple):
    """How many feasible words of the lights through a cell have a letter there; None where no light goes through the cell."""

    letter: str
    across: Optional[int]
    down: Optional[int]


class Cell(NamedTuple):
    """An open cell with its feasible letters."""

    row: int
    column: int
    letters: FrozenSet[str]


class Entry(NamedTuple):
    """A letter in a cell."""

    row: int
    column: int
    letter: str


class Circle(NamedTuple):
    """An open cell that is circled."""

    row: int
    column: int


class Count(NamedTuple):
    """The number of feasible words of a light."""

    light: str
    words: int


class Unmatched(NamedTuple):
    """A light that no word matches, with its letters and a dot for each empty cell."""

    light: str
    pattern: str


class Repeat(NamedTuple):
    """A light that spells the word of an earlier light."""

    light: str
    first: str
    word: str


class Unlisted(NamedTuple):
    """A wholly entered light whose word is not active."""

    light: str
    word: str


class Grade(NamedTuple):
    """The grade of the word of a light: None if the word is not known, or if the light is not wholly entered."""

    light: str
    grade: Optional[int]


class Longest(NamedTuple):
    """The longest light, the first of several, and its length."""

    light: str
    length: int


class Stats(NamedTuple):
    """Counts over the grid. `cells` has the blocks too, `lengths` the number of lights of each length that occurs, `unchecked` the open cells in one light
    only, `mean` the mean length of the lights, to two decimals, and `letters` the number of cells with each letter that is entered."""

    cells: int
    blocks: int
    bars: int
    entered: int
    lights: int
    lengths: Mapping[int, int]
    unchecked: int
    mean: float
    letters: Mapping[str, int]


class Suggestion(NamedTuple):
    """A next word: `try` with a light and a word, `noword` or `dead` with a light, or `done`."""

    kind: Advice
    light: Optional[str] = None
    word: Optional[str] = None


class Progress(NamedTuple):
    """How far a search is: at most so many placements were made. `best` also tells the grade of the worst new word of the best fill so far, or None,
    and the bound: no fill has this grade or a better one, and 101 says nothing."""

    placements: int
    grade: Optional[int] = None
    bound: int = 101


class Best(NamedTuple):
    """A fill: the grade of its worst new word, the bound, the rows of the grid with `#` for a block and `-` for an empty cell, and the mean grade of the
    new words. No fill has the grade `bound` or a better one, so the fill is the best one if the bound is one more than the grade. A bound of 101
    says nothing. A fill of a grid that was full before has no new word; its grade and its mean are 100."""

    grade: int
    bound: int
    rows: Tuple[str, ...]
    mean: float = 100.0

    @property
    def is_best(self) -> bool:
        return self.bound == self.grade + 1
