"""Puzzles of the package `ipuz`, which are mappings, as the commands that make them."""
from __future__ import annotations

from typing import Any, Iterator, List, Mapping, Tuple

from .errors import Fault
from .text import escape

# The sides of a bar in a style, as a cell and its side: the bar at the top of a cell is below the cell above it.
_BARS = {"R": (0, 0, "right"), "L": (0, -1, "right"), "B": (0, 0, "below"), "T": (-1, 0, "below")}


def _cell(square: Any) -> Any:
    """What a square holds, which may be written with a style."""
    return square.get("cell", 0) if isinstance(square, Mapping) else square


def _style(square: Any) -> Mapping[str, Any]:
    style = square.get("style", {}) if isinstance(square, Mapping) else {}
    return style if isinstance(style, Mapping) else {}


def _letter(square: Any) -> str:
    """The letter of a square of a solution, or an empty text. Raises a fault if it has another value."""
    value = square.get("value", "") if isinstance(square, Mapping) else square
    if value in (None, 0, "0", "#", ""):
        return ""
    if not (isinstance(value, str) and len(value) == 1 and value.isascii() and value.isalpha()):
        raise Fault("BadCell", f"{value!r} is not one letter from A to Z")
    return value


def commands_of(puzzle: Mapping[str, Any]) -> Iterator[str]:
    """The commands that make the grid and the texts."""
    rows: List[List[Any]] = puzzle["puzzle"]
    block = puzzle.get("block", "#")
    width, height = puzzle["dimensions"]["width"], puzzle["dimensions"]["height"]
    yield f"size {width} {height}"
    yield "sym none"
    squares = [(row, column, square) for row, line in enumerate(rows, 1) for column, square in enumerate(line, 1)]
    for row, column, square in squares:
        # a cell that is left out is no part of the grid
        if _cell(square) in (block, None):
            yield f"block {row} {column}"
        elif "shapebg" in _style(square):
            yield f"circle {row} {column}"
    bars = {(row + _BARS[side][0], column + _BARS[side][1], _BARS[side][2]) for row, column, square in squares for side in _style(square).get("barred", "")}
    for row, column, side in sorted(bars):
        # a bar on the border divides no two cells
        if 1 <= row <= (height - 1 if side == "below" else height) and 1 <= column <= (width - 1 if side == "right" else width):
            yield f"bar {row} {column} {side}"
    for row, line in enumerate(puzzle.get("solution") or [], 1):
        for column, square in enumerate(line, 1):
            if _letter(square) and _cell(rows[row - 1][column - 1]) not in (block, None):
                yield f"set {row} {column} {_letter(square)}"
    for field in ("title", "author", "copyright", "notes"):
        if puzzle.get(field):
            yield f"text {field} {escape(puzzle[field])}"


def clues_of(puzzle: Mapping[str, Any]) -> Iterator[Tuple[str, str]]:
    """The clues, each with its field, which names the cell with the number of the clue."""
    cells = {str(_cell(square)): f"{row} {column}" for row, line in enumerate(puzzle["puzzle"], 1) for column, square in enumerate(line, 1)}
    for name, clues in (puzzle.get("clues") or {}).items():
        # a name may have a heading after a colon, as in `Across:Rows`
        direction = name.split(":")[0].lower()
        for clue in clues if direction in ("across", "down") else ():
            number, text = (clue["number"], clue["clue"]) if isinstance(clue, Mapping) else clue[:2]
            if str(number) not in cells:
                raise Fault("ClueCount", f"no cell has the number {number}")
            yield f"clue {cells[str(number)]} {direction}", text
