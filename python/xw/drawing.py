"""The grid as a table for notebooks."""
from __future__ import annotations

from html import escape
from typing import Dict, Iterable, Iterator, List, Set, Tuple

from .answers import Circle, Light

# a cell, by its row and its column from 1
_Place = Tuple[int, int]

_TABLE = "border-collapse: collapse; font: 16px sans-serif"
_CELL = "position: relative; width: 28px; height: 28px; padding: 0; border: 1px solid #888; text-align: center"
_COLOURS = {True: "background: #222", False: "background: #fff; color: #000"}
_NUMBER = "position: absolute; top: 0; left: 2px; font-size: 9px"
_CIRCLE = "display: inline-block; width: 24px; line-height: 24px; border: 1px solid #888; border-radius: 50%"


def _parts(show: List[str]) -> Iterator[Tuple[str, str]]:
    """Each row of the grid with the line of the bars below it, which may be empty."""
    for at, line in enumerate(show):
        if line[0] not in ".=":
            below = show[at + 1] if at + 1 < len(show) else ""
            yield line, below if below[:1] in (".", "=") else ""


def _style(line: str, below: str, column: int) -> str:
    """The style of a cell of a row: its colours, and the bars at its right and below it."""
    at = 2 * (column - 1)
    sides = {"right": line[at + 1 : at + 2] == "|", "bottom": below[at : at + 1] == "="}
    return "; ".join([_CELL, _COLOURS[line[at] == "#"], *(f"border-{side}: 3px solid #000" for side, is_barred in sides.items() if is_barred)])


def _content(letter: str, number: str, is_circled: bool) -> str:
    text = "" if letter in "#-" else escape(letter)
    return (f'<span style="{_NUMBER}">{number}</span>' if number else "") + (f'<span style="{_CIRCLE}">{text or "&nbsp;"}</span>' if is_circled else text)


def _row(row: int, line: str, below: str, numbers: Dict[_Place, int], circled: Set[_Place]) -> str:
    cells = [
        f'<td style="{_style(line, below, column)}">{_content(letter, str(numbers.get((row, column), "")), (row, column) in circled)}</td>'
        for column, letter in enumerate(line[::2], 1)
    ]
    return f"<tr>{''.join(cells)}</tr>"


def drawn(show: List[str], lights: Iterable[Light], circles: Iterable[Circle], title: str) -> str:
    """The grid that `show` has. The title may have any characters."""
    numbers = {(light.row, light.column): light.number for light in lights}
    circled = {(it.row, it.column) for it in circles}
    rows = [_row(row, line, below, numbers, circled) for row, (line, below) in enumerate(_parts(show), 1)]
    return f'<table style="{_TABLE}">{f"<caption>{escape(title)}</caption>" if title else ""}{"".join(rows)}</table>'
