"""What a session begins with, as the bytes that the library reads: a word list, a puzzle, a record."""
from __future__ import annotations

import operator
import os
import pathlib
from typing import IO, Any, Iterable, Mapping, NamedTuple, Tuple, Union

from .text import encode

Word = Union[str, Tuple[str, int]]
Source = Union[bytes, str, "os.PathLike[str]"]
# A word list: its bytes or text, a file, or words, each alone or with a grade.
WordList = Union[Source, IO[str], IO[bytes], Mapping[str, int], Iterable[Word]]
# A puzzle: the bytes of a file, a file, an object of the package `puz`, or one of the package `ipuz`.
Puzzle = Union[Source, Mapping[str, Any], Any]


class Listed(NamedTuple):
    """How many words a list added, and how many of its lines were skipped: those that are no word, and those that repeat one."""

    added: int
    skipped: int


def bytes_of(source: Source) -> bytes:
    """The bytes of a file, which a path names, or of a text."""
    if isinstance(source, os.PathLike):
        return pathlib.Path(source).read_bytes()
    return encode(source) if isinstance(source, str) else bytes(memoryview(source))


def _expect_lines(text: str, what: str) -> None:
    """Refuses a string that is no text of lines: it is meant as a path."""
    if text and "\n" not in text:
        raise ValueError(f"{what} is the string {text[:80]!r}, which has no line; pass pathlib.Path(...) for a file")


def puzzle_of(puzzle: Puzzle) -> bytes:
    """The bytes of a puzzle file; none for a mapping, whose commands make the puzzle."""
    if isinstance(puzzle, Mapping):
        return b""
    if isinstance(puzzle, str):
        _expect_lines(puzzle, "puzzle")
    return bytes_of(puzzle.tobytes() if hasattr(puzzle, "tobytes") else puzzle)


def list_of(words: WordList) -> bytes:
    """The bytes of a word list. Raises `ValueError` or `TypeError` for a word or a grade that is none."""
    # `read` is that of an open file
    given: Any = words.read() if hasattr(words, "read") else words
    if isinstance(given, str):
        _expect_lines(given, "words")
    if isinstance(given, (str, bytes, bytearray, memoryview, os.PathLike)):
        return bytes_of(given)
    return encode("".join(map(_line_of, given.items() if isinstance(given, Mapping) else given)))


def _line_of(item: Word) -> str:
    """The line of a word in a list."""
    if isinstance(item, str):
        # a line of a file has its end, and may have a grade
        word, grade = item.rstrip("\r\n"), ""
    elif isinstance(item, tuple) and len(item) == 2 and isinstance(item[0], str):
        word, grade = item[0], f";{_grade_of(*item)}"
    else:
        raise TypeError(f"{item!r} is neither a string nor a tuple of a string and a grade")
    if "\n" in word or (grade and ";" in word):
        raise ValueError(f"{word!r} is not one word")
    return f"{word}{grade}\n"


def _grade_of(word: str, grade: Any) -> int:
    try:
        number = operator.index(grade)
    except TypeError:
        number = -1
    if not 0 <= number <= 100:
        raise ValueError(f"the grade of {word!r} is {grade!r}, which is not a whole number from 0 to 100")
    return number


def lines_in(data: bytes) -> int:
    """The number of lines. Bytes after the last line feed are a line too."""
    return data.count(b"\n") + (data[-1:] not in (b"", b"\n"))
