"""A session: a grid with a dictionary, clues and texts."""
from __future__ import annotations

import itertools
import os
import pathlib
import threading
from types import TracebackType
from typing import Any, Callable, Dict, FrozenSet, Generator, Iterable, Iterator, List, Mapping, Optional, Tuple, Type, Union, cast

from .answers import (
    Advice, Best, Cell, Choice, Circle, Count, Direction, Entry, Found, Grade, Light, LightName, Longest, Progress, Repeat, Side, Stats, Suggestion, Symmetry,
    Tally, Unlisted, Unmatched, Words,
)
from .drawing import drawn
from .errors import Fault, Refusal
from .files import SESSION, Sources, kind_of
from .ipuz import clues_of, commands_of
from .library import Handle
from .lists import Listed, Puzzle, Source, WordList, bytes_of, lines_in, list_of, puzzle_of
from .slices import SECONDS, Slices
from .text import decode, encode, escape, unescape

# Told how far a search is; ends the search by a true value.
Told = Callable[[Progress], Any]

# The bytes of a text that fit into one line with the rest of a command.
PIECE = 1500
# The length of the longest word.
LONGEST = 255
# The record of a session that was just opened without a puzzle.
BLANK = b"size 15 15\nsym none\ntext title\ntext author\ntext copyright\ntext notes\nwatch off\n"


def name_of(light: LightName) -> str:
    """The name of a light as commands have it."""
    if isinstance(light, Light):
        return light.name
    return light if isinstance(light, str) else f"{light[0]} {light[1]}"


def _count(text: str) -> Optional[int]:
    return None if text in ("-", "done") else int(text)


def _letters(text: str) -> FrozenSet[str]:
    return frozenset(text.replace("-", ""))


def _cells(lines: Iterable[str]) -> List[Cell]:
    """The cells with their feasible letters, as `cells` and the watch list them."""
    return [Cell(int(row), int(column), _letters(letters)) for _, row, column, letters in (line.split(" ") for line in lines)]


class Session:
    """A session over a word list, on a puzzle or an empty grid of 15 by 15, after the commands of a record. Use it in a `with` statement, or
    call `close`. Threads may share it: a command of one waits for that of another, and each slice of a search is a command.

    A command that is refused raises `Refusal` and changes nothing. Rows and columns are counted from 1.
    """

    def __init__(self, words: WordList = b"", puzzle: Puzzle = b"", record: Source = b""):
        self._sources = Sources(words, puzzle, record)
        self._told = threading.local()
        lines, self._words = bytes_of(record), list_of(words)
        self._handle = Handle(self._words, puzzle_of(puzzle))
        try:
            # How many words the list added, and how many of its lines were skipped.
            self.listed = self._counted(self._words)
            # What was not taken from the record, a line each: the end that was cut off, and each line that was refused.
            self.reports = self._resume(lines)
            if self.reports:
                self._sources.forget()
            if isinstance(puzzle, Mapping):
                self._take(puzzle)
        except BaseException:
            self.close()
            raise

    def _counted(self, listed: bytes) -> Listed:
        """Counts the words of a list that the dictionary has taken, before any command changes it."""
        # the answer has a line for each word, and `ok`
        added = sum(self.answer(b"match " + b"." * length).count(b"\n") - 1 for length in range(2, LONGEST + 1)) if listed else 0
        return Listed(added, lines_in(listed) - added)

    def _take(self, puzzle: Mapping[str, Any]) -> None:
        """Makes the grid, the texts and the clues of an object of the package `ipuz`."""
        for command in commands_of(puzzle):
            self.line(command)
        for field, clue in clues_of(puzzle):
            self._put(field, clue)

    def __enter__(self) -> Session:
        return self

    def __exit__(self, kind: Optional[Type[BaseException]], value: Optional[BaseException], trace: Optional[TracebackType]) -> None:
        self.close()

    def __del__(self) -> None:
        # there is no handle if the library refused to open a session
        if hasattr(self, "_handle"):
            self.close()

    def __reduce__(self) -> Tuple[Any, ...]:
        """A copy, also by `pickle`, is another session, over the same words and after the record of this one."""
        return type(self), (self._words, b"", self.record()), {"_sources": self._sources.copy()}

    def __repr__(self) -> str:
        """The grid, as `show` has it."""
        if self._is_closed():
            return "<Session, closed>"
        lines = self.show()
        rows = [line for line in lines if line[0] not in ".="]
        return "\n".join([f"<Session of {len(rows[0][::2])} by {len(rows)}>", *lines])

    def _repr_html_(self) -> str:
        """The grid for a notebook, with its numbers, bars, circles and title."""
        if self._is_closed():
            return "<pre>&lt;Session, closed&gt;</pre>"
        with self._handle.lock:
            return drawn(self.show(), self.lights(), self.circles(), self.texts().get("title", ""))

    def _is_closed(self) -> bool:
        # there is no handle before the library has opened a session
        return not hasattr(self, "_handle") or self.closed

    def close(self) -> None:
        """Frees the session. Every later call raises `Fault("Closed")`, except `close`."""
        self._handle.close()

    @property
    def closed(self) -> bool:
        return not self._handle.is_open

    def restore(self, record: Source) -> List[str]:
        """Makes the session what `Session(words, record=record)` is, over the words that it began with, in less time than a new one takes. Returns its new
        `reports`. If the record has a fault, the session stays as it was."""
        sources, lines = self._sources.after(record), bytes_of(record)
        with self._handle.lock:
            before = self.record()
            try:
                # a record begins with the changes of the words, and only a new session lacks them
                self.reports = self._again(lines, is_new=not before.startswith(b"size "))
            except Fault:
                self._again(before, is_new=True)
                raise
            self._sources = sources
            if self.reports:
                sources.forget()
            return self.reports

    def _again(self, record: bytes, is_new: bool) -> List[str]:
        if is_new:
            self._handle.close()
            self._handle.open(self._words, b"")
        else:
            self._resume(BLANK)
        return self._resume(record)

    # ---- lines

    def _ask(self, name: str, *texts: bytes, done: Tuple[str, ...] = ("Accepted",)) -> bytes:
        """Makes a call, and returns what it wrote. Raises a fault for a status that is not one of these."""
        status, answer = self._handle.ask(name, *texts)
        if status not in done:
            raise Fault(status, decode(answer).rstrip("\n"))
        return answer

    def _resume(self, record: bytes) -> List[str]:
        return decode(self._ask("resume", record, done=("Accepted", "Refused", "Cut"))).splitlines()

    def answer(self, line: bytes) -> bytes:
        """Answers a line of commands in bytes, as `xw edit` does: lines and then `ok`, or `no NAME`, each with a line feed. Nothing is answered
        to a blank line or a note."""
        if b"\n" in line:
            raise ValueError("a line has no line feed")
        return self._ask("line", line, done=("Accepted", "Refused", "Silent"))

    def line(self, command: str) -> List[str]:
        """Answers a line of commands. Returns the lines before `ok`."""
        lines = decode(self.answer(encode(command))).split("\n")[:-1]
        if lines and lines[-1].startswith("no "):
            raise Refusal(lines[-1][len("no ") :], command)
        return lines[:-1]

    def _edit(self, command: str) -> None:
        """Sends an edit, and keeps what the watch lists."""
        self._told.changed = _cells(self.line(command))

    # ---- the words

    def add(self, word: str, grade: Optional[int] = None) -> None:
        """Adds a word, with a grade from 0 to 100; a struck word comes back."""
        self._edit(f"add {word}" if grade is None else f"add {word} {grade}")

    def strike(self, word: str) -> None:
        """Strikes a word."""
        self._edit(f"strike {word}")

    def least(self, grade: int) -> None:
        """Leaves out the words below a grade."""
        self._edit(f"least {grade}")

    def match(self, pattern: str) -> List[str]:
        """The active words that fit a pattern, with a dot for any letter."""
        return self.line(f"match {pattern}")

    def grade(self, word: str) -> int:
        """The grade of a known word, active or not. A word that is not known is refused as `Unknown`."""
        return int(self.line(f"grade {word}")[0])

    # ---- the grid

    def size(self, width: int, height: int) -> None:
        """Begins an empty grid."""
        self.line(f"size {width} {height}")

    def symmetry(self, kind: Symmetry) -> None:
        """Sets the symmetry: `none`, `half`, `quarter`, `leftright` or `updown`."""
        self._edit(f"sym {kind}")

    def set(self, row: int, column: int, letter: str) -> None:
        """Enters a letter."""
        self._edit(f"set {row} {column} {letter}")

    def clear(self, row: int, column: int) -> None:
        """Empties a cell."""
        self._edit(f"clear {row} {column}")

    def place(self, light: LightName, word: str) -> None:
        """Enters a word."""
        self._edit(f"place {name_of(light)} {word}")

    def erase(self, light: LightName) -> None:
        """Empties the cells of a light, but keeps the letters of wholly entered lights that cross it."""
        self._edit(f"erase {name_of(light)}")

    def block(self, row: int, column: int) -> None:
        """Toggles the blocks of a cell and its images."""
        self._edit(f"block {row} {column}")

    def bar(self, row: int, column: int, side: Side) -> None:
        """Toggles the bars at a side of a cell, `right` or `below`, and at its images."""
        self._edit(f"bar {row} {column} {side}")

    def show(self) -> List[str]:
        """The grid as `xw edit` shows it, with bars."""
        return self.line("show")

    def rows(self) -> Tuple[str, ...]:
        """The rows of the grid, with `#` for a block and `-` for an empty cell."""
        return tuple(row[::2] for row in self.show() if row[0] not in ".=")

    def lights(self) -> List[Light]:
        """The lights, in order."""
        return [
            Light(int(number), cast(Direction, direction), int(row), int(column), letters) for number, direction, row, column, letters in self._fields("lights")
        ]

    def longest(self) -> Optional[Longest]:
        """The longest light, the first of several; None in a grid without lights."""
        return next((Longest(f"{number} {direction}", int(length)) for number, direction, length in self._fields("longest")), None)

    def stats(self) -> Stats:
        """Counts over the grid."""
        counts: Dict[str, str] = {}
        lengths: Dict[int, int] = {}
        letters: Dict[str, int] = {}
        for kind, *parts in self._fields("stats"):
            if kind == "light":
                lengths[int(parts[0])] = int(parts[1])
            elif kind == "letter":
                letters[parts[0]] = int(parts[1])
            else:
                counts[kind] = parts[0]
        mean = float(counts.pop("mean"))
        return Stats(**{name: int(count) for name, count in counts.items()}, lengths=lengths, mean=mean, letters=letters)

    def _fields(self, command: str) -> Iterator[List[str]]:
        return (line.split(" ") for line in self.line(command))

    # ---- what can still go where

    def words(self, light: LightName, most: Optional[int] = None) -> Words:
        """The feasible words of a light: their number, and the first ones, or all."""
        count, *words = self.line(f"words {name_of(light)}" + ("" if most is None else f" {most}"))
        return Words(int(count), tuple(words))

    def letters(self, row: int, column: int) -> FrozenSet[str]:
        """The feasible letters of a cell."""
        (letters,) = self.line(f"letters {row} {column}")
        return _letters(letters)

    def choices(self, light: LightName, most: int, first: Optional[str] = None) -> List[Choice]:
        """The first feasible words of a light, from a word on, with what each leaves."""
        return [Choice(word, _count(left)) for word, left in self._fields(f"choices {name_of(light)} {most} {first or ''}")]

    def tally(self, row: int, column: int) -> List[Tally]:
        """What each feasible letter of a cell leaves."""
        return [Tally(letter, _count(across), _count(down)) for letter, across, down in self._fields(f"tally {row} {column}")]

    def cells(self) -> List[Cell]:
        """The open cells with their feasible letters, in reading order."""
        return _cells(self.line("cells"))

    def counts(self) -> List[Count]:
        """The number of feasible words of each light, in order."""
        return [Count(f"{number} {direction}", int(words)) for number, direction, words in self._fields("counts")]

    def unmatched(self) -> List[Unmatched]:
        """The lights that are not wholly entered and whose letters no active word matches; crossing lights do not count."""
        return [Unmatched(f"{number} {direction}", pattern) for number, direction, pattern in self._fields("unmatched")]

    def watch(self, on: bool = True) -> None:
        """Turns the watch on or off. While it is on, `changed` has the cells of each edit."""
        self.line(f"watch {'on' if on else 'off'}")

    @property
    def changed(self) -> List[Cell]:
        """The cells whose feasible letters the last edit of this thread changed, with these letters; none while the watch is off. The edits are `add`,
        `strike`, `least`, `symmetry`, `set`, `clear`, `place`, `erase`, `block` and `bar`."""
        return list(getattr(self._told, "changed", ()))

    def dups(self) -> List[Repeat]:
        """The wholly entered lights that spell the word of an earlier light."""
        return [Repeat(f"{light[0]} {light[1]}", f"{light[2]} {light[3]}", light[4]) for light in self._fields("dups")]

    def unlisted(self) -> List[Unlisted]:
        """The wholly entered lights whose word is not active."""
        return [Unlisted(f"{number} {direction}", word) for number, direction, word in self._fields("unlisted")]

    def grades(self, lights: Iterable[LightName] = ()) -> List[Grade]:
        """The grades of the words of the named lights, or of all wholly entered ones. A word has its grade whether it is active or not."""
        named = " ".join(map(name_of, lights))
        return [Grade(f"{number} {direction}", _count(grade)) for number, direction, grade in self._fields(f"grades {named}")]

    def suggest(self) -> Suggestion:
        """A next word, or the light that has none."""
        kind, *parts = next(self._fields("suggest"))
        return Suggestion(cast(Advice, kind), " ".join(parts[:2]) or None, parts[2] if len(parts) > 2 else None)

    def why(self, light: LightName) -> List[Entry]:
        """Why a light has no feasible word: entries that leave it none, none of which can be spared. If there are none, it has no feasible word
        even in the empty grid. Raises the refusal `Alive` if it has one."""
        return [Entry(int(row), int(column), letter) for _, row, column, letter in self._fields(f"why {name_of(light)}")]

    # ---- searches

    def fill(self, limit: int) -> Found:
        """Fills the grid with at most so many words placed. Returns `filled`, `nofill`, which is proved, or `limit`."""
        (answer,) = self.line(f"fill {limit}")
        return cast(Found, answer)

    def autofill(
        self,
        limit: Optional[int] = None,
        seed: int = 0,
        lights: Iterable[LightName] = (),
        progress: Optional[Told] = None,
        every: float = SECONDS,
        seconds: Optional[float] = None,
    ) -> Found:
        """Fills the named lights, or all of them. Returns `filled`, `nofill`, which is proved, or `limit`: after so many placements, after so many seconds,
        or when `progress` returns a true value. Nothing is entered then. `progress` is called after each slice, about every so many seconds. Without it the
        slices get longer, up to a tenth of the time so far. `seconds` ends the search between two slices; the time between them does not count."""
        named = " ".join(map(name_of, lights))
        slices = Slices(limit, every if progress else None, seconds)
        while True:
            (answer,) = slices.run(lambda placements: self.line(f"autofill {placements} {seed} {named}"))
            if answer != "limit" or (progress and progress(Progress(slices.made))) or slices.is_over:
                return cast(Found, answer)

    def best(
        self,
        limit: Optional[int] = None,
        seed: int = 0,
        lights: Iterable[LightName] = (),
        least: int = 0,
        progress: Optional[Told] = None,
        every: float = SECONDS,
        seconds: Optional[float] = None,
    ) -> Generator[Best, None, Found]:
        """Yields better and better fills of the named lights, or of all of them, with words of the grade `least` and better. Each stands in the
        grid when it is yielded. It ends when no fill is better, after so many placements or seconds, or when `progress` returns a true value. `progress`,
        `every` and `seconds` are those of `autofill`. Leave it at any time: the last fill stays in the grid. The session is left with the least grade
        `least`. The generator returns `filled`, `nofill` or `limit`.

        In a grid without an empty cell no word is new: it is its own fill, with the grade 100 and the bound 101, unless a word is in it twice."""
        return Climb(self, seed, " ".join(map(name_of, lights)), least).run(Slices(limit, every if progress else None, seconds), progress)

    # ---- clues, texts and circles

    def clue(self, light: LightName, text: str) -> None:
        """Sets the clue of a light; an empty text removes it."""
        name = name_of(light)
        with self._handle.lock:
            found = next((it for it in self.lights() if it.name == name), None)
            if not found:
                raise Refusal("NoLight", f"clue {name} {text}")
            self._put(f"clue {found.row} {found.column} {found.direction}", text)

    def title(self, text: str) -> None:
        self._put("title", text)

    def author(self, text: str) -> None:
        self._put("author", text)

    def copyright(self, text: str) -> None:
        self._put("copyright", text)

    def notes(self, text: str) -> None:
        self._put("notes", text)

    def _put(self, field: str, text: str) -> None:
        """Sets a text of any length, in pieces. Looks at all of it before it sends any."""
        encode(text)
        pieces = [text[at : at + PIECE] for at in range(0, len(text), PIECE)] or [""]
        commands = [f"{command} {field} {escape(piece)}" for command, piece in zip(itertools.chain(["text"], itertools.repeat("more")), pieces)]
        for command in commands:
            if "\0" in command:
                raise Refusal("NulByte", command)
        with self._handle.lock:
            for command in commands:
                self.line(command)

    def texts(self) -> Mapping[str, str]:
        """The texts that are not empty: `title`, `author`, `copyright`, `notes`, and the clues by the names of their lights."""
        found = {}
        for line in self.line("texts"):
            field, _, text = line.partition(" ")
            if field == "clue":
                number, direction, text = text.split(" ", 2)
                field = f"{number} {direction}"
            found[field] = unescape(text)
        return found

    def circle(self, row: int, column: int) -> None:
        """Toggles the circle of a cell."""
        self.line(f"circle {row} {column}")

    def circles(self) -> List[Circle]:
        """The open cells that are circled, in reading order."""
        return [Circle(int(row), int(column)) for row, column in self._fields("circles")]

    # ---- files

    def record(self) -> bytes:
        """The session as commands, for `Session(words, record=...)` over the same words."""
        return self._ask("record")

    def to_puz(self) -> bytes:
        """The puzzle as a `.puz` file. Raises `Fault` if the format cannot hold it."""
        return self._ask("puz")

    def to_text(self) -> bytes:
        """The puzzle as a text file. Raises `Fault` if the format cannot hold it."""
        return self._ask("text")

    def save(self, path: Union[str, "os.PathLike[str]"]) -> Optional[pathlib.Path]:
        """Writes a file, whose name says what: the puzzle in `a.puz` or `a.txt`, or the session in `a.xw`. The file is replaced whole, or stays as it was:
        `Fault` tells that the format cannot hold the puzzle, `OSError` that the file cannot be written, and `ValueError` that the name is none for a
        file of the session, or is that of a file which the session began with. Returns the path under which the old file is kept, if it had what the new one
        has not."""
        place = pathlib.Path(path)
        kind = kind_of(place)
        self._sources.expect_other(place, kind)
        if kind == "xw":
            data = SESSION + self.record()
        else:
            data = self.to_puz() if kind == "puz" else self.to_text()
        return self._sources.put(place, kind, data)


class Climb:
    """The search of `Session.best`. Between two slices the grid is as it was at the start, with a least grade above that of the last fill."""

    def __init__(self, session: Session, seed: int, named: str, least: int):
        # words below the grade `above` are left out: it is more than the grade of the best fill
        self.session, self.seed, self.named, self.least, self.above = session, seed, named, least, least
        self.lock = session._handle.lock
        self.start = session.rows()
        self.entered = {light.name for light in session.lights() if "." not in light.letters}
        self.bound, self.found = 101, None  # type: int, Optional[Best]

    def run(self, slices: Slices, progress: Optional[Told]) -> Generator[Best, None, Found]:
        try:
            while True:
                if self.is_better(slices):
                    yield self.found  # type: ignore[misc]
                    self.enter(self.start)
                told = Progress(slices.made, self.found.grade if self.found else None, self.bound)
                if self.is_proved() or (progress and progress(told)) or slices.is_over:
                    return "filled" if self.found else "nofill" if self.is_proved() else "limit"
        finally:
            # a generator that was left may end after its session
            if not self.session.closed:
                self.session.least(self.least)
                if self.found:
                    self.enter(self.found.rows)

    def is_proved(self) -> bool:
        """Whether nothing is left to search for: there is no fill, or no better one."""
        return self.bound <= self.above

    def is_better(self, slices: Slices) -> bool:
        """Searches a slice. Returns whether it found a better fill, which then stands in the grid."""
        # other threads do not see the grid before it is read, nor the least grade of the search with it
        with self.lock:
            self.session.least(self.above)
            lines = slices.run(lambda placements: self.session.line(f"best {placements} {self.seed} {self.named}"))
            answer = dict(line.partition(" ")[::2] for line in lines)
            self.bound = min(self.bound, self.above if "nofill" in answer else int(answer["bound"]))
            if "filled" not in answer:
                return False
            self.found = Best(int(answer["least"]), self.bound, self.session.rows(), self.mean())
            self.above = self.found.grade + 1
            self.session.least(self.least)
            return True

    def mean(self) -> float:
        """The mean grade of the new words that stand in the grid; 100 if there are none."""
        grades = [it.grade or 0 for it in self.session.grades() if it.light not in self.entered]
        return sum(grades) / len(grades) if grades else 100.0

    def enter(self, rows: Tuple[str, ...]) -> None:
        """Makes the letters of the grid those of these rows."""
        with self.lock:
            for row, (now, wanted) in enumerate(zip(self.session.rows(), rows), 1):
                for column, (old, new) in enumerate(zip(now, wanted), 1):
                    if new == "-" != old:
                        self.session.clear(row, column)
                    elif new != old:
                        self.session.set(row, column, new)
