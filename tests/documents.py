"""The examples of the documents, read from the documents.

Code in a document is a line that is indented by four spaces, or a line between two fences of three backquotes.
"""
import pathlib
import re
from typing import NamedTuple

from steps import ACCEPTED, REFUSED

TOP = pathlib.Path(__file__).resolve().parents[1]


class Example(NamedTuple):
    """A command, and the lines of its answer. `place` is the document and the number of the line."""

    place: str
    command: str
    answer: list


class Call(NamedTuple):
    """A call of the program or of the shell, the lines that it prints first, and the commands that are typed after that."""

    place: str
    words: str
    printed: list
    typed: list


class Unreadable(AssertionError):
    """A line looks like an example, and cannot be read as one."""


def text_of(name):
    return (TOP / name).read_text(encoding="utf-8")


def lines_of(name, text):
    """Yields the place of each line, the line, and whether it is code. Code comes without its indent."""
    is_fenced = False
    for number, line in enumerate(text.split("\n"), 1):
        is_fence = line.startswith("```")
        is_fenced = is_fenced != is_fence
        is_indented = not is_fenced and line.startswith("    ")
        yield f"{name}:{number}", line[4:] if is_indented else line, is_indented or is_fenced and not is_fence


def blocks(name):
    """The blocks of code of a document: lists of places and lines."""
    found, is_open = [], False
    for place, line, is_code in lines_of(name, text_of(name)):
        if is_code and not is_open:
            found.append([])
        if is_code:
            found[-1].append((place, line))
        is_open = is_code
    return found


def block(name, beginning):
    """The one block of a document that begins so."""
    found = [lines for lines in blocks(name) if lines[0][1].startswith(beginning)]
    if len(found) != 1:
        raise Unreadable(f"{name}: {len(found)} blocks begin with {beginning}")
    return found[0]


def checked(place, command, answer):
    """An example, if the lines are an answer: some lines and `ok`, or `no NAME`."""
    is_accepted = answer[-1:] == ["ok"] and not any(line == "ok" or line.startswith("no ") for line in answer[:-1])
    is_refused = len(answer) == 1 and re.fullmatch("no [A-Z][A-Za-z]*", answer[0])
    if not command or not (is_accepted or is_refused):
        raise Unreadable(f"{place}: this is not a command with its answer: {command} -> {' / '.join(answer)}")
    return Example(place, command, answer)


def example_of(place, line):
    """Reads the line `COMMAND -> LINE / LINE / ok` or `COMMAND -> no NAME`."""
    parts = line.split(" -> ")
    if len(parts) != 2 or line.startswith(" "):
        raise Unreadable(f"{place}: this is not an example: {line}")
    return checked(place, parts[0].rstrip(), parts[1].split(" / "))


def session_of(lines):
    """Reads a block of calls: `$` stands before a call, `>` before a line that is typed, and what is printed stands below it."""
    calls = []
    for place, line in lines:
        if line.startswith("$ "):
            calls.append(Call(place, line[2:], [], []))
        elif not calls:
            raise Unreadable(f"{place}: this is not a call: {line}")
        elif line.startswith("> "):
            calls[-1].typed.append(Example(place, line[2:], []))
        elif calls[-1].typed:
            calls[-1].typed[-1].answer.append(line)
        else:
            calls[-1].printed.append(line)
    return [call._replace(typed=[checked(*example) for example in call.typed]) for call in calls]


def status_of(examples):
    """The exit status after these commands."""
    return REFUSED if any(example.answer[0].startswith("no ") for example in examples) else ACCEPTED


def typed(examples):
    return "".join(f"{example.command}\n" for example in examples).encode()


def answers_in(output):
    """The answers that a program printed, as lists of lines."""
    answers, lines = [], []
    for line in lines_in(output):
        lines.append(line)
        if line == "ok" or line.startswith("no "):
            answers.append(lines)
            lines = []
    return answers + [lines] * bool(lines)


def lines_in(output):
    return output.decode().split("\n")[:-1]


def compare_answers(examples, output):
    """Compares the answers of examples with those of the program."""
    answers = answers_in(output)
    wrong = [f"{place}: {command} -> {' / '.join(found)}" for (place, command, answer), found in zip(examples, answers) if found != answer]
    assert not wrong, "the program answers " + "; ".join(wrong)
    assert len(answers) == len(examples), f"{examples[0].place}: {len(examples)} examples have {len(answers)} answers"


class Manual:
    """The examples of docs/commands.md.

    `sections` has the examples of each section, by its heading, from the beginning of its session on. `calls` has the calls with what they
    print, and `usages` the lines `xw ARGUMENTS`. `faults` says which lines look like examples and cannot be read.
    """

    def __init__(self, name, text):
        self.sections, self.calls, self.usages, self.faults = {}, [], [], []
        self.heading, self.examples = "", None  # None before the section says how its examples begin
        self.square, self.is_square = None, False
        self.is_call = False  # whether the block of the line began with a call
        for place, line, is_code in lines_of(name, text):
            try:
                self.read_code(place, line) if is_code else self.read_prose(place, line)
            except Unreadable as fault:
                self.faults.append(str(fault))

    def read_code(self, place, line):
        if line.startswith("xw ") and "->" not in line:
            self.usages.append((place, line))
        elif line.startswith("$ "):
            self.calls += session_of([(place, line)])
            self.is_call = True
        elif self.is_call:
            self.calls[-1].printed.append(line)
        else:
            self.take(example_of(place, line))

    def take(self, example):
        if self.examples is None:
            raise Unreadable(f"{example.place}: the section does not say how its examples begin")
        self.examples.append(example)
        self.sections[self.heading] = self.examples

    def read_prose(self, place, line):
        self.is_call = False
        if line.startswith("## "):
            self.heading, self.examples = line[3:], None
        elif line.startswith("### ") and self.is_square:
            self.square, self.is_square = list(self.examples), False
        elif line.startswith("The examples begin "):
            self.begin(place, line.removeprefix("The examples begin ").rstrip(".:"))
        elif "->" in line.replace("`->`", ""):
            raise Unreadable(f"{place}: an example stands in a line of its own, after four spaces: {line}")

    def begin(self, place, how):
        if how == "in a new session":
            self.examples = []
        elif how == "in a new session, with this square":
            self.examples, self.is_square = [], True
        elif how == "in a new session, with the square of the section above" and self.square:
            self.examples = list(self.square)
        else:
            raise Unreadable(f"{place}: the examples begin {how}")
