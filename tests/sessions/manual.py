"""The examples of docs/commands.md, read from it: a case for each of its sections, which is one session."""
from documents import Manual, compare_answers, status_of, text_of, typed
from steps import call, compare

NAME = "docs/commands.md"

# Lines that look like examples and cannot be read, each in a section that begins in a new session.
UNREADABLE = [
    "    add CAT",
    "    add CAT ->",
    "    add CAT -> ",
    "    add CAT -> CAT",
    "    add CAT -> ok / ok",
    "    add CAT -> ok ",
    "    add CAT -> no Known / ok",
    "    add CAT -> no",
    "    add CAT -> ok -> ok",
    "     add CAT -> ok",
    "    add CAT => ok",
    "     -> ok",
    "add CAT -> ok",
    "`add CAT` -> ok",
    "The examples begin somehow.",
    "The examples begin in a new session, with the square of the section above.",
    "## Another\n\n    add CAT -> ok",
]


def answered(examples):
    """Types the commands of examples in one session, and compares each answer."""

    def step(room, program):
        ended = call(room, program, "edit", typed(examples))
        compare_answers(examples, ended.stdout)
        compare("messages and status", (ended.stderr, ended.returncode), (b"", status_of(examples)))

    return step


def all_read(room, program):
    """Every line that looks like an example is read as one. Their number is counted in another way too."""
    assert not MANUAL.faults, "; ".join(MANUAL.faults)
    arrows = sum(line.startswith("    ") and " -> " in line for line in text_of(NAME).split("\n"))
    examples = {example.place for examples in MANUAL.sections.values() for example in examples}
    compare("number of examples", len(examples), arrows)
    assert arrows, f"{NAME} has no example"


def faults_found(line):
    def step(room, program):
        text = f"## Words\n\nThe examples begin in a new session.\n\n    add COT -> ok\n{line}\n"
        compare(f"number of faults of {line!r}", len(Manual("text", text).faults), 1)

    return step


MANUAL = Manual(NAME, text_of(NAME))
CASES = {
    "all_examples_read": [all_read],
    "unreadable_examples_found": [faults_found(line) for line in UNREADABLE],
    **{f"examples: {heading}": [answered(examples)] for heading, examples in MANUAL.sections.items()},
}
