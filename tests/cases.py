"""The test cases, by the names of their modules: those that a Python module has in CASES, and the dialogues of a text of sessions/.

In a dialogue a line with '>' is typed, and the lines below it are the answer. '@ NAME: NOTE' begins a case. '@@' begins lines that each case below starts with, up to
the next '@@'. Blank lines say nothing, nor does what stands above the first typed line of the text or of such a beginning. ␀ and ␉ stand for the bytes 0 and 9, and
␠ for a space at the end of a line.
"""
import importlib
import pathlib
import tempfile

from steps import answers

TESTS = pathlib.Path(__file__).resolve().parent
# the folders with cases
PARTS = ("files", "runs", "sessions")
BYTES = str.maketrans("␀␉␠", "\0\t ")


def names_in(*parts):
    """The names of the modules in these folders, such as runs/memory."""
    return [f"{part}/{path.stem}" for part in parts for path in sorted((TESTS / part).iterdir()) if path.suffix in (".py", ".txt")]


def cases_of(name):
    """The cases of a module, by name: each is a list of steps."""
    if (TESTS / f"{name}.txt").is_file():
        return {case: [answers(*exchange(lines))] for case, lines in dialogues(name).items()}
    return importlib.import_module(name.replace("/", ".")).CASES


def dialogues(name):
    """The lines of each dialogue of a text, by name."""
    found = {}
    beginning = lines = []
    for line in (TESTS / f"{name}.txt").read_text().split("\n"):
        if line.startswith("@@"):
            beginning = lines = []
        elif line.startswith("@ "):
            lines = found[line[2:].split(":")[0]] = list(beginning)
        elif line and (lines or line.startswith(">")):
            lines.append(line)
    return found


def exchange(lines):
    """What these lines type, and what is answered to all of it."""
    typed = [line[1:].removeprefix(" ") for line in lines if line.startswith(">")]
    output = [line for line in lines if not line.startswith(">")]
    return tuple("".join(f"{it}\n" for it in group).translate(BYTES).encode() for group in (typed, output))


def in_a_room(steps, program):
    """A function that runs the steps of a case in a folder of their own."""

    def case():
        with tempfile.TemporaryDirectory() as room:
            for step in steps:
                step(pathlib.Path(room), program)

    return case
