"""The sessions, the Python and the calls of the documents, read from them."""
import functools
import os
import re
import subprocess
import sys
from types import SimpleNamespace

from documents import TOP, Manual, Unreadable, answers_in, block, blocks, compare_answers, lines_in, session_of, status_of, text_of, typed
from needs import PACKAGES, needs
from steps import ACCEPTED, FORMAT, SECONDS, call, compare


# A fill of an open grid of 5 by 5.
WORDS = b"shade\nladed\nalong\ngorse\nsneer\nslags\nhalon\nadore\ndense\nedger\n"

MANUAL = Manual("docs/commands.md", text_of("docs/commands.md"))


def session_runs(name):
    """Runs the calls of the session of a document. It is skipped if it reads a word list that is not installed."""

    def step(room, program):
        (room / "examples").symlink_to(TOP / "examples")
        for place, words, printed, examples in session_of(block(name, "$ ")):
            if words.startswith("apt-get install "):
                compare(f"{place}: package", words.removeprefix("apt-get install ") in PACKAGES.values(), True)
            elif words.startswith(("grep ", "printf ")):
                needs(*re.findall("/usr/share/dict/[^ ]+", words))
                subprocess.run(words, shell=True, cwd=room, env={"PATH": os.defpath}, timeout=SECONDS, check=True)
            elif words.startswith(("xw edit ", "./xw edit ")):
                ended = call(room, program, words.removeprefix("./").removeprefix("xw "), typed(examples))
                compare(f"{place}: messages and status", (lines_in(ended.stderr), ended.returncode), (printed, status_of(examples)))
                compare_answers(examples, ended.stdout)
                for file in re.findall("--to ([^ ]+)", words):
                    compare(f"{place}: status of xw check {file}", call(room, program, f"check {file}").returncode, ACCEPTED)
            else:
                raise Unreadable(f"{place}: this call is not run: {words}")

    return step


def python_runs(name):
    """Runs the Python of a document, which prints the answers to some commands. They are those of a session with the same commands."""

    def step(room, program):
        code = "\n".join(line for _, line in block(name, "import subprocess"))
        (room / "words.txt").write_bytes(WORDS)
        (room / "xw").symlink_to(program)
        ended = subprocess.run([sys.executable, "-c", code], cwd=room, env={"PATH": str(room)}, capture_output=True, timeout=SECONDS)
        commands = re.findall(r'\bask\("([^"]*)"\)', code)
        plain = call(room, program, "edit --dict words.txt", "".join(f"{command}\n" for command in commands).encode("cp1252"))
        answers = [(answer[-1], answer[:-1]) for answer in answers_in(plain.stdout)]
        assert commands and len(answers) == len(commands), f"{name}: {commands}"
        compare(name, (lines_in(ended.stdout), ended.stderr), ([" ".join(map(str, answers))], plain.stderr))

    return step


# Texts are sent to the Python of a document, and read back: an accent, and each byte that needs no escape. The last answer is copied byte by
# byte.
TEXTS_SENT = """
import sys
BYTES = bytes(byte for byte in range(0x21, 0x100) if byte != 0x5C)
for text in ("Caf\u00e9 \u2019", BYTES.decode("cp1252", "surrogateescape")):
    print((ask("title " + text), ask("texts")) == (("ok", []), ("ok", ["title " + text])))
print("texts", file=xw.stdin, flush=True)
sys.stdout.flush()
sys.stdout.buffer.write(xw.stdout.buffer.readline())
"""


def python_keeps_accents(name):
    """The Python of a document sends and reads texts in Windows-1252, and keeps the bytes that have no character."""

    def step(room, program):
        code = "\n".join(line for _, line in block(name, "import subprocess"))
        (room / "words.txt").write_bytes(WORDS)
        (room / "xw").symlink_to(program)
        asked = [sys.executable, "-c", code + TEXTS_SENT]
        ended = subprocess.run(asked, cwd=room, env={"PATH": str(room)}, capture_output=True, timeout=SECONDS)
        lines = ended.stdout.split(b"\n", 3)
        compare(f"{name}: read", lines[1:3], [b"True", b"True"])
        compare(f"{name}: sent", lines[3], b"title " + bytes(byte for byte in range(0x21, 0x100) if byte != 0x5C) + b"\n")

    return step


class Refused(Exception):
    """What the loop of docs/front-ends.md raises for a refusal."""


def loop_runs(room, program):
    """Runs the loop of docs/front-ends.md on answers, on texts, on a refusal, and on a program that ends without an answer."""
    begin, loop = ("\n".join(line for _, line in block("docs/front-ends.md", first)) for first in ("program = ", "def ask(command):"))
    (room / "words.txt").write_bytes(b"at\n")
    popen = functools.partial(subprocess.Popen, executable=program, cwd=room, stderr=subprocess.DEVNULL)
    names = {"subprocess": SimpleNamespace(Popen=popen, PIPE=subprocess.PIPE), "Refused": Refused}
    exec(begin + "\n" + loop, names)
    with names["program"] as session:
        answers = [names["ask"](command) for command in ("size 2 1", "words 1 across")]
        compare("answers", answers, [[], ["1", "AT"]])
        compare("refusal", raised(names["ask"], "frob"), (Refused, ("Command",)))
        # each byte comes back, also those that Windows-1252 has no character for
        title = bytes(byte for byte in range(0x21, 0x100) if byte != 0x5C)
        session.stdin.buffer.write(b"title " + title + b"\n")
        session.stdin.buffer.flush()
        compare("bytes sent", session.stdout.readline(), "ok\n")
        (line,) = names["ask"]("texts")
        compare("bytes read", line.encode("cp1252", "surrogateescape"), b"title " + title)
        compare("an accent", (names["ask"]("title Caf\u00e9"), names["ask"]("texts")), ([], ["title Caf\u00e9"]))
        compare("sent again", (names["ask"](line), names["ask"]("texts")), ([], [line]))
        compare("another character", raised(names["ask"], "title \u0416")[0], UnicodeEncodeError)
        compare("after that", names["ask"]("texts"), [line])
    streams = {"cwd": room, "encoding": "cp1252", "stdin": subprocess.PIPE, "stdout": subprocess.PIPE}
    with subprocess.Popen(["sh", "-c", "read line"], **streams) as names["program"]:
        compare("end", raised(names["ask"], "show"), (EOFError, ()))


def raised(function, *arguments):
    """The type and the arguments of the exception that a call raises, or None."""
    try:
        function(*arguments)
    except Exception as error:
        return type(error), error.args
    return None


def board_runs(room, program):
    """Runs the call of the example front end in docs/front-ends.md, which quits at once and saves its log."""
    ((place, words),) = block("docs/front-ends.md", "examples/board.py ")
    (room / "words.txt").write_bytes(WORDS)
    (room / "keys").write_bytes(b"^Q")
    asked = [sys.executable, TOP / words.split()[0], *words.split()[1:], "--keys", "keys", "--xw", program]
    ended = subprocess.run(asked, cwd=room, capture_output=True, timeout=SECONDS)
    compare(place, ended.returncode, 0)
    log = re.search("--log ([^ ]+)", words).group(1)
    assert (room / log).read_bytes(), f"{place}: {log} is empty"


def version_stands(room, program):
    """docs/front-ends.md, the manual page and the header have the version that the program prints."""
    (version,) = lines_in(call(room, program, "--version").stdout)
    number = version.split()[1]
    major, minor, patch = map(int, number.split("."))
    define = f"#define XW_LIBRARY_VERSION {major * 1_000_000 + minor * 1_000 + patch}\n"
    parts = {"docs/front-ends.md": (f"`{version}`",), "docs/xw.1": (f'"xw {number}"',), "include/xw.h": (define, f"{number} is {define.split()[2]}.", f'"{version}"')}
    for name, texts in parts.items():
        for text in texts:
            assert text in text_of(name), f"{name} does not have {text}"


def has_options(room, program):
    """The lines with the arguments of a call have the options that its help has."""
    for subcommand in ("edit", "convert", "check"):
        lines = [line for _, line in MANUAL.usages if line.startswith(f"xw {subcommand} ")]
        help_text = call(room, program, f"{subcommand} --help").stdout.decode()
        compare(f"options of xw {subcommand}", options_in(" ".join(lines)), options_in(help_text) - {"--help"})


def page_is_whole(room, program):
    """The manual page has the options of the help, the commands of docs/commands.md, and the exit statuses."""
    page = text_of("docs/xw.1").replace("\\-", "-")
    for subcommand in ("edit", "convert", "check"):
        help_text = call(room, program, f"{subcommand} --help").stdout.decode()
        missing = options_in(help_text) - {"--help"} - options_in(page)
        assert not missing, f"docs/xw.1 does not have {sorted(missing)}"
    table = page[page.index("lB lx.") : page.index(".TE")]
    cells = re.findall(r"^(?:T\{\n)?(.*?)(?:\nT\})?@T\{\n.*?\nT\}$", table, re.M | re.S)
    compare("commands of docs/xw.1", [form for cell in cells for form in cell.removeprefix("lB lx.\n").split("\n.br\n")], forms_in_headings())
    statuses = page[page.index(".SH EXIT STATUS") : page.index(".SH FILES")]
    compare("exit statuses of docs/xw.1", re.findall(r"^\.B (\d)$", statuses, re.M), list("01234"))


def forms_are_listed(room, program):
    """`help` lists the commands of docs/commands.md, each on one line. With a name it shows the line of that command."""
    *listed, end = lines_in(call(room, program, "edit", b"help\n").stdout)
    compare("end of help", end, "ok")
    compare("commands of help", sorted(form for line in listed for form in line.split(", ")), sorted(forms_in_headings()))
    asked = "".join(f"help {line.split()[0]}\n" for line in listed)
    shown = lines_in(call(room, program, "edit", asked.encode()).stdout)
    compare("one command each", shown, [answer for line in listed for answer in (line, "ok")])


def forms_in_headings():
    """The commands with their arguments, in the headings of docs/commands.md."""
    return [form for heading in re.findall("^### ([a-z].*)$", text_of("docs/commands.md"), re.M) for form in heading.split(", ")]


def options_in(text):
    return set(re.findall("--[a-z]+", text))


def calls_accepted(room, program):
    """Runs the calls of docs/commands.md that have no choices in brackets, with the files that they name."""
    calls = [(place, line) for place, line in MANUAL.usages if not re.search("[][A-Z]", line)]
    for place, line in calls:
        for file in (room / "mine.xw", room / "words.txt"):
            file.write_bytes(b"")
        compare(f"{place}: status of {line}", call(room, program, line.removeprefix("xw ")).returncode, ACCEPTED)
    assert len(calls) > 1, "docs/commands.md has no such calls"


def puzzle_made(room, program):
    """Makes monday.puz, and monday.txt with an empty cell in row 3, column 4."""
    letters = "".join(f"set {row} {column} A\n" for row in range(1, 16) for column in range(1, 16))
    (room / "grid.xw").symlink_to(TOP / "examples/starter15.xw")
    lights = call(room, program, "edit --resume grid.xw --to monday.puz", (letters + "lights\n").encode()).stdout.decode()
    clues = "".join(f"clue {name} x\n" for name in re.findall(r"^(\d+ (?:across|down)) ", lights, re.M))
    call(room, program, "edit --from monday.puz --to monday.txt", clues.encode())
    lines = (room / "monday.txt").read_bytes().split(b"\n")
    row = lines.index(b"<GRID>") + 3
    lines[row] = lines[row][:4] + b"-" + lines[row][5:]
    (room / "monday.txt").write_bytes(b"\n".join(lines))


def calls_print(room, program):
    """Runs the calls of docs/commands.md that stand above what they print."""
    for place, words, printed, _ in MANUAL.calls:
        ended = call(room, program, words.removeprefix("xw "))
        compare(f"{place}: {words}", lines_in(ended.stdout) + lines_in(ended.stderr), printed)
        compare(f"{place}: status", ended.returncode, FORMAT if ended.stderr else ACCEPTED)
    assert MANUAL.calls, "docs/commands.md has no such calls"


def all_run(room, program):
    """No other document has a session or Python."""
    names = ["README.md", *(f"docs/{path.name}" for path in sorted((TOP / "docs").glob("*.md")))]
    firsts = {name: [lines[0][1] for lines in blocks(name)] for name in names}
    sessions = {name for name in names if any(first.startswith("$ ") for first in firsts[name])}
    compare("documents with sessions", sessions, {*SESSIONS, "docs/commands.md"})
    compare("documents with Python", {name for name in names if "import subprocess" in firsts[name]}, set(PYTHON))


SESSIONS = ["README.md", "docs/formats.md"]
PYTHON = ["README.md", "docs/embedding.md"]
CASES = {
    "all_examples_run": [all_run],
    **{f"session of {name}": [session_runs(name)] for name in SESSIONS},
    **{f"python of {name}": [python_runs(name)] for name in PYTHON},
    **{f"accents in the python of {name}": [python_keeps_accents(name)] for name in PYTHON},
    "loop of docs/front-ends.md": [loop_runs],
    "board of docs/front-ends.md": [board_runs],
    "version of docs/front-ends.md": [version_stands],
    "options of docs/commands.md": [has_options],
    "manual page": [page_is_whole],
    "help on commands": [forms_are_listed],
    "calls of docs/commands.md, accepted": [calls_accepted],
    "calls of docs/commands.md, with what they print": [puzzle_made, calls_print],
}
