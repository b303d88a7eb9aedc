"""Texts with accents: each way into a file and out of it keeps their bytes."""
import subprocess
import sys

from documents import TOP
from steps import FIRST, SECONDS, compare, run, write

# A title in Windows-1252, and bytes that this has no character for.
TITLE = "title Caf\u00e9 \u2019".encode("cp1252")
AUTHOR = b"author \x81\x8D\x8F\x90\x9D"
CLUE = b"clue 1 across na\xEFve"
TEXTS = TITLE + b"\n" + AUTHOR + b"\n" + CLUE + b"\n"

# A puzzle with these texts.
BEGIN = b"size 2 1\nplace 1 across at\n"
LINES = BEGIN + TEXTS
MADE = [run("edit --to made.puz", LINES, output=b"ok\n" * 5)]


def has(name, *texts):
    """The file has these bytes."""

    def step(room, program):
        found = (room / name).read_bytes()
        for text in texts:
            assert text in found, f"{name} does not have {text!r}"

    return step


def same(name, other):
    return lambda room, program: compare(name, (room / name).read_bytes(), (room / other).read_bytes())


def told(words, texts=TEXTS):
    """A session that starts in this way has the texts."""
    return run(f"edit {words}", b"texts\n", output=texts + b"ok\n")


def board_keeps(room, program):
    """The example front end reads a log and writes it again, and sends the texts."""
    log = room / "board.xw"
    log.write_bytes(LINES)
    (room / "keys").write_bytes(b"^S")
    asked = [sys.executable, TOP / "examples/board.py", "--keys", "keys", "--log", log, "--xw", program]
    subprocess.run(asked, cwd=room, stdout=subprocess.DEVNULL, timeout=SECONDS, check=True)
    compare("log", log.read_bytes(), LINES)


class Each:
    """A title and a clue with each byte but NUL and those that are left out."""

    ESCAPES = {0x0A: b"\\n", 0x0D: b"\\r", 0x5C: b"\\\\"}

    def __init__(self, left_out=b""):
        self.text = bytes([0x78, *(byte for byte in range(1, 256) if byte not in left_out), 0x78])
        self.spelled = b"".join(self.ESCAPES.get(byte, bytes([byte])) for byte in self.text)
        self.lines = BEGIN + b"text title " + self.spelled + b"\ntext clue 1 1 across " + self.spelled + b"\n"
        self.texts = b"title " + self.spelled + b"\nclue 1 across " + self.spelled + b"\n"

    def made(self, words):
        return run(f"edit {words}", self.lines + b"texts\n", output=b"ok\n" * 4 + self.texts + b"ok\n")

    def told(self, words):
        return told(words, self.texts)


EACH, IN_LINES = Each(), Each(b"\r\n")
RECORD = b"text title Caf\xE9 \x92\ntext author \x81\x8D\x8F\x90\x9D\ntext copyright \ntext notes \ntext clue 1 1 across na\xEFve\n"
CASES = {
    "a session answers with the bytes that it was sent": [run("edit", LINES + b"texts\n", output=b"ok\n" * 5 + TEXTS + b"ok\n")],
    ".puz": [*MADE, has("made.puz", b"Caf\xE9 \x92\0\x81\x8D\x8F\x90\x9D\0\0na\xEFve\0"), told("--from made.puz")],
    "text file": [
        run("edit --to made.txt", LINES, output=b"ok\n" * 5),
        has("made.txt", b"\n\tCaf\xE9 \x92\n", b"\n\t\x81\x8D\x8F\x90\x9D\n", b"\n\tna\xEFve\n"),
        told("--from made.txt"),
    ],
    "convert, there and back": [
        *MADE,
        run("convert made.puz made.txt"),
        run("convert made.txt again.puz"),
        same("again.puz", "made.puz"),
    ],
    "save and resume": [run("edit --save made.xw", LINES, output=b"ok\n" * 5), has("made.xw", RECORD), told("--resume made.xw")],
    "journal": [run("edit --journal made.xw", LINES, output=b"ok\n" * 5), has("made.xw", RECORD), told("--journal made.xw")],
    "journal that was cut": [
        write("cut.xw", FIRST + LINES + b"cut"),
        run("edit --journal cut.xw", b"texts\n", TEXTS + b"ok\n", b"xw: cut.xw: an incomplete last command is ignored\n"),
    ],
    "UTF-8 is kept too, and is not Windows-1252": [
        run("edit --to made.puz", b"size 2 1\nplace 1 across at\ntitle Caf\xC3\xA9\nclue 1 across c\n", output=b"ok\n" * 4),
        has("made.puz", b"Caf\xC3\xA9\0"),
    ],
    "each byte, .puz": [
        EACH.made("--to made.puz"),
        has("made.puz", EACH.text + b"\0"),
        EACH.told("--from made.puz"),
        run("convert made.puz again.puz"),
        same("again.puz", "made.puz"),
    ],
    # A line of a text file has no line feed.
    "each byte, text file": [
        IN_LINES.made("--to made.txt"),
        has("made.txt", b"\n\t" + IN_LINES.text + b"\n"),
        IN_LINES.told("--from made.txt"),
        run("convert made.txt made.puz"),
        has("made.puz", IN_LINES.text + b"\0"),
        run("convert made.puz again.txt"),
        same("again.txt", "made.txt"),
    ],
    "each byte, save and resume": [
        EACH.made("--save made.xw"),
        has("made.xw", b"text title " + EACH.spelled + b"\n"),
        EACH.told("--resume made.xw"),
    ],
    "each byte, journal": [EACH.made("--journal made.xw"), EACH.told("--journal made.xw")],
    "examples/board.py": [board_keeps],
}
