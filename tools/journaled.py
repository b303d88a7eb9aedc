"""Random sessions with a journal, for tools/kill-journal and tools/fill-disk."""
import contextlib
import re
import signal
import subprocess

# The first line of a journal.
FIRST = b"# xw session 1\n"

KINDS = "none half quarter leftright updown".split()
FIELDS = "title author copyright notes".split()
LETTERS = "AEST"

# What each start reports of its word list.
LOADED = re.compile(rb"\Axw: words.txt: \d+ added, \d+ skipped\n")


def word(chance, length=None):
    return "".join(chance.choice(LETTERS) for _ in range(length or chance.randint(2, 5)))


def texts(chance):
    text = chance.choice(["", "One", "\\sTwo", "a b  c", "x" * chance.choice([10, 300, 900])])
    return chance.choice([f"text {chance.choice(FIELDS)} {text}", f"more {chance.choice(FIELDS)} {text}", f"text clue 1 {chance.randint(1, 4)} down {text}"])


def random_line(chance):
    """A random line: mostly a change, often accepted."""
    row, col, side = chance.randint(1, 5), chance.randint(1, 5), chance.choice(["right", "below"])
    light = f"{chance.randint(1, 6)} {chance.choice(['across', 'down'])}"
    kinds = [
        (14, lambda: f"set {row} {col} {chance.choice(LETTERS)}"),
        (5, lambda: f"clear {row} {col}"),
        (5, lambda: f"place {light} {word(chance)}"),
        (3, lambda: f"erase {light}"),
        (4, lambda: f"block {row} {col}"),
        (3, lambda: f"bar {row} {col} {side}"),
        (2, lambda: f"sym {chance.choice(KINDS)}"),
        (1, lambda: f"size {chance.randint(1, 5)} {chance.randint(1, 5)}"),
        (6, lambda: f"add {word(chance)}"),
        (4, lambda: f"strike {word(chance)}"),
        (3, lambda: f"circle {row} {col}"),
        (2, lambda: f"watch {chance.choice(['on', 'off'])}"),
        (3, lambda: f"clue {light} {chance.choice(['', 'It purrs'])}"),
        (4, lambda: texts(chance)),
        (8, lambda: f"fill {chance.choice([1, 20, 2000])}"),
        (8, lambda: f"autofill {chance.choice([5, 500])} {chance.randint(0, 9)}"),
        (4, lambda: f"best {chance.choice([5, 500])} {chance.randint(0, 9)}"),
        (5, lambda: chance.choice(["show", "lights", "counts", "record", "suggest", f"words {light}", "texts", "dups"])),
        (3, lambda: chance.choice(["", "# a note", "frob", "set", "add 4", "title  spaced  ", " set 1 1 a \r", "\tclear 1  1", "title # xw end"])),
    ]
    made = chance.choices([make for _, make in kinds], [weight for weight, _ in kinds])[0]
    return made().encode()


def answers_of(output):
    """The whole answers at the front of an output."""
    return re.findall(rb"(?:(?!ok\n|no ).*\n)*(?:ok|no .*)\n", output)


def has_answer(text):
    text = text.strip(b" \t\r")
    return bool(text) and not text.startswith(b"#")


def answered(lines, output):
    """How many of the lines are done, by the answers to them."""
    indices = [index for index, text in enumerate(lines) if has_answer(text)]
    count = len(answers_of(output))
    return indices[count - 1] + 1 if count else 0


class Journaled:
    """A session with a journal in a folder, and the lines that it is known to have done."""

    def __init__(self, program, room, chance, name):
        self.program, self.room, self.chance, self.name = program, room, chance, name
        self.journal = room / name
        self.done = []
        words = {word(chance) for _ in range(chance.choice([0, 100, 400]))}
        (room / "words.txt").write_text("".join(f"{it}\n" for it in sorted(words)))
        self.journal.unlink(missing_ok=True)

    def message(self, text):
        return f"xw: {self.name}: {text}\n".encode()

    def start(self, *options, **settings):
        pipes = {"stdin": subprocess.PIPE, "stdout": subprocess.PIPE, "stderr": subprocess.PIPE}
        words = ["xw", "edit", "--dict", "words.txt", *options]
        return subprocess.Popen(words, executable=self.program, cwd=self.room, env={}, **pipes, **settings)

    def records(self, lines, known):
        """The records of a session without a journal after the lines that are known to be done, and after each line from there on."""
        asked = self.done + lines[:known] + [b"record"]
        for text in lines[known:]:
            asked += [text, b"record"]
        output, _ = self.start().communicate(b"".join(text + b"\n" for text in asked))
        answers = iter(answers_of(output))
        found = [(text, next(answers)) for text in asked if has_answer(text)]
        skipped = sum(map(has_answer, self.done + lines[:known]))
        # Lines may be `record` too, so the indices count.
        rest = found[skipped:]
        records, index = [rest[0][1]], 0
        for text in lines[known:]:
            index += 1 + has_answer(text)
            records.append(rest[index][1])
        return records

    def resumed(self):
        """The record of the session that is started from its journal, the messages and the status. The program ends or is killed then."""
        process = self.start("--journal", self.name)
        if self.chance.random() < 0.5:
            output, errors = process.communicate(b"record\n")
            status = process.returncode
        else:
            with contextlib.suppress(BrokenPipeError):
                process.stdin.write(b"record\n")
                process.stdin.flush()
            output = b""
            while not answers_of(output):
                more = process.stdout.read1()
                if not more:
                    break
                output += more
            if output:
                process.kill()
            errors, status = process.stderr.read(), process.wait()
            close(process)
            status = 0 if status == -signal.SIGKILL else status
        return output, errors, status

    def check(self, lines, known, found):
        """Finds the line after which the record is the one that was found: the last of those that are known to be done, or a later one. A
        command, and so a search, is done whole or not at all."""
        records = self.records(lines, known)
        for index, record in enumerate(records):
            if record == found:
                self.done += lines[: known + index]
                return
        raise AssertionError(
            f"after {len(self.done)} lines, of {len(lines)} lines sent, of which {known} are done:\n"
            + b"\n".join(self.done + lines).decode(errors="replace")
            + f"\nfound:\n{found.decode()}\nafter the lines that are done:\n{records[0].decode()}"
        )


def close(process):
    for stream in (process.stdin, process.stdout, process.stderr):
        with contextlib.suppress(BrokenPipeError):
            stream.close()
