"""Small random positions, a grid with entries and a list of words, and what is feasible there by the definition."""
import itertools

from compared import answered

LETTERS = "AES"


class Position:
    """A grid with entries and a word list."""

    def __init__(self, rng, shapes, counts=(2, 6, 12), entered=0.35):
        self.height, self.width = rng.choice(shapes)
        self.cells = list(itertools.product(range(self.height), range(self.width)))
        blocks = {cell for cell in self.cells if rng.random() < 0.15}
        self.entries = {cell: None for cell in self.cells if cell not in blocks}
        self.blocks = blocks
        self.lights = self.find_lights()
        self.words = set()
        for length in range(2, 5):
            for _ in range(rng.choice(counts)):
                self.words.add("".join(rng.choice(LETTERS) for _ in range(length)))
        self.words = sorted(self.words)
        rng.shuffle(self.words)
        for cell in self.entries:
            if rng.random() < entered:
                self.entries[cell] = rng.choice(LETTERS)

    def find_lights(self):
        lights, number = {}, 0
        for row, col in self.cells:
            if (row, col) not in self.entries:
                continue
            begun = False
            for name, (down, right) in (("across", (0, 1)), ("down", (1, 0))):
                if (row - down, col - right) in self.entries:
                    continue
                cells, cell = [], (row, col)
                while cell in self.entries:
                    cells.append(cell)
                    cell = (cell[0] + down, cell[1] + right)
                if len(cells) > 1:
                    if not begun:
                        number += 1
                        begun = True
                    lights[f"{number} {name}"] = cells
        # light order: by number, across before down
        return lights

    def commands(self):
        yield f"size {self.width} {self.height}"
        yield "sym none"
        yield from (f"add {word}" for word in self.words)
        yield from (f"block {row + 1} {col + 1}" for row, col in sorted(self.blocks))
        yield from (f"set {row + 1} {col + 1} {letter}" for (row, col), letter in self.entries.items() if letter)


def spelled(cells, entries):
    return "".join(entries[cell] or "." for cell in cells)


def feasible(position, entries):
    """The feasible words of each light: the greatest choice in which all words and letters support one another."""
    words = {}
    for name, cells in position.lights.items():
        now = spelled(cells, entries)
        if "." in now:
            words[name] = {word for word in position.words if len(word) == len(cells) and all(a in (".", b) for a, b in zip(now, word))}
        else:
            words[name] = {now}
    through = {}
    for name, cells in position.lights.items():
        for pos, cell in enumerate(cells):
            through.setdefault(cell, []).append((name, pos))
    changed = True
    while changed:
        changed = False
        for crossing in through.values():
            letters = set.intersection(*({word[pos] for word in words[name]} for name, pos in crossing))
            for name, pos in crossing:
                kept = {word for word in words[name] if word[pos] in letters}
                if len(kept) < len(words[name]):
                    words[name], changed = kept, True
    return words


def rows_of(position, entries):
    return [
        " ".join("#" if (row, col) not in entries else entries[row, col] or "-" for col in range(position.width))
        for row in range(position.height)
    ]


def ask(program, position, commands):
    """The commands of a position with these ones, and the lines that the program answers to these."""
    lines = [*position.commands(), *commands]
    setup = len(list(position.commands()))
    return lines, answered(program, lines).splitlines()[setup:]
