"""Declarations of the crates that nothing names: definitions of specs/, lemmas of proofs/, and items of src/.

A declaration of specs/ or proofs/ is named if its name stands in another declaration of its file, or in a file that imports it; an import alone names nothing. An
item of src/ is named if its name stands in another item. Documents and headers name what they quote, such as laws. Tests, worked examples and answers need no name.
"""
import re
import sys
from collections import Counter

from documents import TOP

sys.path.append(str(TOP / "tools"))
from citations import ANSWERS, NAME, blanked, outer_items, words

# one import: its module or the item of it, the names in braces, and what a whole module is called
USE = re.compile(r"^ *(?:pub |ghost )*use ([\w.:+-]+?)(?:(?:\.|::)\{([^}]*)\})?(?: as ([\w-]+))?;?$", re.M)
# a path of a lemma or a definition in an attribute
CITED = re.compile(r"((?:[\w.]+::)*(?:proofs|specs)(?:::\w+)+)::([\w-]+)")
NOTHING = r"--.*$|//.*$|^ *(?:pub |ghost )*use .*$"
# files whose declarations need no name: what is written of functions, worked examples, and lists of modules
FREE = re.compile(rf"/(?:{'|'.join(ANSWERS)}|\w*Examples\.antt|Worked\w*\.antt|Lib\.antt)$")


class File:
    """A file of a crate: the names that each of its declarations has, the words of each, and what it imports."""

    def __init__(self, path, text):
        self.path, self.crate, self.text = path, path.split("/")[1], text
        self.module = ".".join(("Rattle", self.crate, *path.rsplit(".", 1)[0].split("/")[2:]))
        parts = list((items_in if path.endswith(".rt") else paragraphs_in)(self.text))
        self.names, self.words = [names for names, _ in parts], [words(part) for _, part in parts]

    def cited(self):
        """What the file names of other modules: pairs of a module and a name."""
        found = set().union(*self.words)
        text = re.sub(r"\bcrate(?=::|\.)", f"Rattle.{self.crate}", self.text)
        for used, names, alias in USE.findall(text):
            module = used.replace("::", ".")
            if not names:
                yield from ((module, word) for word in found)
            for name in filter(None, (it.strip() for it in names.split(","))):
                original, _, other = name.partition(" as ")
                if is_in(other or original, found):
                    yield module, original
        for path, name in CITED.findall(text):
            yield f"Rattle.{path.replace('::', '.').removeprefix('Rattle.')}", name


def is_in(name, found):
    """Whether a name, or each piece of a mixfix one, is among words."""
    return all(piece in found for piece in name.split("◌") if piece)


def paragraphs_in(text):
    """The declarations of a file of specs/ or proofs/, each with the names that it declares, and its text. An indented paragraph belongs to the one before it."""
    text = blanked(NOTHING, text)
    begins = [0, *[it.end() for it in re.finditer(r"\n\s*\n(?=[^ \n])", text)], len(text)]
    for begin, end in zip(begins, begins[1:]):
        part = text[begin:end]
        yield [record or name for indent, record, name in NAME.findall(part) if not indent], part


def items_in(text):
    """The items of a file of src/, each with its name, if it needs one, and its text."""
    text, is_of_trait = blanked(NOTHING, text), False
    found = list(outer_items(text))
    for it, end in zip(found, [*[it.start() for it in found[1:]], len(text)]):
        indent, kind, name, rest = it.groups()
        if kind == "impl" or not indent:
            # the functions of a trait for a type are called by its name
            is_of_trait = kind == "impl" and " for " in rest
        is_test = text[: it.start()].rstrip().endswith("#[test]")
        is_named = kind not in ("impl", "mod") and not is_of_trait and not is_test and name != "main"
        yield [name] if is_named else [], text[it.start() : end]


class Unused:
    """Finds the declarations that nothing names, among the texts of files by their paths."""

    def __init__(self, texts):
        self.files = [File(path, text) for path, text in texts.items() if re.match(r"crates/\w+/(?:src|specs|proofs)/.*\.(?:rt|antt)$", path)]
        self.cited = set().union(*(file.cited() for file in self.files))
        # in how many items a word stands
        self.said = Counter(word for file in self.files if file.path.endswith(".rt") for part in file.words for word in part)
        others = [text for path, text in texts.items() if re.search(r"^include/|^crates/\w+/link/|\.md$", path)]
        # what documents quote, and the words of it and of headers
        self.quoted = {quoted for text in others for quoted in re.findall(r"`([^`\n]+)`", text)}
        self.told = {word for text in (*self.quoted, *(text for text in others if "`" not in text)) for word in re.findall(r"\w+", text)}

    def find(self):
        """The file and the name of each."""
        for file in self.files:
            if not FREE.search(file.path):
                for at, names in enumerate(file.names):
                    yield from ((file.path, name) for name in names if not self.is_named(file, at, name))

    def is_named(self, file, at, name):
        if file.path.endswith(".rt"):
            return self.said[name] > 1 or name in self.told
        is_named_beside = any(is_in(name, found) for other, found in enumerate(file.words) if other != at)
        return is_named_beside or (file.module, name) in self.cited or name in self.quoted
