"""Which functions of a crate can tell that a declaration changed. tools/try-mutations asks this.

A declaration of specs/ or proofs/ can tell if it cites a changed name, since nothing else reaches it: the type of each of its terms comes
from a name. It can then change as well, and with it what cites it. A function can tell if its clauses, its body or its answers cite a name
that can change. If its clauses do, so can each function that calls it. A name is any word that the file declares or imports under that name,
or, within src/, any such word. So the answer can have too many functions, but not too few.
"""
import glob
import os
import re

# the name of a declaration, and what indents it
NAME = re.compile(r"^( *)(?:(?:pub|abbrev|unfoldable) )*(?:(?:record|data|ruleset) ([^\s:]+)|([^\s({:]+) :(?=\s))", re.M)
# an item of src/: what indents it, its kind, its name and the rest of its line
ITEM = re.compile(r"^( *)(?:pub(?:\([a-z]+\))? )?(?:const |unsafe )*(fn|const|static|struct|enum|trait|type|impl|mod)\b *(\w*)(.*)$", re.M)
# where a function's body begins: after its clauses, or else after its signature
BODY = re.compile(r"^ *\{\}?$", re.M)
BODY_OF_NO_CLAUSES = re.compile(r" \{$", re.M)
CLAUSES = re.compile(r"^ *(requires|ensures|unwinds|decreases)\b", re.M)
# a name that another one stands for in a file, and the names that a file hands on
RENAMED = re.compile(r"([^\s{},;.:]+) as ([^\s{},;.:]+)")
HANDED_ON = re.compile(r"^pub use [^{\n]*\{([^}]*)\}", re.M)
# the files of proofs/ that are about one function and in a folder of its name, which begins with + if it is recursive
ANSWERS = ("Answers.antt", "Invariants.antt", "Proof.antt")


def words(text):
    """The words of a text, taken apart as those of a specification and as those of Rust. The pieces of a mixfix name are words.

    The values of a borrow before and after a call are no names: `self.new` cites no function `new`.
    """
    text = re.sub(r"\.(new|old|now)\b(?!\()", " ", text)
    return {*re.split(r"[\s(){}\[\],.;:◌]+", text), *re.split(r"[\s(){}\[\],.;:◌&*!?<>=+|/'\"#-]+", text)} - {""}


def blanked(pattern, text):
    """The text with spaces in place of each match."""
    return re.sub(pattern, lambda it: " " * len(it[0]), text, flags=re.M)


def imports(crate, text):
    """Pairs of a module of this crate, as a path, and a name that the text has from it, or None for all its names."""
    whole = text.replace("crate::", f"Rattle.{crate}.").replace("::", ".")
    for path, names in re.findall(rf"\bRattle\.{crate}((?:\.[\w+-]+)+)(?:\.\{{([^}}]*)\}})?", whole):
        parts = path[1:].split(".")
        if not names:
            yield "/".join(parts), None
        for end in range(1, len(parts) + 1):
            for name in words(names) | set(parts[end:]):
                yield "/".join(parts[:end]), name


class Declaration:
    """A part of a file from `begin` to `end`, the names that it declares, and the words that it uses.

    `before` are the words before the body of a function, or all of another declaration. `seen` are the imports of its file. What a type,
    a trait or a method of a trait says holds everywhere.
    """

    def __init__(self, file, begin, text, names, seen=frozenset(), kind="", is_everywhere=False):
        self.file, self.begin, self.end, self.names, self.seen = file, begin, begin + len(text), names, seen
        self.is_everywhere = is_everywhere
        body = (BODY if CLAUSES.search(text) else BODY_OF_NO_CLAUSES).search(text) if kind == "fn" else None
        self.words, self.before = words(text), words(text[: body.start()] if body else text)

    def cites(self, names, used):
        """Whether one of these words of the declaration is among the names, which are pairs of a file and a name."""
        return any(name in used and self.sees(file, name) for file, name in names)

    def sees(self, file, name):
        if file == self.file or file.endswith(".rt") and (self.file.endswith(".rt") or os.path.basename(self.file) in ANSWERS):
            return True
        modules = [file.removesuffix(".antt")]
        if file.endswith(".rt"):
            # lemmas know the constants and functions of src/ from modules of specs/declared and specs/contracts
            modules = [it for it, _ in self.seen if it.startswith(("specs/declared", "specs/contracts")) and not it.endswith("/TheVariants")]
        return any((it, name) in self.seen or (it, None) in self.seen for it in modules)


def paragraphs(file, text, seen):
    """The declarations of a file of specs/ or of lemmas. An indented paragraph belongs to the one before it."""
    begins = [0, *[it.end() for it in re.finditer(r"\n\s*\n(?=[^ \n])", text)], len(text)]
    for begin, end in zip(begins, begins[1:]):
        part = blanked(r"^ *--.*$|^(pub )?use .*$", text[begin:end])
        # other declarations see what a module or a data type has inside, and of a record and a lemma only the name
        is_open = re.search(r"^ *(module|(pub )?data) ", part, re.M)
        names = [record or name for indent, record, name in NAME.findall(part) if is_open or not indent]
        yield Declaration(file, begin, part, {it for name in names for it in name.split("◌")} - {""}, seen)


def outer_items(text):
    """The first lines of the items of a file of src/, without items inside functions."""
    inside = None
    for it in ITEM.finditer(text):
        if inside is None or len(it[1]) <= inside:
            inside = len(it[1]) if it[2] == "fn" else None
            yield it


def items(file, text, seen):
    """The items of a file of src/, each from the blank line before its comments and attributes to the first line of the next."""
    text, begin, is_of_trait = blanked(r"//.*$|^ *(pub )?(ghost )?use .*$", text), 0, False
    found = list(outer_items(text))
    for it, end in zip(found, [*[it.start() for it in found[1:]], len(text)]):
        indent, kind, name, rest = it.groups()
        if kind == "impl" or not indent:
            is_of_trait = kind == "trait" or kind == "impl" and " for " in rest
        names = {name} if kind in ("fn", "const", "static") else set()
        start = max(text.rfind("\n\n", 0, it.start()) + 1, begin)
        yield Declaration(file, start, text[start:end], names, seen, kind, is_of_trait or not names and kind != "mod")
        begin = it.end()


class Citations:
    """The declarations of a crate, the items of its src/, and the answers of its functions."""

    def __init__(self, folder):
        self.folder, self.declared, self.items, self.answers = folder, [], [], []
        for path in sorted(it for part in ("specs", "proofs", "src") for it in glob.glob(f"{folder}/{part}/**/*", recursive=True)):
            if path.endswith((".antt", ".rt")):
                self.read(os.path.relpath(path, folder))

    def read(self, file):
        text = self.text(file)
        seen = {*imports(os.path.basename(self.folder), text)}
        if os.path.basename(file) in ANSWERS:
            own = os.path.basename(os.path.dirname(file)).removeprefix("+")
            self.answers.append(Declaration(file, 0, text, {own}, seen))
        elif file.endswith(".rt"):
            self.items += items(file, text, seen)
        else:
            self.declared += paragraphs(file, text, seen)
            self.declared += [Declaration(file, 0, names, words(names), seen) for names in HANDED_ON.findall(text)]
        self.declared += [Declaration(file, 0, name, {other}, seen) for name, other in RENAMED.findall(text)]

    def text(self, file):
        with open(f"{self.folder}/{file}", encoding="utf-8") as opened:
            return opened.read()

    def disturbed(self, file, places):
        """The bare names of the functions that can tell that a file changed at these places.

        The answer is None if a place is in no declaration, or if what holds everywhere can change.
        """
        names = set()
        for at in places:
            changed = [it for it in self.declared + self.items if it.file == file and it.begin <= at < it.end]
            if not changed or any(it.is_everywhere for it in changed):
                return None
            names.update((file, name) for it in changed for name in it.names)
        more = None
        while more != names:
            names = more or names
            citing = [it for it in self.declared + self.items if it.cites(names, it.before)]
            if any(it.is_everywhere for it in citing):
                return None
            more = names.union(*[{(it.file, name) for name in it.names} for it in citing])
        return {name for it in self.items + self.answers if it.cites(names, it.words) for name in it.names}
