"""What documents cite of the sources: paths, functions with their clauses, definitions, sections of other documents, and links.

A citation stands in backquotes. The README of a crate cites that crate, and those that the same paragraph, item or row names. A word in capitals, as in
`crates/NAME`, stands for any other.
"""
import re
import subprocess
import sys
from typing import NamedTuple

from documents import TOP, lines_of, text_of

sys.path.append(str(TOP / "tools"))
from citations import NAME

QUOTED = re.compile(r"`([^`]+)`")
IDENTIFIER = re.compile(r"[A-Za-z_]\w*")
FUNCTION = re.compile(r"[A-Za-z_]\w*(?:::[A-Za-z_]\w*)+")
PATH = re.compile(r"(?:\./)?((?:[\w.*+-]+/)*[\w.*+-]+/?)")
ITEM = re.compile(r'^( *)(?:pub(?:\([a-z]+\))? )?(?:const |unsafe |extern "C" )*(fn|const|static|struct|enum|trait|type|impl|mod)\b *(\w*)')
# a fact that a type or a trait carries
GHOST = re.compile(r"^    (?:pub )?ghost (\w+)(?: = |: )\{")
CAPITALS = re.compile(r"(?:^|[/:])[A-Z]+(?:$|[/.:])")
LINK = re.compile(r"\[[^]]*\]\(([^)\s]+)\)")
SECTION = re.compile(r'`(docs/[\w-]+\.md)`, "([^"]+)"')
# clauses behind the functions that have them, (`ok`, `err`), and behind the path of the one function that does
CLAUSES = re.compile(r"\(((?:`[a-z]\w*`(?:, | and )?)+)\)")
CLAUSES_OF = re.compile(r"(?<!of )`([\w:]+::\w+)` \(((?:`[a-z]\w*`(?:, | and )?)+)\)")
CLAUSE = re.compile(r"^ *(?:requires|ensures)\*? (\w+) \{")
TYPE_OF_IMPL = re.compile(r"^impl(?:<[^{]*?>)? (?:(?:\w+::)*(\w+)(?:<.*?>)? for )?(?:\w+::)*(\w+)")
VARIANT = re.compile(r"^    (\w+)\b")
# what a folder of a crate may be called, and the endings of files that are cited without their folder
PARTS = ("src", "specs", "proofs", "must-fail", "mutations", "accepted", "caught", "link")
ENDINGS = (".py", ".mjs", ".svg")
# what a build makes, and git ignores
MADE = re.compile(r"(?:web/)?dist\b|out\b|crates/\w+/out\b")


class Block(NamedTuple):
    """A paragraph, an item of a list or a row of a table. `head` is the row at the top of the table."""

    place: str
    text: str
    head: str


class Crate:
    """What the sources of a crate declare."""

    def __init__(self, name, files):
        self.files = files
        self.modules, self.items, self.members, self.clauses, self.words = set(), {}, {}, {}, set()
        for path in files:
            if path.startswith("src/"):
                module = path.removeprefix("src/").removesuffix(".rt").replace("/", "::")
                self.modules.add(module)
                self.read_source(module, text_of(f"crates/{name}/{path}"))
            elif re.match("specs/|proofs/[^/]*$", path):
                self.words.update(group for found in NAME.finditer(text_of(f"crates/{name}/{path}")) for group in found.groups()[1:] if group)

    def read_source(self, module, text):
        owner = function = None
        for line in text.split("\n"):
            item = ITEM.match(line)
            if item and not item[1]:
                owner = self.opened(module, item, line)
            if item and item[2] == "fn":
                function = item[3]
                self.members.setdefault(owner, set()).add(function)
            elif clause := CLAUSE.match(line):
                self.clauses.setdefault(function, set()).add(clause[1])
            elif ghost := GHOST.match(line):
                self.clauses.setdefault(owner, set()).add(ghost[1])
            elif owner and (variant := VARIANT.match(line)):
                self.members[owner].add(variant[1])

    def opened(self, module, item, line):
        """The type that an item at the left edge is, or is about."""
        if item[2] == "impl":
            trait, owner = TYPE_OF_IMPL.match(line).groups()
            self.words.update({trait} - {None})
        else:
            owner = item[3] if item[2] in ("struct", "enum", "trait") else None
            self.items.setdefault(item[3], set()).add(module)
        if owner:
            self.members.setdefault(owner, set())
        return owner

    def has_path(self, parts):
        """Whether the parts name a module, an item of one, or a function or variant of a type."""
        *modules, last = parts
        if any(is_in(parts, module) for module in self.modules):
            return True
        if any(is_in(modules, module) for module in self.items.get(last, ())):
            return True
        owner = modules.pop() if modules else None
        return last in self.members.get(owner, ()) and (not modules or any(is_in(modules, module) for module in self.items.get(owner, ())))

    def has_word(self, name):
        groups = (*self.members.values(), *self.clauses.values())
        return name in self.words or name in self.items or name in self.members or any(name in it for it in groups) or self.has_path([name])


def is_in(parts, module):
    """Whether the parts follow one another in the path of a module, or begin with its end."""
    return f"::{'::'.join(parts)}::" in f"::{module}::" if parts else True


class Sources:
    """The files of the repository, and its crates."""

    def __init__(self):
        listed = subprocess.run(["git", "-C", TOP, "ls-files", "--cached", "--others", "--exclude-standard"], capture_output=True, text=True, check=True)
        self.files = {name for name in listed.stdout.split("\n") if name and (TOP / name).exists()}
        self.folders = {name[: found.start()] for name in self.files for found in re.finditer("/", name)}
        self.tops = {name.split("/")[0] for name in self.files}
        self.crates = {}
        for name in {name.split("/")[1] for name in self.files if name.startswith("crates/")}:
            self.crates[name] = Crate(name, sorted(file.removeprefix(f"crates/{name}/") for file in self.files if file.startswith(f"crates/{name}/")))

    def has(self, path):
        return bool(MADE.match(path)) or path in self.files or path in self.folders

    def documents(self):
        return sorted(name for name in self.files if re.fullmatch(r"(?:docs/|crates/\w+/|web/editor/)?[\w-]+\.md", name) and name != "CHANGELOG.md")


def blocks_of(name, text):
    """The blocks of a document, without its code."""
    found, head = [], ""
    for place, line, is_code in lines_of(name, text):
        is_row = line.startswith("|")
        if not line.strip() or is_code or is_row or re.match(r" *(?:[-*]|\d+\.) ", line):
            found.append(None)
        if is_row and not head:
            head = line
        elif not is_row:
            head = ""
        if not is_code and line.strip():
            found[-1:] = [joined(found[-1] if found else None, place, line, head)]
    return [it for it in found if it]


def joined(block, place, line, head):
    return block._replace(text=f"{block.text} {line.strip()}") if block else Block(place, line, head)


class Reader:
    """Finds what a document cites and is not there."""

    def __init__(self, sources, name, text):
        self.sources, self.name, self.text, self.faults = sources, name, text, []
        self.own = name.split("/")[1] if name.startswith("crates/") else None
        self.row = set(), set()  # the crates and the names of the row above
        for block in blocks_of(name, text):
            self.read(block)

    def read(self, block):
        quoted = QUOTED.findall(block.text)
        named = {self.own, *(it.removeprefix("crates/").split("/")[0].split("::")[0] for it in quoted)} & self.sources.crates.keys()
        if is_contract(block):
            named |= self.row[0] if "the same" in block.text else set()
            self.read_contract(block, named)
        # a document that is not of a crate may cite a function of any
        crates = named if self.own else self.sources.crates.keys()
        for words in quoted:
            missing = self.missing_function(words, crates) if FUNCTION.fullmatch(words) else self.missing_file(words, named or crates)
            self.say(block, missing and f"there is no {missing}")
        for function, group in CLAUSES_OF.findall(block.text):
            missing = self.missing_clause(function.split("::")[-1], QUOTED.findall(group), crates)
            self.say(block, missing and f"{function} has no clause {missing}")
        for path, heading in SECTION.findall(block.text):
            is_there = path not in self.sources.files or heading in headings(text_of(path))
            self.say(block, not is_there and f"{path} has no section {heading}")
        for target in LINK.findall(block.text):
            self.say(block, self.fault_of_link(target))

    def say(self, block, fault):
        if fault:
            self.faults.append(f"{block.place}: {fault}")

    def missing_function(self, path, crates):
        first, *rest = path.split("::")
        found = [(first, rest)] if first in self.sources.crates else [(name, [first, *rest]) for name in crates]
        is_there = CAPITALS.search(path) or any(self.sources.crates[name].has_path(parts) for name, parts in found)
        return None if is_there else path

    def missing_clause(self, function, clauses, crates):
        known = set().union(*(self.sources.crates[name].clauses.get(function, set()) for name in crates))
        return next((clause for clause in clauses if clause not in known), None)

    def missing_file(self, words, crates):
        paths = [found[1].rstrip("/") for found in map(PATH.fullmatch, words.split()) if found and not CAPITALS.search(found[0])]
        return next((path for path in paths if not self.has_file(path, crates)), None)

    def has_file(self, path, crates):
        """Whether a path is there, or is none of the repository."""
        first, *rest = path.split("/")
        if rest and first in self.sources.tops:
            return self.sources.has(path) or self.sources.has(f"{path}.js")
        if rest and first in PARTS:
            pattern = re.compile(re.escape(path).replace(r"\*", "[^/]*") + "(?:/.*)?")
            return any(pattern.fullmatch(file) for name in crates for file in self.sources.crates[name].files)
        if path.endswith((".rt", ".antt")):
            return any(file.endswith(f"/{path}") for name in crates for file in self.sources.crates[name].files)
        return rest or not path.endswith(ENDINGS) or any(file == path or file.endswith(f"/{path}") for file in self.sources.files)

    def read_contract(self, block, crates):
        """Reads the second column of a table of promises: each name is one of the sources, and each clause one of a function that the row cites."""
        cell, found = block.text.split(" | ", 1)[1], [self.sources.crates[name] for name in crates]
        names = {part for words in QUOTED.findall(cell) for part in words.split("::") if IDENTIFIER.fullmatch(part)}
        above = self.row[1] if "the same" in cell else set()
        clauses = {name for group in CLAUSES.findall(cell) for name in QUOTED.findall(group)}
        known = set().union(*(crate.clauses.get(name, set()) for crate in found for name in names | above))
        unknown = {name for name in names - clauses - self.sources.crates.keys() if not any(crate.has_word(name) for crate in found)}
        self.faults += [f"{block.place}: no function of the row has a clause {name}" for name in sorted(clauses - known)]
        self.faults += [f"{block.place}: no source has a name {name}" for name in sorted(unknown)]
        self.row = crates, names | above

    def fault_of_link(self, target):
        path, _, anchor = target.partition("#")
        file = (TOP / self.name).parent.joinpath(path).resolve() if path else TOP / self.name
        name = str(file.relative_to(TOP)) if file.is_relative_to(TOP) else target
        if "://" in target:
            return None
        if not self.sources.has(name):
            return f"the link {target} leads to no file"
        is_there = not anchor or anchor in map(anchor_of, headings(text_of(name) if path else self.text))
        return None if is_there else f"the link {target} leads to no section"


def is_contract(block):
    """Whether a block is a row of a table of promises."""
    return block.head.endswith("| Contract |") and block.text != block.head and "|---" not in block.text


def headings(text):
    return re.findall(r"^#+ (.*)$", text, re.M)


def anchor_of(heading):
    return re.sub(r"[^\w -]", "", heading.lower()).replace(" ", "-")


def links_in(name, text):
    """The files that the links and pictures of a document lead to."""
    targets = {target.split("#")[0] for block in blocks_of(name, text) for target in LINK.findall(block.text)}
    return {str((TOP / name).parent.joinpath(it).resolve().relative_to(TOP)) for it in targets if it and "://" not in it}
