"""Leaves out the bodies of functions in a copy of a crate. tools/try-mutations asks this.

The prover uses the contract of a callee and never its body, so a check of some functions can leave out the bodies of all others. Such a body
becomes an endless loop, which has any type. The function's proof becomes a hole: with --allow-holes the prover takes it by its statement. Then
it checks neither the body nor the answers, nor what only the body calls.

A function stays if this cannot tell where its body or its proof is: one of a generic impl of a trait, a const one, a recursive one, or one
whose whole proof is written.
"""
import glob
import os
import re

# a function that can be left out: what indents it, and its name; the value of a const function may be needed
FUNCTION = re.compile(r"^(|    )(?:pub(?:\([a-z]+\))? )?fn (\w+)", re.M)
TYPE = re.compile(r"^(?:pub(?:\([a-z]+\))? )?(?:struct|enum|union) (\w+)", re.M)
IMPL = re.compile(r"^impl\b[^{]*", re.M)
CLAUSE = re.compile(r"^ *(requires|ensures|unwinds|decreases)\b", re.M)
# what is written of the proof of a function that is not left out
ANSWERS = ("Answers.antt", "Invariants.antt")
HOLE = """use Rattle.{module}.Statement.{{statement}}

pub {name}_spec : {{M : Type 1}} → statement M
{name}_spec = ?
"""


def read(path):
    with open(path, encoding="utf-8") as file:
        return file.read()


def write(path, text):
    with open(path, "w", encoding="utf-8") as file:
        file.write(text)


def module_of(file):
    """The path of the module in a file of src/."""
    parts = file.removesuffix(".rt").split("/")
    return [] if parts in (["lib"], ["main"]) else [it for it in parts if it != "mod"]


def folder_of(head, module, types):
    """The folder of an impl's functions, by the impl's first line: the type's, or for a trait one in this module. None if this cannot tell."""
    inherent, of_trait = re.fullmatch(r"impl(?:<[^<>]*>)? (\w+)(?:<[^<>]*>)? *", head), re.fullmatch(r"impl (\w+) for (\w+) *", head)
    if inherent:
        return types.get(inherent[1])
    return of_trait and [*module, of_trait[2] + of_trait[1]]


def body(text, at, indent):
    """Where the body of the function that is named before `at` begins and ends. None if it has no lines of its own."""
    end = re.compile(rf"^{indent}}}$", re.M).search(text, at)
    if not end or text[at : text.index("\n", at)].endswith("}"):
        return None
    # after clauses or bounds the brace has a line of its own
    own_line = rf"^{indent}{{(?=}}?\n)"
    begin = own_line if CLAUSE.search(text, at, end.start()) else rf"{own_line}|(?<= ){{(?=}}?\n)"
    found = re.compile(begin, re.M).search(text, at, end.start())
    return (found.end() + 1, end.start()) if found and text[found.end()] == "\n" else None


def bodies(text, module, types):
    """The functions of a file with this text: for each one the folder of its proof, and where its body begins and ends."""
    owners = [(it.start(), text.find("\n}\n", it.end()), folder_of(it[0], module, types)) for it in IMPL.finditer(text)]
    for it in FUNCTION.finditer(text):
        indent, name = it.groups()
        around = [owner for begin, end, owner in owners if begin < it.start() < end] if indent else [module]
        found = body(text, it.end(), indent)
        if found and around and around[0] is not None:
            yield [*around[0], name], *found


def proof_files(room, function, name):
    """The files of this name about a function in a folder of src/, specs/ and proofs/. The folder of a recursive function begins with +."""
    *folders, own = ["proofs", *function.split("::")[1:]]
    return [it for it in (f"{room}/{'/'.join(folders)}/{begin}{own}/{name}" for begin in ("", "+")) if os.path.exists(it)]


def can_go(folder):
    """Whether a function with this folder for its proof can be left out: neither a recursive one, nor one that is proved as a whole."""
    above, name = os.path.split(folder)
    return not os.path.exists(f"{above}/+{name}") and not os.path.exists(f"{folder}/Proof.antt")


def leave_out(crate, room, named):
    """Leaves out the functions of the crate's copy in a folder, but none with the bare name of a named one."""
    bare = {it.rpartition("::")[2] for it in named}
    files = {os.path.relpath(it, f"{room}/src"): read(it) for it in glob.glob(f"{room}/src/**/*.rt", recursive=True)}
    types = {name: [*module_of(file), name] for file, text in files.items() for name in TYPE.findall(text)}
    for file, text in files.items():
        for own, begin, end in reversed([*bodies(text, module_of(file), types)]):
            folder = f"{room}/proofs/{'/'.join(own)}"
            if own[-1] not in bare and can_go(folder):
                text = f"{text[:begin]}loop {{}}\n{text[end:]}"
                put_hole(folder, [crate, "proofs", *own])
        write(f"{room}/src/{file}", text)


def put_hole(folder, module):
    """Writes a hole for the proof of a function, in place of its answers."""
    os.makedirs(folder, exist_ok=True)
    for it in ANSWERS:
        if os.path.exists(f"{folder}/{it}"):
            os.remove(f"{folder}/{it}")
    write(f"{folder}/Proof.antt", HOLE.format(module=".".join(module), name=module[-1]))
