"""What the output of a check says of a function. tools/try-mutations asks this.

A check tells that a stored proof no longer fits in the same way as it tells that a goal is not proved: by an error in the proof. The first
kind says nothing about the contract, so this takes them apart.
"""
import re

from citations import NAME, words

# what a check says of a function that passed; one that calls functions that were left out depends on their holes
PASSED = ("proved", "no holes", "depends on a hole")
# an error in a file of specs/ or proofs/: the file, the declaration, which `use` lines lack, and what it says
ERROR = re.compile(r"^(?:\./)?(\S+\.antt):\d+:\d+: error: (?:`([^`]+)`: )?(.*)", re.M)
# what an error says if a goal, or a part of it, is not what its answer proves. Others say that a name is not there, or that an answer has the
# wrong parts for the code
UNPROVED = re.compile(
    r"expected type|the two types|is checked against|^give the call less to do|^give a proof of that as the last argument"
    r"|^`(?:search|grind|omega|cc|simp|rw|grw|hlevel|assumption|first_of)`"
)
# a search as the prover makes it for a goal without an answer, but a shorter one: half a second in place of two
SEARCH = "search again-rules fits 200 steps 1000000"
RULES = "use Rattle.std.proofs.Common.{rules as again-rules}"
# the statement of a goal that is not proved
ASKED = re.compile(r"^note: `([^`]+)` of (\S+)/Answers\.antt must prove: (.*)", re.M)


class Told:
    """What a check's output says of a function.

    `unproved` are goals without an answer, `refused` declarations that its proof cites, and `errors` those in the files of its own proof: for
    each one the name of the file, the declaration and what is wrong.
    """

    def __init__(self, text, function):
        line = re.search(rf"^fn {re.escape(function)}: (.*)", text, re.M)
        self.is_there, self.line = bool(line), line[1] if line else ""
        self.passes = self.line.startswith(PASSED)
        goals = re.search(r"did not prove ((?:`[^`]+`(?:, | and )?)+)", self.line)
        self.unproved = set(re.findall(r"`([^`]+)`", goals[1])) if goals else set()
        cited = re.search(r"it stands on ((?:`[^`]+`(?:, | and )?)+), which antt refuses", self.line)
        self.refused = re.findall(r"`([^`]+)`", cited[1]) if cited else []
        self.all_errors = ERROR.findall(text)
        own = re.compile(rf"{re.escape('/'.join(['proofs', *function.split('::')[1:-1]]))}/\+?{re.escape(function.rpartition('::')[2])}/(\w+)\.antt")
        self.errors = [(own.fullmatch(file)[1], name, why) for file, name, why in self.all_errors if own.fullmatch(file)]
        folder = re.compile(own.pattern.removesuffix(r"/(\w+)\.antt"))
        self.statements = {goal: shape(it) for goal, file, it in ASKED.findall(text) if folder.fullmatch(file.removeprefix("./"))}

    def is_mute(self):
        """Whether nothing is said of the function, but that it is not proved. So it is if a function that it calls is not proved."""
        return not self.passes and not self.unproved and not self.refused and not self.errors

    def stale(self):
        """The answers and their lemmas that no longer fit."""
        return {name for file, name, why in self.errors if file == "Answers" and name and not UNPROVED.search(why)}

    def gone(self):
        """The answers to goals that are not there, and other names that are not."""
        errors = [(name, why) for file, name, why in self.errors if file == "Answers"]
        return {name for name, why in errors if name and f"has no `{name}`" in why}.union(*[names_in(why) for name, why in errors if not name])

    def failed(self):
        """The answers and their lemmas that fit, and do not prove their goals."""
        return {name for file, name, why in self.errors if file == "Answers" and name} - self.stale()

    def fits(self):
        """Whether all that the answers cite is there."""
        return not self.stale() and not self.gone()

    def why(self, names):
        """The first error in one of these answers."""
        return next((f"`{name}`: {why}" for file, name, why in self.errors if file == "Answers" and (not name or name in names)), "")

    def misfit(self):
        """An error in what is written of the proof and is no answer: an invariant, or a proof by hand."""
        return next((f"`{name}`: {why}" for file, name, why in self.errors if file != "Answers"), None)

    def lemma_error(self):
        """An error in a lemma or in a proof by hand that the proof stands on, if it says that it proves something else."""
        cited = [(it.split(".")[2:-1], it.rpartition(".")[2]) for it in self.refused]
        errors = [why for file, name, why in self.all_errors if (file.removesuffix(".antt").split("/"), name) in cited and "/Answers." not in file]
        return next((it for it in errors if UNPROVED.search(it)), None)


def names_in(why):
    """The names that are not there by an error outside declarations."""
    return set(re.findall(r"has no `([^`]+)`", why))


def shape(statement):
    """A statement without the names of the steps that it cites, which follow the names of variables and calls."""
    return re.sub(r"\bc(\.[^\s(){}\[\],;]+)+", "c", statement)


def without_answers(text, gone, names):
    """The text of a file of answers without some declarations, and with searches in the place of the answers to other goals.

    What cites a declaration that goes is searched as well.
    """
    parts = re.split(r"\n\s*\n(?=\S)", re.sub(r"^use .*$", lambda it: without_imports(it[0], gone), text, flags=re.M))
    declared = [{record or name for indent, record, name in NAME.findall(it) if not indent or it.startswith("module ")} for it in parts]
    lost = citing(gone | names, declared, parts)
    for at, own in enumerate(declared):
        if own & lost:
            parts[at] = "" if own & gone else with_search(parts[at])
    return "\n\n".join([RULES, *[it for it in parts if it]]) + "\n"


def citing(names, declared, parts):
    """These names, and those that are declared by parts which cite them, directly or not."""
    found, more = None, set(names)
    while found != more:
        found = more
        more = found.union(*[own for own, it in zip(declared, parts) if own & found or own and words(it.replace("goal.", "")) & found - own])
    return found


def without_imports(line, names):
    """A `use` line without some of its names."""
    path, brace, names_of = line.partition("{")
    left = [it for it in names_of.rstrip("}").split(", ") if it not in names]
    return f"{path}{{{', '.join(left)}}}" if brace and left else "" if brace else line


def with_search(part):
    """The declaration of an answer with a search in its place; nothing if it is another declaration."""
    goal = re.match(r"(?:--.*\n)*(?:pub )?(\S+) : goal\.\1\s", part)
    clauses = re.findall(rf"^{re.escape(goal[1])}(?: [^\s=]+)* =", part, re.M) if goal else []
    return f"{part[:part.index(clauses[0])]}{clauses[0]} {SEARCH}" if len(clauses) == 1 else ""
