"""The notices of the kit's crates that the program and the libraries contain. `build` calls this."""
import re

from proving import kit, uses

HEAD = """xw contains code of the crates below, which the Rattle kit has as ports of Rust crates. Each is used under the licence that follows its name.
"""
# of two licences that one may choose from, this one is used
CHOSEN = ("LICENSE", "LICENSE-MIT", "LICENSE-UNICODE")


def sources(name):
    return kit() / "rattle" / name


def uses_of(name):
    """The crates of the kit that a crate of the kit names in its sources."""
    texts = (path.read_text() for path in sources(name).glob("src/**/*.rt"))
    named = {it for text in texts for it in re.findall(r"^\s*(?:pub )?use (\w+)::", text, re.M)}
    return sorted(it for it in named if licences(it))


def licences(name):
    return [path for path in map(sources(name).joinpath, CHOSEN) if path.exists()]


def linked():
    """The crates with a licence that the crates of the repository use, directly or not."""
    found, due = set(), sorted({it for below in uses().values() for it in below if it not in uses() and licences(it)})
    while due:
        name = due.pop()
        found.add(name)
        due += [it for it in uses_of(name) if it not in found]
    return sorted(found)


def version(name):
    """The version of the Rust crate, as the kit's page on the port names it. A table of Unicode has none."""
    page = sources(name) / "README.md"
    found = re.search(rf"(?:Rust crate|{name}(?:_builder)?`?) (\d+\.\d+\.\d+)", page.read_text()) if page.exists() else None
    return found[1] if found else ""


def notices():
    """The text of the file NOTICES."""
    parts = [HEAD]
    for name in linked():
        texts = "\n".join(path.read_text().strip("\n") + "\n" for path in licences(name))
        parts.append(f"{f'{name} {version(name)}'.strip()}\n\n{texts}")
    return f"\n{'-' * 78}\n\n".join(parts)
