"""Copies of the repository whose program runs on the plain engine."""
import re
import shutil
import sys


def put_plain(top, folder):
    """Copies the crates with their kept proofs, and changes the engine of the program to the plain one. Returns the folder of its crate."""
    for name in ("xw", "build", "crates.txt", "HANDLES"):
        shutil.copy2(top / name, folder)
    shutil.copytree(top / "crates", folder / "crates", ignore=shutil.ignore_patterns("incremental", "must-fail"))
    program = folder / "crates/xw"
    source = program / "src/main.rt"
    text = source.read_text()
    for old, new in (("use xw_live::Live;\n", "use xw_plain::Plain;\n"), ("type Engine = Live;", "type Engine = Plain;")):
        if text.count(old) != 1:
            sys.exit(f"{old.strip()} does not occur exactly once in {source.name}")
        text = text.replace(old, new)
    source.write_text(text)
    listed = folder / "crates.txt"
    listed.write_text(re.sub(r"^(xw: .*)$", r"\1 xw_plain", listed.read_text(), flags=re.M))
    return program
