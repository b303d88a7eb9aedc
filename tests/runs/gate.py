"""The checks where nothing is installed but the kit, git and Python: none fails, and those that need more are skipped by name. The parts of ./check are run so
far as they tell this."""
import os
import pathlib
import shutil
import subprocess
import sys

from documents import TOP
from needs import NEEDS
from steps import SECONDS, compare

# what the scripts of the checks call
SHELL = "awk bash cat dirname env git grep mkdir mktemp nice nproc readlink rm sed sh tail tee tr"
# the packages that are missing where no command is installed
PACKAGES = sorted({need.package for need in NEEDS if not need.tools.startswith("/")})
# what the parts of ./check say in the test of the whole, which does not run them
PARTS = {
    "tests/run": "skipped: runs/completing options in zsh: there is no zsh\n40 passed, 0 failed, 1 skipped",
    "tests/library": "skipped: library in C: there is no cc\npackage for Python: skipped: types: there is no mypy\n7 passed, 0 failed, 2 skipped",
    "tests/dist": "12 passed, 0 failed",
    "tests/page": "an answer of the page: skipped: no check\n9 passed, 0 failed",
    "tools/try-mutations": "100 passed, 0 failed",
    "tools/check-reads": "",
    "tests/caught": "1 passed, 0 failed",
    "build": "",
    "tools/rt": "500 passed, 0 failed",
}
SKIPPED = [
    "skipped: library: library in C: there is no cc",
    "skipped: library: package for Python: types: there is no mypy",
    "skipped: tests: runs/completing options in zsh: there is no zsh",
]


def bare(room):
    """The variables of a process that finds the tools of the shell, the kit, git and Python, and nothing else."""
    tools = room / "tools"
    tools.mkdir(exist_ok=True)
    for name, path in {"python3": sys.executable, **{name: shutil.which(name) for name in (*SHELL.split(), "rt")}}.items():
        if path and not (tools / name).exists():
            (tools / name).symlink_to(path)
    return {"PATH": str(tools), "PYTHONDONTWRITEBYTECODE": "1", "PYTHONPATH": str(TOP / "python")}


def told(room, *words, status=0):
    """The lines that a check prints there."""
    ended = subprocess.run([str(word) for word in words], cwd=room, env=bare(room), capture_output=True, text=True, timeout=SECONDS)
    compare(f"status and messages of {words[0]}", (ended.returncode, ended.stderr), (status, ""))
    return ended.stdout.splitlines()


def skips(what, names):
    """A check skips all that it is asked for: these names, each for these tools first."""

    def step(room, program):
        *lines, last = told(room, *what, program, *names)
        compare("last line", last, f"0 passed, 0 failed, {len(names)} skipped")
        found = {name: reason for name, reason in (line.removeprefix("skipped: ").split(": ", 1) for line in lines)}
        compare("skipped", list(found), list(names))
        for name, reason in names.items():
            assert found[name].startswith(f"there is no {reason}"), f"{name}: {found[name]}"

    return step


NODE, CC = "node (Debian package nodejs)", "cc (Debian package gcc)"
WEB = f"{NODE}, no wasm-opt (Debian package binaryen), no esbuild (Debian package esbuild)"
LIBRARY = {
    "library in C": CC,
    "installed library": CC,
    "library in Node": WEB,
    "module in Node": WEB,
    "command in Node": WEB,
    "searches that report": f"{CC}, no {WEB}",
    "package for the web": WEB,
}
PAGE = {
    "types": f"{NODE}, no tsc (Debian package node-typescript)",
    **dict.fromkeys(("told", "state", "grids", "new grids", "records", "setting", "formats", "strangers"), NODE),
    "chromium": f"{NODE}, no chromium (Debian package chromium)",
    "firefox": f"{NODE}, no firefox-esr (Debian package firefox-esr)",
    "example": f"{NODE}, no chromium (Debian package chromium)",
}
DIST = "dpkg-deb (Debian package dpkg), no esbuild (Debian package esbuild), no strip (Debian package binutils), no wasm-opt (Debian package binaryen)"


def release(room, program):
    lines = told(room, TOP / "tests/dist", program)
    compare("lines", lines[1:], ["0 passed, 0 failed, 1 skipped"])
    assert lines[0].startswith(f"skipped: all cases: there is no {DIST}"), lines[0]


def page(room, program):
    """All parts are skipped, or, before ./build web has made the page, the whole."""
    names = PAGE if (TOP / "web/dist/xw.html").exists() else {"all parts": WEB}
    skips([TOP / "tests/page"], names)(room, program)


def cases_of_the_program(room, program):
    *lines, last = told(room, TOP / "tests/run", program, "runs/completing")
    shells = {shell: f"there is no {shell} (Debian package {shell})" for shell in ("zsh", "fish")}
    wanted = [f"skipped: runs/completing {case} in {shell}: {reason}" for shell, reason in shells.items() for case in ("options", "commands", "files")]
    compare("lines", (lines, last), (wanted, "3 passed, 0 failed, 6 skipped"))


def gate(room, parts):
    """A copy of ./check with other parts: scripts that say this."""
    for name, text in parts.items():
        (room / name).parent.mkdir(exist_ok=True)
        # a link to a tool of the machine is never written through
        (room / name).unlink(missing_ok=True)
        (room / name).write_text(f"#!/bin/sh\ncat <<'end'\n{text}\nend\n")
        (room / name).chmod(0o755)
    for name in ("check", "tests/counts.py", "tests/needs.py"):
        shutil.copy(TOP / name, room / name)
    return room / "check"


def whole(room, program):
    """Its last lines name what was skipped, and the one command that installs what all of it needs."""
    check = gate(room, PARTS)
    *lines, last = told(room, check)
    # the look for reads counts as one
    compare("last line", last, "670 passed, 0 failed, 3 skipped")
    compare("names", lines[-4:-1], SKIPPED)
    command, packages = lines[-1].split(" --no-install-recommends ")
    compare("command", command, "to run what was skipped: apt-get install")
    compare("packages", [it for it in packages.split() if it in PACKAGES], PACKAGES)
    compare("as CI calls it", told(room, check, "--complete", status=1)[-1], "670 passed, 3 failed")
    check = gate(room, {"tests/run": "40 passed, 0 failed", "tests/library": "7 passed, 0 failed"})
    for words in ((), ("--complete",)):
        lines = told(room, check, *words)
        compare("nothing is skipped", (lines[-1], [line for line in lines if "apt-get" in line]), ("670 passed, 0 failed", []))
    check = gate(room, {"tests/library": "7 passed, 0 failed\nand then it ended", "tools/rt": "rt: must-fail a: BAD EDIT\n500 passed, 0 failed"})
    compare("what fails", told(room, check, status=1)[-1], "663 passed, 2 failed")
    check = gate(room, {"tests/run": "FAILED runs/files one: no file\n39 passed, 1 failed", "tests/library": "types: FAIL of a list: 2\n6 passed, 1 failed"})
    compare("what failed is named", told(room, check, status=1)[-3:-1], ["library: types: FAIL of a list: 2", "tests: FAILED runs/files one: no file"])


def table(room, program):
    """The parts that tests/needs.py names do use the tool."""
    files = {
        "library": ("tests/library", "tests/installed", "tests/searches", "tests/python/package.py"),
        "page": ("tests/page",),
        "dist": ("tests/dist", "tests/rooms.py"),
        "run": ("tests/runs/completing.py", "tests/runs/collisions.py", "README.md"),
    }
    texts = {part: "".join((TOP / name).read_text(encoding="utf-8") for name in names) for part, names in files.items()}
    for need in NEEDS:
        for part in need.parts.split():
            assert any(tool in texts[part] for tool in need.tools.split()), f"{part} does not use {need.tools}"


CASES = {
    "callers of the library": [skips([TOP / "tests/library"], LIBRARY)],
    "types of the package for Python": [skips(["python3", TOP / "tests/python/package.py"], {"package_is_typed": "mypy (Debian package mypy)"})],
    "files of a release": [release],
    "the page": [page],
    "cases of the program": [cases_of_the_program],
    "the whole": [whole],
    "the table": [table],
}
