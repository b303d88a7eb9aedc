#!/usr/bin/env python3
"""What the checks need beside the kit, git and Python.

usage: tests/needs.py missing TOOL..    says which of these tools are missing, if any
       tests/needs.py packages          lists the Debian packages that bring all tools that are missing
"""
import os
import shutil
import sys
from typing import NamedTuple


class Need(NamedTuple):
    """A Debian package, what it brings (commands, and paths of files), and the parts of the gate that use it."""

    package: str
    tools: str
    parts: str


NEEDS = (
    Need("binaryen", "wasm-opt", "library page dist"),
    Need("binutils", "nm objdump readelf strip", "library dist"),
    Need("chromium", "chromium", "page"),
    Need("debootstrap", "debootstrap", "dist"),
    Need("dpkg", "dpkg dpkg-deb", "dist"),
    Need("esbuild", "esbuild", "library page dist"),
    Need("firefox-esr", "firefox-esr", "page"),
    Need("fish", "fish", "run"),
    Need("g++", "c++", "library"),
    Need("gcc", "cc", "library dist"),
    Need("lintian", "lintian", "dist"),
    Need("mypy", "mypy", "library"),
    Need("node-typescript", "tsc", "library page"),
    Need("nodejs", "node", "library page dist"),
    Need("npm", "npm", "library"),
    Need("pkg-config", "pkg-config", "library"),
    Need("python3-distributed", "/usr/lib/python3/dist-packages/distributed", "library"),
    Need("valgrind", "valgrind", "run library"),
    Need("wamerican", "/usr/share/dict/american-english", "library page dist"),
    Need("wamerican-large", "/usr/share/dict/american-english-large", "run"),
    Need("zsh", "zsh", "run"),
)
PACKAGES = {tool: need.package for need in NEEDS for tool in need.tools.split()}


class Skipped(Exception):
    """A check cannot run here. It counts neither as passed nor as failed."""


def is_missing(tool):
    return not (os.path.exists(tool) if tool.startswith("/") else shutil.which(tool))


def missing(*tools):
    """Which of these tools are missing, as a reason to skip a check; nothing if all are there."""
    named = [f"{tool} (Debian package {PACKAGES[tool]})" for tool in tools if is_missing(tool)]
    return f"there is no {', no '.join(named)}" if named else ""


def skip(reason):
    """Skips a check."""
    raise Skipped(reason)


def needs(*tools):
    """Skips a check if one of these tools is missing."""
    if reason := missing(*tools):
        skip(reason)


def packages():
    """The packages of the tools that are missing."""
    return sorted({package for tool, package in PACKAGES.items() if is_missing(tool)})


if __name__ == "__main__":
    if sys.argv[1:2] == ["missing"]:
        print(missing(*sys.argv[2:]), end="")
    elif sys.argv[1:] == ["packages"]:
        print(*packages())
    else:
        sys.exit(__doc__)
