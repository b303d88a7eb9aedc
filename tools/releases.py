"""The files of a release, made from what the build made. `build` calls this."""
import hashlib
import json
import os
import pathlib
import re
import shutil
import subprocess
import tempfile
import time
from email.utils import formatdate

import archives
from archives import Entry, below, gzipped, read_tree
from notices import notices
from proving import TOP, Failed, output_of
from publisher import MAINTAINER, REPOSITORY

# the folder of the libraries in Debian's packages
DEBIAN_LIBDIR = "lib/x86_64-linux-gnu"
# the oldest C libraries that the program and the shared library run with
GLIBC, GLIBC_OF_LIBRARY = "2.34", "2.14"
WORDS = pathlib.Path("/usr/share/dict/american-english")
WORDS_LICENCE = pathlib.Path("/usr/share/doc/wamerican/copyright")
TOOLS = {"dpkg-deb": "dpkg", "strip": "binutils", "wasm-opt": "binaryen", "esbuild": "esbuild", "git": "git"}

README = """xw {version}, a crossword construction engine

bin/xw is the program. It runs from any folder, on Linux on x86-64 with glibc {glibc} or later. `bin/xw --help` lists its calls, and
share/doc/xw/commands.md is the manual. share/ also has the manual page and completions for bash, zsh and fish: to install all, copy bin and
share into /usr/local.

lib/libxw.so and lib/libxw.a are the library for C, with its headers in include/. The shared one needs glibc {glibc_of_library} or later. They too work in any folder:
cc mine.c $(PKG_CONFIG_PATH=FOLDER/lib/pkgconfig pkg-config --cflags --libs xw), and LD_LIBRARY_PATH=FOLDER/lib for the program that it makes. To
install them, copy lib and include into /usr/local, and run ldconfig. share/doc/xw/embedding.md describes the calls.

xw.html is the editor, in one file: open it in a browser. share/doc/xw/setters.md is its guide. Its word list has words of Debian's package
wamerican; NOTICES says whose they are.

LICENSE is the licence of xw, NOTICES has those of the code and the words that it contains, and BUILD-INFO says of what it was made, and how
to prove it again.
"""

BUILD_INFO = """{told}
repository {repository}
commit {commit}
commit date {date}
kit {kit}

To prove it again, check out this commit, put the command rt of this kit on the PATH, and run

    ./check         proves every function, and runs all tests; the last line is 'N passed, M failed'
    ./build dist    makes these files again, with the sums in SHA256SUMS

The files depend on these tools too:
{tools}
"""

CONTROL = """Package: {package}
Source: xw
Version: {version}
Architecture: amd64
Maintainer: {maintainer}
Installed-Size: {size}
Depends: {depends}
Section: {section}
Priority: optional
Homepage: {homepage}
Description: {description}
"""

CHANGES = """xw ({version}) unstable; urgency=medium

  * CHANGELOG.md has the changes.

 -- {maintainer}  {date}
"""

DESCRIPTIONS = {
    "xw": """crossword construction engine
 xw holds a grid and a dictionary, and after each edit it knows which words
 and letters can still go where. The program reads commands line by line, and
 reads and writes puzzle files.
 .
 /usr/share/xw/xw.html is an editor for a browser.""",
    "libxw0": """crossword construction engine, shared library
 xw holds a grid and a dictionary, and after each edit it knows which words
 and letters can still go where.
 .
 This package has the shared library.""",
    "libxw-dev": """crossword construction engine, files for development
 xw holds a grid and a dictionary, and after each edit it knows which words
 and letters can still go where.
 .
 This package has the headers and the static library.""",
}


def git(*words):
    ended = subprocess.run(["git", "-C", str(TOP), *words], capture_output=True, text=True)
    if ended.returncode:
        raise Failed(f"git {' '.join(words)} failed: {ended.stderr.strip()}")
    return ended.stdout.strip()


def expect_tools():
    for tool, package in TOOLS.items():
        if not shutil.which(tool):
            raise Failed(f"a release needs {tool}; install {package} (apt-get install {package})")
    for path in (WORDS, WORDS_LICENCE):
        if not path.exists():
            raise Failed(f"a release needs {path}; install wamerican (apt-get install wamerican)")


def expect_clean():
    """A release is of a commit."""
    changed = git("status", "--porcelain").split("\n")[0]
    if changed:
        raise Failed(f"a release is made of a commit, and the tree has changes: {changed.split(maxsplit=1)[1]}; commit them first")


def versions_of_tools():
    words = {
        "dpkg-deb": ["dpkg-deb", "--version"],
        "wasm-opt": ["wasm-opt", "--version"],
        "esbuild": ["esbuild", "--version"],
        "wamerican": ["dpkg-query", "-W", "-f", "${Version}", "wamerican"],
    }
    told = {name: output_of(*call).split("\n")[0] for name, call in words.items()}
    return "".join(f"    {name}: {line}\n" for name, line in told.items())


class Release:
    """The files of a version, made in a folder."""

    def __init__(self, version, folder):
        self.version, self.folder = version, pathlib.Path(folder)
        self.commit, self.time = git("rev-parse", "HEAD"), int(git("log", "-1", "--format=%ct"))
        self.notices = notices()
        self.notices_of_page = f"{self.notices}\n{'-' * 78}\n\nThe words in xw.html are words of Debian's package wamerican:\n\n{WORDS_LICENCE.read_text()}"

    def make(self):
        self.folder.mkdir(parents=True, exist_ok=True)
        self.info = self.build_info()
        with tempfile.TemporaryDirectory() as room:
            program, library, plain = self.staged(room, "install"), self.staged(room, "install-library"), self.staged(room, "install-library", "lib")
            program["usr/bin/xw"] = self.stripped(room, program["usr/bin/xw"])
            self.page = self.made_page(room)
        self.tarball(program, plain)
        self.package_of_program(program)
        self.packages_of_library(library)
        self.npm_package()
        (self.folder / "xw.html").write_bytes(self.page.data)
        (self.folder / "BUILD-INFO").write_text(self.info)
        self.sums()

    def staged(self, room, call, libdir=DEBIAN_LIBDIR):
        """What a call of ./build installs in /usr."""
        stage = pathlib.Path(room, call, libdir)
        subprocess.run([TOP / "build", call, "/usr"], env={**os.environ, "DESTDIR": str(stage), "LIBDIR": libdir}, check=True)
        return read_tree(stage)

    @staticmethod
    def made_page(room):
        """The page, made anew: it has a word list."""
        for name in ("xw.wasm", "NOTICES"):
            shutil.copy(TOP / "web/dist" / name, room)
        subprocess.run([TOP / "web/make-page", room], check=True)
        return Entry(pathlib.Path(room, "xw.html").read_bytes())

    @staticmethod
    def stripped(room, program):
        """A program without the names of its functions."""
        path = pathlib.Path(room, "stripped")
        path.write_bytes(program.data)
        subprocess.run(["strip", path], check=True)
        return program._replace(data=path.read_bytes())

    def build_info(self):
        date = time.strftime("%Y-%m-%dT%H:%M:%SZ", time.gmtime(self.time))
        commit = self.commit + (" with changes" if git("status", "--porcelain") else "")
        kit = output_of("rt", "version").replace(" logic ", "\nlogic ")
        told = re.search(r'^pub const VERSION: &str = "(.*)"', (TOP / "crates/xw_commands/src/version.rt").read_text(), re.M)[1]
        return BUILD_INFO.format(told=told, repository=REPOSITORY, commit=commit, date=date, kit=kit, tools=versions_of_tools())

    def licences(self, notices_text):
        return {
            "LICENSE": Entry((TOP / "LICENSE").read_bytes()),
            "NOTICES": Entry(notices_text.encode()),
            "BUILD-INFO": Entry(self.info.encode()),
        }

    def tarball(self, program, library):
        """The program and the library with all that belongs to them, which work in any folder."""
        name = f"xw-{self.version}-linux-x86_64"
        readme = README.format(version=self.version, glibc=GLIBC, glibc_of_library=GLIBC_OF_LIBRARY)
        tree = {path.removeprefix("usr/"): entry for path, entry in {**library, **program}.items()}
        # pkg-config itself escapes a space in the name of the folder, which no quotes may do again
        told = tree["lib/pkgconfig/xw.pc"].data.replace(b"prefix=/usr\n", b"prefix=${pcfiledir}/../..\n").replace(b'"', b"")
        tree["lib/pkgconfig/xw.pc"] = Entry(told)
        tree.update(self.licences(self.notices_of_page))
        tree.update({"README": Entry(readme.encode()), "xw.html": self.page})
        archives.tar_gz(self.folder / f"{name}.tar.gz", below(name, tree), self.time)

    # ---- packages for Debian

    def package(self, package, tree, depends, section, notices_text, **control):
        """Writes a package, with the files that Debian asks of each."""
        date = formatdate(self.time)
        changes = CHANGES.format(version=self.version, maintainer=MAINTAINER, date=date)
        licence = f"{(TOP / 'LICENSE').read_text()}\n{notices_text}"
        folder = f"usr/share/doc/{package}"
        tree = {
            **{path: entry for path, entry in tree.items() if not re.fullmatch(r".*/(LICENSE|NOTICES)", path)},
            f"{folder}/copyright": Entry(licence.encode()),
            f"{folder}/changelog.gz": Entry(gzipped(changes.encode())),
            f"{folder}/BUILD-INFO": Entry(self.info.encode()),
        }
        size = sum(len(entry.data) // 1024 + 1 for entry in tree.values())
        fields = {"maintainer": MAINTAINER, "homepage": REPOSITORY, "description": DESCRIPTIONS[package], "size": size, "depends": depends, "section": section}
        told = CONTROL.format(package=package, version=self.version, **fields)
        sums = "".join(f"{hashlib.md5(it.data).hexdigest()}  {path}\n" for path, it in sorted(tree.items()) if isinstance(it.data, bytes))
        archives.deb(self.folder / f"{package}_{self.version}_amd64.deb", tree, {"control": told, "md5sums": sums, **control}, self.time)

    def package_of_program(self, program):
        """Debian's folder of completions for zsh is another one, and manual pages are compressed."""
        tree = {path.replace("zsh/site-functions", "zsh/vendor-completions"): entry for path, entry in program.items()}
        page = tree.pop("usr/share/man/man1/xw.1")
        tree["usr/share/man/man1/xw.1.gz"] = Entry(gzipped(page.data))
        tree["usr/share/xw/xw.html"] = self.page
        self.package("xw", tree, f"libc6 (>= {GLIBC})", "misc", self.notices_of_page)

    def packages_of_library(self, library):
        shared = {path: entry for path, entry in library.items() if re.search(r"/libxw\.so\.\d", path)}
        others = {path.replace("share/doc/xw/", "share/doc/libxw-dev/"): entry for path, entry in library.items() if path not in shared}
        soname = min((path.rpartition("/")[2] for path in shared), key=len)
        names = [line.split()[1:] for line in (TOP / "include/abi.txt").read_text().splitlines() if line.startswith("function ")]
        symbols = "".join(f" {it}@{version} {self.version}\n" for it, version in [[names[0][1]] * 2, *names])
        control = {
            "symbols": f"{soname} libxw0 #MINVER#\n{symbols}",
            "shlibs": f"libxw {soname.rpartition('.')[2]} libxw0 (>= {self.version})\n",
            "triggers": "activate-noawait ldconfig\n",
        }
        # a library is no program in Debian's packages
        shared = {path: entry._replace(is_program=False) for path, entry in shared.items()}
        self.package("libxw0", shared, f"libc6 (>= {GLIBC_OF_LIBRARY})", "libs", self.notices, **control)
        self.package("libxw-dev", others, f"libxw0 (= {self.version})", "libdevel", self.notices)

    # ---- the others

    def npm_package(self):
        listed = json.loads((TOP / "web/package.json").read_text())["files"]
        tree = {name: Entry((TOP / "web/dist" / name).read_bytes()) for name in (*listed, "package.json", "README.md", "LICENSE")}
        tree["BUILD-INFO"] = Entry(self.info.encode())
        archives.tar_gz(self.folder / f"xw-{self.version}.tgz", below("package", tree), self.time)

    def sums(self):
        lines = (f"{hashlib.sha256(path.read_bytes()).hexdigest()}  {path.name}\n" for path in sorted(self.folder.iterdir()) if path.name != "SHA256SUMS")
        (self.folder / "SHA256SUMS").write_text("".join(lines))
