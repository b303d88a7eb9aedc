"""`./build` with a kit that proves nothing and makes a program of one line: its progress, what it installs, and what it lacks."""
import os
import pty
import re
import shutil
import signal
import subprocess
import sys

from documents import TOP
from steps import ACCEPTED, FAILED, SECONDS, compare

sys.path.append(str(TOP / "tools"))
from schedule import Schedule

# The commands of the kit that a build calls. Each makes the file after -o. The prover fails on a crate with a file named `wrong`, or `full` for a
# full disk, or `other` if it is of another kit, and waits as long as there is a file named `held`.
RT = """#!/bin/sh
case $1 in version) echo none ;; doc) echo "$KIT/START-HERE.md" ;; run) echo built >../xw/out/xw ;; esac
"""
BROKEN_RT = """#!/bin/sh
echo "rt: no python3" >&2
exit 127
"""
PROVER = """#!/bin/sh
[ ! -e wrong ] || { echo "this crate is wrong"; exit 1; }
[ ! -e full ] || { echo "cannot write: No space left on device"; exit 2; }
[ ! -e other ] || { echo "Usage: rattle build [OPTIONS]"; exit 2; }
[ "$1" != check ] || { while [ $# -gt 3 ]; do shift; done; echo "checked $(basename "$PWD") with $*"; exit; }
while [ -e held ]; do echo waiting >begun; sleep 0.1; done
until [ "$1" = -o ]; do shift; done
mkdir -p "$(dirname "$2")"
printf '#!/bin/sh\\necho built\\n' >"$2"
chmod +x "$2"
"""
CRATES = ("low", "xw")
COMPLETIONS = {
    "xw.bash": "bash-completion/completions/xw",
    "_xw": "zsh/site-functions/_xw",
    "xw.fish": "fish/vendor_completions.d/xw.fish",
}
# the documents that others cite are installed too, with their pictures
MANUAL = ("commands.md", "embedding.md", "formats.md", "front-ends.md", "glossary.md", "list-makers.md", "performance.md", "promises.md", "publishers.md", "python.md",
          "setters.md", "editor.png", "DECISIONS.md")
# the examples that are programs are installed as such
PROGRAMS = ("board.py", "fill.py", "library.py", "race.py", "search.py", "test_board.py")
FOLDERS = ("grids", "puzzles")
EXAMPLES = (*PROGRAMS, "search.mjs", "starter15.xw", *(str(it.relative_to(TOP / "examples")) for name in FOLDERS for it in (TOP / "examples" / name).iterdir()))


def tree(room, program):
    """A repository of two crates, and the kit."""
    for name, text in (("bin/rt", RT), ("kit/bin/rattle", PROVER), ("kit/bin/rattle-link", PROVER)):
        path = room / name
        path.parent.mkdir(parents=True, exist_ok=True)
        path.write_text(text)
        path.chmod(0o755)
    for crate in CRATES:
        (room / "top/crates" / crate / "src").mkdir(parents=True)
    (room / "top/crates.txt").write_text("low:\nxw: low\n")
    for name in ("build", "LICENSE", "CHANGELOG.md"):
        shutil.copy(TOP / name, room / "top" / name)
    for name in ("docs", "examples", "completions", "tools"):
        shutil.copytree(TOP / name, room / "top" / name)
    (room / "top/tools/weights.txt").write_text("low 1\nxw 1\n")


def call(room, *words, env=None, **more):
    return subprocess.run([room / "top/build", *words], env=environment(room, env), timeout=SECONDS, **more)


def environment(room, more=None):
    return {"PATH": f"{room}/bin:{os.environ['PATH']}", "KIT": str(room / "kit"), **(more or {})}


def lines_without_times(text):
    return [re.sub(r"\d+ min \d\d s", "TIME", line) for line in text.decode().splitlines()]


def proves_what_changed(room, program):
    """Only crates that have changed, and those above them, are proved again: here one whose uses change."""
    call(room, "program", capture_output=True, check=True)
    (room / "top/crates.txt").write_text("low:\nxw: low memchr\n")
    ended = call(room, "program", capture_output=True)
    told = [BEGIN, "xw: xw proved, 2 of 2; TIME", "xw: built in TIME"]
    compare("other uses", (ended.returncode, lines_without_times(ended.stderr)), (ACCEPTED, told))
    (room / "top/crates.txt").touch()
    ended = call(room, "program", capture_output=True)
    compare("a list that is touched", lines_without_times(ended.stderr), [BEGIN, "xw: built in TIME"])
    (room / "top/crates/low/src").touch()
    call(room, "check", "xw", capture_output=True, check=True)
    ended = call(room, "program", capture_output=True)
    compare("a crate below that a check proved", lines_without_times(ended.stderr), [BEGIN, "xw: xw proved, 2 of 2; TIME", "xw: built in TIME"])


BEGIN = "xw: building; the first time this takes some minutes, since every crate is proved"


def tells_a_line_a_crate(room, program):
    ended = call(room, "program", capture_output=True)
    compare("status", ended.returncode, ACCEPTED)
    told = [BEGIN, "xw: low proved, 1 of 2; TIME; about 1 min left", "xw: xw proved, 2 of 2; TIME", "xw: built in TIME"]
    compare("messages", (ended.stdout, lines_without_times(ended.stderr)), (b"", told))
    again = call(room, "program", capture_output=True)
    compare("messages of a build that is not due", (again.returncode, again.stdout + again.stderr), (ACCEPTED, b""))


def overwrites_a_line(room, program):
    """On a terminal the progress is one line. Each time its rest is erased, and the terminal cuts off what is too long for it."""
    held = room / "top/crates/low/held"
    held.touch()
    terminal, other = pty.openpty()
    with subprocess.Popen([room / "top/build", "program"], env=environment(room), stderr=other) as build:
        os.close(other)
        told = b""
        try:
            while more := os.read(terminal, 4096):
                told += more
                if told.count(b"0 of 2 crates proved") >= 2:
                    held.unlink(missing_ok=True)
        except OSError:
            pass  # the other end is closed
        os.close(terminal)
        compare("status", build.wait(timeout=SECONDS), ACCEPTED)
    begin, progress, *rest = re.sub(r"\d+ min \d\d s", "TIME", told.decode()).split("\r\n")
    compare("other lines", (begin, rest), (BEGIN, ["xw: built in TIME", ""]))
    first, *times = progress.split("\r")
    odd = [time for time in times if not re.fullmatch(r"\x1b\[\?7l\x1b\[Kxw: [012] of 2 crates proved; TIME(; about 1 min left)?(, \w+)*\x1b\[\?7h", time)]
    compare("progress", (first, odd, times[1]), ("", [], "\x1b[?7l\x1b[Kxw: 0 of 2 crates proved; TIME, low\x1b[?7h"))


def shows_what_failed(room, program):
    (room / "top/crates/low/wrong").touch()
    ended = call(room, "program", capture_output=True)
    told = [BEGIN, "xw: the build failed; the last lines of low (all of them: crates/xw/out/made/low.log):", "this crate is wrong"]
    compare("a build that fails", (ended.returncode, lines_without_times(ended.stderr)), (FAILED, told))


def tells_the_first_failure(room, program):
    """A crate fails while another one is being proved. The build ends the other one, and does not wait for it."""
    (room / "top/crates.txt").write_text("low:\nother:\nxw: low other\n")
    (room / "top/crates/other/src").mkdir(parents=True)
    (room / "top/crates/other/held").touch()
    shows_what_failed(room, program)


def tells_a_full_disk(room, program):
    """A full disk is not taken for another kit, whose own command would prove all once more."""
    (room / "top/crates/low/full").touch()
    ended = call(room, "program", capture_output=True)
    told = [BEGIN, "xw: the disk is full; the crates that are proved are kept in crates/xw/out/made"]
    compare("a full disk", (ended.returncode, lines_without_times(ended.stderr)), (FAILED, told))


def builds_with_another_kit(room, program):
    (room / "top/crates/low/other").touch()
    ended = call(room, "program", capture_output=True)
    told = [BEGIN, "xw: this kit wants another call; its rt run builds the program", "xw: built in TIME"]
    compare("another kit", (ended.returncode, lines_without_times(ended.stderr)), (ACCEPTED, told))


def proofs(room):
    """The files that a build keeps, but for its lock."""
    return {path: path.stat().st_mtime_ns for path in (room / "top/crates/xw/out").rglob("*") if path.name != "lock" and path.is_file()}


def python_alone(room):
    """A folder of commands for the PATH that has what starts a build, and nothing else."""
    tools = room / "tools"
    tools.mkdir()
    (tools / "env").symlink_to(shutil.which("env"))
    (tools / "python3").symlink_to(sys.executable)
    return tools


def keeps_proofs_without_rt(room, program):
    """A command rt that is missing or fails changes nothing of what is proved."""
    call(room, "program", capture_output=True, check=True)
    kept = proofs(room)
    (room / "top/crates/xw/src/main.rt").touch()
    (room / "bin/rt").write_text(BROKEN_RT)
    ended = call(room, "program", capture_output=True)
    compare("a failing rt", (ended.returncode, ended.stderr), (FAILED, b"xw: rt doc failed: rt: no python3\n"))
    (room / "bin/rt").write_text(RT.replace("echo none", "exit 3"))
    ended = call(room, "program", capture_output=True)
    compare("rt version", (ended.returncode, ended.stderr), (FAILED, b"xw: rt version failed: status 3\n"))
    ended = call(room, "program", env={"PATH": str(python_alone(room))}, capture_output=True)
    compare("no rt", (ended.returncode, ended.stderr), (FAILED, b"xw: to build it, the Rattle kit's command rt has to be on the PATH\n"))
    compare("what is kept", proofs(room), kept)


def heed_interrupts():
    """Lets ^C reach the process also where these tests run in the background, which ignores it."""
    signal.signal(signal.SIGINT, signal.SIG_DFL)


def stops(room, program):
    """^C ends the prover too, says what is kept, and the next build goes on from there."""
    held = room / "top/crates/xw/held"
    held.touch()
    with subprocess.Popen([room / "top/build", "program"], env=environment(room), stderr=subprocess.PIPE, preexec_fn=heed_interrupts) as build:
        for line in build.stderr:
            if line.startswith(b"xw: low proved"):
                break
        while not (room / "top/crates/xw/begun").exists():
            pass
        build.send_signal(signal.SIGINT)
        told = build.stderr.read()
        compare("a build that is stopped", (build.wait(timeout=SECONDS), told), (130, b"xw: stopped; 1 of 2 crates are proved and kept\n"))
    held.unlink()
    ended = call(room, "program", capture_output=True)
    compare("the next build", lines_without_times(ended.stderr), [BEGIN, "xw: xw proved, 2 of 2; TIME", "xw: built in TIME"])


def checks_a_crate(room, program):
    """A check proves the crates below that have changed, and ends with the status of the prover."""
    ended = call(room, "check", "xw", "--jobs", "1", "--only", "xw::main", capture_output=True)
    compare("status", ended.returncode, ACCEPTED)
    compare("output", ended.stdout, b"checked xw with 1 --only xw::main\n")
    compare("messages", lines_without_times(ended.stderr), ["xw: low proved, 1 of 1; TIME"])
    (room / "top/crates/xw/wrong").touch()
    ended = call(room, "check", "xw", capture_output=True)
    compare("a wrong crate", (ended.returncode, ended.stdout, ended.stderr), (1, b"this crate is wrong\n", b""))
    ended = call(room, "check", "high", capture_output=True)
    compare("no crate", (ended.returncode, ended.stderr), (FAILED, b"xw: crates.txt has no crate high\n"))


def explains(room, program):
    for words in (["--help"], ["program", "--help"]):
        ended = call(room, *words, capture_output=True)
        compare(f"{words}", (ended.returncode, ended.stdout.startswith(b"usage: ./build"), ended.stderr), (ACCEPTED, True, b""))
    compare("an unknown word", call(room, "nothing", capture_output=True).returncode, 2)


def installs(room, program):
    ended = call(room, "install", "/usr/local", env={"DESTDIR": str(room / "a stage")}, capture_output=True)
    compare("status", ended.returncode, ACCEPTED)
    stage = room / "a stage/usr/local"
    documents = (*MANUAL, "LICENSE", "NOTICES", "CHANGELOG.md", *(f"examples/{name}" for name in EXAMPLES))
    names = ("bin/xw", *(f"share/{place}" for place in COMPLETIONS.values()), *(f"share/doc/xw/{name}" for name in documents), "share/man/man1/xw.1")
    compare("files", sorted(str(path.relative_to(stage)) for path in stage.rglob("*") if path.is_file()), sorted(names))
    compare("program", subprocess.run([stage / "bin/xw"], capture_output=True, check=True).stdout, b"built\n")


def installs_for_everyone(room, program):
    """Everyone can enter the folders and read the files, whatever the mask of the user is."""
    call(room, "program", capture_output=True, check=True)
    ended = call(room, "install", "/usr/local", env={"DESTDIR": str(room / "stage")}, capture_output=True, umask=0o077)
    compare("status", ended.returncode, ACCEPTED)
    modes = {str(it.relative_to(room)): it.stat().st_mode & 0o777 for it in (room / "stage", *(room / "stage").rglob("*"))}
    programs = ("stage/usr/local/bin/xw", *(f"stage/usr/local/share/doc/xw/examples/{name}" for name in PROGRAMS))
    odd = {name: oct(mode) for name, mode in modes.items() if mode != (0o755 if (room / name).is_dir() or name in programs else 0o644)}
    compare("modes", odd, {})


def keeps_the_module(room, program):
    """The module of a library is kept also where the path of the checkout has signs of the shell."""
    top = room / 'a "$HOME" `x` folder'
    (room / "top").rename(top)
    clang = room / "kit/toolchain/bin/clang"
    clang.parent.mkdir(parents=True)
    clang.write_text("#!/bin/sh\necho compiled\n")
    clang.chmod(0o755)
    (top / "crates/xw/out/made").mkdir(parents=True)
    (top / "crates/xw_c/out").mkdir(parents=True)
    (room / "made.bc").write_text("a module")
    code = "import proving, subprocess, sys; subprocess.run([proving.keeping_toolchain() / 'bin/clang', sys.argv[1]], check=True)"
    words = [sys.executable, "-B", "-c", code, room / "made.bc"]
    ended = subprocess.run(words, env={**environment(room), "PYTHONPATH": str(top / "tools")}, capture_output=True, timeout=SECONDS)
    compare("status, output and messages", (ended.returncode, ended.stdout, ended.stderr), (ACCEPTED, b"compiled\n", b""))
    compare("module", (top / "crates/xw_c/out/xw.bc").read_text(), "a module")


def names_binaryen(room, program):
    """Without wasm-opt a build for the web ends before anything is proved."""
    ended = call(room, "web", env={"PATH": str(python_alone(room))}, capture_output=True)
    compare("status", ended.returncode, FAILED)
    compare("message", ended.stderr, b"xw: the module for the web needs wasm-opt; install binaryen (apt-get install binaryen)\n")


def schedules(room, program):
    """A crate that is alone gets all processors, one of the longest chain its share of them, and one beside it a single one."""
    below = {"low": [], "long": ["low"], "short": ["low"], "small": ["low"], "top": ["low", "long", "short", "small"]}
    schedule = Schedule(below, {"low": 40, "long": 90, "short": 60, "small": 30, "top": 20}, 4)
    due = list(below)
    compare("at first", schedule.next(due, {}), {"low": 4})
    compare("above it", schedule.next(due[1:], {}), {"long": 2, "short": 1, "small": 1})
    compare("at last", schedule.next(["top"], {}), {"top": 4})
    # two processes take two thirds of the time of one, and four a half
    compare("ends", schedule.ends(due), {"low": 20, "small": 50, "short": 80, "long": 80, "top": 90})
    compare("ends of the rest", schedule.ends(due[1:], {"long": 2}, {"long": 45}), {"long": 15, "small": 30, "short": 60, "top": 70})


CASES = {
    "schedule": [schedules],
} | {
    name: [tree, step]
    for name, step in {
        "progress without a terminal": tells_a_line_a_crate,
        "progress on a terminal": overwrites_a_line,
        "a build that fails": shows_what_failed,
        "what changed": proves_what_changed,
        "the first failure": tells_the_first_failure,
        "a full disk": tells_a_full_disk,
        "another kit": builds_with_another_kit,
        "no rt": keeps_proofs_without_rt,
        "a build that is stopped": stops,
        "a check of a crate": checks_a_crate,
        "help": explains,
        "install": installs,
        "install, with a mask": installs_for_everyone,
        "a path with signs of the shell": keeps_the_module,
        "web without binaryen": names_binaryen,
    }.items()
}
