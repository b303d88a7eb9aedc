"""Proves the crates of the repository and makes the program or the library for C of them. `build` calls this."""
import contextlib
import errno
import fcntl
import functools
import math
import os
import pathlib
import shutil
import signal
import subprocess
import sys
import threading
import time
from concurrent import futures
from shlex import quote

from schedule import SECONDS_A_BYTE, Schedule, span, weights

TOP = pathlib.Path(os.path.realpath(__file__)).parent.parent
OUT = TOP / "crates/xw/out"
# for each crate NAME: a folder with its library; NAME.log; NAME.done, which has the age of its last proof and names the libraries it uses; and NAME.took, with the
# seconds of processor time that the proof took and its number of processes
MADE = OUT / "made"
PROGRAM = OUT / "xw"
LIBRARY = TOP / "crates/xw_c/out/libxw.a"
# the module that the library was compiled from
MODULE = TOP / "crates/xw_c/out/xw.bc"
# the parts of a crate; link/ has what is linked with the proved code
PARTS = ("src", "specs", "proofs", "link")
# what the prover makes of the crates that are no library for other crates
OBJECTS = {"xw": "xw.o", "xw_c": "libxw_c.a"}
# the memory that a process of the prover needs, in kB
NEEDED = 3_000_000
FULL = os.strerror(errno.ENOSPC)


class Failed(Exception):
    """Why the build ends, and with which status."""

    status = 4


class Stopped(Failed):
    status = 128 + signal.SIGINT


class OtherKit(Failed):
    """The prover does not take the call."""


def output_of(*words):
    ended = subprocess.run(words, capture_output=True, text=True)
    if ended.returncode or not ended.stdout.strip():
        why = (ended.stderr or ended.stdout).strip().split("\n")[-1] or f"status {ended.returncode}"
        raise Failed(f"{' '.join(words)} failed: {why}")
    return ended.stdout.strip()


@functools.lru_cache(maxsize=None)
def kit():
    """The folder of the Rattle kit."""
    if not shutil.which("rt"):
        raise Failed("to build it, the Rattle kit's command rt has to be on the PATH")
    return pathlib.Path(output_of("rt", "doc")).parent


@functools.lru_cache(maxsize=None)
def uses():
    """The libraries that each crate uses, of the kit and of the repository, lowest crate first."""
    lines = [it.split("#")[0].partition(":") for it in (TOP / "crates.txt").read_text().split("\n")]
    return {name.split()[0]: below.split() for name, _, below in lines if name.strip()}


@functools.lru_cache(maxsize=None)
def under(crate):
    """All crates of the repository that a crate depends on, directly or not, lowest first."""
    below = [it for it in uses()[crate] if it in uses()]
    return [it for it in uses() if it in {*below}.union(*map(under, below))]


def is_newer(file, crates):
    """Whether a file is newer than every source of the crates."""
    folders = [TOP / "crates" / crate / part for crate in crates for part in PARTS]
    paths = (path for folder in folders if folder.is_dir() for path in (folder, *folder.rglob("*")))
    return file.exists() and all(path.stat().st_mtime_ns <= file.stat().st_mtime_ns for path in paths)


def free_lanes():
    """How many processes of the prover run side by side: one for each processor, as far as there is memory."""
    free = next(int(it.split()[1]) for it in open("/proc/meminfo") if it.startswith("MemAvailable:"))
    return max(1, min(len(os.sched_getaffinity(0)), free // NEEDED))


def prover_words(call, crate, by_rt=False):
    """A call of the prover for a crate, with the libraries of this build or those that rt leaves."""
    folder = lambda name: TOP / "crates" / name / "out/rlib" if by_rt else MADE / name
    main, rlibs = "src/main.rt", kit() / "rlibs"
    words = [kit() / "bin/rattle", call, "--crate-name", crate, main if (TOP / "crates" / crate / main).exists() else "src/lib.rt"]
    for name in ("std", *uses()[crate]):
        words += ["--extern", f"{name}={folder(name) if name in uses() else rlibs}/{name}.rlib"]
    for path in (rlibs, *map(folder, under(crate))):
        words += ["-L", f"dependency={path}"]
    words += ["--antt-project", f"{kit()}/rattle/logic/antt-project.json", "--logic-built", f"{kit()}/logic_built", "--links", f"{crate}="]
    return [str(it) for it in words]


def keeping_toolchain():
    """A folder like the kit's toolchain, whose clang also keeps the module that it is given."""
    tools, folder = kit() / "toolchain", MADE / "toolchain"
    shutil.rmtree(folder, ignore_errors=True)
    shutil.copytree(tools, folder, copy_function=os.symlink)
    clang = folder / "bin/clang"
    clang.unlink()
    keeps = f'for word; do case $word in *.bc) cp "$word" {quote(str(MODULE))} ;; esac; done'
    clang.write_text(f'#!/bin/sh\n{keeps}\nexec {quote(f"{tools}/bin/clang")} "$@"\n')
    clang.chmod(0o755)
    return folder


def borrow(kept, folder):
    """Links the files of proofs, which a check replaces and never writes into, and copies the rest."""
    link = lambda one, other: os.link(one, other) if one.endswith(".oantt") else shutil.copy2(one, other)
    return shutil.copytree(kept, folder, copy_function=link)


class Build:
    """A build of a crate, `root`, which makes the file `target`."""

    def __init__(self, root, target):
        self.root, self.target = root, target
        self.crates, self.begun, self.lanes = [*under(root), root], time.monotonic(), free_lanes()
        # the crates that are not proved, the jobs of those that are being proved, since when, and the processes at work
        self.due, self.at_work, self.since, self.running = [], {}, {}, set()
        # for each crate that was proved, the seconds that it took and those of the schedule
        self.taken = []
        # no process begins while the build ends
        self.is_ending, self.beginning = False, threading.Lock()

    def is_built(self):
        """The target has the time at which its build began; rt ci leaves a program too."""
        is_listed = self.target.exists() and (TOP / "crates.txt").stat().st_mtime_ns <= self.target.stat().st_mtime_ns
        return is_listed and is_newer(self.target, self.crates)

    def find_due(self):
        """Finds the crates to prove: those that have changed, and those above them. After a change of the kit it is all."""
        version, told = output_of("rt", "version"), MADE / "kit"
        if not told.exists() or told.read_text() != version:
            shutil.rmtree(MADE, ignore_errors=True)
            MADE.mkdir(parents=True)
            told.write_text(version)
        for crate in self.crates:
            done = MADE / f"{crate}.done"
            if not is_newer(done, [crate]) or done.read_text().split() != uses()[crate] or self.is_overtaken(crate):
                done.unlink(missing_ok=True)
                self.due.append(crate)

    def is_overtaken(self, crate):
        """Whether a crate below is due, or was proved after this one, as by a check of a crate between them."""
        began = lambda name: (MADE / f"{name}.done").stat().st_mtime_ns
        return any(it in self.due or began(it) > began(crate) for it in under(crate))

    # ---- the schedule and the progress

    @functools.cached_property
    def schedule(self):
        """When each crate is proved. One that was never measured has a weight by the bytes of its sources."""
        paths = lambda crate: (path for part in PARTS for path in (TOP / "crates" / crate / part).rglob("*.*"))
        sized = {it: SECONDS_A_BYTE * (1 + sum(path.stat().st_size for path in paths(it))) for it in self.crates}
        return Schedule({it: under(it) for it in self.crates}, {**sized, **weights()}, self.lanes)

    def left(self):
        """About how many seconds the rest takes, by the schedule, and by the time that the crates proved so far took; None before the first one."""
        if not self.taken or not self.due:
            return None
        # a minute at the pace of the schedule comes first, since the first crates are small
        pace = (60 + sum(seconds for seconds, _ in self.taken)) / (60 + sum(planned for _, planned in self.taken))
        passed = {it: (time.monotonic() - since) / pace for it, since in self.since.items() if it in self.at_work}
        return pace * max(self.schedule.ends(self.due, self.at_work, passed).values())

    def progress(self):
        """How far the build is, and about how long the rest takes."""
        passed, left = time.monotonic() - self.begun, self.left()
        told = f"; about {math.ceil(left / 60)} min left" if left else ""
        return f"{len(self.crates) - len(self.due)} of {len(self.crates)}", f"{int(passed / 60)} min {int(passed % 60):02} s{told}"

    def show(self):
        """Shows the progress on one line of the terminal that is overwritten. The terminal cuts off what is too long for the line
        (\\033[?7l), since it could not overwrite a second one."""
        count, times = self.progress()
        at_work = "".join(f", {it}" for it in self.at_work)
        print(f"\r\033[?7l\033[Kxw: {count} crates proved; {times}{at_work}\033[?7h", end="", file=sys.stderr, flush=True)

    def begin_ready(self, pool, proofs):
        """Begins with the crates whose time has come."""
        for crate, jobs in self.schedule.next(self.due, self.at_work).items():
            self.at_work[crate], self.since[crate] = jobs, time.monotonic()
            proofs[pool.submit(self.prove, crate, jobs)] = crate

    def end_with(self, crate):
        """Notes that a crate is proved."""
        seconds = time.monotonic() - self.since[crate]
        self.taken.append((seconds, span(self.schedule.weights[crate], self.at_work.pop(crate))))
        self.due.remove(crate)
        if not sys.stderr.isatty():
            print(f"xw: {crate} proved, {'; '.join(self.progress())}", file=sys.stderr, flush=True)

    def prove_all(self):
        """Proves side by side the crates that are due, each once the crates below it are proved. Stops at the first that fails."""
        proofs = {}
        with futures.ThreadPoolExecutor(len(self.crates)) as pool, self.ending():
            while self.due:
                self.begin_ready(pool, proofs)
                # each second shows the time, and a signal that comes just before the wait
                for proof in futures.wait(proofs, 1, futures.FIRST_COMPLETED).done:
                    proof.result()
                    self.end_with(proofs.pop(proof))
                if sys.stderr.isatty():
                    self.show()

    @contextlib.contextmanager
    def ending(self):
        """Ends the processes that still run, however the build ends, and the line of the progress."""
        try:
            yield
        finally:
            with self.beginning:
                self.is_ending = True
                for it in self.running:
                    with contextlib.suppress(ProcessLookupError):
                        os.killpg(it.pid, signal.SIGKILL)
            if self.since and sys.stderr.isatty():
                print(file=sys.stderr)

    # ---- a crate

    def run(self, words, log, cwd=TOP):
        """Runs a command in a process group of its own, with its output in a log. Returns its seconds of processor time. Raises Failed, with the end of the log."""
        with open(log, "ab") as file:
            with self.beginning:
                if self.is_ending:
                    raise Failed("the build has ended")
                how = {"stdin": subprocess.DEVNULL, "stdout": file, "stderr": file, "start_new_session": True}
                it = subprocess.Popen([str(word) for word in words], cwd=cwd, **how)
                self.running.add(it)
            _, waited, used = os.wait4(it.pid, 0)
            status = it.returncode = os.waitstatus_to_exitcode(waited)
            self.running.discard(it)
        if not status:
            return used.ru_utime + used.ru_stime
        text = log.read_text(errors="replace")
        if FULL in text or shutil.disk_usage(MADE).free < 2**20:
            raise Failed(f"the disk is full; the crates that are proved are kept in {MADE.relative_to(TOP)}")
        last = "\n".join(text.rstrip("\n").split("\n")[-20:]) or f"{words[0]} ended with status {status}"
        kind = OtherKit if "Usage: rattle" in text else Failed
        raise kind(f"the build failed; the last lines of {log.stem} (all of them: {log.relative_to(TOP)}):\n{last}")

    def prove(self, crate, jobs, by_rt=False):
        """Proves a crate, and makes its library, the program, or the libraries for C. The kit's rt lib and rt run do the same, but they keep proofs
        for later checks; without that it takes half of the time. Proofs that rt check has kept are used."""
        folder, log, done, begun = MADE / crate, MADE / f"{crate}.log", MADE / f"{crate}.done", time.time_ns()
        shutil.rmtree(folder, ignore_errors=True)
        folder.mkdir()
        log.write_bytes(b"")
        words = [*prover_words("build", crate, by_rt), "--jobs", jobs, "-o", folder / OBJECTS.get(crate, f"{crate}.rlib")]
        if crate in OBJECTS:
            words += ["--toolchain", keeping_toolchain() if crate == "xw_c" else kit() / "toolchain", "--backend", "llvm"]
        if crate == "xw_c":
            words += ["--crate-type", "staticlib"]
        kept = TOP / "crates" / crate / "out/incremental"
        if kept.is_dir():
            words += ["--incremental", borrow(kept, folder / "kept")]
        elif crate not in OBJECTS:
            words += ["--statements"]
        seconds = self.run(words, log, TOP / "crates" / crate)
        if crate in OBJECTS:
            self.link(log) if crate == "xw" else self.archive(log)
        if not kept.is_dir():
            (MADE / f"{crate}.took").write_text(f"{seconds} {jobs}\n")
        shutil.rmtree(folder / "kept", ignore_errors=True)
        done.write_text(" ".join(uses()[crate]))
        os.utime(done, ns=(begun, begun))

    def link(self, log):
        words = [kit() / "bin/rattle-link", "--target", "x86_64-unknown-linux-gnu", "--toolchain", kit() / "toolchain", "-o", PROGRAM]
        self.run([*words, MADE / "xw/xw.o", kit() / "c/libos_c.a", kit() / "c/liblibc_c.a"], log)

    def archive(self, log):
        """Joins what was compiled with the part of the kit's C library that it calls, which calls malloc, realloc and free, and with link/."""
        tools, folder = kit() / "toolchain/bin", MADE / "xw_c/objects"
        folder.mkdir()
        self.run([tools / "llvm-ar", "x", "../libxw_c.a"], log, folder)
        self.run([tools / "llvm-ar", "x", kit() / "c/liblibc_c.a", "heap.pic.o"], log, folder)
        for path in (TOP / "crates/xw_c/link").glob("*.ll"):
            words = [tools / "clang", "--target=x86_64-unknown-linux-gnu", "-O2", "-fPIC", "-c", "-x", "ir", path, "-o", f"{path.stem}.o"]
            self.run(words, log, folder)
        LIBRARY.unlink(missing_ok=True)
        self.run([tools / "llvm-ar", "rcs", LIBRARY, *sorted(folder.iterdir())], log)

    # ---- the target

    def build_due(self):
        """Proves what is due and makes the target. If this kit's prover does not take the call above, its own command does it, which takes longer."""
        try:
            self.prove_all()
        except OtherKit:
            if self.root != "xw":
                raise
            print("xw: this kit wants another call; its rt run builds the program", file=sys.stderr, flush=True)
            self.is_ending = False
            self.run(["rt", "run", "--", "--help"], MADE / "rt.log", TOP / "crates/xw")

    def build_over_rt(self):
        """Builds the target over the libraries that rt ci and rt check leave, if they are newer than their sources and this kit. Returns whether it
        could."""
        made = {it: TOP / "crates" / it / f"out/rlib/{it}.rlib" for it in under(self.root)}
        since = (kit() / "bin/rattle").stat().st_mtime_ns
        if not all(is_newer(path, [*under(it), it]) and path.stat().st_mtime_ns >= since for it, path in made.items()):
            return False
        with self.ending():
            self.prove(self.root, self.lanes, by_rt=True)
        return True

    def build(self):
        """Builds the target if that is due. One build runs at a time; a second call waits and finds the target built."""
        if self.is_built():
            return
        for it in (OUT, self.target.parent):
            it.mkdir(parents=True, exist_ok=True)
        with open(OUT / "lock", "w") as lock:
            fcntl.flock(lock, fcntl.LOCK_EX)
            if self.is_built():
                return
            began = time.time_ns()
            kit(), self.find_due()
            print("xw: building; the first time this takes some minutes, since every crate is proved", file=sys.stderr, flush=True)
            try:
                self.build_over_rt() or self.build_due()
            except KeyboardInterrupt:
                raise Stopped(f"stopped; {self.progress()[0]} crates are proved and kept") from None
            os.utime(self.target, ns=(began, began))
            print(f"xw: built in {self.progress()[1]}", file=sys.stderr)

    def prove_below(self):
        """Proves the crates below the root that are due."""
        self.crates.remove(self.root)
        OUT.mkdir(parents=True, exist_ok=True)
        with open(OUT / "lock", "w") as lock:
            fcntl.flock(lock, fcntl.LOCK_EX)
            kit(), self.find_due()
            self.prove_all()


def check(crate, options):
    """Checks a crate over what the build has proved, and keeps its proofs for the next check. Returns the status of the prover, which prints
    what it finds."""
    if crate not in uses():
        raise Failed(f"crates.txt has no crate {crate}")
    Build(crate, MADE / f"{crate}.done").prove_below()
    kept = OUT / "checks" / crate
    kept.mkdir(parents=True, exist_ok=True)
    jobs = [] if "--jobs" in options else ["--jobs", str(free_lanes())]
    words = [*prover_words("check", crate), *jobs, "--incremental", str(kept), *options]
    return subprocess.run(words, cwd=TOP / "crates" / crate).returncode
