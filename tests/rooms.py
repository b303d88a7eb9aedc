"""Where packages are installed for a test: a folder with a C library, Python and Node, and nothing else, which is the root of what runs there.

If the variable XW_CHROOT names an archive that tools/make-root made by debootstrap, the folder has its files. Otherwise it gets the files of this machine
that the three need.
"""
import contextlib
import os
import pathlib
import re
import shutil
import stat
import subprocess

from steps import SECONDS

# the packages that such a folder has, as dpkg knows them
STATUS = """Package: libc6
Status: install ok installed
Maintainer: nobody
Architecture: amd64
Version: 2.34
Description: the C library of this machine
"""
PYTHON, NODE = "/usr/bin/python3", "node"


def needed_by(program):
    """The shared libraries that a program loads."""
    told = subprocess.run(["ldd", program], capture_output=True, text=True, check=True).stdout
    return re.findall(r"(/\S+) \(0x", told)


def take(folder, path):
    """Copies a file to the same place below a folder."""
    to = folder / str(path).lstrip("/")
    to.parent.mkdir(parents=True, exist_ok=True)
    if not to.exists():
        shutil.copy(path, to)


def take_program(folder, program):
    for path in (program, *needed_by(program)):
        take(folder, path)


def take_python(folder):
    take_program(folder, PYTHON)
    code = "import sysconfig; print(sysconfig.get_path('stdlib'))"
    library = subprocess.run([PYTHON, "-I", "-c", code], capture_output=True, text=True, check=True).stdout.strip()
    left = shutil.ignore_patterns("test", "idlelib", "__pycache__", "dist-packages", "config-*", "lib2to3", "ensurepip")
    shutil.copytree(library, folder / library.lstrip("/"), ignore=left, dirs_exist_ok=True)
    # the modules of it that call C are linked with libraries of their own
    for path in (folder / library.lstrip("/")).glob("lib-dynload/_ctypes*.so"):
        for needed in needed_by(path):
            take(folder, needed)


def make_devices(folder):
    (folder / "dev").mkdir(exist_ok=True)
    for name in ("null", "urandom"):
        device = os.stat(f"/dev/{name}")
        with contextlib.suppress(OSError):
            os.mknod(folder / "dev" / name, stat.S_IFCHR | 0o666, device.st_rdev)


def make_small(folder):
    """Makes a folder of this machine's own files."""
    for name in ("bin", "lib", "lib64", "sbin"):
        (folder / "usr" / name).mkdir(parents=True)
        (folder / name).symlink_to(f"usr/{name}")
    take_python(folder)
    node = pathlib.Path(shutil.which(NODE)).resolve()
    take_program(folder, node)
    if not (folder / "usr/bin/node").exists():
        shutil.copy(node, folder / "usr/bin/node")
    make_devices(folder)
    dpkg = folder / "var/lib/dpkg"
    for name in ("info", "updates", "triggers"):
        (dpkg / name).mkdir(parents=True)
    (dpkg / "status").write_text(STATUS)
    (dpkg / "available").touch()


def why_not(archive):
    """What the log of an archive that was not made says."""
    log = pathlib.Path(f"{archive}.log")
    return f" ({log.read_text().strip()})" if log.exists() and log.stat().st_size else ""


class Room:
    """A folder as the root of what runs in it. `home` is the folder in it where files are made."""

    def __init__(self, folder):
        given = os.environ.get("XW_CHROOT")
        self.folder = folder / "root"
        self.home = self.folder / "home/test"
        self.folder.mkdir()
        if given and pathlib.Path(given).exists():
            self.name = "a root that debootstrap made"
            subprocess.run(["tar", "-C", self.folder, "-xf", given], check=True, timeout=SECONDS)
        else:
            self.name = "a root of this machine's files" + (f", since there is no {given}{why_not(given)}" if given else "")
            make_small(self.folder)
        self.home.mkdir(parents=True, exist_ok=True)

    def enter(self):
        os.chroot(self.folder)
        os.chdir("/home/test")

    def run(self, *words, typed=b"", **variables):
        """What a command prints. It must end with status 0."""
        env = {"PATH": "/usr/bin:/bin", **variables}
        ended = subprocess.run(words, env=env, input=typed, preexec_fn=self.enter, capture_output=True, timeout=SECONDS)
        assert ended.returncode == 0, f"{' '.join(words)}: status {ended.returncode}: {ended.stdout[-300:]!r} {ended.stderr[-600:]!r}"
        return ended.stdout

    def dpkg(self, *words):
        ended = subprocess.run(["dpkg", f"--root={self.folder}", *words], capture_output=True, text=True, timeout=SECONDS)
        assert ended.returncode == 0, f"dpkg {words[0]}: {ended.stdout[-300:]} {ended.stderr[-600:]}"
        return ended.stdout

    def files(self):
        """All files but those of dpkg."""
        found = {path.relative_to(self.folder) for path in self.folder.rglob("*") if not path.is_dir() or path.is_symlink()}
        return {str(path) for path in found if not str(path).startswith(("var/", "etc/ld.so.cache", "proc/", "dev/"))}
