"""Libraries of C that are preloaded into the program. The kit's clang builds them; without the kit the cases that need them fail."""
import functools
import pathlib
import subprocess
import tempfile

TESTS = pathlib.Path(__file__).resolve().parent


@functools.cache
def built(name):
    """The folder and the path of the library that a file of this folder makes; the folder goes when this process ends."""
    folder = tempfile.TemporaryDirectory()
    path = pathlib.Path(folder.name, f"{name}.so")
    page = subprocess.run(["rt", "doc"], capture_output=True, text=True, check=True).stdout.strip()
    clang = pathlib.Path(page).parent / "toolchain/bin/clang"
    subprocess.run([clang, "-fuse-ld=lld", "-O2", "-fPIC", "-nostdlib", "-shared", "-o", path, TESTS / f"{name}.c"], check=True)
    return folder, path


def library(name):
    return str(built(name)[1])
