"""Makes the shared library of the static one. `build` calls this."""
import os
import pathlib
import subprocess
import tempfile

from proving import LIBRARY, TOP, Failed, kit

SHARED = LIBRARY.with_suffix(".so")
HERE = pathlib.Path(__file__).resolve()


def is_linked():
    sources = (LIBRARY, TOP / "include/xw.h", HERE)
    return SHARED.exists() and all(it.stat().st_mtime_ns <= SHARED.stat().st_mtime_ns for it in sources)


def link(soname, version, exported):
    """Makes a shared object that exports these functions, each with a version of symbols, and needs the C library alone. Its calls are bound when it is
    loaded, and it has a build id, which depends on its bytes. It replaces an older one at once."""
    if is_linked():
        return
    with tempfile.TemporaryDirectory(dir=SHARED.parent) as room:
        names, made = pathlib.Path(room, "names"), pathlib.Path(room, SHARED.name)
        names.write_text(f"{version} {{ global: {' '.join(f'{it};' for it in exported)} local: *; }};\n")
        flags = ["-shared", "-soname", soname, f"--version-script={names}", "--no-undefined-version", "-z", "defs", "-z", "relro", "-z", "now"]
        flags += ["--strip-all", "--build-id=sha1", "--whole-archive", LIBRARY, "--no-whole-archive", kit() / "toolchain/lib/libc.so.6"]
        ended = subprocess.run([kit() / "toolchain/bin/ld.lld", *flags, "-o", made], capture_output=True, text=True)
        if ended.returncode:
            raise Failed(f"the shared library is not linked: {ended.stderr.strip()}")
        os.replace(made, SHARED)
