"""Archives whose bytes depend on their files alone: one time, one owner, fixed modes, and names in order."""
import gzip
import io
import os
import pathlib
import subprocess
import tarfile
import tempfile
from typing import Dict, NamedTuple, Union


class Entry(NamedTuple):
    """A file of an archive: its bytes, or the name that a link leads to."""

    data: Union[bytes, str]
    is_program: bool = False

    @property
    def mode(self) -> int:
        return 0o755 if self.is_program else 0o644


# files by their paths, without a slash at the beginning
Tree = Dict[str, Entry]


def read_tree(folder) -> Tree:
    """The files and links below a folder."""
    found = {}
    for path in pathlib.Path(folder).rglob("*"):
        name = str(path.relative_to(folder))
        if path.is_symlink():
            found[name] = Entry(os.readlink(path))
        elif path.is_file():
            found[name] = Entry(path.read_bytes(), bool(path.stat().st_mode & 0o100))
    return found


def below(prefix: str, tree: Tree) -> Tree:
    return {f"{prefix}/{name}": entry for name, entry in tree.items()}


def gzipped(data: bytes) -> bytes:
    """As gzip -9n: without a name and a time."""
    packed = io.BytesIO()
    with gzip.GzipFile("", "wb", 9, packed, 0) as file:
        file.write(data)
    return packed.getvalue()


def tar_gz(path, tree: Tree, time: int):
    """Writes a .tar.gz file."""
    packed = io.BytesIO()
    with tarfile.open(fileobj=packed, mode="w", format=tarfile.PAX_FORMAT) as archive:
        for name in sorted({*tree, *(str(it) for name in tree for it in pathlib.PurePath(name).parents if str(it) != ".")}):
            archive.addfile(*member(name, tree.get(name), time))
    pathlib.Path(path).write_bytes(gzipped(packed.getvalue()))


def member(name, entry, time):
    """What tarfile adds for a file, or for a folder if there is no entry."""
    info = tarfile.TarInfo(name)
    info.mtime, info.uname, info.gname, info.mode = time, "root", "root", entry.mode if entry else 0o755
    if entry is None:
        info.type = tarfile.DIRTYPE
    elif isinstance(entry.data, str):
        info.type, info.linkname, info.mode = tarfile.SYMTYPE, entry.data, 0o777
    else:
        info.size = len(entry.data)
        return info, io.BytesIO(entry.data)
    return info, None


def write_tree(folder, tree: Tree, time: int):
    """Writes files below a folder, with their modes and one time."""
    for name, entry in tree.items():
        path = pathlib.Path(folder, name)
        path.parent.mkdir(parents=True, exist_ok=True)
        if isinstance(entry.data, str):
            path.symlink_to(entry.data)
        else:
            path.write_bytes(entry.data)
            path.chmod(entry.mode)
    for path in [pathlib.Path(folder), *pathlib.Path(folder).rglob("*")]:
        if path.is_dir() and not path.is_symlink():
            path.chmod(0o755)
        os.utime(path, (time, time), follow_symlinks=False)


def deb(path, tree: Tree, control: Dict[str, str], time: int):
    """Writes a package for Debian by dpkg-deb. `control` has its control files."""
    with tempfile.TemporaryDirectory() as room:
        files = below("DEBIAN", {name: Entry(text.encode()) for name, text in control.items()})
        write_tree(room, {**tree, **files}, time)
        call = ["dpkg-deb", "--root-owner-group", "-Zxz", "--threads-max=1", "--build", room, str(path)]
        subprocess.run(call, env={**os.environ, "SOURCE_DATE_EPOCH": str(time)}, stdout=subprocess.DEVNULL, check=True)

