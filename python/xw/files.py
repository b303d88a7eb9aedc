"""Files as the program replaces them: docs/commands.md, "How a file is written"."""
from __future__ import annotations

import errno
import fcntl
import os
import pathlib
import stat
from typing import Any, BinaryIO, Dict, Iterator, Literal, Optional, Tuple

# What a file of a session is: a puzzle in one of two formats, or the session.
Kind = Literal["puz", "txt", "xw"]

# The line with which the file of a session begins, and the byte order mark that may stand before it.
SESSION = b"# xw session 1\n"
_MARK = b"\xef\xbb\xbf"
# Where a `.puz` file has its magic, its size, its number of clues, and its boards: docs/formats.md.
_MAGIC, _MAGIC_AT, _SIZE_AT, _CLUES_AT, _BOARDS_AT = b"ACROSS&DOWN\0", 0x02, 0x2C, 0x2E, 0x34
# The title, the author, the copyright and the notes.
_TEXTS = 4
# A section has a name of 4 bytes, a length and a checksum of 2 bytes each, its data, and a NUL.
_SECTION_HEAD = 8
# The tag with which a text file begins.
_TAG = b"<ACROSS PUZZLE"

# Which file it is, its length, and when it was changed last.
_Stamp = Tuple[int, int, int, int]


def kind_of(path: pathlib.Path) -> Kind:
    """What the name of a file asks for, in either case. Raises `ValueError` for any other name."""
    for kind in ("puz", "txt", "xw"):
        if path.suffix.lower() == f".{kind}":
            return kind  # type: ignore[return-value]
    raise ValueError(f"{str(path)!r} does not end in .puz, .txt or .xw")


# ---- what is kept


def _sections(data: bytes) -> Iterator[bytes]:
    """The names of the sections of a `.puz` file, up to one that is cut off."""
    width, height = data[_SIZE_AT : _SIZE_AT + 2]
    at = _BOARDS_AT + 2 * width * height
    for _ in range(_TEXTS + int.from_bytes(data[_CLUES_AT : _CLUES_AT + 2], "little")):
        at = data.find(b"\0", at) + 1
        if not at:
            return
    while at + _SECTION_HEAD < len(data):
        yield data[at : at + 4]
        at += _SECTION_HEAD + int.from_bytes(data[at + 4 : at + 6], "little") + 1


def is_puz(data: bytes) -> bool:
    """Whether bytes are a `.puz` file, or the beginning of one."""
    return data[_MAGIC_AT : _MAGIC_AT + len(_MAGIC)] == _MAGIC


def is_text(data: bytes) -> bool:
    """Whether bytes are a puzzle as a text file, or the beginning of one."""
    text = data[len(_MARK) :] if data.startswith(_MARK) else data
    return text.lstrip().upper().startswith(_TAG)


def _is_plain(data: bytes) -> bool:
    """Whether a `.puz` file has nothing which no puzzle of a session keeps: a timer, a rebus, letters of a solver."""
    if len(data) < _BOARDS_AT:
        return False
    area = data[_SIZE_AT] * data[_SIZE_AT + 1]
    has_letters = any(byte not in b"-." for byte in data[_BOARDS_AT + area : _BOARDS_AT + 2 * area])
    return not has_letters and all(name == b"GEXT" for name in _sections(data))


def _is_spare(data: bytes, kind: Kind) -> bool:
    """Whether an old file may go: it is empty, or a puzzle of the same format that has nothing else."""
    if kind == "puz":
        return not data or (is_puz(data) and _is_plain(data))
    return not data or (kind == "txt" and is_text(data))


def _stamp(path: pathlib.Path) -> Optional[_Stamp]:
    """A regular file as it is now. None if there is none."""
    try:
        found = path.stat()
    except OSError:
        return None
    return (found.st_dev, found.st_ino, found.st_size, found.st_mtime_ns) if stat.S_ISREG(found.st_mode) else None


def _is_one_file(path: pathlib.Path, other: pathlib.Path) -> bool:
    try:
        return os.path.samefile(path, other)
    except OSError:
        return os.path.realpath(path) == os.path.realpath(other)


class Sources:
    """The files that a session began with, and those that it has written."""

    def __init__(self, words: Any, puzzle: Any, record: Any):
        given = {"words": words, "puzzle": puzzle, "record": record}
        self._paths: Dict[str, pathlib.Path] = {
            name: pathlib.Path(it).absolute() for name, it in given.items() if isinstance(it, os.PathLike)
        }
        # The session has all that these files of sessions had.
        self._known = {_stamp(self._paths["record"])} if "record" in self._paths else set()

    def after(self, record: Any) -> Sources:
        """The files of the session once it is restored from a record."""
        return Sources(self._paths.get("words"), self._paths.get("puzzle"), record)

    def copy(self) -> Sources:
        """The files that a copy of the session knows: what it writes later, the session does not have."""
        other = self.after(self._paths.get("record"))
        other._known = set(self._known)
        return other

    def forget(self) -> None:
        """The session lacks a part of its record, whose file is kept."""
        self._known.clear()

    def expect_other(self, path: pathlib.Path, kind: Kind) -> None:
        """Raises `ValueError` if a file to write is one that the session began with, in another format."""
        for name, told in (("words", "the word list"), ("puzzle" if kind == "xw" else "record", "what the session began with")):
            if name in self._paths and _is_one_file(path, self._paths[name]):
                raise ValueError(f"{str(path)!r} is {told}, which is not written over")

    def put(self, path: pathlib.Path, kind: Kind, data: bytes) -> Optional[pathlib.Path]:
        """Replaces a file. Returns the path under which the old one is kept, if it is."""
        with _free(path):
            stamp = _stamp(path)
            kept = None
            if stamp and not (kind == "xw" and stamp in self._known):
                old = path.read_bytes()
                kept = None if old == data or _is_spare(old, kind) else _keep(path, old)
            replace(path, data)
        if kind == "xw":
            self._known.add(_stamp(path))
        return kept


# ---- writing


class _free:
    """Holds the lock that a journal of `xw edit` has. Raises `BlockingIOError` if another program has it."""

    def __init__(self, path: pathlib.Path):
        self.path, self.file = path, None  # type: pathlib.Path, Optional[BinaryIO]

    def __enter__(self) -> None:
        if not self.path.is_file():
            return
        # a file without write permission is not replaced either
        self.file = open(self.path, "r+b")
        try:
            fcntl.flock(self.file, fcntl.LOCK_EX | fcntl.LOCK_NB)
        except BlockingIOError:
            self.file.close()
            raise BlockingIOError(errno.EAGAIN, "in use by another program", str(self.path)) from None
        except OSError:
            # some network file systems have no locks, and so no journals
            pass

    def __exit__(self, *_: object) -> None:
        if self.file:
            self.file.close()


def _keep(path: pathlib.Path, data: bytes) -> pathlib.Path:
    """Keeps the bytes of a file beside it, under the first of its name with `~`, `~2` and so on that no file has."""
    number = 1
    while True:
        other = path.with_name(f"{path.name}~{number if number > 1 else ''}")
        try:
            os.close(os.open(other, os.O_WRONLY | os.O_CREAT | os.O_EXCL, stat.S_IMODE(path.stat().st_mode)))
            break
        except FileExistsError:
            number += 1
    try:
        replace(other, data)
    except BaseException:
        other.unlink()
        raise
    return other


def replace(path: pathlib.Path, data: bytes) -> None:
    """Replaces a file by these bytes: afterwards it has them all, or is as it was. Anything but a regular file is written in place."""
    try:
        mode = path.stat().st_mode
    except FileNotFoundError:
        mode = None
    if mode is None or stat.S_ISREG(mode):
        # the target of a link is replaced, and the link stays
        _put_new(pathlib.Path(os.path.realpath(path)), None if mode is None else stat.S_IMODE(mode), data)
        return
    # a pipe that no program reads is a failure, and not waited for
    device = os.open(path, os.O_WRONLY | os.O_NONBLOCK)
    os.set_blocking(device, True)
    with open(device, "wb") as file:
        file.write(data)


def _put_new(target: pathlib.Path, mode: Optional[int], data: bytes) -> None:
    """Writes a new file beside the target, brings it to the device, and renames it."""
    beside, file = _new_file(target.parent, 0o666 if mode is None else mode & 0o777)
    try:
        with open(file, "wb") as opened:
            opened.write(data)
            opened.flush()
            os.fsync(file)
            if mode is not None:
                os.fchmod(file, mode)
        os.replace(beside, target)
    except BaseException:
        beside.unlink()
        raise
    _sync(target.parent)


def _new_file(folder: pathlib.Path, mode: int) -> Tuple[pathlib.Path, int]:
    """Creates a file under a name that is free. It never has more permissions than `mode`."""
    number = 0
    while True:
        beside = folder / f".xw-{number}.new"
        try:
            return beside, os.open(beside, os.O_WRONLY | os.O_CREAT | os.O_EXCL, mode)
        except FileExistsError:
            number += 1


def _sync(folder: pathlib.Path) -> None:
    """Brings a folder to the device, where the file system can do this. The file is replaced already."""
    try:
        opened = os.open(folder, os.O_RDONLY)
    except OSError:
        return
    try:
        os.fsync(opened)
    except OSError:
        pass
    finally:
        os.close(opened)
