"""The shared library of the engine, and its calls."""
import ctypes
import functools
import os
import pathlib
import threading
from typing import Tuple

from .errors import Fault

# The statuses of xw.h, in the order of their numbers.
STATUSES = (
    "Accepted Refused Silent Closed Open Memory NoCommand Full Short Magic Version Scrambled Size NoNul BadSum BadCell ClueCount Header Tag "
    "SizeLine GridLine AcrossCount DownCount NulByte GextSize GextSum Barred NotFilled Field Circled Cut"
).split()
# The name by which programs load an installed library.
_SONAME = "libxw.so.0"


class _Xw(ctypes.Structure):
    """The struct xw of xw.h. All bytes are zero if no session is open."""

    _fields_ = [("at", ctypes.c_void_p), ("is_open", ctypes.c_bool)]


@functools.lru_cache(maxsize=None)
def _calls() -> ctypes.CDLL:
    """The library that the variable XW_LIBRARY names, the one beside this package, or an installed one."""
    beside = pathlib.Path(__file__).with_name(_SONAME)
    calls = ctypes.CDLL(os.environ.get("XW_LIBRARY") or (str(beside) if beside.exists() else _SONAME))
    handle, text = ctypes.POINTER(_Xw), (ctypes.c_char_p, ctypes.c_size_t)
    for name, takes in (("open", text + text), ("resume", text), ("line", text), ("puz", ()), ("text", ()), ("record", ())):
        call = getattr(calls, f"xw_{name}")
        call.argtypes, call.restype = (handle, *takes), ctypes.c_uint32
    calls.xw_answer.argtypes, calls.xw_answer.restype = (handle, *text), ctypes.c_size_t
    calls.xw_version.argtypes, calls.xw_version.restype = text, ctypes.c_size_t
    calls.xw_close.argtypes, calls.xw_close.restype = (handle,), None
    return calls


def version() -> str:
    """The version of the engine and of its protocol, such as `xw 0.3.0 (protocol 1)`."""
    room = ctypes.create_string_buffer(200)
    length: int = _calls().xw_version(room, len(room))
    return room.raw[:length].decode()


class Handle:
    """An open session of the library. Threads that hold `lock` have it to themselves."""

    def __init__(self, words: bytes, puzzle: bytes):
        self.lock = threading.RLock()
        self._calls = _calls()
        self._xw = _Xw()
        # room for answers, which grows
        self._room = ctypes.create_string_buffer(4096)
        self.open(words, puzzle)

    def open(self, words: bytes, puzzle: bytes) -> None:
        """Opens a session, after the one before it is closed."""
        status, _ = self.ask("open", words, puzzle)
        if status != "Accepted":
            raise Fault(status)

    def ask(self, name: str, *texts: bytes) -> Tuple[str, bytes]:
        """Makes a call. Returns its status, and what it wrote."""
        # a call lets other threads run, and their calls would write other answers
        with self.lock:
            return self._call(name, *texts), self._answer()

    def _call(self, name: str, *texts: bytes) -> str:
        given = [part for text in texts for part in (text, len(text))]
        status: int = getattr(self._calls, f"xw_{name}")(ctypes.byref(self._xw), *given)
        return STATUSES[status] if status < len(STATUSES) else f"status {status}"

    def _answer(self) -> bytes:
        while True:
            length: int = self._calls.xw_answer(ctypes.byref(self._xw), self._room, len(self._room))
            if length <= len(self._room):
                return ctypes.string_at(self._room, length)
            self._room = ctypes.create_string_buffer(length)

    @property
    def is_open(self) -> bool:
        # the library takes the session out of the struct for the time of a call
        with self.lock:
            return bool(self._xw.is_open)

    def close(self) -> None:
        """Frees the session. May be called again."""
        with self.lock:
            self._calls.xw_close(ctypes.byref(self._xw))
