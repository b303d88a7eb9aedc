#!/usr/bin/env python3
"""Answers the commands of its input by the shared library, as `xw edit` does: a small caller by ctypes.

usage: library.py LIBXW.SO WORDS

WORDS is a list, a word a line. `./build library` makes crates/xw_c/out/libxw.so.
"""
import ctypes
import sys

ACCEPTED = 0


class Xw(ctypes.Structure):
    """The struct xw of include/xw.h. All bytes are zero if no session is open."""

    _fields_ = [("at", ctypes.c_void_p), ("is_open", ctypes.c_bool)]


def slice_of(text):
    """The two arguments that give bytes to a call."""
    return text, ctypes.c_size_t(len(text))


class Session:
    """A session on an empty grid, over the words of a list."""

    def __init__(self, library, words):
        self.calls = ctypes.CDLL(library)
        self.calls.xw_answer.restype = ctypes.c_size_t
        self.xw = Xw()
        status = self.calls.xw_open(ctypes.byref(self.xw), *slice_of(words), *slice_of(b""))
        if status != ACCEPTED:
            raise RuntimeError(f"xw_open: status {status}")

    def answer_to(self, line):
        """What a line is answered, with the line that ends it."""
        self.calls.xw_line(ctypes.byref(self.xw), *slice_of(line))
        length = self.calls.xw_answer(ctypes.byref(self.xw), *slice_of(b""))
        answer = ctypes.create_string_buffer(length + 1)
        self.calls.xw_answer(ctypes.byref(self.xw), answer, ctypes.c_size_t(length))
        return answer.raw[:length]

    def close(self):
        self.calls.xw_close(ctypes.byref(self.xw))


def main(library, words):
    with open(words, "rb") as file:
        session = Session(library, file.read())
    for line in sys.stdin.buffer:
        sys.stdout.buffer.write(session.answer_to(line.rstrip(b"\n")))
    session.close()


if __name__ == "__main__":
    if len(sys.argv) != 3:
        sys.exit(__doc__)
    main(*sys.argv[1:])
