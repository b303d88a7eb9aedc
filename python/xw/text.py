"""The bytes of strings in Windows-1252, as browsers read it: each of the 256 bytes is one character."""
import codecs

from .errors import Fault

# A byte without a character in Windows-1252 is the control character of the same number.
_CHARACTERS = "".join(bytes([byte]).decode("cp1252", "ignore") or chr(byte) for byte in range(256))
_BYTES = codecs.charmap_build(_CHARACTERS)
_CODES = dict(enumerate(map(ord, _CHARACTERS)))


def encode(text: str) -> bytes:
    """The bytes of a string. Raises `Fault("Character")` if the string has a character that is none of the 256."""
    try:
        return codecs.charmap_encode(text, "strict", _BYTES)[0]
    except UnicodeEncodeError as error:
        character = text[error.start]
        raise Fault("Character", f"{character} (U+{ord(character):04X}) is not a character of Windows-1252") from None


def decode(data: bytes) -> str:
    """The string that bytes are, with one character for each byte."""
    return codecs.charmap_decode(data, "strict", _CODES)[0]


_ESCAPES = {"\\": "\\\\", "\n": "\\n", "\r": "\\r", "\t": "\\t", " ": "\\s"}
_ESCAPED = {escape[1]: character for character, escape in _ESCAPES.items()}


def escape(text: str) -> str:
    """A text as the commands `text` and `more` take it: each backslash, line end, tab and space at an end is an escape."""
    last = len(text) - 1
    return "".join(_ESCAPES[it] if it in "\\\n\r" or (it in " \t" and at in (0, last)) else it for at, it in enumerate(text))


def unescape(spelling: str) -> str:
    """The text that an answer spells with escapes."""
    parts = iter(spelling)
    return "".join(_ESCAPED[next(parts)] if it == "\\" else it for it in parts)
