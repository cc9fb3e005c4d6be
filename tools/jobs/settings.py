"""A job's settings in words: numbers, modes, inputs."""
import re

from .encoding import CODELS, MODES
from .files import Wrong, cut, quoted

NAMES = ["codel", "limit", "mode", "input", "input-hex"]
SHRINK_BITS = 16
WIDEST_SHRINK = 2**SHRINK_BITS - 1
RANGES = {"codel": CODELS, "limit": "it has to be below 2^64", "shrink": f"it has to be 1 to {WIDEST_SHRINK}"}
ESCAPES = {"n": b"\n", "t": b"\t", "r": b"\r", "0": b"\0", "\\": b"\\", '"': b'"'}
KNOWN_ESCAPES = '\\n \\t \\r \\0 \\\\ \\" and \\xHH are known'


def parse_number(name, word, bits):
    """A decimal number that its field of a job holds; whether the run program accepts it is tested later."""
    if not re.fullmatch("[0-9]+", word):
        raise Wrong(f"the {name} {quoted(word)} is no number")
    digits = word.lstrip("0") or "0"
    if len(digits) > 20 or int(digits) >= 2**bits:
        raise Wrong(f"the {name} is {cut(word)}, and {RANGES[name]}")
    return int(digits)


def parse_shrink(word):
    number = parse_number("shrink", word, SHRINK_BITS)
    if number == 0:
        raise Wrong(f"the shrink is 0, and {RANGES['shrink']}")
    return number


def parse_mode(word):
    if word.lower() not in MODES:
        raise Wrong(f"mode {quoted(word)} is neither {MODES[0]} nor {MODES[1]}")
    return word.lower()


def unescape(text):
    """The bytes of a text with escapes: \\n \\t \\r \\0 \\\\ \\" and \\xHH for any byte."""
    out = bytearray()
    for piece in re.findall(r"\\x[0-9a-fA-F]{2}|\\.|[^\\]+|\\", text, re.DOTALL):
        if not piece.startswith("\\"):
            out += piece.encode(errors="surrogateescape")
        elif len(piece) == 4:
            out += bytes.fromhex(piece[2:])
        elif piece[1:] in ESCAPES:
            out += ESCAPES[piece[1:]]
        else:
            raise Wrong(f"unknown escape '{piece}' in the input; {KNOWN_ESCAPES}")
    return bytes(out)


def escape(data):
    """The input as a quoted text: a byte that is no printable ASCII becomes an escape."""
    back = {value[0]: "\\" + key for key, value in ESCAPES.items()}
    return '"' + "".join(back.get(b) or (chr(b) if 32 <= b < 127 else f"\\x{b:02X}") for b in data) + '"'


def parse_input(word):
    if not re.fullmatch(r'"([^"\\]|\\.)*"', word):
        raise Wrong(f'the input stands in quotes, as input "5\\n", found {cut(word)}')
    return unescape(word[1:-1])


def parse_hex(word):
    try:
        return bytes.fromhex(word)
    except ValueError:
        raise Wrong(f"{quoted(word)} is no hex") from None


def parse_setting(name, word):
    """The field of a job that a setting gives, and its value."""
    readers = {
        "codel": lambda: ("codel", parse_number(name, word, 16)),
        "limit": lambda: ("limit", parse_number(name, word, 64)),
        "mode": lambda: ("mode", parse_mode(word)),
        "input": lambda: ("input", parse_input(word)),
        "input-hex": lambda: ("input", parse_hex(word)),
    }
    return readers[name]()
