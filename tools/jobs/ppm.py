"""PPM pictures, P3 and P6, and the names of files that are something else."""
import re

from .encoding import MOST_PIXELS, SIDES, Picture
from .files import Wrong, cut, quoted
from .settings import WIDEST_SHRINK
from .source import Source

# A longer side leaves more pixels than the run program has room for, whatever --shrink says.
LONGEST_DRAWN = MOST_PIXELS * WIDEST_SHRINK

# What a file of another kind begins with.
OTHERS = {
    rb"\x89PNG": "a PNG",
    rb"GIF8": "a GIF",
    rb"\xff\xd8\xff": "a JPEG",
    rb"BM.{4}\0{4}": "a BMP",
    rb"II[*+]\0|MM\0[*+]": "a TIFF",
    rb"RIFF.{4}WEBP": "a WebP",
    rb"P[14]\s": "a PBM",
    rb"P[25]\s": "a PGM",
    rb"P7\s": "a PAM",
}


def refuse_other_formats(data):
    for beginning, what in OTHERS.items():
        if re.match(beginning, data, re.DOTALL):
            raise Wrong(f"this is {what}: export it as P6, a PPM in bytes")


def is_ppm(data):
    """Whether this is meant for a PPM; no text grid begins so."""
    return data[:2] in (b"P3", b"P6")


WHITE_SPACE = (b" ", b"\t", b"\r", b"\n")
SPACES = re.compile(rb"[ \t\r\n]*")
DIGITS = re.compile(rb"[0-9]+")
EXPORT = 'export the picture as PPM, "raw" or "binary" (P6), with 8 bits a channel'


def after_gap(data, at):
    """Where the white space and the comments that begin here end. A comment goes from # through a newline; without
    that it is none."""
    at = SPACES.match(data, at).end()
    while data[at : at + 1] == b"#":
        newline = data.find(b"\n", at)
        if newline < 0:
            return at
        at = SPACES.match(data, newline + 1).end()
    return at


def refuse_late_start(data):
    """A PPM begins with its kind; with something before that it is none."""
    start = after_gap(data, 0)
    kind = data[start : start + 2]
    if start and is_ppm(kind):
        raise Wrong(f"{kind.decode()} has to be the first two bytes, with no white space and no comment before it")


def missing_number(data, name, at, start):
    """What is said where no number follows the gap between these places. Digits in a gap stand in a comment, which may
    go on for longer than whoever wrote it meant."""
    kind, hint = data[:2].decode(), ""
    if data[start : start + 1] == b"#" or re.search(rb"[#\s][0-9]+\s", data[at:start]):
        hint = " (a comment goes through the next newline, and a return does not end it)"
    form = f"a header is {kind}, width, height and 255, with white space or comments between them"
    return Wrong(f"the {kind} header has no {name} at byte {at}{hint}; {form}: {EXPORT}")


def header(data):
    """Width, height and maximum of a PPM in digits without leading zeros, and where its pixels begin."""
    kind, at, fields = data[:2].decode(), 2, []
    for name in ("width", "height", "maximum"):
        start = after_gap(data, at)
        digits = DIGITS.match(data, start) if start > at else None
        if not digits:
            raise missing_number(data, name, at, start)
        fields.append((digits[0].lstrip(b"0") or b"0").decode())
        at = digits.end()
    last = data[at : at + 1]
    if last not in WHITE_SPACE:
        found = {b"": "the end of the file", b"#": "a comment"}.get(last, f"the byte 0x{last.hex()}")
        raise Wrong(f"after the maximum of the {kind} header comes one white space byte, found {found}: {EXPORT}")
    return fields, at + 1


def side(name, digits):
    """A side that a file might have; one that is above 1,024 may still be shrunk."""
    # Python makes no number of some thousands of digits, so their count comes first.
    if len(digits) > len(str(LONGEST_DRAWN)) or int(digits) > LONGEST_DRAWN:
        raise Wrong(f"the PPM's {name} is {cut(digits)}, and {SIDES}; no --shrink makes it small enough")
    return int(digits)


def byte_of(word):
    """The byte that a word of a P3 says; None where it says none."""
    digits = re.fullmatch(rb"0*([0-9]{1,3})", word)
    return int(digits[1]) if digits and int(digits[1]) < 256 else None


def numbers(data, width):
    """The bytes that the numbers of a P3 say."""
    words = re.sub(rb"#[^\n]*", b"", data).split()
    values = {word: byte_of(word) for word in set(words)}
    if None in values.values():
        at = next(at for at, word in enumerate(words) if values[word] is None)
        row, column = divmod(at // 3, width)
        place = f"at row {row}, column {column} (counted from 0)"
        raise Wrong(f"{quoted(words[at].decode(errors='replace'))} {place} is no number from 0 to 255")
    return bytes(values[word] for word in words)


def remark(data, at, more):
    """What may have happened to a P6 with so many bytes more than its pixels have."""
    if more < 0:
        return "the file is cut"
    if data[at - 1 : at + 1] == b"\r\n":
        return "it was saved with line ends changed, so that pixels may have changed too: export it again"
    if data[at : at + 1] == b"#":
        return "no comment may stand after the maximum"
    return "one white space byte stands between the maximum and the pixels, and nothing may follow them"


def read_ppm(data, name):
    (width, height, most), at = header(data)
    if most != "255":
        raise Wrong(f"the PPM's maximum is {cut(most)}, and only 255 is read: export it with 8 bits a channel")
    height, width = side("height", height), side("width", width)
    if not (height and width):
        raise Wrong(f"the PPM has {height} x {width} pixels, none at all")
    in_bytes = data[:2] == b"P6"
    pixels = data[at:] if in_bytes else numbers(data[at:], width)
    needed = 3 * height * width
    if len(pixels) != needed:
        found = f"the PPM has {len(pixels)} pixel {'bytes' if in_bytes else 'values'}"
        why = f"; {remark(data, at, len(pixels) - needed)}" if in_bytes else ""
        raise Wrong(f"{found}, and {height} x {width} pixels have {needed}{why}")
    return Source(name, Picture(height, width, pixels))
