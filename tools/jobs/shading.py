"""A picture shaded by how often its blocks were entered. The counts are given; here they only get their classes."""
import re
from typing import NamedTuple

from .colours import PIXELS
from .files import Wrong


class Shade(NamedTuple):
    """How a codel is shown: without colour by its symbol alone, and so to whoever can't tell the colours."""

    symbol: str
    meaning: str
    ground: tuple
    ink: tuple


BLACK, WHITE = (0, 0, 0), (255, 255, 255)

# The least count of each class, in rising order.
CLASSES = {
    0: Shade("--", "never entered", (176, 176, 176), BLACK),
    1: Shade("++", "entered once", (255, 237, 160), BLACK),
    2: Shade("oo", "entered 2 to 9 times", (254, 196, 79), BLACK),
    10: Shade("xx", "entered 10 to 99 times", (253, 141, 60), BLACK),
    100: Shade("%%", "entered 100 to 999 times", (240, 59, 32), BLACK),
    1000: Shade("&&", "entered 1,000 to 9,999 times", (189, 0, 38), WHITE),
    10000: Shade("@@", "entered 10,000 times or more", (110, 0, 45), WHITE),
}
# What no run enters, but black at the top left. On its own colour the symbol is not seen; it is there where the text is
# copied from a terminal.
UNENTERED = {
    PIXELS["black"]: Shade("##", "black", BLACK, BLACK),
    PIXELS["white"]: Shade("..", "white", WHITE, WHITE),
}


def is_refusal(told):
    return re.fullmatch(rb"refused [0-9]{1,2}\n", told) is not None


def read_counts(told, rows):
    """The counts by rows, one for each codel. Where one is missing, or the last newline, they are cut."""
    if not re.fullmatch(rb"([0-9]{1,20}( [0-9]{1,20})*\n)+", told):
        raise Wrong("these are no whole counts, which are rows of numbers with one blank between them")
    counts = [[int(word) for word in line.split()] for line in told.splitlines()]
    if list(map(len, counts)) != list(map(len, rows)):
        raise Wrong(f"{sides(counts)} counts, and the job has {sides(rows)} codels")
    return counts


def sides(rows):
    return f"{len(rows)} x {max(map(len, rows), default=0)}"


def shade_of(pixel, count):
    if count == 0 and pixel in UNENTERED:
        return UNENTERED[pixel]
    return CLASSES[max(least for least in CLASSES if least <= count)]


def shades(rows, counts):
    return [[shade_of(*codel) for codel in zip(*row)] for row in zip(rows, counts)]


def plain_shade(shade):
    return shade.symbol


def coloured_shade(shade):
    """The symbol in 24-bit colours."""
    colours = (*shade.ink, *shade.ground, shade.symbol)
    return "\x1b[38;2;%d;%d;%d;48;2;%d;%d;%dm%s\x1b[0m" % colours


def legend(shaded, print_shade):
    """A line for each shade that occurs."""
    found = {shade for row in shaded for shade in row}
    known = [*CLASSES.values(), *UNENTERED.values()]
    return [f"{print_shade(shade)}  {shade.meaning}" for shade in known if shade in found]
