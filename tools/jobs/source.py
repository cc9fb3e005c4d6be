"""What a file says, before it becomes a job: a picture, settings, and where they stand. A picture may be shrunk."""
from dataclasses import dataclass, field, replace
from math import gcd

from .encoding import MOST_PIXELS, Job, Picture


@dataclass(frozen=True)
class Source:
    """`lines` has the line of each setting, `row_lines` that of each row of pixels; a PPM has neither. `drawn` is the
    width in the file of what one pixel here stands for."""

    name: str
    picture: Picture
    settings: dict = field(default_factory=dict)
    lines: dict = field(default_factory=dict)
    row_lines: list = field(default_factory=list)
    drawn: int = 1

    def shrunk(self, side):
        """With one pixel of each square. It is a codel of width 1, whatever the file says."""
        settings = {name: value for name, value in self.settings.items() if name != "codel"}
        rows = self.row_lines[::side]
        return replace(self, picture=corners(self.picture, side), settings=settings, row_lines=rows, drawn=side)

    def job(self, options):
        """The job; what an option sets goes before what the file says."""
        picture = self.picture
        return Job(picture.height, picture.width, picture.pixels, **{**self.settings, **options})

    def place(self, refusal, options):
        """The file, with the line that a refusal is about where there is one."""
        line = self.lines.get(refusal.part) if refusal.part not in options else None
        if refusal.part in ("size", "pixel") and self.row_lines:
            line = self.row_lines[refusal.row]
        return f"{self.name}:{line}" if line else self.name


def corners(picture, side):
    """The top left pixel of each square of a picture."""
    rows = picture.rows(side)
    return Picture(len(rows), len(rows[0]), b"".join(b"".join(row) for row in rows))


def painted(rows, side):
    """The picture in which each colour of a grid is a square of pixels."""
    pixels = b"".join(b"".join(pixel * side for pixel in row) * side for row in rows)
    return Picture(len(rows) * side, len(rows[0]) * side, pixels)


def mixed_squares(picture, side):
    """The squares, by their top left pixels, that have pixels of several colours."""
    mixed = set()
    for top, corner_row in zip(range(0, picture.height, side), picture.rows(side)):
        even = b"".join(pixel * side for pixel in corner_row)[: 3 * picture.width]
        for row in map(picture.row, range(top, min(top + side, picture.height))):
            if row != even:
                starts = range(0, 3 * picture.width, 3 * side)
                mixed.update((top, at // 3) for at in starts if row[at : at + 3 * side] != even[at : at + 3 * side])
    return sorted(mixed)


def doubts(picture, side):
    """Why the squares may not be the codels that were drawn."""
    if picture.height % side or picture.width % side:
        yield f"{picture.sides()} pixels are no whole {side} x {side} squares; the last ones are cut"
    mixed = mixed_squares(picture, side)
    if mixed:
        first = "the first at row %d, column %d (counted from 0)" % mixed[0]
        squares = f"{len(mixed)} of the {side} x {side} squares have pixels of several colours"
        yield f"{squares}, {first}; the top left pixel of each is kept"


def widest_square(picture):
    """The width of the widest squares of one colour each that the picture is made of."""
    side, before = gcd(picture.height, picture.width), None
    for number, row in enumerate(map(picture.row, range(picture.height))):
        if side == 1:
            break
        if row != before:
            changes = (at // 3 for at in range(3, len(row), 3) if row[at : at + 3] != row[at - 3 : at])
            side = gcd(side, number)
            for column in changes:
                side = gcd(side, column)
        before = row
    return side


def shrink_advice(picture, drawn):
    """How a picture with too many pixels may be meant; one of its pixels is `drawn` wide in its file."""
    side = widest_square(picture)
    height, width = picture.height // side, picture.width // side
    if side > 1 and height * width <= MOST_PIXELS:
        drawn *= side
        squares = f"its {drawn} x {drawn} squares, and none wider, are of one colour each"
        return f"{squares}, and --shrink {drawn} makes it {height} x {width}"
    return "--shrink N keeps one pixel of each N x N, for a picture that is drawn with N x N pixels a codel"
