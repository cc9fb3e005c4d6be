"""Text grids: settings, a line `picture` or `pixels`, and rows of colours."""
import re

from .colours import PIXELS, SHORTS, raw
from .encoding import LONGEST_SIDE, SIDES, WIDEST_CODEL
from .files import Wrong, in_place, quoted
from .settings import NAMES, escape, parse_setting
from .source import Source, painted

KNOWN_COLOURS = "colours are as light-red, red, dark-red, black, white or lr, nr, dr, bk, wh"


def parse_colour(word):
    colour = word.lower()
    if colour in PIXELS:
        return PIXELS[colour]
    if re.fullmatch("0x[0-9a-f]{6}", colour):
        return bytes.fromhex(colour[2:])
    raise Wrong(f"unknown colour {quoted(word)}; {KNOWN_COLOURS}")


def without_comment(line):
    """What stands before the first # that is outside quotes."""
    return re.match(r'(?:[^"#]+|"(?:[^"\\]|\\.)*"?)*', line).group()


def numbered_lines(text):
    """The lines that say something, with their numbers: no comments, no blank ones."""
    for number, line in enumerate(text.split("\n"), 1):
        said = without_comment(line).strip()
        if said:
            yield number, said


class TextGrid:
    """A text grid that is being read line by line, with the line of each setting and of each row."""

    def __init__(self):
        self.settings = {}
        self.lines = {}
        self.grid_word = None
        self.rows = []
        self.row_lines = []

    def add(self, number, line):
        if self.grid_word:
            self.add_row(line)
            self.row_lines.append(number)
        elif line.lower() in ("picture", "pixels"):
            self.grid_word = line.lower()
        else:
            self.lines[self.add_setting(*line.split(None, 1))] = number

    def add_setting(self, name, word=""):
        if name.lower() not in NAMES:
            raise Wrong(f"unknown setting {quoted(name)}; settings are {', '.join(NAMES)}, and then the line picture")
        field, value = parse_setting(name.lower(), word)
        if field in self.settings:
            raise Wrong(f"the {field} is set twice")
        self.settings[field] = value
        return field

    def add_row(self, line):
        row = [parse_colour(word) for word in line.split()]
        if self.rows and len(row) != len(self.rows[0]):
            raise Wrong(f"this row has {len(row)} colours, and the first has {len(self.rows[0])}")
        self.rows.append(row)

    def source(self, name, codel):
        """With a codel width that takes the place of the file's, or None."""
        if not self.rows:
            raise Wrong("no picture: after the settings comes a line 'picture', then rows of colours")
        side = self.settings.get("codel", 1) if codel is None else codel
        # A codel width that is refused paints nothing sensible; one pixel is as good as any.
        if self.grid_word == "pixels" or not 1 <= side <= WIDEST_CODEL:
            side = 1
        height, width = len(self.rows) * side, len(self.rows[0]) * side
        if side > 1 and height * width > LONGEST_SIDE**2:
            raise Wrong(f"{height} x {width} pixels, and {SIDES}")
        row_lines = [line for line in self.row_lines for _ in range(side)]
        return Source(name, painted(self.rows, side), self.settings, self.lines, row_lines)


def read_text(data, name, codel):
    """The source that a text grid is; see TextGrid.source for the codel."""
    try:
        text = data.decode()
    except UnicodeDecodeError as error:
        raise Wrong(f"{name}: neither a text grid in UTF-8 nor a PPM picture (byte {error.start})") from None
    grid = TextGrid()
    for number, line in numbered_lines(text):
        in_place(f"{name}:{number}", lambda: grid.add(number, line))
    return in_place(name, lambda: grid.source(name, codel))


def to_text(job):
    """The text grid of a job; where a codel's pixels differ, or the sides cut a codel, a row names pixels."""
    if not job.has_its_pixels():
        raise Wrong(f"{len(job.pixels)} bytes of pixels for {job.sides()}: no grid can say that")
    if not job.pixels:
        raise Wrong(f"{job.sides()} pixels: no grid can say that")
    whole = 1 <= job.codel <= WIDEST_CODEL and is_painted(job)
    head = [f"codel {job.codel}", f"limit {job.limit}", f"mode {job.mode}"]
    head += [f"input {escape(job.input)}"] if job.input else []
    rows = job.rows(job.codel if whole else 1)
    grid = [" ".join(SHORTS.get(p) or raw(p) for p in row) for row in rows]
    return "\n".join(head + ["picture" if whole else "pixels"] + grid) + "\n"


def is_painted(job):
    """Whether the job's pixels are what its codels would be painted as."""
    if job.height % job.codel or job.width % job.codel:
        return False
    return painted(job.rows(job.codel), job.codel).pixels == job.pixels
