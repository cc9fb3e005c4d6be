"""Jobs: their content, their bytes, and why the run program refuses one."""
import struct
from dataclasses import dataclass
from typing import NamedTuple

from .colours import NAMES, PIXELS, raw
from .files import Wrong

LONGEST_SIDE = 1024
WIDEST_CODEL = 1024
LONGEST_JOB = 8192
MOST_PIXELS = 512
MODES = ["run", "abstract"]
SIDES = f"a side has 1 to {LONGEST_SIDE}"
CODELS = f"it has to be 1 to {WIDEST_CODEL}"


@dataclass(frozen=True)
class Picture:
    """Pixels stand row by row, three bytes each; their number need not fit the sides, because a job that is read from
    a file may be wrong in that."""

    height: int
    width: int
    pixels: bytes

    def row(self, row):
        return self.pixels[3 * row * self.width : 3 * (row + 1) * self.width]

    def rows(self, step=1):
        """The pixels by rows; with the codel width as the step, the pixels that give the codels their colours."""
        columns = range(0, 3 * self.width, 3 * step)
        return [[row[c : c + 3] for c in columns] for row in map(self.row, range(0, self.height, step))]

    def has_its_pixels(self):
        return len(self.pixels) == 3 * self.height * self.width

    def sides(self):
        return f"{self.height} x {self.width}"


@dataclass(frozen=True)
class Job(Picture):
    """A job's content: its picture and its settings."""

    codel: int = 1
    limit: int = 1000
    mode: str = "run"
    input: bytes = b""

    def size(self):
        """The bytes of the job: 33 are the heads of three records, the sides, the codel, the limit and the mode."""
        return 33 + len(self.pixels) + len(self.input)


def record(kind, body):
    return struct.pack("<IH", len(body), kind) + body


def to_bytes(job):
    if max(job.height, job.width) >= 2**16:
        raise Wrong(f"{job.sides()} pixels, and {SIDES}; a job has no more than two bytes for one")
    picture = struct.pack("<HHH", job.height, job.width, job.codel) + job.pixels
    terms = struct.pack("<QB", job.limit, MODES.index(job.mode))
    return record(1, picture) + record(2, terms) + record(3, job.input)


def looks_like_job(data):
    """Whether a first record of kind 1 begins here. No text grid has these two bytes, nor has a picture, but for a PPM
    with such a comment."""
    return data[4:6] == b"\1\0"


def take_record(data, at, kind):
    """The body of the record at a place, and the place after it."""
    if at + 6 > len(data):
        raise Wrong(f"no job: it ends where record {kind} should begin (byte {at})")
    length, found = struct.unpack_from("<IH", data, at)
    if found != kind:
        raise Wrong(f"no job: a record of kind {kind} should begin at byte {at}, found kind {found}")
    end = at + 6 + length
    if end > len(data):
        raise Wrong(f"no job: record {kind} says {length} bytes, and {len(data) - at - 6} are left")
    return data[at + 6 : end], end


def from_bytes(data):
    """A job's content. What the run program refuses with 11 is no job here either."""
    if len(data) > LONGEST_JOB:
        raise Wrong(f"no job: {len(data)} bytes, and a job has at most {LONGEST_JOB}")
    picture, at = take_record(data, 0, 1)
    terms, at = take_record(data, at, 2)
    given, at = take_record(data, at, 3)
    if at != len(data):
        raise Wrong(f"no job: {len(data) - at} bytes follow record 3")
    if len(picture) < 6:
        raise Wrong(f"no job: record 1 has {len(picture)} bytes, too few for height, width and codel")
    if len(terms) != 9 or terms[8] >= len(MODES):
        raise Wrong("no job: record 2 is not eight bytes of limit and a mode byte 0 or 1")
    height, width, codel = struct.unpack_from("<HHH", picture)
    limit, mode = struct.unpack("<QB", terms)
    return Job(height, width, picture[6:], codel, limit, MODES[mode], given)


# Refusals


class Refusal(NamedTuple):
    """Why the run program refuses a job, and what is to blame: the job as a whole, its size, its codel, or a pixel
    of some row."""

    part: str
    why: str
    row: int = 0


def size_refusals(job):
    """Those that no pixel is looked at for. A job that too many pixels make too long is said to have too many."""
    count, long = job.height * job.width, job.size() > LONGEST_JOB
    fits = all(1 <= side <= LONGEST_SIDE for side in (job.height, job.width))
    if job.has_its_pixels() and count > MOST_PIXELS and (long or fits):
        room = f"the run program has room for {MOST_PIXELS} (refused {11 if long else 4})"
        yield Refusal("size", f"{job.sides()} pixels are {count}, and {room}")
    if long:
        yield Refusal("job", f"the job has {job.size()} bytes, and a job has at most {LONGEST_JOB} (refused 11)")
    if not fits:
        yield Refusal("size", f"{job.sides()} pixels, and {SIDES} (refused 1)")
    if not job.has_its_pixels():
        yield Refusal("size", f"{len(job.pixels)} bytes of pixels for {job.sides()} (refused 2)")


def unknown_pixels(job, drawn):
    for row, pixels in enumerate(job.rows()):
        for column, pixel in enumerate(pixels):
            if pixel not in NAMES:
                place = f"the pixel at row {row * drawn}, column {column * drawn} (counted from 0)"
                yield Refusal("pixel", f"{place} is {raw(pixel)}, none of the twenty colours (refused 5)", row)


def refusals(job, drawn=1):
    """Why the run program would refuse the job, in the order of its tests. A pixel of the job may stand for a square
    of its file, `drawn` pixels wide; the places are those in the file."""
    yield from size_refusals(job)
    if not job.has_its_pixels():
        return
    yield from unknown_pixels(job, drawn)
    if not 1 <= job.codel <= WIDEST_CODEL:
        yield Refusal("codel", f"the codel is {job.codel}, and {CODELS} (refused 6)")
    if job.pixels[:3] == PIXELS["white"]:
        why = "the first pixel (row 0, column 0) is white, and a run can't start there (refused 9)"
        yield Refusal("pixel", why)
