"""Reading and writing, and saying what is wrong in one line."""
import contextlib
import os
import sys

# What is read of a file; no picture that makes a job is as long.
MOST_BYTES = 2**25


class Wrong(Exception):
    """What is wrong with a file or an option, in words for whoever wrote it."""

    status = 1


class WrongUsage(Wrong):
    """The command line itself is wrong."""

    status = 2


def in_place(place, read):
    """What reading gives, with the file's name, or a line's, before what is wrong."""
    try:
        return read()
    except Wrong as wrong:
        raise Wrong(f"{place}: {wrong}") from None


def cut(word):
    """A word of a file for a message; what is no text may have words without end."""
    return word if len(word) <= 60 else word[:60] + ".."


def quoted(word):
    return f"'{cut(word)}'"


def on_one_line(message):
    """The message without the line breaks and escape codes that a name or a word may hold."""
    return "".join(c if c.isprintable() else repr(c)[1:-1] for c in str(message))


def complain(message):
    """One line on standard error. Where that is closed or full, the exit status has to do."""
    with contextlib.suppress(OSError):
        if sys.stderr is not None:
            print("job:", on_one_line(message), file=sys.stderr)


def put(text):
    """Writes to standard output, to the end."""
    if sys.stdout is None:
        raise Wrong("standard output is closed")
    try:
        sys.stdout.write(text)
        sys.stdout.flush()
    except OSError as error:
        # Python would try what is left once more at its end, and fail with a traceback.
        os.dup2(os.open(os.devnull, os.O_WRONLY), sys.stdout.fileno())
        raise Wrong(f"standard output: {error.strerror}") from None


def read_bytes(file, name=None):
    """The bytes of a file by its name; or of an open one by its number, with a name for messages."""
    name = name or file
    try:
        with open(file, "rb") as opened:
            data = opened.read(MOST_BYTES + 1)
    except OSError as error:
        raise Wrong(f"{name}: {error.strerror}") from None
    if len(data) > MOST_BYTES:
        raise Wrong(f"{name}: it has more than {MOST_BYTES >> 20} MB, and that is the most that is read")
    return data


def write_bytes(name, data, source):
    """Writes a file, but never over the one that it was made of, however that is spelled or linked."""
    try:
        if os.path.isfile(name) and os.path.samefile(name, source):
            raise Wrong(f"{name}: the job would be written over the picture itself; name another file with -o")
        with open(name, "wb") as file:
            file.write(data)
    except OSError as error:
        raise Wrong(f"{name}: {error.strerror}") from None
