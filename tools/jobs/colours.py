"""The twenty colours: their names, short forms and pixels."""

HUES = {
    "red": (1, 0, 0),
    "yellow": (1, 1, 0),
    "green": (0, 1, 0),
    "cyan": (0, 1, 1),
    "blue": (0, 0, 1),
    "magenta": (1, 0, 1),
}
# What precedes the hue in a name and in a short form, and the byte where the hue is absent and where it is present.
LIGHTNESSES = [("light-", "l", 0xC0, 0xFF), ("", "n", 0x00, 0xFF), ("dark-", "d", 0x00, 0xC0)]


def colour_table():
    """(name, short form, pixel) of the twenty colours."""
    table = [("black", "bk", b"\x00\x00\x00"), ("white", "wh", b"\xff\xff\xff")]
    for prefix, letter, absent, present in LIGHTNESSES:
        for hue, parts in HUES.items():
            pixel = bytes(present if part else absent for part in parts)
            table.append((prefix + hue, letter + hue[0], pixel))
    return table


COLOURS = colour_table()
PIXELS = {word: pixel for name, short, pixel in COLOURS for word in (name, short)}
NAMES = {pixel: name for name, _, pixel in COLOURS}
SHORTS = {pixel: short for _, short, pixel in COLOURS}


def raw(pixel):
    """A pixel that need not be one of the twenty colours."""
    return "0x" + pixel.hex().upper()
