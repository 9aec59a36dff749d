"""What is wrong with a text that isn't well-formed UTF-8, in words."""

MOST_AROUND = 8  # bytes shown on either side of one

# How many bytes a character has by its first byte. Those that go on with one are others, and the rest never occur.
SIZES = {**dict.fromkeys(range(0x80), 1), **dict.fromkeys(range(0xC2, 0xE0), 2), **dict.fromkeys(range(0xE0, 0xF0), 3), **dict.fromkeys(range(0xF0, 0xF5), 4)}
GOING_ON = range(0x80, 0xC0)

# By a first byte, the second bytes that go on but would make no character, and what they would make.
OVERLONG = "an overlong form: its character has a shorter one"
WRONG_SECONDS = {
    0xE0: (range(0x80, 0xA0), OVERLONG),
    0xED: (range(0xA0, 0xC0), "a surrogate, which is half of a character in UTF-16 and none here"),
    0xF0: (range(0x80, 0x90), OVERLONG),
    0xF4: (range(0x90, 0xC0), "what would be above U+10FFFF, the last character"),
}


def around(raw, at):
    """The bytes around one, which is in brackets."""
    before, after = raw[max(0, at - MOST_AROUND):at], raw[at + 1:at + 1 + MOST_AROUND]
    shown = [".." * (at > len(before)), before.hex(" "), "[%02x]" % raw[at], after.hex(" "), ".." * (at + 1 + len(after) < len(raw))]
    return " ".join(filter(None, shown))


def character(raw):
    """The character that these bytes begin with; None if they begin with none."""
    try:
        return raw[:SIZES.get(raw[0], 1)].decode("utf-8")
    except UnicodeDecodeError:
        return None


def fault(raw):
    """Why no character begins with these bytes, which go on to the text's end."""
    first, second = raw[0], raw[1] if len(raw) > 1 else None
    if first in GOING_ON:
        return "%02x only goes on with a character, and none was begun." % first
    if first not in SIZES:
        return "%02x never occurs in UTF-8: %s." % (first, "it could only begin an overlong form" if first < 0xC2 else "no character is above U+10FFFF")
    wrong_seconds, what = WRONG_SECONDS.get(first, ((), ""))
    if second in wrong_seconds:
        return "%02x %02x begins %s." % (first, second, what)
    return broken_off(raw, SIZES[first])


def broken_off(raw, size):
    """Where a character of so many bytes stops."""
    begun = "%02x begins a character of %d bytes" % (raw[0], size)
    there = next(at for at in range(1, size) if at == len(raw) or raw[at] not in GOING_ON)
    if there == len(raw):
        return "%s, and the text ends after %d of them: it was cut inside that character." % (begun, there)
    return "%s, and after %d of them comes %02x, which doesn't go on with it." % (begun, there, raw[there])
