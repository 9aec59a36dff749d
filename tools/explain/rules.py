"""Which rule a value, the flag byte, a column's name or the body of a geography breaks, in words: what its bytes say, and where that lies against the rule."""

import math
import struct

from . import paper, texts, values


# -- In a message: sentences

def decimal(raw):
    """Which end of the range it passes, in digits and in units; below the least one there is null too."""
    units, unit, most = values.signed(raw), "10^-%d" % paper.DECIMAL_PLACES, "10^%d - 1" % paper.DECIMAL_DIGITS
    if units > 0:
        return ["It is above the greatest decimal, %s." % values.decimal_digits(paper.MOST_DECIMAL),
                "It counts %d units of %s, and the greatest counts %s." % (units, unit, most)]
    next_to_null = ": this is the number next to null" if units == paper.NULL_DECIMAL + 1 else ""
    return ["It is below the least decimal, %s." % values.decimal_digits(-paper.MOST_DECIMAL),
            "It counts %d units of %s; the least counts -(%s), and null -2^%d%s." % (units, unit, most, paper.DECIMAL_BITS - 1, next_to_null)]


def point(raw):
    """Its longitude and its latitude, and what null would be."""
    longitude, latitude = struct.unpack(">dd", raw)
    return [half_of_point("longitude", longitude, raw[:8], paper.MOST_LONGITUDE, *values.EAST_WEST),
            half_of_point("latitude", latitude, raw[8:], paper.MOST_LATITUDE, *values.NORTH_SOUTH),
            "Null would be %s%s." % (null_point(), half_of_null(longitude, latitude))]


def half_of_point(name, number, raw, most, positive, negative):
    its_range = "its range, from %d° %s to %d° %s" % (most, negative, most, positive)
    if math.isnan(number):
        return "The %s, %s, is no number, and so not in %s." % (name, values.float_text(raw), its_range)
    return "The %s, %s, is %s %s." % (name, values.degrees(number, positive, negative), "in" if -most <= number <= most else "out of", its_range)


def null_point():
    return "longitude %s with latitude %s" % (values.degrees(paper.NULL_DEGREES, *values.EAST_WEST), values.degrees(paper.NULL_DEGREES, *values.NORTH_SOUTH))


def half_of_null(longitude, latitude):
    """Which of the two says null alone, if one does."""
    if paper.NULL_DEGREES not in (longitude, latitude):
        return ""
    return ": here only the %s is so" % ("longitude" if longitude == paper.NULL_DEGREES else "latitude")


def flags(byte):
    """Which bits are set without a meaning, and which with one."""
    without = [str(bit) for bit in (1 << place for place in range(8)) if byte & bit and bit not in paper.FLAGS]
    meant = {bit: "%d (%s)" % (bit, means) for bit, means in paper.FLAGS.items()}
    return ["Bits set without a meaning: %s. Bits set with one: %s." % (", ".join(without), ", ".join(meant[bit] for bit in meant if byte & bit) or "none"),
            "Only the bits %s have a meaning; the others must be 0." % ", ".join(meant.values())]


def name(raw, at):
    """The byte of a column's name that is too great, and the character that it would begin, if names were UTF-8."""
    before = "Before it stands %s" % values.quoted(raw[:at]) if at else "It is the first"
    return ["A column's name has bytes from 0 to %d, and number %d of its %d is %d (hex %02x). %s." % (paper.MOST_IN_NAME, at + 1, len(raw), raw[at], raw[at], before),
            would_be(raw[at:])]


def would_be(raw):
    character = texts.character(raw)
    if character is None:
        return "In UTF-8 it would begin no character either: %s" % texts.fault(raw)
    encoded = character.encode()
    return "In UTF-8, %s would be the character %s (U+%04X)." % (encoded.hex(" "), values.quoted(encoded), ord(character))


def empty_geography():
    return ["Its length is 0, and a geography isn't empty: the shortest that is accepted has %s. Null would be the length %d." % (
        values.count_of(paper.SHORTEST_GEOGRAPHY, "byte"), paper.NULL_LENGTH)]


# -- In the body of a geography: what follows a colon

def holes(third, rings):
    """The third byte by itself, and then against the ring count."""
    if third not in paper.HOLES:
        return "the third byte is 0 or 1, and here it is %d" % third
    return "the third byte is 0 for one ring and 1 for more, and here it is %d and the ring count says %d" % (third, rings)


def few_rings(rings):
    return "an area has at least %s, and here the ring count says %d" % (values.count_of(paper.FEWEST_RINGS, "ring"), rings)


def few_vertices(vertices, ring):
    return "a ring has at least %d vertices, and here the vertex count%s says %d" % (paper.FEWEST_VERTICES, " of " + ring if ring else "", vertices)
