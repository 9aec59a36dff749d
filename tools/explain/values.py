"""One value's bytes as plain text. Nothing is rounded: what is shown tells the bytes apart."""

import datetime
import math
import struct

from . import paper

EAST_WEST, NORTH_SOUTH = ("E", "W"), ("N", "S")  # where degrees are above 0, and where below
MOST_SHOWN = 60  # characters of a text, and bytes of a binary value, before they are cut

EPOCH = datetime.datetime(1970, 1, 1)
MICROSECONDS_IN_400_YEARS = 146_097 * 86_400 * 1_000_000  # the calendar repeats after these


def signed(raw):
    return int.from_bytes(raw, "big", signed=True)


def value_text(wire_type, raw):
    """A value of a column type, without its length."""
    shown = {
        paper.FLOAT: float_text,
        paper.STRING: quoted,
        paper.TIMESTAMP: lambda r: utc(signed(r)),
        paper.DECIMAL: decimal,
        paper.VARBINARY: hexadecimal,
        paper.POINT: point,
        paper.GEOGRAPHY: opaque,
    }
    return shown.get(wire_type, lambda r: str(signed(r)))(raw)


def raw_text(wire_type, raw):
    """The number or the bits that a value was made from."""
    shown = {
        paper.FLOAT: lambda r: "the bits 0x%s" % r.hex(),
        paper.STRING: lambda r: count_of(len(r), "byte"),
        paper.TIMESTAMP: lambda r: "%d microseconds since 1970-01-01 00:00 UTC" % signed(r),
        paper.DECIMAL: lambda r: "%d x 10^-%d" % (signed(r), paper.DECIMAL_PLACES),
        paper.VARBINARY: lambda r: count_of(len(r), "byte"),
        paper.POINT: lambda r: "the bits 0x%s and 0x%s" % (r[:8].hex(), r[8:].hex()),
        paper.GEOGRAPHY: lambda r: count_of(len(r), "byte"),
    }
    return shown.get(wire_type, lambda r: str(signed(r)))(raw)


def quoted(raw):
    """Text in quotes. Bytes that are no UTF-8, as a refused message or a file's name may have, and characters that can't be printed, are escaped."""
    text = raw.decode("utf-8", errors="surrogateescape")
    shown = "".join(map(one_character, text[:MOST_SHOWN]))
    return '"%s"' % shown if len(text) <= MOST_SHOWN else '"%s.." (%s)' % (shown, count_of(len(raw), "byte"))


def one_character(character):
    if character in '"\\':
        return "\\" + character
    if character.isprintable():
        return character
    number = ord(character)
    if 0xDC80 <= number <= 0xDCFF:
        return "\\x%02x" % (number - 0xDC00)
    return "\\u{%x}" % number


def decimal(raw):
    units = signed(raw)
    return "null" if units == paper.NULL_DECIMAL else decimal_digits(units)


def decimal_digits(units):
    whole, rest = divmod(abs(units), 10**paper.DECIMAL_PLACES)
    return "%s%d.%0*d" % ("-" if units < 0 else "", whole, paper.DECIMAL_PLACES, rest)


def utc(microseconds):
    """A moment in UTC, in every year that the number can reach."""
    cycles, rest = divmod(microseconds, MICROSECONDS_IN_400_YEARS)
    moment = EPOCH + datetime.timedelta(microseconds=rest)
    return "%04d-%s UTC" % (moment.year + 400 * cycles, moment.strftime("%m-%d %H:%M:%S.%f"))


def float_text(raw):
    number = struct.unpack(">d", raw)[0]
    if math.isnan(number):
        return "NaN (bits %s)" % raw.hex()
    return repr(number)


def point(raw):
    longitude, latitude = struct.unpack(">dd", raw)
    if longitude == latitude == paper.NULL_DEGREES:
        return "null"
    return "longitude %s, latitude %s" % (degrees(longitude, *EAST_WEST), degrees(latitude, *NORTH_SOUTH))


def degrees(number, positive, negative):
    if math.isnan(number):  # in a message that is refused for it
        return "NaN"
    backward = math.copysign(1, number) < 0
    return "%r° %s" % (abs(number), negative if backward else positive)


def address(raw):
    return ".".join(map(str, raw))


def hexadecimal(raw):
    if len(raw) <= MOST_SHOWN:
        return "0x" + raw.hex()
    return "0x%s.. (%s)" % (raw[:MOST_SHOWN].hex(), count_of(len(raw), "byte"))


def opaque(raw):
    return "%s, not looked into" % count_of(len(raw), "byte")


def length(number):
    return "null" if number == paper.NULL_LENGTH else count_of(number, "byte")


def count_of(number, thing):
    return "%d %s" % (number, thing if number == 1 else thing + "s")


def named(number, names):
    return "%d: %s" % (number, names[number]) if number in names else str(number)


def flags(number):
    set_ones = [name for bit, name in paper.FLAGS.items() if number & bit]
    return "%d: %s" % (number, ", ".join(set_ones) or "none")
