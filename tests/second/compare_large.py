#!/usr/bin/env python3
"""Runs tools/explain/fields.c, which asks the exported functions, and the second reader over messages at the limits.

The longest reply, the longest row and the most elements, with null points among the values, and each with its last null point spoiled; a reply
and a row with one byte more; the longest texts, of ASCII and of the longest characters, and each torn at its end; the longest name, and one with its
last byte above 127; the longest reply with a flag too many, and with its last decimal or its last geography spoiled; as many columns as can be, with
the longest row, and with names that fill the message, and each with its last column spoiled and with a column more. Answers and field lists must be
equal.
"""

import array
import pathlib
import struct
import subprocess
import sys

from encoder import encode
from reader import Refused, read
from tally import Tally
from wire import *

ROOT = pathlib.Path(__file__).resolve().parents[2]
RUN = [ROOT / "tools" / "c" / "kit", "run", ROOT / "target" / "tests" / "fields"]
NULL_BYTES = struct.pack(">dd", *NULL_POINT)
POINTS = (None, (180.0, -90.0), (-180.0, 90.0))


def main():
    tally = Tally("compare_large", must=(LIMIT, BAD_TEXT, *CAUSES))
    for what, kind, message in messages():
        expected, found = by_reader(kind, message), by_library(kind, message)
        if expected != found:
            print("compare_large: DIFFERENCE in %s: second reader: %s; library: %s" % (what, str(expected)[:200], str(found)[:200]))
            return 1
        answer = refused(*found) if isinstance(found, tuple) else "%d fields" % (len(found) // 6)
        print("compare_large: %s, %d bytes: %s" % (what, len(message), answer))
        tally.add("field_count " + answer)
    return 0 if tally.settled("no difference") else 1


def messages():
    for what, kind, message in (("the longest reply", REPLY, longest_reply()), ("the longest row", REPLY, longest_row(0)),
                                ("the most elements", INVOCATION, most_elements(POINT, [POINTS[k % 3] for k in range(MOST_ITEMS)]))):
        at = message.rindex(NULL_BYTES)
        yield what, kind, message
        yield what + ", its last null point turned", kind, message[:at] + b"\xc0" + message[at + 1:]
    yield "a longer reply", REPLY, longest_reply(more=1)
    yield "a longer row", REPLY, longest_row(1)
    text = "😀".encode() * (MOST_BODY // 4)
    yield "the longest text", REPLY, longest_text(text)
    yield "the longest text, its last character cut", REPLY, longest_text(text[:-1])
    yield "the longest ASCII, torn at its end", REPLY, longest_text(b"x" * (MOST_BODY - 1) + b"\xc3")
    yield "the longest name", REPLY, longest_name(b"\x7f")
    yield "the longest name, its last byte above 127", REPLY, longest_name(b"\x80")
    yield "the longest reply, with a flag that is none", REPLY, longest_reply(flags=1)
    yield "the longest reply, its last decimal out of range", REPLY, longest_reply(last=(None, MOST_DECIMAL + 1, b"g"))
    yield "the longest reply, its last geography empty", REPLY, longest_reply(last=(None, NULL_DECIMAL, b""))
    yield "the most elements, the last geography empty", INVOCATION, most_elements(GEOGRAPHY, [b"g"] * (MOST_ITEMS - 1) + [b""])
    yield "the most columns and the longest row", REPLY, widest_row()
    yield "the most columns and a longer row", REPLY, widest_row(last=b"xx")
    yield "the most columns and the longest row, its last cell torn", REPLY, widest_row(last=b"\xc3")
    yield "a column more, and a row of them", REPLY, widest_row(MOST_COLUMNS + 1)
    yield "the most columns and the longest names", REPLY, widest_names()
    yield "the most columns and the longest names, the last byte above 127", REPLY, widest_names(last=b"\x80")
    yield "the most columns and longer names", REPLY, widest_names(last=b"nn")
    yield "a column more, and names of them", REPLY, widest_names(MOST_COLUMNS + 1)


def longest_reply(more=0, flags=0, last=(None, NULL_DECIMAL, b"g")):
    """A row has a point, a decimal, a geography and a text; those of the last row are given, and its text fills the message."""
    types = [POINT, DECIMAL, GEOGRAPHY, STRING]
    rows = [[POINTS[k % 3], NULL_DECIMAL, b"g", b"x" * 1000] for k in range(4000)]
    rows[-1][:3] = last
    rows[-1][3] += b"x" * (MOST_MESSAGE + 4 + more - len(reply(types, rows)))
    return reply(types, rows, flags)


def longest_row(more):
    """Two counted values and a point have 24 bytes beside those of the bodies."""
    return reply([STRING, VARBINARY, POINT], [[b"x" * MOST_BODY, b"x" * (MOST_ROW + more - 24 - MOST_BODY), None]])


def longest_text(text):
    """Behind it stands a byte that ends a character."""
    return reply([STRING, TINYINT], [[text, -128]])


def longest_name(end):
    return reply([TINYINT], [[1]], names=[b"C" * (MOST_BODY - 1) + end])


def widest_row(columns=MOST_COLUMNS, last=b"x"):
    """A row of texts that are equally long, of which the last ends so."""
    size = MOST_ROW // MOST_COLUMNS - 4
    return reply([STRING] * columns, [[b"x" * size] * (columns - 1) + [b"x" * (size - 1) + last]])


def widest_names(columns=MOST_COLUMNS, last=b"n"):
    """Names that are equally long, but for the last, which fills the message and ends so."""
    names = [b"N" * (MOST_MESSAGE // MOST_COLUMNS - 100)] * (columns - 1)
    types = [TINYINT] * columns
    rest = MOST_MESSAGE + 4 - len(reply(types, [], names=[*names, b""]))
    return reply(types, [], names=[*names, b"n" * (rest - 1) + last])


def most_elements(wire_type, elements):
    return encode(INVOCATION, {"version": 1, "procedure": b"Track", "client_data": bytes(8), "parameters": [(ARRAY, (wire_type, elements))]})


def reply(types, rows, flags=0, names=None):
    tables = [{"status": 0, "types": types, "names": names or [b"C"] * len(types), "rows": rows}]
    return encode(REPLY, {"version": 1, "client_data": bytes(8), "flags": flags, "status": 1, "application": -128, "round_trip": 0, "tables": tables})


def by_reader(kind, message):
    try:
        fields = read(kind, message)[1]
    except Refused as no:
        return no.number, no.place
    return array.array("I", (number for field in fields for number in field))


def by_library(kind, message):
    out = subprocess.run(RUN, input=bytes([kind]) + message, stdout=subprocess.PIPE, check=True).stdout
    answer = int.from_bytes(out[:8], "little")
    return array.array("I", out[8:]) if answer % 256 == 0 else (answer % 256, answer >> 8)


if __name__ == "__main__":
    sys.exit(main())
