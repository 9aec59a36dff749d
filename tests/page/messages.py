"""Messages for the tests of the page: values at their edges, and a reply of four megabytes. Their fields are listed by the second reader."""

import array
import itertools
import pathlib
import random
import struct
import sys

sys.path.insert(0, str(pathlib.Path(__file__).resolve().parents[1] / "second"))

import generate
import harbour
from encoder import encode
from reader import Refused, read
from wire import *

FLOATS = [0.0, -0.0, 0.1, 1.0, -1.5, 100.0, 123456789.125, 1e15, 9999999999999998.0, 1e16, 1.5e16, 1e21, 1e22, 1e-4, 0.00012345, 1e-5, 1.5e-7,
          5e-324, 2.2250738585072014e-308, 1.7976931348623157e308, 2.0**53, 2.0**60, 1 / 3, float("inf"), float("-inf")]
NANS = [0x7FF8000000000000, 0x7FF8000000000001, 0xFFF8000000000000, 0x7FF0000000000001]
DECIMALS = [0, 1, -1, 10**12, -(10**12), 999_999_999_999, 10**38 - 1, -(10**38 - 1), NULL_DECIMAL, -23325234250000000]
MOMENTS = [0, 1, -1, 951_782_400_000_000, 2**63 - 1, -(2**63), -62_135_596_800_000_000, -62_135_596_800_000_001, -62_200_000_000_000_000,
           253_402_300_800_000_000, -65_000_000_000_000_000]
TEXTS = [None, b"", b"plain", b'a "b" \\ \n\t\x00\x7f', "Zoë · Ærø 日本 😀".encode(), "\u202e\ufeff\u00a0\u2028\u00ad\ue000".encode(), b"x" * 60, b"x" * 61,
         "é".encode() * 60, "é".encode() * 61, "😀".encode() * 61, "\ud7ff\ufdd0\uffff\U0010ffff".encode(), b"</script><!-- & <b>", b"x" * 1000]
NO_TEXTS = [b"cut \xc3", b"\x80\xbf\xc0\xaf", b"\xc0\xaf", b"\xed\xa0\x80", b"\xf4\x90\x80\x80", b"\xf0\x9f\x98", b"\xe2\x82A", b"\xff" * 61, b"x" * 59 + b"\xc3",
            b"x" * 60 + b"\xc3"]
BINARIES = [None, b"", b"\0", bytes(60), bytes(61), bytes(range(256))]
POINTS = [None, (0.0, -0.0), (-0.0, 0.0), (180.0, 90.0), (-180.0, -90.0), (12.5683, -1e-7), (-122.0264, 36.90719)]
NO_POINTS = [(float("nan"), 0.0), (360.0, 0.0), (0.0, 360.0), (360.0, -360.0), (-360.0, -360.0), (float("inf"), 90.00000000000001)]
NO_DECIMALS = [MOST_DECIMAL + 1, -(MOST_DECIMAL + 1), 2**127 - 1, NULL_DECIMAL + 1]
NO_FLAGS = [1, 0x21, 0xFF]
NO_NAMES = ["LÆNGDE".encode(), b"L\xc6NGDE", b"CUT\xc3", b"\x80", b"x" * 60 + b"\xff", "é".encode() * 61]
NAMES = [b"A", b"", b"two words", b"_", b"_x1", b"a-b", b'"', b"x" * 60, b"</script>", b"0", b"end"]


def bits(number):
    return struct.unpack(">Q", struct.pack(">d", number))[0]


def values_by_type():
    chance = random.Random(7)
    return {
        TINYINT: [0, 1, -128, 127],
        SMALLINT: [0, -32768, 32767],
        INTEGER: [0, -(2**31), 2**31 - 1],
        BIGINT: [0, -(2**63), 2**63 - 1],
        FLOAT: list(map(bits, FLOATS)) + NANS + [chance.getrandbits(64) for _ in range(500)] + [bits(chance.uniform(-1e6, 1e6)) for _ in range(500)],
        STRING: TEXTS,
        TIMESTAMP: MOMENTS + [chance.randrange(-(2**63), 2**63) for _ in range(200)],
        DECIMAL: DECIMALS + [chance.randrange(-(10**38), 10**38) for _ in range(200)],
        VARBINARY: BINARIES,
        POINT: POINTS,
        GEOGRAPHY: [None, b"x", bytes(1000)],
    }


def reply(tables, **parts):
    record = {"version": 0, "client_data": bytes(8), "flags": 0, "status": 1, "application": -128, "round_trip": 7, "tables": tables}
    return REPLY, encode(REPLY, {**record, **parts})


def edge_table():
    """A column of each type, and rows enough for all its values; the shorter lists start over."""
    values = values_by_type()
    count = max(map(len, values.values()))
    rows = [[them[row % len(them)] for them in values.values()] for row in range(count)]
    return {"status": -1, "types": list(values), "names": NAMES, "rows": rows}


def edge_parameters():
    values = values_by_type()
    single = [(wire_type, it) for wire_type, them in values.items() for it in them[:30]]
    arrays = [(ARRAY, (wire_type, them[:30])) for wire_type, them in values.items() if wire_type != TINYINT]
    return single + arrays + [(NULL, None), (ARRAY, (TINYINT, b"")), (ARRAY, (TINYINT, b"\xbe")), (ARRAY, (TINYINT, bytes(100))), (ARRAY, (STRING, []))]


def edges():
    """(kind, message) for each message of edge values."""
    some = {"status": 0, "types": [TINYINT, STRING], "names": [b"N", b"S"], "rows": [[1, b"a"], [2, None]]}
    empty = {"status": 0, "types": [], "names": [], "rows": [[], [], []]}
    strings = {"flags": 0xE0, "status_string": None, "application_string": "nø".encode(), "exception": b"\xff" * 5}
    yield reply([edge_table()])
    yield reply([some, empty, some, dict(some, rows=[])], **strings)
    for status in range(-5, 3):
        yield reply([], status=status, round_trip=-1, client_data=b"\xff" * 8)
    yield INVOCATION, encode(INVOCATION, {"version": 1, "procedure": b"@Sys", "client_data": bytes(8), "parameters": edge_parameters()})
    for hash_version, size in ((0, 20), (1, 32)):
        yield LOGIN, encode(LOGIN, {"version": 1, "hash_version": hash_version, "service": b"", "user": "\xff".encode(), "hash": bytes(size)})
    for start in (0, -1, 2**63 - 1, -(2**63)):
        yield LOGIN_REPLY, encode(LOGIN_REPLY, {"version": 0, "result": 0, "host": -1, "connection": -1, "start": start, "leader": b"\xff\0\1\2", "build": b"b"})
    for result in (1, 2, 3, 77):
        yield LOGIN_REPLY, encode(LOGIN_REPLY, {"version": 0, "result": result})


def big():
    """A reply of the harbour of nearly four megabytes."""
    rows = [[number] + harbour.ENGINES["rows"][number % 4][1:] for number in range(57_200)]
    return encode(REPLY, harbour.reply(dict(harbour.ENGINES, rows=rows)))


def listed(kind, message):
    """The fields of an accepted message."""
    return read(kind, message)[1]


def breaking():
    """(number, kind, message) for each value that breaks its rule, as a cell, a parameter and an element, and for flag bytes and names that do."""
    for number, wire_type, them in ((BAD_TEXT, STRING, NO_TEXTS), (BAD_DECIMAL, DECIMAL, NO_DECIMALS), (BAD_POINT, POINT, NO_POINTS), (BAD_GEOGRAPHY, GEOGRAPHY, [b""])):
        for it in them:
            yield number, *reply([{"status": 0, "types": [TINYINT, wire_type], "names": [b"N", b"V"], "rows": [[1, it]]}])
            for parameter in ((wire_type, it), (ARRAY, (wire_type, [it]))):
                yield number, INVOCATION, encode(INVOCATION, {"version": 0, "procedure": b"", "client_data": bytes(8), "parameters": [parameter]})
    for flags in NO_FLAGS:
        yield BAD_FLAGS, *reply([], flags=flags, status_string=b"", application_string=b"", exception=b"")
    for name in NO_NAMES:
        yield BAD_NAME, *reply([{"status": 0, "types": [TINYINT, DECIMAL], "names": [b"N", name], "rows": []}])


def refused(count):
    """(kind, message, fields up to the fault) of made-up messages that are refused, and of those in which a value breaks its rule."""
    for kind, message in itertools.chain(generate.messages(count, 5), (case[1:] for case in breaking())):
        try:
            read(kind, message)
        except Refused as no:
            if kind in KINDS:
                yield kind, message, no.fields


def flat(fields):
    return array.array("Q", itertools.chain.from_iterable(fields))
