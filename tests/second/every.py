#!/usr/bin/env python3
"""What the program `every` must print, from the records that it writes: every.py [--write]

Each record is encoded by the second encoder, which the second writer's steps must agree with, and read back by the second reader. So the
program's writer, reader and listing are held against all three. Holds crates/every/stdout against that; with --write it makes that file.
"""

import pathlib
import sys

import steps
from encoder import encode
from listing import listing
from reader import read
from wire import *

PROGRAM = pathlib.Path(__file__).resolve().parent.parent.parent / "crates" / "every"

TYPES = [TINYINT, SMALLINT, INTEGER, BIGINT, FLOAT, STRING, TIMESTAMP, DECIMAL, VARBINARY, POINT, GEOGRAPHY]
NAMES = b"TINYINT SMALLINT INTEGER BIGINT FLOAT STRING TIMESTAMP DECIMAL VARBINARY POINT GEOGRAPHY".split()
VALUES = [-5, -300, -70_000, -5_000_000_000, 0xBFE0000000000000, b"Bodil", 1_760_000_000_000_000, MOST_DECIMAL,
          b"\x00\xff\x80\x01", (12.5, -55.75), b"\xc0\x01\x7f"]
NULLS = [0, 0, 0, 0, 0xFFF0000000000001, None, 0, NULL_DECIMAL, None, None, None]

MESSAGES = {
    "login request accepted": (LOGIN, {
        "version": 1, "hash_version": 1, "service": b"database", "user": b"harbour", "hash": b"a hash of 32 bytes, as SHA-256's"}),
    "login response accepted": (LOGIN_REPLY, {
        "version": 1, "result": 0, "host": -2, "connection": 12, "start": 1_760_000_000_000, "leader": bytes([10, 0, 0, 1]),
        "build": b"6.0 harbour"}),
    "invocation accepted, parameters as written": (INVOCATION, {
        "version": 0, "procedure": b"Every", "client_data": b"client 3",
        "parameters": [(NULL, None), *zip(TYPES, VALUES), (STRING, None), (ARRAY, (TINYINT, b"\x00\xff\x80\x01")),
                       (ARRAY, (STRING, [b"Bodil", None, b""])), (ARRAY, (DECIMAL, [MOST_DECIMAL, -1]))]}),
    "response accepted, cells as written": (REPLY, {
        "version": 1, "client_data": b"client 4", "flags": FLAGS, "status": -3, "status_string": b"sunk", "application": -128,
        "application_string": b"mutiny", "round_trip": 7, "exception": b"\xde\xad",
        "tables": [{"status": -1, "types": TYPES, "names": NAMES, "rows": [VALUES, VALUES, NULLS]},
                   {"status": 0, "types": [], "names": [], "rows": []}]}),
}


def main():
    expected = "".join(printed(verdict, *message) for verdict, message in MESSAGES.items())
    if "--write" in sys.argv:
        (PROGRAM / "stdout").write_text(expected)
    fine = (PROGRAM / "stdout").read_text() == expected
    print("every: %s" % ("stdout is what the second encoder and reader say" if fine else "stdout is not: run every.py --write"))
    return not fine


def printed(verdict, kind, record):
    """The verdict, the bytes and the field list of a message."""
    message = encode(kind, record)
    assert read(kind, message)[0] == record
    answers, _, buffer = steps.run([("buffer", (len(message),)), *steps.spelled(kind, record)])
    assert set(answers) == {"fine"} and buffer == message
    return "%s\n%s\n%s" % (verdict, message.hex(), listing(bytes([kind]) + message))


if __name__ == "__main__":
    sys.exit(main())
