#!/usr/bin/env python3
"""Runs `sweep` and the second reader over the same frames: compare.py N SEED

N made-up ones, the hand-written cases, and those at the edges of a frame's size, of text, of values' own rules and of how many columns there can be.
"""

import pathlib
import subprocess
import sys

import cases
import generate_columns
import generate_texts
import generate_values
from encoder import encode
from frames import frame, split
from generate import messages, wide_messages
from listing import listing
from tally import Tally
from wire import *

RUN = pathlib.Path(__file__).resolve().parent.parent / "run"


def main():
    count, seed = int(sys.argv[1]), int(sys.argv[2])
    print("compare: %d messages, seed %d" % (count, seed), flush=True)
    data = edges() + b"".join(frame(kind, message) for kind, message in given(count, seed)) + broken(seed)
    found = subprocess.run([RUN, "sweep"], input=data, stdout=subprocess.PIPE, check=True).stdout.decode()
    frames, _ = split(data)
    tally = Tally("compare", must=OF_READING)
    at = 0
    for number, one in enumerate(frames):
        expected = listing(one) + ".\n"
        if not found.startswith(expected, at):
            return report(number, one, expected, found[at:at + len(expected) + 200])
        tally.add(found[at:found.index("\n", at)])
        at += len(expected)
    if found[at:] != "broken\n":
        return report(len(frames), b"", "broken\n", found[at:at + 200])
    return 0 if tally.settled("no difference") else 1


def given(count, seed):
    yield from ((kind, message) for _, kind, message, _ in cases.load())
    yield from ((kind, message) for kind, message, _ in (*generate_texts.messages(), *generate_values.messages(), *generate_columns.messages()))
    yield from messages(count, seed)
    yield from wide_messages(count // 500, seed)


def edges():
    """Frames at the ends of their size: empty, a kind alone, and messages of 65,536 bytes, with few fields and with as many columns as can be."""
    def call(size):
        return encode(INVOCATION, {"version": 0, "procedure": b"", "client_data": bytes(8), "parameters": [(ARRAY, (TINYINT, bytes(size)))]})

    def reply(rows, last):
        table = {"status": 0, "types": [TINYINT] * MOST_COLUMNS, "names": [b""] * MOST_COLUMNS, "rows": [[1] * MOST_COLUMNS] * rows}
        text = {"status": 0, "types": [STRING], "names": [b""], "rows": [[bytes(last)]]}
        return encode(REPLY, {"version": 0, "client_data": bytes(8), "flags": 0, "status": 1, "application": 0, "round_trip": 0,
                              "tables": [table, text]})

    whole_call = call(MOST_LISTED - len(call(0)))
    rows = (MOST_LISTED - len(reply(0, 0))) // (4 + MOST_COLUMNS)
    whole_reply = reply(rows, MOST_LISTED - len(reply(rows, 0)))
    assert len(whole_call) == len(whole_reply) == MOST_LISTED
    cut = bytes(3) + b"\4" + whole_reply[4:]
    return bytes(4) + b"".join(frame(kind, b"") for kind in range(6)) + b"".join(
        frame(kind, message) for kind, message in ((INVOCATION, whole_call), (REPLY, whole_reply), (9, whole_call), (REPLY, cut)))


def broken(seed):
    """A last frame that is cut short, or one byte too long, or as long as its size can say."""
    return (frame(2, bytes(9))[:seed % 13 + 1], frame(2, bytes(MOST_FRAME)), b"\xff" * 4 + bytes(100))[seed % 3]


def report(number, one, expected, found):
    kept = RUN.parent.parent / "target" / "difference.bin"
    kept.write_bytes(one[1:])
    print("compare: DIFFERENCE at message %d of kind %s, kept in target/%s" % (number, one[:1].hex() or "none", kept.name))
    print("message, %d bytes: %s" % (len(one) - 1, one[1:101].hex()))
    for i, (a, b) in enumerate(zip(expected.splitlines() + ["(end)"], found.splitlines() + ["(end)"])):
        if a != b:
            print("line %d: second reader: %s; sweep: %s" % (i + 1, a, b))
            break
    return 1


if __name__ == "__main__":
    sys.exit(main())
