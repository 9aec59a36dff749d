#!/usr/bin/env python3
"""The hand-written cases of tests/cases.txt: cases.py [--write]

Holds each verdict against the second reader, and crates/samples/stdin and stdout against the file. With --write it makes those two. The refusals of
stdout are counted (tally.py): it is what the proved program `samples` must print, and prints wherever it is run.
"""

import pathlib
import re
import sys

from frames import frame
from reader import Refused, read
from tally import Tally
from wire import *

HERE = pathlib.Path(__file__).resolve().parent
CASES = HERE.parent / "cases.txt"
PROGRAM = HERE.parent.parent / "crates" / "samples"


def main():
    cases = load()
    wrong = 0
    for line, kind, message, expected in cases:
        found = verdict(kind, message)
        if found != expected:
            wrong += 1
            print("cases.txt:%d: expected %s, found %s" % (line, expected, found))
    files = {
        PROGRAM / "stdin": b"".join(frame(kind, message) for _, kind, message, _ in cases),
        PROGRAM / "stdout": "".join(expected + "\n" for *_, expected in cases).encode(),
    }
    for path, content in files.items():
        if "--write" in sys.argv:
            path.write_bytes(content)
        elif not path.exists() or path.read_bytes() != content:
            wrong += 1
            print("%s is not what cases.txt says: run cases.py --write" % path.name)
    tally = Tally("cases", must=OF_READING)
    for line in (PROGRAM / "stdout").read_text().splitlines():
        tally.add(line)
    return not tally.settled("%d cases, %d wrong" % (len(cases), wrong)) or wrong != 0


def load():
    cases = []
    for line, text in enumerate(CASES.read_text().splitlines(), 1):
        if text.strip() and not text.startswith("#"):
            kind, message, expected, _ = (part.strip() for part in text.split("|"))
            cases.append((line, int(kind), bytes_of(message), expected))
    return cases


def bytes_of(text):
    """Hexadecimal bytes, "text", byte*count, and [ .. ] for a counted body."""
    open_bodies = [b""]
    for token in re.findall(r'"[^"]*"|\S+', text):
        if token == "[":
            open_bodies.append(b"")
            continue
        if token == "]":
            body = open_bodies.pop()
            piece = len(body).to_bytes(4, "big") + body
        elif token.startswith('"'):
            piece = token[1:-1].encode()
        elif "*" in token:
            byte, count = token.split("*")
            piece = bytes.fromhex(byte) * int(count)
        else:
            piece = bytes.fromhex(token)
        open_bodies[-1] += piece
    (whole,) = open_bodies
    return whole


def verdict(kind, message):
    try:
        read(kind, message)
        return "accepted"
    except Refused as refusal:
        return refused(refusal.number, refusal.place)


if __name__ == "__main__":
    sys.exit(main())
