#!/usr/bin/env python3
"""What the program `chart` must print, for the reply that it is given: chart.py [--write]

The reply is the sample with areas, read by the second reader; its areas are read, listed, turned and written by the second reader of bodies.
Holds crates/chart/stdin against the sample and crates/chart/stdout against that; with --write it makes both files.
"""

import pathlib
import struct
import sys

import areas
import harbour
from encoder import encode
from reader import Refused, read
from wire import *

PROGRAM = pathlib.Path(__file__).resolve().parent.parent.parent / "crates" / "chart"
BYTE = 200  # of the first area: the one whose owner is asked for


def main():
    message = encode(REPLY, harbour.reply(harbour.NO_WAKE))
    expected = "".join(line + "\n" for line in printed(message))
    if "--write" in sys.argv:
        (PROGRAM / "stdin").write_bytes(message)
        (PROGRAM / "stdout").write_text(expected)
    fine = (PROGRAM / "stdin").read_bytes() == message and (PROGRAM / "stdout").read_text() == expected
    print("chart: %s" % ("stdout is what the second reader says" if fine else "stdin or stdout is not: run chart.py --write"))
    return not fine


def printed(message):
    column, bodies = areas_of(message)
    yield "column %d" % column
    for row, (at, body) in enumerate(bodies):
        yield "row %d: %s" % (row, verdict(at, body))
    at, body = bodies[0]
    area, fields = areas.read(body)
    for offset, *rest in fields:
        yield " ".join(map(str, [at + offset, *rest]))
    owner = next(entry for entry in fields if entry[0] <= BYTE < entry[0] + entry[1])
    yield "byte %d is of field %d, ring %d, vertex %d, axis %d" % (at + BYTE, *owner[2:])
    yield from holes(area)
    turned = areas.turned(area)
    yield "turned, rings %d" % len(area["rings"])
    new = encode(REPLY, {"version": 0, "client_data": b"chart 00", "flags": 0, "status": 1, "application": -128, "round_trip": 0,
                         "tables": [{"status": 0, "types": [GEOGRAPHY], "names": [b"AREA"], "rows": [[areas.encode(turned)]]}]})
    place, back = areas_of(new)[1][0]
    yield "passed on, bytes %d: %s" % (len(new), verdict(place, back))
    yield from holes(areas.read(back)[0])
    yield "turned, rings %d" % len(area["rings"])
    assert areas.encode(areas.turned(turned)) == body and areas.encode(area) == body
    yield "turned twice: the same bytes"
    yield "written anew: the same bytes"


def areas_of(message):
    """The column AREA of the first table, and the place and bytes of the body in each row; None for a null."""
    record, fields = read(REPLY, message)
    table = record["tables"][0]
    column = table["names"].index(b"AREA")
    starts = {r: at for at, _, field, t, r, c in fields if (field, t, c) == (F_CELL + 1, 0, column)}
    return column, [(starts.get(row), cells[column]) for row, cells in enumerate(table["rows"])]


def verdict(at, body):
    if body is None:
        return "null"
    try:
        return "area at %d, rings %d" % (at, len(areas.read(body)[0]["rings"]))
    except Refused as no:
        return refused(no.number, at + no.place)


def holes(area):
    for r, ring in enumerate(area["rings"][1:], 1):
        for v, vertex in enumerate(ring["vertices"]):
            yield "ring %d, vertex %d: %s" % (r, v, " ".join(struct.pack(">Q", bits).hex() for bits in vertex))


if __name__ == "__main__":
    sys.exit(main())
