"""The second reader of a geography's body: what document 000 and requests 2 and 5 say of it, in plain Python.

    read(body)    ->  (area, fields), or Refused is raised; a place is counted from the body's first byte
    encode(area)  ->  the body of an area; it checks nothing
    turned(area)  ->  the area with its holes in the other sense

An area is a dictionary: two bytes that are kept (`edition`, `internal`), its rings, and its kept bytes. A ring is one too: a byte that is
kept (`mark`), its vertices, and its kept bytes. A vertex is the 64 bits of x, y and z, as numbers, so that no bit of a NaN is lost.
"""

import struct

from reader import Reading, Refused
from wire import *


def read(body):
    reading = Reading(body)
    try:
        return read_area(reading, len(body)), reading.fields
    except Refused as no:
        no.fields = reading.fields
        raise


def read_area(reading, end):
    area = {"edition": byte(reading, F_EDITION, end), "internal": byte(reading, F_INTERNAL, end)}
    at = reading.at
    holes = byte(reading, F_HOLES, end)
    if holes not in (0, 1):
        raise Refused(BAD_GEOGRAPHY, at, F_HOLES)
    count = at_least(FEWEST_RINGS, reading, F_RING_COUNT, end)
    # Only now, when the count has passed its own checks, is the byte before it held against it.
    if holes != (count > 1):
        raise Refused(BAD_GEOGRAPHY, at, F_HOLES)
    area["rings"] = [read_ring(reading, r, end) for r in range(count)]
    area["kept"] = reading.block(AREA_KEPT, F_AREA_KEPT, end)
    reading.finish(end, F_AREA_KEPT)
    return area


def read_ring(reading, r, end):
    mark = byte(reading, F_MARK, end, (r, 0, 0))
    count = at_least(FEWEST_VERTICES, reading, F_VERTEX_COUNT, end, (r, 0, 0))
    vertices = [tuple(bits(reading.block(8, F_COORDINATE, end, (r, v, axis))) for axis in range(3)) for v in range(count)]
    return {"mark": mark, "vertices": vertices, "kept": reading.block(RING_KEPT, F_RING_KEPT, end, (r, 0, 0))}


def byte(reading, field, end, index=(0, 0, 0)):
    return reading.block(1, field, end, index)[0]


def bits(block):
    return int.from_bytes(block, "big")


def at_least(fewest, reading, field, end, index=(0, 0, 0)):
    """A count: does the field fit, its sign, whether it is too small. One that is too large is noticed where the body ends."""
    at = reading.at
    count = reading.count(4, MOST_COUNT, field, end, index)
    if count < fewest:
        raise Refused(BAD_GEOGRAPHY, at, field, index)
    return count


def encode(area):
    rings = area["rings"]
    out = bytes([area["edition"], area["internal"], len(rings) > 1]) + len(rings).to_bytes(4, "big")
    return out + b"".join(map(encode_ring, rings)) + area["kept"]


def encode_ring(ring):
    vertices = [struct.pack(">3Q", *vertex) for vertex in ring["vertices"]]
    return bytes([ring["mark"]]) + len(vertices).to_bytes(4, "big") + b"".join(vertices) + ring["kept"]


def turned(area):
    """Each ring after the first keeps its first vertex and has the others in reverse order."""
    first, *holes = area["rings"]
    return dict(area, rings=[first, *(dict(hole, vertices=hole["vertices"][:1] + hole["vertices"][:0:-1]) for hole in holes)])
