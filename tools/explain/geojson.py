"""The geographies of a reply's tables as GeoJSON (RFC 7946): a feature for each cell, with a polygon if its body is an area.

On the wire all rings go counterclockwise and the last point isn't the first again. GeoJSON wants holes clockwise and rings closed. So the holes are turned by the
proved library, before their vertices are taken from its list, and the first point is repeated here.
"""

import itertools
import json
import math
import struct

from . import areas, paper, values
from .listing import NUMBERS

NOTE = """\
Degrees are computed from each vertex's x, y and z by document 000's formula, outside the proof; which bytes these are, and the turning of the holes, are told and done
by the proved library. That the rings were counterclockwise on the wire isn't looked at, and an area across the 180th meridian isn't cut."""


class Collection:
    """The features of a reply, a cell of a geography's column each, in wire order."""

    def __init__(self, explained):
        self.explained = explained
        columns = areas.geography_columns(explained)
        self.bodies = {entry[3:]: entry[:2] for entry in areas.geographies(explained)}
        told = areas.asked([explained.message[offset:offset + size] for offset, size in self.bodies.values()], turned=True)
        self.told = dict(zip(self.bodies, told))
        self.cells = rows_of(explained, {table for table, _ in columns})
        self.features = [self.feature(table, row, column) for (table, row), cells in self.cells.items() for column in cells if (table, column) in columns]

    def feature(self, table, row, column):
        geometry, why = self.shape((table, row, column))
        return {"type": "Feature", "geometry": geometry, "properties": {**self.properties(table, row, column), **({"no_geometry": why} if why else {})}}

    def shape(self, place):
        """A polygon; or None, and why."""
        if place not in self.bodies:
            return None, "null"
        (offset, size), (refusal, numbers, body) = self.bodies[place], self.told[place]
        if refusal:
            return None, areas.NoArea(self.explained.message, offset, size, refusal).why()
        rings = rings_of(numbers, body)
        if None in itertools.chain(*rings):
            return None, "a coordinate of a vertex isn't finite"
        return {"type": "Polygon", "coordinates": [ring + ring[:1] for ring in rings]}, None

    def properties(self, table, row, column):
        told = {"table": table, "row": row, "column": self.name(table, column), "bytes": None}
        if (table, row, column) in self.bodies:
            offset, size = self.bodies[table, row, column]
            told["bytes"] = [offset, offset + size - 1]
        for other, raw in self.cells[table, row].items():
            wire_type = self.explained.column_type(table, other)
            if wire_type != paper.GEOGRAPHY:
                key = self.name(table, other)
                while key in told or key == "no_geometry":  # another column has that name, or what is told by itself
                    key += " (column %d)" % other
                told[key] = plain(wire_type, raw)
        return told

    def name(self, table, column):
        return self.explained.column_name(table, column).decode("ascii")

    def drawn(self):
        return sum(feature["geometry"] is not None for feature in self.features)

    def text(self, sources):
        """The whole file: one feature a line."""
        head = json.dumps({"type": "FeatureCollection", "note": " ".join(NOTE.split()), "made_from": sources.record()})
        features = ",\n".join(json.dumps(feature, allow_nan=False) for feature in self.features)
        return '%s, "features": [\n%s\n]}\n' % (head[:-1], features)


def rows_of(explained, tables):
    """For each row of these tables the bytes of its cells by column, without a length; None for a text or binary null."""
    rows = {}
    for offset, size, number, i, j, k in explained.entries() if tables else ():
        if i in tables and number in (paper.CELL_LENGTH, paper.CELL):
            raw = explained.message[offset:offset + size]
            rows.setdefault((i, j), {})[k] = raw if number == paper.CELL else None if values.signed(raw) == paper.NULL_LENGTH else b""
    return rows


def rings_of(numbers, body):
    """For each ring the places of its vertices; None for a vertex that isn't at one."""
    rings = []
    for offset, _, number, _, _, axis in zip(*[iter(numbers)] * NUMBERS):
        if number == paper.RING_MARK:
            rings.append([])
        elif number == paper.COORDINATE and axis == 0:
            place = areas.place_of(body[offset:offset + areas.VERTEX_SIZE])
            rings[-1].append(None if place is None else list(place))
    return rings


def plain(wire_type, raw):
    """A value as JSON has them: integers and floats as numbers, a point as longitude and latitude, the rest as text. A decimal is text, of which nothing is rounded."""
    if raw is None:
        return None
    if wire_type == paper.FLOAT:
        number = struct.unpack(">d", raw)[0]
        return number if math.isfinite(number) else values.float_text(raw)
    if wire_type == paper.STRING:
        return raw.decode("utf-8")
    if wire_type == paper.VARBINARY:
        return "0x" + raw.hex()
    if wire_type == paper.POINT:
        point = struct.unpack(">dd", raw)
        return None if point == (paper.NULL_DEGREES,) * 2 else list(point)
    if wire_type == paper.DECIMAL:
        return None if values.signed(raw) == paper.NULL_DECIMAL else values.decimal(raw)
    return values.utc(values.signed(raw)) if wire_type == paper.TIMESTAMP else values.signed(raw)
