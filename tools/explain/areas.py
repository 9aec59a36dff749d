"""Geographies, looked into. A message keeps the body of one as it is; whether it is an area, a polygon by document 000, and where the area's own fields stand, is asked
of the proved library by itself. The degrees of a vertex are computed here, outside the proof."""

import array
import math
import struct

from . import building, paper, rules, second, values
from .building import Missing
from .fields import Explained, area_place
from .listing import NUMBERS, check_tiling, from_numbers, run

VERTEX_SIZE = 24
DEGREE_PLACES = 12  # decimals of a degree that are told: a ten-millionth of a metre

NOTE = """\
The fields inside an area, and that a body is one, are told by the proved library. The degrees of a vertex are computed from its x, y and z by document 000's formula,
outside the proof."""


class Area(Explained):
    """A body that is an area: its own fields, at their places in the message."""

    def __init__(self, message, start, size, numbers):
        self.start, self.size = start, size
        super().__init__(message, moved(numbers, start))
        self.rings = self.numbers[2::NUMBERS].count(paper.RING_MARK)

    def field(self, entry):
        field = super().field(entry)
        field.inside = self.start
        return field

    def value(self, shape, raw, entry):
        """In words; and by the last coordinate of a vertex, where the vertex is."""
        offset, _, number, _, _, axis = entry
        text = super().value(shape, raw, entry)
        is_last = number == paper.COORDINATE and axis == len(paper.AXES) - 1
        return "%s; %s" % (text, vertex_text(self.message[offset + 8 - VERTEX_SIZE:offset + 8])) if is_last else text

    def summary(self):
        return "%s, an area of %s" % (values.count_of(self.size, "byte"), values.count_of(self.rings, "ring"))


class NoArea:
    """A body that isn't one."""

    def __init__(self, message, start, size, refusal):
        self.body, self.start, self.refusal = message[start:start + size], start, refusal
        self.number, self.place = refusal

    def summary(self):
        return "%s, %s" % (values.count_of(len(self.body), "byte"), self.why())

    def why(self):
        words = self.rule() if self.number == paper.BAD_GEOGRAPHY else paper.NO_AREA[self.number]
        return "no area by document 000: refused %d at %d of the body, byte %d of the message: %s" % (self.number, self.place, self.start + self.place, words)

    def rule(self):
        """The one that the field at the place breaks: the third byte, the ring count, or the vertex count of a ring."""
        if self.place == paper.HOLES_AT:
            return rules.holes(self.body[paper.HOLES_AT], self.count_at(paper.RING_COUNT_AT))
        if self.place == paper.RING_COUNT_AT:
            return rules.few_rings(self.count_at(self.place))
        return rules.few_vertices(self.count_at(self.place), self.ring())

    def count_at(self, place):
        return values.signed(self.body[place:place + paper.COUNT_SIZE])

    def ring(self):
        """Which ring the vertex count at the place is of, if the second reader refuses the body there too."""
        no = second.same(second.of_body(self.body)[0], self.refusal)
        return area_place(paper.VERTEX_COUNT, *no.index) if no else ""


class Opaque:
    """Geographies that aren't looked into."""

    def among(self, fields):
        """The fields, and below each body of a geography those inside it."""
        return fields

    def owners(self, field, offset):
        """The field that a byte belongs to, and the one inside that."""
        return [field]

    def value(self, cell):
        return cell.value()


class Inside(Opaque):
    """The geographies of an accepted message that aren't null, by the places of their bodies: areas, and others."""

    def __init__(self, explained):
        self.areas, self.others = {}, {}
        found = [entry[:2] for entry in geographies(explained)]
        told = asked([explained.message[offset:offset + size] for offset, size in found])
        for (offset, size), (refusal, numbers, _) in zip(found, told):
            if refusal:
                self.others[offset] = NoArea(explained.message, offset, size, refusal)
            else:
                self.areas[offset] = Area(explained.message, offset, size, numbers)

    def body(self, field):
        return self.areas.get(field.offset) or self.others.get(field.offset)

    def among(self, fields):
        for field in fields:
            yield self.told(field)
            yield from self.areas.get(field.offset, ())

    def told(self, field):
        """The field; the body of a geography says what it is."""
        if self.body(field):
            field.value = self.body(field).summary()
        return field

    def owners(self, field, offset):
        area = self.areas.get(field.offset)
        return [self.told(field)] + ([area.owner(offset)] if area else [])

    def value(self, cell):
        return self.told(cell.own[-1]).value if self.body(cell.own[-1]) else cell.value()

    def counts(self):
        return {"areas": len(self.areas), "others": len(self.others), "fields": sum(map(len, self.areas.values()))}

    def line(self):
        counts = self.counts()
        return "inside %s: %s, indented below the bodies that they stand in; bodies that are no area: %d" % (
            values.count_of(counts["areas"], "area"), values.count_of(counts["fields"], "field"), counts["others"])


def geographies(explained):
    """The entries of the bodies of geographies: of cells, parameters and elements."""
    columns, parameters = geography_columns(explained), geography_parameters(explained)
    if not columns and not parameters:
        return []
    return [entry for entry in explained.entries()
            if (entry[2] == paper.CELL and (entry[3], entry[5]) in columns) or (entry[2] == paper.VALUE and entry[3] in parameters)]


def geography_columns(explained):
    """(table, column) of each column of that type."""
    return {(i, k) for (number, i, _, k), raw in explained.raw_of.items() if number == paper.COLUMN_TYPE and values.signed(raw) == paper.GEOGRAPHY}


def geography_parameters(explained):
    """Those of that type, and arrays of it."""
    types = (paper.PARAMETER_TYPE, paper.ELEMENT_TYPE)
    return {i for (number, i, _, _), raw in explained.raw_of.items() if number in types and values.signed(raw) == paper.GEOGRAPHY}


def asked(bodies, turned=False):
    """What the proved library says of each body: (None, the numbers of its field list, its bytes), or a refusal and nothing. The bytes have their holes turned,
    if that is asked for."""
    if not bodies:
        return []
    raw = run(building.areas_program(), b"".join((len(body) + 1).to_bytes(4, "big") + bytes([turned]) + body for body in bodies))
    told, at = [], 0
    for body in bodies:
        answer = int.from_bytes(raw[at:at + 8], "little")
        end = at + 8 + (0 if answer & 255 else 4 * NUMBERS * (answer >> 8))
        refusal, numbers = from_numbers(raw[at:end])
        if refusal is None:
            check_tiling(numbers, len(body))
        at = end if refusal else end + len(body)
        told.append((refusal, numbers, b"" if refusal else raw[end:at]))
    if at != len(raw):
        raise Missing("the program that lists areas said something else than it was asked")
    return told


def moved(numbers, start):
    """The entries of a body's list with their offsets counted from the start of the message."""
    out = array.array("I", numbers)
    out[0::NUMBERS] = array.array("I", [offset + start for offset in out[0::NUMBERS]])
    return out


# -- Vertices

def place_of(raw):
    """The longitude and latitude of a vertex in degrees, by document 000's formula; None if a coordinate isn't finite."""
    x, y, z = struct.unpack(">3d", raw)
    if not all(map(math.isfinite, (x, y, z))):
        return None
    radians = math.atan2(y, x), math.atan2(z, math.sqrt(x * x + y * y))
    return tuple(round(angle * (180.0 / math.pi), DEGREE_PLACES) + 0.0 for angle in radians)  # 0.0 makes a 0 of -0.0


def vertex_text(raw):
    place = place_of(raw)
    if place is None:
        return "the vertex is nowhere"
    return "the vertex is at longitude %s, latitude %s" % (values.degrees(place[0], *values.EAST_WEST), values.degrees(place[1], *values.NORTH_SOUTH))
