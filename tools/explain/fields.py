"""Listed fields with words: each entry of the listing joined with its name, its place and its value.

A value's type, and a column's name, are themselves fields of the message; they are looked up in the listing too.
"""

import array
import bisect

from . import paper, values
from .listing import NUMBERS

LOOKED_UP = {paper.PARAMETER_TYPE, paper.ELEMENT_TYPE, paper.COLUMN_TYPE, paper.COLUMN_NAME_LENGTH, paper.COLUMN_NAME}


class Field:
    """One field: where it stands, what it is called, which table, row and column it belongs to, what it says; and if it is one of an area, where the body starts
    that it stands in."""

    inside = None

    def __init__(self, entry, raw, name, where, value):
        self.offset, self.size, self.number = entry[:3]
        self.indices = entry[3:]
        self.raw, self.name, self.where, self.value = raw, name, where, value

    @property
    def end(self):
        return self.offset + self.size


class Explained:
    """A message's bytes and its fields in wire order: all of them, or those before the place of a refusal. A field is put into words when it is asked for."""

    def __init__(self, message, numbers):
        self.message = message
        self.numbers = numbers if isinstance(numbers, array.array) else array.array("I", [n for entry in numbers for n in entry])
        self.raw_of = {}
        for n, number in enumerate(self.numbers[2::NUMBERS]):
            if number in LOOKED_UP:
                offset, size, *key = self.entry(n)
                self.raw_of[tuple(key)] = message[offset:offset + size]

    # -- Fields

    def __len__(self):
        return len(self.numbers) // NUMBERS

    def entry(self, n):
        return tuple(self.numbers[NUMBERS * n:NUMBERS * (n + 1)])

    def entries(self):
        """All entries, as tuples of six."""
        return zip(*[iter(self.numbers)] * NUMBERS)

    def __getitem__(self, n):
        if not 0 <= n < len(self):
            raise IndexError(n)
        return self.field(self.entry(n))

    def field(self, entry):
        offset, size, number = entry[:3]
        raw = self.message[offset:offset + size]
        name, shape = paper.FIELDS[number]
        return Field(entry, raw, name, self.where(number, *entry[3:]), self.value(shape, raw, entry))

    def matching(self, wanted):
        """The fields whose entry is wanted, in wire order."""
        return [self.field(entry) for entry in self.entries() if wanted(*entry)]

    def at(self, numbers, indices):
        """The fields that have one of these numbers, and these indices."""
        return self.matching(lambda offset, size, number, *found: number in numbers and tuple(found) == indices)

    def owner(self, offset):
        """The field that a byte belongs to, or None past the end."""
        n = bisect.bisect_right(self.numbers[0::NUMBERS], offset) - 1
        return self[n] if n >= 0 and offset < self[n].end else None

    # -- Places

    def where(self, number, i, j, k):
        if number in paper.PARAMETER_FIELDS:
            element = ", element %d" % j if number in (paper.VALUE_LENGTH, paper.VALUE) and self.in_array(i) else ""
            return "parameter %d%s" % (i, element)
        if number in paper.AREA_FIELDS:
            return area_place(number, i, j, k)
        if number not in paper.TABLE_FIELDS:
            return ""
        row = ", row %d" % j if number >= paper.ROW_LENGTH else ""
        has_column = paper.COLUMN_TYPE <= number <= paper.COLUMN_NAME or number >= paper.CELL_LENGTH
        return "table %d%s%s" % (i, row, ", " + self.column_text(i, k) if has_column else "")

    def column_text(self, table, column):
        """A column in words. In a message that is refused before they were read, it has no name, and perhaps no type."""
        empty = self.raw_of.get((paper.COLUMN_NAME_LENGTH, table, 0, column)) == bytes(4)
        name = self.column_name(table, column)
        wire_type = paper.TYPES.get(self.column_type(table, column))
        return "column %d%s%s" % (column, " " + shown_name(name) if name or empty else "", " (%s)" % wire_type if wire_type else "")

    def column_name(self, table, column):
        return self.raw_of.get((paper.COLUMN_NAME, table, 0, column), b"")

    def column_type(self, table, column):
        return values.signed(self.raw_of.get((paper.COLUMN_TYPE, table, 0, column), b"\0"))

    def parameter_type(self, parameter):
        return values.signed(self.raw_of.get((paper.PARAMETER_TYPE, parameter, 0, 0), b"\0"))

    def element_type(self, parameter):
        return values.signed(self.raw_of.get((paper.ELEMENT_TYPE, parameter, 0, 0), b"\0"))

    def in_array(self, parameter):
        """Whether the parameter's values are elements with an index of their own."""
        return self.parameter_type(parameter) == paper.ARRAY and self.element_type(parameter) != paper.TINYINT

    # -- Values

    def value(self, shape, raw, entry):
        return SHAPES[shape](raw) if shape in SHAPES else self.typed_value(raw, entry) if shape == "value" else self.element_count(values.signed(raw), entry[3])

    def element_count(self, number, parameter):
        is_bytes = self.element_type(parameter) == paper.TINYINT
        return values.count_of(number, "byte" if is_bytes else "element")

    def typed_value(self, raw, entry):
        number, i, _, k = entry[2:]
        if number == paper.CELL:
            return values.value_text(self.column_type(i, k), raw)
        wire_type = self.parameter_type(i)
        if wire_type == paper.ARRAY:
            wire_type = self.element_type(i)
            if wire_type == paper.TINYINT:
                return values.hexadecimal(raw)
        return values.value_text(wire_type, raw)


# How a field's bytes are shown by its shape alone; "value" and "element count" also depend on a type.
SHAPES = {
    "length": lambda raw: values.length(values.signed(raw)),
    "number": lambda raw: str(values.signed(raw)),
    "text": values.quoted,
    "opaque": values.opaque,
    "type": lambda raw: values.named(values.signed(raw), paper.TYPES),
    "flags": lambda raw: values.flags(raw[0]),
    "status": lambda raw: values.named(values.signed(raw), paper.STATUSES),
    "result": lambda raw: values.named(values.signed(raw), paper.RESULTS),
    "hash version": lambda raw: values.named(values.signed(raw), paper.HASHES),
    "address": values.address,
    "milliseconds": lambda raw: values.utc(1000 * values.signed(raw)),
    "duration": lambda raw: "%d ms" % values.signed(raw),
    "byte": lambda raw: str(raw[0]),
    "holes": lambda raw: values.named(raw[0], paper.HOLES),
    "float": values.float_text,
}


def area_place(number, ring, vertex, axis):
    """Where in an area a field of it belongs."""
    if number not in paper.RING_FIELDS:
        return ""
    which = "ring %d (%s)" % (ring, "hole" if ring else "exterior")
    return "%s, vertex %d, %s" % (which, vertex, paper.AXES[axis]) if number == paper.COORDINATE else which


def shown_name(name):
    """A column's name as people write it: bare if it is one word that needn't be cut, else in quotes."""
    bare = len(name) <= values.MOST_SHOWN and name.replace(b"_", b"a").isalnum()
    return name.decode("ascii") if bare else values.quoted(name)
