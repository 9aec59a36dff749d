"""The second reader: what paper 01 and requests 1, 4 and 5 say of a message, in plain Python.

    read(kind, message)  ->  (record, fields), or Refused is raised

A record is a dictionary with one key for each thing of the layout. A field is (offset, size, number, i, j, k).
Values: integers and decimals are numbers; a float is its 64 bits as a number, so that no bit of a NaN is lost; a point is
two Python floats, or None for null; strings, varbinaries and geographies are bytes, or None for null.
An array is (element type, values); for tinyint its values are bytes.
"""

import struct

from utf8 import torn_at
from wire import *


class Refused(Exception):
    """A refusal: its number and place. For statistics, and for people, also the field that was being read, with its indices; where the
    room that it stands in ends; how many bytes it would have; its limit; and the fields that were read up to it, perhaps with it."""

    def __init__(self, number, place, field=0, index=(0, 0, 0), room=None, size=None, most=None):
        super().__init__(number, place)
        self.number, self.place, self.field, self.index = number, place, field, index
        self.room, self.size, self.most, self.fields = room, size, most, []


def read(kind, message):
    if kind not in KINDS:
        raise Refused(BAD_TYPE, 0)
    reading = Reading(message)
    try:
        return read_message(kind, reading), reading.fields
    except Refused as no:
        no.fields = reading.fields
        raise


def read_message(kind, reading):
    end = reading.message_end()
    record = {"version": reading.version(F_VERSION, end)}
    {LOGIN: login, LOGIN_REPLY: login_reply, INVOCATION: invocation, REPLY: reply}[kind](reading, end, record)
    reading.finish(end, F_LENGTH)
    return record


def login(reading, end, record):
    long_hash = False
    if record["version"] == 1:
        record["hash_version"] = reading.version(F_HASH_VERSION, end)
        long_hash = record["hash_version"] == 1
    record["service"] = reading.text(F_SERVICE, end)
    record["user"] = reading.text(F_USER, end)
    record["hash"] = reading.block(32 if long_hash else 20, F_HASH, end)


def login_reply(reading, end, record):
    record["result"] = reading.number(1, F_RESULT, end)
    if record["result"] != 0:
        return
    record["host"] = reading.number(4, F_HOST, end)
    record["connection"] = reading.number(8, F_CONNECTION, end)
    record["start"] = reading.number(8, F_START, end)
    record["leader"] = reading.block(4, F_LEADER, end)
    record["build"] = reading.text(F_BUILD, end)


def invocation(reading, end, record):
    record["procedure"] = reading.text(F_PROCEDURE, end)
    record["client_data"] = reading.block(8, F_CLIENT_DATA, end)
    count = reading.count(2, MOST_ITEMS, F_PARAMETERS, end)
    record["parameters"] = [parameter(reading, p, end) for p in range(count)]


def parameter(reading, p, end):
    index = (p, 0, 0)
    wire_type = reading.wire_type(PARAMETER_TYPES, F_TYPE, end, index)
    if wire_type == NULL:
        return wire_type, None
    if wire_type != ARRAY:
        return wire_type, reading.value(wire_type, F_VALUE, end, index)
    element_type = reading.wire_type(COLUMN_TYPES, F_ELEMENT_TYPE, end, index)
    if element_type == TINYINT:
        # A byte array: its count is 4 bytes long and is a length; its body is listed as a value.
        return wire_type, (element_type, reading.counted(F_ELEMENTS, end, index, body_field=F_VALUE + 1))
    count = reading.count(2, MOST_ITEMS, F_ELEMENTS, end, index)
    return wire_type, (element_type, [reading.value(element_type, F_VALUE, end, (p, e, 0)) for e in range(count)])


def reply(reading, end, record):
    record["client_data"] = reading.block(8, F_CLIENT_DATA, end)
    flags = record["flags"] = reading.flags(end)
    record["status"] = reading.number(1, F_STATUS, end)
    if flags & FLAG_STATUS_STRING:
        record["status_string"] = reading.text(F_STATUS_STRING, end, null=True)
    record["application"] = reading.number(1, F_APPLICATION, end)
    if flags & FLAG_APPLICATION_STRING:
        record["application_string"] = reading.text(F_APPLICATION_STRING, end, null=True)
    record["round_trip"] = reading.number(4, F_ROUND_TRIP, end)
    if flags & FLAG_EXCEPTION:
        record["exception"] = reading.counted(F_EXCEPTION, end)
    count = reading.count(2, MOST_ITEMS, F_TABLES, end)
    record["tables"] = [table(reading, t, end) for t in range(count)]


def table(reading, t, message_end):
    index = (t, 0, 0)
    end = reading.room(None, F_TABLE, message_end, index)
    metadata_end = reading.room(None, F_METADATA, end, index)
    status = reading.number(1, F_TABLE_STATUS, metadata_end, index)
    columns = range(reading.count(2, MOST_COLUMNS, F_COLUMNS, metadata_end, index))
    types = [reading.wire_type(COLUMN_TYPES, F_COLUMN_TYPE, metadata_end, (t, 0, c)) for c in columns]
    names = [reading.name(metadata_end, (t, 0, c)) for c in columns]
    reading.finish(metadata_end, F_METADATA, index)
    count = reading.count(4, MOST_ROWS, F_ROWS, end, index)
    rows = []
    for r in range(count):
        row_end = reading.room(MOST_ROW, F_ROW, end, (t, r, 0))
        rows.append([reading.value(types[c], F_CELL, row_end, (t, r, c)) for c in columns])
        reading.finish(row_end, F_ROW, (t, r, 0))
    reading.finish(end, F_TABLE, index)
    return {"status": status, "types": types, "names": names, "rows": rows}


class Reading:
    """A walk over the message. `end` is always the end of the innermost room that the field stands in."""

    def __init__(self, message):
        self.message = message
        self.at = 0
        self.fields = []

    # -- Fields of fixed size.

    def block(self, size, field, end, index=(0, 0, 0)):
        """The next `size` bytes, as a field of their own."""
        at = self.at
        if at + size > end:
            raise Refused(NO_ROOM, at, field, index, room=end, size=size)
        self.at = at + size
        self.fields.append((at, size, field) + index)
        return self.message[at:self.at]

    def number(self, size, field, end, index=(0, 0, 0)):
        return int.from_bytes(self.block(size, field, end, index), "big", signed=True)

    def version(self, field, end):
        at = self.at
        version = self.number(1, field, end)
        if version not in (0, 1):
            raise Refused(BAD_VERSION, at, field)
        return version

    def wire_type(self, permitted, field, end, index):
        at = self.at
        wire_type = self.number(1, field, end, index)
        if wire_type not in permitted:
            raise Refused(BAD_TYPE, at, field, index)
        return wire_type

    def flags(self, end):
        at = self.at
        flags = self.block(1, F_FLAGS, end)[0]
        if flags & ~FLAGS:
            raise Refused(BAD_FLAGS, at, F_FLAGS)
        return flags

    # -- Counts, lengths and rooms.

    def count(self, size, most, field, end, index=(0, 0, 0)):
        """A count: does the field fit, its sign, its limit. What it counts is noticed when it is read."""
        at = self.at
        count = self.number(size, field, end, index)
        if count < 0:
            raise Refused(BAD_SIGN, at, field, index)
        if count > most:
            raise Refused(LIMIT, at, field, index, most=most)
        return count

    def length(self, most, field, end, index, null=False):
        """A length of 4 bytes: does the field fit, its sign, its limit, does its body fit. -1 only where null is permitted."""
        at = self.at
        length = self.number(4, field, end, index)
        if null and length == -1:
            return length
        if length < 0:
            raise Refused(BAD_SIGN, at, field, index)
        if most is not None and length > most:
            raise Refused(LIMIT, at, field, index, most=most)
        if self.at + length > end:
            raise Refused(NO_ROOM, at, field, index, room=end)
        return length

    def room(self, most, field, end, index):
        """A length whose body is read field by field: where that room ends."""
        length = self.length(most, field, end, index)
        return self.at + length

    def finish(self, end, field, index=(0, 0, 0)):
        if self.at < end:
            raise Refused(LEFT_OVER, self.at, field, index, room=end)

    def message_end(self):
        """The message length, which is never 0, and then the input's own length."""
        length = self.number(4, F_LENGTH, len(self.message))
        if length <= 0:
            raise Refused(BAD_SIGN, 0, F_LENGTH)
        if length > MOST_MESSAGE:
            raise Refused(LIMIT, 0, F_LENGTH, most=MOST_MESSAGE)
        if length + 4 > len(self.message):
            raise Refused(NO_ROOM, 0, F_LENGTH, room=len(self.message))
        if length + 4 < len(self.message):
            raise Refused(LEFT_OVER, length + 4, F_LENGTH, room=len(self.message))
        return length + 4

    # -- Counted bodies and values.

    def counted(self, field, end, index=(0, 0, 0), null=False, body_field=None):
        """A length and its body, or None for null. An empty body has no entry."""
        length = self.length(MOST_BODY, field, end, index, null)
        if length == -1:
            return None
        if length == 0:
            return b""
        return self.block(length, body_field or field + 1, end, index)

    def text(self, field, end, index=(0, 0, 0), null=False):
        """A counted body that is text. The first sequence in it that isn't well-formed is refused at its first byte, whatever follows the body."""
        body = self.counted(field, end, index, null)
        torn = torn_at(body or b"")
        if torn is not None:
            raise Refused(BAD_TEXT, self.at - len(body) + torn, field + 1, index)
        return body

    def name(self, end, index):
        """A column's name. The first byte above 127 is refused where it stands."""
        name = self.counted(F_COLUMN_NAME, end, index)
        for i, byte in enumerate(name):
            if byte > 127:
                raise Refused(BAD_NAME, self.at - len(name) + i, F_COLUMN_NAME + 1, index)
        return name

    def value(self, wire_type, field, end, index):
        """A value of a column type. `field` is the number of its length, if it has one; field + 1 that of the value."""
        at = self.at
        if wire_type in INTEGER_SIZES:
            return self.number(INTEGER_SIZES[wire_type], field + 1, end, index)
        if wire_type == FLOAT:
            return int.from_bytes(self.block(8, field + 1, end, index), "big")
        if wire_type == DECIMAL:
            decimal = self.number(16, field + 1, end, index)
            if not -MOST_DECIMAL <= decimal <= MOST_DECIMAL and decimal != NULL_DECIMAL:
                raise Refused(BAD_DECIMAL, at, field + 1, index)
            return decimal
        if wire_type == POINT:
            longitude, latitude = point = struct.unpack(">dd", self.block(16, field + 1, end, index))
            # Null is both 360 together: one beside a number in range is refused below, and so is one with the wrong sign.
            if point == NULL_POINT:
                return None
            # A comparison with a NaN is false, so a NaN is refused here too.
            if not (-180.0 <= longitude <= 180.0 and -90.0 <= latitude <= 90.0):
                raise Refused(BAD_POINT, at, field + 1, index)
            return point
        if wire_type == STRING:
            return self.text(field, end, index, null=True)
        body = self.counted(field, end, index, null=True)
        if wire_type == GEOGRAPHY and body == b"":
            raise Refused(BAD_GEOGRAPHY, at, field, index)
        return body
