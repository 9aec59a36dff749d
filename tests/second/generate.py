"""Messages made up from a seed: valid ones of every kind, ones with values that break their own rules, and damaged ones whose damage is aimed at
a chosen field.

    messages(count, seed)       ->  (kind, message) pairs, the same ones for the same seed
    wide_messages(count, seed)  ->  the same, of replies that have a table with more columns than those

Fields are chosen by their number first, so that rare fields are damaged as often as frequent ones, and values that are to break their rules by what
they are and where they stand. Points and texts have more than their share: much is nearly null, or nearly text. Some names are nearly equal.
"""

import functools
import math
import random
import struct

from cards import NEAR_COLUMNS
from encoder import encode
from generate_texts import CHARACTERS, TORN
from reader import Refused, read
from wire import *


def messages(count, seed):
    maker = Maker(random.Random(seed))
    return [maker.message() for _ in range(count)]


def wide_messages(count, seed):
    maker = Maker(random.Random(seed))
    return [maker.wide_message() for _ in range(count)]


class Maker:
    def __init__(self, rng):
        self.rng = rng

    def message(self):
        """One message: a third as it should be; some with values that break their own rules, and nothing else wrong; the rest damaged once, or
        twice."""
        while True:
            kind = self.rng.choice((1, 2, 3, 3, 3, 4, 4, 4, 4, 4))
            kind, message = self.encoded(kind, self.record(kind))
            if len(message) <= MOST_LISTED:
                return kind, message

    def encoded(self, kind, record):
        turn = self.rng.random()
        if 0.33 < turn < 0.45:
            self.spoil(kind, record)
        message = encode(kind, record)
        if turn > 0.45:
            kind, message = self.damaged(kind, message)
        if turn > 0.90:
            kind, message = self.damaged(kind, message)
        return kind, message

    def wide_message(self):
        """One with a wide table, in which one of eight has a column too many."""
        while True:
            record = self.wide_record(MOST_COLUMNS + 1 if self.rng.random() < 0.125 else None)
            kind, message = self.encoded(REPLY, record)
            if len(message) <= MOST_LISTED:
                return kind, message

    # -- Valid records.

    def record(self, kind):
        """A record. What its flags or its result leave out may be there, and be any bytes."""
        rng = self.rng
        record = {"version": rng.choice((0, 1))}
        if kind == LOGIN:
            if record["version"] == 1:
                record["hash_version"] = rng.choice((0, 1))
            record["service"], record["user"] = self.text(), self.text()
            record["hash"] = rng.randbytes(32 if record.get("hash_version") == 1 else 20)
        elif kind == LOGIN_REPLY:
            record["result"] = rng.choice((0, 0, 0, 1, 2, 3, -1, -128, 127))
            record["host"], record["connection"], record["start"] = self.integer(4), self.integer(8), self.integer(8)
            record["leader"], record["build"] = rng.randbytes(4), self.text() if record["result"] == 0 else self.blob()
        elif kind == INVOCATION:
            record["procedure"], record["client_data"] = self.text(), rng.randbytes(8)
            record["parameters"] = [self.parameter() for _ in range(self.size(40))]
        else:
            record["client_data"] = rng.randbytes(8)
            record["flags"] = rng.choice((0, 32, 64, 96, 128, 160, 192, 224))
            record["status"], record["application"], record["round_trip"] = self.integer(1), self.integer(1), self.integer(4)
            for part, flag in (("status_string", FLAG_STATUS_STRING), ("application_string", FLAG_APPLICATION_STRING)):
                record[part] = self.body(self.text if record["flags"] & flag else self.blob)
            record["exception"] = self.blob()
            record["tables"] = self.tables()
        return record

    def parameter(self):
        wire_type = self.rng.choice(PARAMETER_TYPES + (ARRAY, ARRAY, ARRAY, POINT))
        if wire_type == NULL:
            return NULL, None
        if wire_type != ARRAY:
            return wire_type, self.value(wire_type)
        element_type = self.rng.choice(COLUMN_TYPES + (TINYINT, TINYINT) + (POINT,) * 6)
        if element_type == TINYINT:
            return ARRAY, (TINYINT, self.blob())
        return ARRAY, (element_type, [self.value(element_type) for _ in range(self.size(60))])

    def wide_record(self, columns=None):
        """A reply with a table of so many columns, or of some number of them that is permitted, among others; behind some the same one, nearly."""
        rng = self.rng
        record = self.record(REPLY)
        wide = self.table(columns or rng.choice((*MANY_COLUMNS, rng.randint(NEAR_COLUMNS + 1, MOST_COLUMNS))))
        at = rng.randint(0, len(record["tables"]))
        record["tables"][at:at] = [wide, self.twin(wide)] if rng.random() < 0.3 else [wide]
        return record

    def table(self, columns=None):
        rng = self.rng
        if columns is None:
            columns = rng.choice((0, 1, 1, 2, 2, 3, 3, 4, 5, 8, rng.randint(0, NEAR_COLUMNS), rng.randint(0, NEAR_COLUMNS), NEAR_COLUMNS))
        types = [rng.choice(COLUMN_TYPES) for _ in range(columns)]
        family = self.name() if rng.random() < 0.3 else None
        names = [self.name() if family is None else self.nearly(family) for _ in range(columns)]
        return self.filled(types, names)

    def tables(self):
        """Tables, some with the columns of the one before, but for one name or type."""
        tables = []
        for _ in range(self.size(6)):
            twin = tables and self.rng.random() < 0.4
            tables.append(self.twin(tables[-1]) if twin else self.table())
        return tables

    def twin(self, table):
        types, names = list(table["types"]), list(table["names"])
        if names:
            at = self.rng.randrange(len(names))
            names[at] = self.nearly(names[at])
            if self.rng.random() < 0.2:
                types[at] = self.rng.choice(COLUMN_TYPES)
        return self.filled(types, names)

    def filled(self, types, names):
        columns = len(types)
        rows = self.size(400 if columns < 3 else 20 if columns < 12 else 4) if columns <= NEAR_COLUMNS else self.rng.choice((0, 1, 1, 2))
        return {"status": self.integer(1), "types": types, "names": names,
                "rows": [[self.value(wire_type) for wire_type in types] for _ in range(rows)]}

    def name(self):
        return bytes(self.rng.randrange(128) for _ in range(self.size(40)))

    def nearly(self, name):
        """The name itself; or with one byte changed, put in or taken out: the first, the last or another."""
        rng = self.rng
        at = rng.choice((0, max(len(name) - 1, 0), rng.randint(0, len(name))))
        other = bytes([rng.randrange(128)])
        return rng.choice((name, name[:at] + other + name[at + 1:], name[:at] + other + name[at:], name[:at] + name[at + 1:]))

    def size(self, most):
        """A count: mostly small, now and then up to `most`."""
        return self.rng.choice((0, 1, 1, 2, 2, 3, 4)) if self.rng.random() < 0.93 else self.rng.randint(0, most)

    def body_size(self):
        """Mostly small, sometimes 0, now and then large."""
        return self.size(300) if self.rng.random() < 0.995 else self.rng.randint(0, 9000)

    def blob(self):
        """Any bytes."""
        return self.rng.randbytes(self.body_size())

    def text(self):
        """ASCII, characters of every size, or some of these among so much ASCII that whole words of it stand beside them."""
        rng = self.rng
        way = rng.random()
        if way < 0.4:
            return self.ascii(self.body_size())
        if way < 0.85:
            return self.characters(self.size(60))
        return self.ascii(rng.choice((rng.randint(0, 40), self.body_size()))) + self.characters(rng.randint(1, 3)) + self.ascii(rng.randint(0, 40))

    def ascii(self, size):
        return bytes(self.rng.choices(range(128), k=size))

    def characters(self, count):
        return b"".join(self.rng.choices(CHARACTERS, k=count))

    def body(self, content):
        """A body that may be null."""
        return None if self.rng.random() < 0.2 else content()

    def integer(self, size):
        most = 2 ** (8 * size - 1)
        near = self.rng.choice((-most, -1, 0, 1, most - 1))
        return near if self.rng.random() < 0.5 else self.rng.randrange(-most, most)

    def value(self, wire_type):
        rng = self.rng
        if wire_type in INTEGER_SIZES:
            return self.integer(INTEGER_SIZES[wire_type])
        if wire_type == FLOAT:
            return rng.choice((rng.getrandbits(64), *FLOAT_PATTERNS))
        if wire_type == DECIMAL:
            wide = rng.randint(-MOST_DECIMAL, MOST_DECIMAL)
            return rng.choice((0, -1, MOST_DECIMAL, -MOST_DECIMAL, NULL_DECIMAL, rng.randint(-10**15, 10**15), wide))
        if wire_type == POINT:
            return None if rng.random() < 0.2 else self.position()
        body = self.body(self.text if wire_type == STRING else self.blob)
        return b"\0" if wire_type == GEOGRAPHY and body == b"" else body

    def position(self):
        return self.degrees(180.0), self.degrees(90.0)

    def degrees(self, most):
        rng = self.rng
        edge = rng.choice((most, -most, math.nextafter(most, 0), 0.0, -0.0, 5e-324))
        return edge if rng.random() < 0.4 else rng.uniform(-most, most)

    # -- Values that break their own rules.

    def spoil(self, kind, record):
        """Puts one into the record, or two or three."""
        rng = self.rng
        if kind == INVOCATION:  # most have none that could
            record["parameters"].insert(rng.randint(0, len(record["parameters"])), self.ruled_parameter())
        places = {}
        for cause, where, put in ruled(kind, record):
            places.setdefault((cause, where), []).append(put)
        for _ in range(rng.choice((1, 1, 2, 3)) if places else 0):
            cause, where = rng.choice(sorted(places))
            rng.choice(places[cause, where])(self.wrong(cause))

    def ruled_parameter(self):
        wire_type = self.rng.choice(sorted(CAUSE_OF_TYPE))
        elements = [self.value(wire_type) for _ in range(self.rng.randint(1, 4))]
        return (wire_type, elements[0]) if self.rng.random() < 0.4 else (ARRAY, (wire_type, elements))

    def wrong(self, cause):
        """What is refused so."""
        return {BAD_DECIMAL: self.wrong_decimal, BAD_POINT: self.beyond_point, BAD_FLAGS: self.wrong_flags, BAD_NAME: self.wrong_name,
                BAD_GEOGRAPHY: lambda: b""}[cause]()

    def wrong_decimal(self):
        rng = self.rng
        far = rng.choice((rng.randint(MOST_DECIMAL + 1, 2**127 - 1), rng.randint(NULL_DECIMAL + 1, -MOST_DECIMAL - 1)))
        return rng.choice((MOST_DECIMAL + 1, -MOST_DECIMAL - 1, NULL_DECIMAL + 1, 2**127 - 1, far))

    def wrong_flags(self):
        """One of the five bits that aren't flags, and any others; half of the time flags only beside it."""
        bad = 1 << self.rng.randrange(5)
        return bad | self.rng.choice((self.rng.randrange(256), self.rng.randrange(256) & FLAGS))

    def wrong_name(self):
        name = bytearray(self.name() + b"n")
        name[self.rng.randrange(len(name))] = self.rng.choice((128, 255, self.rng.randint(128, 255)))
        return bytes(name)

    # -- Damage.

    def damaged(self, kind, message):
        """The message with one fault put in, tried up to three times if it turns out to be none."""
        for _ in range(3):
            out = self.damaged_once(kind, message)
            if not accepted(*out):
                break
        return out

    def damaged_once(self, kind, message):
        """An already refused message is damaged blindly."""
        rng = self.rng
        try:
            record, fields = read(kind, message)
        except Refused:
            return self.blindly(kind, message)
        points = values_of(POINT, kind, record, fields)
        if points and rng.random() < (0.6 if kind == INVOCATION else 0.2):  # invocations have fewer of them
            return kind, replaced(message, rng.choice(points), struct.pack(">dd", *self.beyond_point()))
        texts = texts_of(kind, record, fields)
        if texts and rng.random() < 0.15:
            at, size, *_ = field = self.chosen(texts)
            return kind, replaced(message, field, self.torn(message[at:at + size])[:size])
        way = rng.random()
        if way < 0.52:
            return kind, self.field_changed(message, self.chosen(fields))
        if way < 0.62:  # which of two is found first?
            return kind, self.field_changed(self.field_changed(message, self.chosen(fields)), self.chosen(fields))
        if way < 0.90:
            return kind, self.resized(message, fields)
        return self.blindly(kind, message)

    def chosen(self, fields):
        number = self.rng.choice(sorted({field[2] for field in fields}))
        return self.rng.choice([field for field in fields if field[2] == number])

    def field_changed(self, message, field):
        """The bytes of one field replaced by others of the same size, such as its rule may refuse."""
        at, size, number = field[:3]
        old = message[at:at + size]
        if number in LENGTHS_AND_COUNTS:
            new = self.other_length(int.from_bytes(old, "big", signed=True), size)
        elif number in (F_VERSION, F_HASH_VERSION):
            new = bytes([self.rng.choice((0, 1, 2, 3, 127, 128, 129, 255))])
        elif number in (F_TYPE, F_ELEMENT_TYPE, F_COLUMN_TYPE):
            new = bytes([self.rng.choice([t % 256 for t in PARAMETER_TYPES] + [0, 2, 7, 10, 12, 21, 23, 24, 28, 99, 128, 255])])
        elif number == F_FLAGS:
            new = bytes([old[0] ^ (1 << self.rng.randrange(8))])
        elif number == F_COLUMN_NAME + 1:
            new = self.with_high_bytes(old)
        elif number in (F_VALUE + 1, F_CELL + 1) and size == 16:
            new = self.beyond_decimal()
        else:
            new = self.rng.randbytes(size)
        return replaced(message, field, new)

    def other_length(self, old, size):
        """Off by one or a few, negative, at a limit and just beyond it, huge, or anything."""
        rng = self.rng
        limits = (MOST_MESSAGE, MOST_BODY, MOST_ROW, NEAR_COLUMNS, MOST_COLUMNS, MOST_ITEMS, MOST_LISTED)
        new = rng.choice((
            old + 1, old - 1, old + 4, old - 4, old + rng.randint(-9, 9), 0, -1, -2,
            rng.choice(limits), rng.choice(limits) + 1, 2 ** (8 * size - 1) - 1, -(2 ** (8 * size - 1)),
            rng.getrandbits(8 * size), rng.randint(0, 300),
        ))
        return (new % 2 ** (8 * size)).to_bytes(size, "big")

    def with_high_bytes(self, name):
        name = bytearray(name)
        for _ in range(self.rng.choice((1, 1, 2, 3))):
            name[self.rng.randrange(len(name))] = self.rng.choice((128, 255, self.rng.randint(128, 255), 127))
        return bytes(name)

    def torn(self, text):
        """The text with a sequence put in that is none, between its bytes or over them."""
        at, new = self.rng.randint(0, len(text)), self.rng.choice(TORN)
        return text[:at] + new + text[at + self.rng.choice((0, len(new))):]

    def beyond_decimal(self):
        edge = self.rng.choice((10**38, -(10**38), NULL_DECIMAL, NULL_DECIMAL + 1, 2**127 - 1, MOST_DECIMAL, -MOST_DECIMAL))
        return edge.to_bytes(16, "big", signed=True)

    def beyond_point(self):
        """A point that is refused: nearly null, null but for a bit, or with a number out of range beside one that is in range or is 360."""
        rng = self.rng
        way = rng.random()
        if way < 0.5:
            nearly = zip(rng.choice(NEARLY_NULL), self.position())
            return tuple(degrees if number is IN_RANGE else number for number, degrees in nearly)
        if way < 0.6:
            bits = int.from_bytes(struct.pack(">dd", *NULL_POINT), "big") ^ 1 << rng.randrange(128)
            return struct.unpack(">dd", bits.to_bytes(16, "big"))
        longitude, latitude = rng.choice((NULL_POINT, self.position()))
        bad = rng.choice((math.inf, -math.inf, 1e300, *NANS))
        if rng.random() < 0.5:
            return rng.choice((bad, math.nextafter(180.0, 999), math.nextafter(-180.0, -999))), latitude
        return longitude, rng.choice((bad, math.nextafter(90.0, 999), math.nextafter(-90.0, -999), 180.0))

    def resized(self, message, fields):
        """Bytes put in or taken out at a field, or at the end of a room, with the lengths of the rooms around it mended: mostly of
        all of them, else of the outer ones."""
        rng = self.rng
        rooms = rooms_of(message, fields)
        at, size, *_ = self.chosen(fields[2:])
        at = rng.choice((at, at, at + size, rng.choice(rooms)[1]))
        around = [(start, end) for start, end in rooms if start <= at <= end]
        taken, put = self.change(size, around[-1][1] - at)
        taken = min(taken, len(message) - at)
        mending = rng.choice((len(around), len(around), len(around) - 1, rng.randint(0, len(around))))
        out = bytearray(message)
        for start, end in around[:mending]:
            length = end - start + len(put) - min(taken, end - at)
            out[start - 4:start] = length.to_bytes(4, "big")
        out[at:at + taken] = put
        return bytes(out)

    def change(self, size, rest):
        """How many bytes are taken out, and what is put in: all to the end of the room; a few, or the field; or some bytes more."""
        rng = self.rng
        way = rng.randrange(10)
        if way < 3:
            return rest, b""
        if way < 6:
            return rng.choice((1, 1, 2, 3, 4, size)), b""
        if way < 8:
            return 0, bytes(rng.choice((1, 4, 8)))
        return 0, rng.randbytes(rng.choice((1, 1, 2, 4, 8)))

    def blindly(self, kind, message):
        """Cut, extended, flipped, noise, or taken for another kind."""
        rng = self.rng
        way = rng.randrange(9)
        if way == 0:
            return kind, message[:rng.randrange(len(message) + 1)]
        if way == 1:
            return kind, message + rng.randbytes(rng.choice((1, 2, 8, 40)))
        if way == 2:
            return kind, mended(message[:rng.randrange(len(message) + 1)])
        if way == 3:
            return kind, mended(message + rng.randbytes(rng.choice((1, 2, 8, 40))))
        if way == 4:
            return kind, mended(bytes(4) + bytes([rng.choice((0, 1))]) + rng.randbytes(rng.randint(0, 60)))
        if way == 5:
            return kind, rng.randbytes(rng.randint(0, 12))
        if way == 6 and rng.random() < 0.3:
            return rng.choice((0, 5, 6, 127, 128, 255)), message
        if way == 6:
            return rng.choice(KINDS), message
        out = bytearray(message)
        for _ in range(rng.choice((1, 1, 2, 4)) if out else 0):
            out[rng.randrange(len(out))] = rng.randrange(256)
        return kind, bytes(out)


def accepted(kind, message):
    try:
        read(kind, message)
        return True
    except Refused:
        return False


def mended(message):
    """The message with its length field made right, if it has one."""
    return (len(message) - 4).to_bytes(4, "big") + message[4:] if len(message) >= 4 else message


def replaced(message, field, new):
    at, size = field[:2]
    return message[:at] + new + message[at + size:]


def ruled(kind, record):
    """What has a rule of its own in a record: how it is refused, where it stands, and a function that puts something else there."""
    if kind == REPLY:
        yield BAD_FLAGS, "flags", lambda flags: record.update(flags=flags)
        for table in record["tables"]:
            yield from ((BAD_NAME, "name", functools.partial(table["names"].__setitem__, c)) for c in range(len(table["names"])))
            for row in table["rows"]:
                yield from ((CAUSE_OF_TYPE[wire_type], "cell", functools.partial(row.__setitem__, c))
                            for c, wire_type in enumerate(table["types"]) if wire_type in CAUSE_OF_TYPE)
    if kind == INVOCATION:
        parameters = record["parameters"]
        for p, (wire_type, it) in enumerate(parameters):
            if wire_type in CAUSE_OF_TYPE:
                yield CAUSE_OF_TYPE[wire_type], "parameter", lambda value, p=p, wire_type=wire_type: parameters.__setitem__(p, (wire_type, value))
            elif wire_type == ARRAY and it[0] in CAUSE_OF_TYPE:
                yield from ((CAUSE_OF_TYPE[it[0]], "element", functools.partial(it[1].__setitem__, e)) for e in range(len(it[1])))


def values_of(wanted, kind, record, fields):
    """The fields that are values of a type; of one that is counted, their bodies."""
    if kind == REPLY:
        return [field for field in fields if field[2] == F_CELL + 1 and record["tables"][field[3]]["types"][field[5]] == wanted]
    types = [it[0] if wire_type == ARRAY else wire_type for wire_type, it in record.get("parameters", ())]
    return [field for field in fields if field[2] == F_VALUE + 1 and types[field[3]] == wanted]


def texts_of(kind, record, fields):
    """The bodies that are text."""
    return [field for field in fields if field[2] in TEXT_BODIES] + values_of(STRING, kind, record, fields)


def rooms_of(message, fields):
    """(start, end) of the message's room and of each table, metadata and row, the outer before the inner."""
    starts = [at + 4 for at, _, number, *_ in fields if number in (F_LENGTH, F_TABLE, F_METADATA, F_ROW)]
    return [(start, start + int.from_bytes(message[start - 4:start], "big")) for start in starts]


# How many columns a wide table has: where cards become far ones, where the lower byte of a position turns over, and the most.
MANY_COLUMNS = (NEAR_COLUMNS + 1, 255, 256, 257, 400, MOST_COLUMNS - 1, MOST_COLUMNS)

LENGTHS_AND_COUNTS = (
    F_LENGTH, F_SERVICE, F_USER, F_BUILD, F_PROCEDURE, F_PARAMETERS, F_ELEMENTS, F_VALUE, F_STATUS_STRING,
    F_APPLICATION_STRING, F_EXCEPTION, F_TABLES, F_TABLE, F_METADATA, F_COLUMNS, F_COLUMN_NAME, F_ROWS, F_ROW, F_CELL,
)

TEXT_BODIES = [field + 1 for field in (F_SERVICE, F_USER, F_BUILD, F_PROCEDURE, F_STATUS_STRING, F_APPLICATION_STRING)]

# Zeros, infinities, quiet and signalling NaNs with and without payload, the smallest and the largest numbers, one.
FLOAT_PATTERNS = (
    0x0000000000000000, 0x8000000000000000, 0x7FF0000000000000, 0xFFF0000000000000,
    0x7FF8000000000000, 0xFFF8000000000000, 0x7FF0000000000001, 0xFFFFFFFFFFFFFFFF,
    0x0000000000000001, 0x7FEFFFFFFFFFFFFF, 0x3FF0000000000000,
)
NANS = [number for number in (struct.unpack(">d", p.to_bytes(8, "big"))[0] for p in FLOAT_PATTERNS) if math.isnan(number)]

# What is nearly a null point: one of its numbers beside one in range, a wrong sign, the numbers next to 360.
IN_RANGE, BELOW, ABOVE = None, math.nextafter(360.0, 0), math.nextafter(360.0, 999)
NEARLY_NULL = (
    (360.0, IN_RANGE), (IN_RANGE, 360.0), (-360.0, IN_RANGE), (IN_RANGE, -360.0), (-360.0, -360.0), (-360.0, 360.0), (360.0, -360.0),
    (BELOW, 360.0), (360.0, BELOW), (ABOVE, 360.0), (360.0, ABOVE),
)
