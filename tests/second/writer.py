"""The second writer: paper 01's "Writing", with requests 1, 4, 5 and 6, step by step, in plain Python; and a whole row as the run of its steps.

A step takes the state and the buffer and gives (answer, state, buffer): the answer is None, or (number, place), and then state and
buffer are the same as before. A value is (wire type, value), with values as in reader.py, or the `Bits` of one of a fixed size, as the
exported steps take it. So a null point is given by its numbers, as a position is, and None is a body's null. Nothing here reads the
buffer back.
"""

import struct
from dataclasses import dataclass, replace

import encoder
from utf8 import torn_at
from wire import *

# The size of a null body in a whole row.
NULL_SIZE = 2**64 - 1

# What is open: nothing; a call, an array in it; a reply, a table in it, a row in that. The numbers are those that scripts use.
CLOSED, CALL, ARRAY_OPEN, REPLY_OPEN, TABLE_OPEN, ROW_OPEN = range(6)


@dataclass(frozen=True)
class State:
    stage: int
    position: int
    count_at: int = 0           # the place of the parameter count or the table count, and that count
    count: int = 0
    inner_at: int = 0           # of the open array's count, or of the open row's length
    inner_type: int = 0         # of the open array's elements
    inner_count: int = 0        # its elements, or the open row's cells
    table_at: int = 0           # of the open table's length
    rows_at: int = 0            # of its row count
    rows: int = 0
    columns: int = 0            # of the open table
    types: bytes = bytes(MOST_COLUMNS)  # theirs, and behind them whatever stood there


def typed(*types):
    """The fields of a state whose open table has columns of these types."""
    return {"columns": len(types), "types": bytes(types).ljust(MOST_COLUMNS, b"\0")}


class Bits(int):
    """A number without a sign: the upper and the lower 64 bits of a value, whether they fit its type or not."""


class No(Exception):
    def __init__(self, number, place):
        super().__init__(number, place)
        self.answer = (number, place)


# -- Logins and beginnings: no state before them, so every place is 0.

def write_login(buffer, version, hash_version, service, user, hash_):
    check_version(version, 0)
    if version == 1:
        check_version(hash_version, 0)
    check_text(service, 0)
    check_text(user, 0)
    size = 32 if version == 1 and hash_version == 1 else 20
    if len(hash_) < size:
        raise No(NO_ROOM, 0)
    if len(hash_) > size:
        raise No(LEFT_OVER, 0)
    record = {"version": version, "hash_version": hash_version, "service": service, "user": user, "hash": hash_}
    return put(buffer, 0, encoder.encode(LOGIN, record))


def write_login_reply(buffer, version, result, host, connection, start, leader, build):
    check_version(version, 0)
    if result == 0:
        check_text(build, 0)
    record = {"version": version, "result": result, "host": host, "connection": connection, "start": start,
              "leader": leader, "build": build}
    return put(buffer, 0, encoder.encode(LOGIN_REPLY, record))


def begin_invocation(buffer, version, procedure, client_data):
    check_version(version, 0)
    check_text(procedure, 0)
    out = bytes(4) + encoder.number(version, 1) + encoder.counted(procedure) + client_data + bytes(2)
    return begin(buffer, out, CALL)


def begin_reply(buffer, version, client_data, flags, status, status_string, application, application_string, round_trip, exception):
    check_version(version, 0)
    if flags & ~FLAGS:
        raise No(BAD_FLAGS, 0)
    out = bytes(4) + encoder.number(version, 1) + client_data + bytes([flags]) + encoder.number(status, 1)
    if flags & FLAG_STATUS_STRING:
        check_text(status_string, 0)
        out += encoder.counted(status_string)
    out += encoder.number(application, 1)
    if flags & FLAG_APPLICATION_STRING:
        check_text(application_string, 0)
        out += encoder.counted(application_string)
    out += encoder.number(round_trip, 4)
    if flags & FLAG_EXCEPTION:
        check_body(exception, 0)
        out += encoder.counted(exception)
    return begin(buffer, out + bytes(2), REPLY_OPEN)


def begin(buffer, out, stage):
    buffer = put(buffer, 0, out)
    return State(stage, len(out), len(out) - 2, 0), buffer


# -- Steps of an invocation.

def add_null(state, buffer):
    check_state(state, buffer, CALL)
    return add_parameter(state, buffer, encoder.number(NULL, 1))


def add_value(state, buffer, value):
    check_state(state, buffer, CALL)
    out = written(value, state.position)
    return add_parameter(state, buffer, encoder.number(value[0], 1) + out)


def add_byte_array(state, buffer, body):
    check_state(state, buffer, CALL)
    check_body(body, state.position)
    return add_parameter(state, buffer, encoder.number(ARRAY, 1) + encoder.number(TINYINT, 1) + encoder.counted(body))


def open_array(state, buffer, element_type):
    check_state(state, buffer, CALL)
    if element_type not in COLUMN_TYPES or element_type == TINYINT:
        raise No(BAD_TYPE, state.position)
    opened, buffer = add_parameter(state, buffer, encoder.number(ARRAY, 1) + encoder.number(element_type, 1) + bytes(2))
    return replace(opened, stage=ARRAY_OPEN, inner_at=opened.position - 2, inner_type=element_type, inner_count=0), buffer


def add_parameter(state, buffer, out):
    check_limit(state.count + 1, MOST_ITEMS, state)
    return append(replace(state, count=state.count + 1), buffer, out)


def add_element(state, buffer, value):
    check_state(state, buffer, ARRAY_OPEN)
    if value[0] != state.inner_type:
        raise No(BAD_TYPE, state.position)
    out = written(value, state.position)
    check_limit(state.inner_count + 1, MOST_ITEMS, state)
    return append(replace(state, inner_count=state.inner_count + 1), buffer, out)


def close_array(state, buffer):
    check_state(state, buffer, ARRAY_OPEN)
    state, buffer = append(state, buffer, b"")
    return replace(state, stage=CALL), fill(buffer, state.inner_at, state.inner_count, 2)


def finish_invocation(state, buffer):
    check_state(state, buffer, CALL)
    return finish(state, buffer)


# -- Steps of a reply.

def open_table(state, buffer, status, columns, names):
    """Columns are (type, start, size) with the name at `start` of `names`."""
    check_state(state, buffer, REPLY_OPEN)
    if len(columns) > MOST_COLUMNS:
        raise No(LIMIT, state.position)
    for wire_type, _, _ in columns:
        if wire_type not in COLUMN_TYPES:
            raise No(BAD_TYPE, state.position)
    metadata = encoder.number(status, 1) + encoder.number(len(columns), 2)
    metadata += b"".join(encoder.number(wire_type, 1) for wire_type, _, _ in columns)
    for _, start, size in columns:
        if start + size > len(names):
            raise No(PAST_END, 0)
        name = names[start:start + size]
        check_body(name, state.position)
        if any(byte > 127 for byte in name):
            raise No(BAD_NAME, state.position)
        metadata += encoder.counted(name)
    check_limit(state.count + 1, MOST_ITEMS, state)
    before = state.position
    state, buffer = append(replace(state, count=state.count + 1), buffer, bytes(4) + encoder.counted(metadata) + bytes(4))
    types = bytes(wire_type for wire_type, _, _ in columns) + state.types[len(columns):]
    return replace(state, stage=TABLE_OPEN, table_at=before, rows_at=state.position - 4, rows=0, columns=len(columns), types=types), buffer


def open_row(state, buffer):
    check_state(state, buffer, TABLE_OPEN)
    check_limit(state.rows + 1, MOST_ROWS, state)
    before = state.position
    state, buffer = append(replace(state, rows=state.rows + 1), buffer, bytes(4))
    return replace(state, stage=ROW_OPEN, inner_at=before, inner_count=0), buffer


def add_cell(state, buffer, value):
    check_state(state, buffer, ROW_OPEN)
    if state.inner_count == state.columns:
        raise No(WRONG_STAGE, state.position)
    if value[0] != state.types[state.inner_count]:
        raise No(BAD_TYPE, state.position)
    out = written(value, state.position)
    return append(replace(state, inner_count=state.inner_count + 1), buffer, out)


def close_row(state, buffer):
    check_state(state, buffer, ROW_OPEN)
    if state.inner_count < state.columns:
        raise No(WRONG_STAGE, state.position)
    state, buffer = append(state, buffer, b"")
    return replace(state, stage=TABLE_OPEN), fill(buffer, state.inner_at, state.position - state.inner_at - 4, 4)


def whole_row(state, buffer, numbers, lent):
    """The row by its steps, none of which is seen if one is refused. A cell is two numbers, and a number behind the last two is left out."""
    state, buffer = open_row(state, buffer)
    for first, second in zip(numbers[::2], numbers[1::2]):
        state, buffer = add_cell(state, buffer, next_cell(state, first, second, lent))
    return close_row(state, buffer)


def next_cell(state, first, second, lent):
    """The value of its column's type that two numbers stand for: its bits, or where its body stands in the lent bytes. Behind the last column there is
    no type, and so no body to look for."""
    wire_type = state.types[state.inner_count] if state.inner_count < state.columns else 0
    if wire_type not in COUNTED_TYPES:
        return wire_type, Bits(first << 64 | second)
    if second == NULL_SIZE:
        return wire_type, None
    if first + second > len(lent):
        raise No(PAST_END, 0)
    return wire_type, lent[first:first + second]


def close_table(state, buffer):
    check_state(state, buffer, TABLE_OPEN)
    state, buffer = append(state, buffer, b"")
    buffer = fill(buffer, state.table_at, state.position - state.table_at - 4, 4)
    return replace(state, stage=REPLY_OPEN), fill(buffer, state.rows_at, state.rows, 4)


def finish_reply(state, buffer):
    check_state(state, buffer, REPLY_OPEN)
    return finish(state, buffer)


def finish(state, buffer):
    state, buffer = append(state, buffer, b"")
    buffer = fill(buffer, 0, state.position - 4, 4)
    return State(CLOSED, state.position, types=state.types), fill(buffer, state.count_at, state.count, 2)


# -- What every step tests.

def check_state(state, buffer, stage):
    """13 unless the stage permits the step and what is open at it is in order."""
    if state.stage != stage or not sound(state, len(buffer)):
        raise No(WRONG_STAGE, state.position)


def sound(state, room):
    """Open places follow each other, the last field ends by the position, and open counts and types keep their rules."""
    places = [(0, 4), (state.count_at, 2)]
    counts = [(state.count, MOST_ITEMS)]
    types_in_order = True
    if state.stage == ARRAY_OPEN:
        places.append((state.inner_at, 2))
        counts.append((state.inner_count, MOST_ITEMS))
        types_in_order = state.inner_type in COLUMN_TYPES and state.inner_type != TINYINT
    if state.stage in (TABLE_OPEN, ROW_OPEN):
        places += [(state.table_at, 4), (state.rows_at, 4)]
        counts += [(state.rows, MOST_ROWS), (state.columns, MOST_COLUMNS)]
        types_in_order = set(state.types[:state.columns]) <= set(COLUMN_TYPES)
    if state.stage == ROW_OPEN:
        places.append((state.inner_at, 4))
        counts.append((state.inner_count, state.columns))
    nexts = [place for place, _ in places[1:]] + [state.position]
    return (state.position <= room and types_in_order
            and all(place + size <= after for (place, size), after in zip(places, nexts))
            and all(0 <= count <= most for count, most in counts))


def check_version(version, place):
    if version not in (0, 1):
        raise No(BAD_VERSION, place)


def check_body(body, place):
    if body is not None and len(body) > MOST_BODY:
        raise No(LIMIT, place)


def check_text(body, place):
    check_body(body, place)
    if body is not None and torn_at(body) is not None:
        raise No(BAD_TEXT, place)


def written(value, place):
    """The bytes of a value; 6 unless it is one of its type, and then its own rule."""
    wire_type, it = value
    if (wire_type in COUNTED_TYPES) != (it is None or isinstance(it, bytes)):
        raise No(BAD_TYPE, place)
    if isinstance(it, Bits):
        it = value_of(wire_type, it, place)
    check_value((wire_type, it), place)
    return encoder.value(wire_type, it)


def value_of(wire_type, bits, place):
    size = FIXED_SIZES.get(wire_type, 0)
    if size == 0 or bits >= 256**size:
        raise No(BAD_TYPE, place)
    if wire_type == FLOAT:
        return int(bits)
    block = bits.to_bytes(size, "big")
    return struct.unpack(">dd", block) if wire_type == POINT else int.from_bytes(block, "big", signed=True)


def check_value(value, place):
    """A value's own rule: a body's limit; a string is text; a decimal's range; a point is a position or null; a geography isn't empty."""
    wire_type, it = value
    if wire_type == STRING:
        check_text(it, place)
    elif wire_type in COUNTED_TYPES:
        check_body(it, place)
    bad = (wire_type == DECIMAL and not (-MOST_DECIMAL <= it <= MOST_DECIMAL or it == NULL_DECIMAL)
           or wire_type == POINT and not (-180.0 <= it[0] <= 180.0 and -90.0 <= it[1] <= 90.0 or it == NULL_POINT)
           or wire_type == GEOGRAPHY and it == b"")
    if bad:
        raise No(CAUSE_OF_TYPE[wire_type], place)


def check_limit(count, most, state):
    if count > most:
        raise No(LIMIT, state.position)


def append(state, buffer, out):
    """The message's limit and the open row's, then the output's room; then the bytes."""
    after = state.position + len(out)
    check_limit(after - 4, MOST_MESSAGE, state)
    if state.stage == ROW_OPEN:
        check_limit(after - state.inner_at - 4, MOST_ROW, state)
    return replace(state, position=after), put(buffer, state.position, out)


def put(buffer, at, out):
    if at + len(out) > len(buffer):
        raise No(OUTPUT_SHORT, at + len(out))
    return buffer[:at] + out + buffer[at + len(out):]


def fill(buffer, at, n, size):
    return buffer[:at] + n.to_bytes(size, "big") + buffer[at + size:]
