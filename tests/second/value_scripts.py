"""Scripts of writer steps (steps.py) that are given what breaks a rule of its own: flags, a column's name, a decimal, a point, a geography.

    by_turns()            ->  (script, verdict) pairs: each value of generate_values in a message of its own; the verdict is the reader's on it
    in_order()            ->  (script, answer) pairs: of two faults the one that is found first, and the limits; the answer is that of the last step
    spoiled(maker, step)  ->  the step with something that is refused in place of its own; None if it has nothing with such a rule
"""

import generate_values
import steps
from encoder import encode, value
from wire import *
from writer import ARRAY_OPEN, CALL, REPLY_OPEN, ROW_OPEN, Bits, State, typed


def by_turns():
    for kind, record, verdict in generate_values.held():
        yield [("buffer", (len(encode(kind, record)),)), *steps.spelled(kind, record), ("show", ())], verdict


def spoiled(maker, step):
    name, arguments = step
    if name in steps.VALUE_FUNCTIONS and arguments[0][0] in CAUSE_OF_TYPE:
        wire_type = arguments[0][0]
        return name, ((wire_type, maker.wrong(CAUSE_OF_TYPE[wire_type])),)
    if name == "begin_reply":
        version, client_data, _, *rest = arguments
        return name, (version, client_data, maker.wrong(BAD_FLAGS), *rest)
    if name == "open_table" and arguments[1]:
        status, columns, names = arguments
        bad, at = maker.wrong(BAD_NAME), maker.rng.randrange(len(columns))
        named = columns[at][0], len(names), len(bad)
        return name, (status, (*columns[:at], named, *columns[at + 1:]), names + bad)
    return None


# -- Which fault is found first.

CLIENT = bytes(8)
WRONG = {wire_type: wrong[0] for wire_type, wrong in generate_values.WRONG.items()}
RIGHT = {wire_type: right[0] for wire_type, right in generate_values.RIGHT.items()}
TORN, TOO_LONG = b"\xc3", bytes(MOST_BODY + 1)
MOST_ROOM = MOST_MESSAGE + 4
CALL_AT, ELEMENT_AT, REPLY_AT, CELL_AT = 19, 23, 22, 46  # where a call, an array and a reply that were just begun stand, and the first cell of a column

BEGIN_CALL = "begin_invocation", (0, b"", CLIENT)


def begin_reply(flags=0, version=0, status_string=None, exception=b""):
    return "begin_reply", (version, CLIENT, flags, 1, status_string, 0, None, 0, exception)


def in_order():
    return steps.scripted((*parameters(), *elements(), *beginnings(), *tables(), *cells(), *at_limits()))


def parameters():
    for wire_type, cause in CAUSE_OF_TYPE.items():
        wrong, right = WRONG[wire_type], RIGHT[wire_type]
        yield 100, [BEGIN_CALL, ("add_value", ((wire_type, wrong),))], (cause, CALL_AT)
        yield 100, [BEGIN_CALL, ("add_value", (steps.given(wire_type, right),))], "fine"
        yield 100, [BEGIN_CALL, ("add_value", ((INTEGER, 7),)), ("add_value", ((wire_type, wrong),))], (cause, CALL_AT + 5)
        yield 100, [("add_value", ((wire_type, wrong),))], (WRONG_STAGE, 0)
        yield 100, [BEGIN_CALL, ("open_array", (wire_type,)), ("add_value", ((wire_type, wrong),))], (WRONG_STAGE, ELEMENT_AT)
    # a value that has not the form of its type isn't held against its rule
    yield 100, [BEGIN_CALL, ("add_value", ((DECIMAL, b""),))], (BAD_TYPE, CALL_AT)
    yield 100, [BEGIN_CALL, ("add_value", ((POINT, None),))], (BAD_TYPE, CALL_AT)
    yield 100, [BEGIN_CALL, ("add_value", ((GEOGRAPHY, Bits(0)),))], (BAD_TYPE, CALL_AT)
    yield 100, [BEGIN_CALL, ("add_value", ((VARBINARY, b""),))], "fine"
    yield 100, [BEGIN_CALL, ("add_value", ((GEOGRAPHY, TOO_LONG),))], (LIMIT, CALL_AT)


def elements():
    for no_element in (TINYINT, ARRAY, NULL, 0):  # tinyints are elements in one step only
        yield 100, [BEGIN_CALL, ("open_array", (no_element,))], (BAD_TYPE, CALL_AT)
    for wire_type, cause in CAUSE_OF_TYPE.items():
        wrong, right = WRONG[wire_type], RIGHT[wire_type]
        opened = [BEGIN_CALL, ("open_array", (wire_type,))]
        yield 100, [*opened, ("add_element", ((wire_type, wrong),))], (cause, ELEMENT_AT)
        yield 100, [*opened, ("add_element", (steps.given(wire_type, right),))], "fine"
        yield 100, [BEGIN_CALL, ("add_element", ((wire_type, wrong),))], (WRONG_STAGE, CALL_AT)
        yield 100, [BEGIN_CALL, ("open_array", (STRING,)), ("add_element", ((wire_type, wrong),))], (BAD_TYPE, ELEMENT_AT)


def beginnings():
    for bit in range(8):
        flags = 1 << bit
        yield 100, [begin_reply(flags)], (BAD_FLAGS, 0) if flags & ~FLAGS else "fine"
        yield 100, [begin_reply(flags | FLAGS)], (BAD_FLAGS, 0) if flags & ~FLAGS else "fine"
    yield 100, [begin_reply(1, version=2)], (BAD_VERSION, 0)
    yield 100, [begin_reply(1 | FLAG_STATUS_STRING, status_string=TORN)], (BAD_FLAGS, 0)
    yield 100, [begin_reply(1 | FLAG_EXCEPTION, exception=TOO_LONG)], (BAD_FLAGS, 0)
    yield 0, [begin_reply(1)], (BAD_FLAGS, 0)
    yield 0, [begin_reply()], (OUTPUT_SHORT, REPLY_AT)


def tables():
    begun = begin_reply()
    for columns, names, answer in (
            (((TINYINT, 0, 1),), b"\x7f", "fine"), (((TINYINT, 0, 1),), b"\x80", (BAD_NAME, REPLY_AT)),
            (((TINYINT, 0, 2), (TINYINT, 2, 2)), b"nnn\xff", (BAD_NAME, REPLY_AT)),
            (((TINYINT, 1, 2), (TINYINT, 1, 0)), b"\x80nn\x80", "fine"),  # what no name has isn't looked at
            (((TINYINT, 0, 1), (NULL, 0, 0)), b"\x80", (BAD_TYPE, REPLY_AT)),  # all types come before all names
            (((TINYINT, 0, 1), (TINYINT, 0, 2)), b"\x80", (BAD_NAME, REPLY_AT)), (((TINYINT, 0, 2), (TINYINT, 0, 1)), b"\x80", (PAST_END, 0)),
            (((TINYINT, 0, 1), (TINYINT, 0, MOST_BODY + 1)), b"\x80" + TOO_LONG, (BAD_NAME, REPLY_AT)),
            (((TINYINT, 0, MOST_BODY + 1), (TINYINT, 0, 1)), b"\x80" + TOO_LONG, (LIMIT, REPLY_AT)),
            (((TINYINT, 0, 1),) * (MOST_COLUMNS + 1), b"\x80", (LIMIT, REPLY_AT)),
            (((TINYINT, 0, 0),) * (MOST_COLUMNS - 1) + ((TINYINT, 0, 1),), b"\x80", (BAD_NAME, REPLY_AT))):
        yield 100, [begun, ("open_table", (0, columns, names))], answer
    bad = "open_table", (0, ((TINYINT, 0, 1),), b"\x80")
    yield 100, [bad], (WRONG_STAGE, 0)
    yield 100, [BEGIN_CALL, bad], (WRONG_STAGE, CALL_AT)


def cells():
    for wire_type, cause in CAUSE_OF_TYPE.items():
        wrong, right = WRONG[wire_type], RIGHT[wire_type]
        opened = [begin_reply(), ("open_table", (0, ((wire_type, 0, 0),), b"")), ("open_row", ())]
        yield 100, [*opened, ("add_cell", ((wire_type, wrong),))], (cause, CELL_AT)
        yield 100, [*opened, ("add_cell", (steps.given(wire_type, right),))], "fine"
        yield 100, [*opened, ("add_cell", (steps.given(wire_type, right),)), ("add_cell", ((wire_type, wrong),))], (
            WRONG_STAGE, CELL_AT + len(value(wire_type, right)))
        yield 100, [*opened[:2], ("add_cell", ((wire_type, wrong),))], (WRONG_STAGE, CELL_AT - 4)
        other = [begin_reply(), ("open_table", (0, ((STRING, 0, 0),), b"")), ("open_row", ())]
        yield 100, [*other, ("add_cell", ((wire_type, wrong),))], (BAD_TYPE, CELL_AT)


def at_limits():
    """Of a count, of the message, of a row, and of the buffer: a value's own rule comes before them, and so does a name's."""
    for wire_type, cause in CAUSE_OF_TYPE.items():
        size = len(value(wire_type, RIGHT[wire_type]))
        full_call = State(CALL, 19, 17, MOST_ITEMS)
        full_array = State(ARRAY_OPEN, 23, 17, 1, 21, wire_type, MOST_ITEMS)
        long_call = State(CALL, MOST_ROOM - size, 17, 0)
        long_array = State(ARRAY_OPEN, MOST_ROOM - size + 1, 17, 1, 21, wire_type, 0)
        long_row = State(ROW_OPEN, 46 + MOST_ROW - size + 1, 20, 1, 42, 0, 0, 22, 38, 1, **typed(wire_type))
        for room, state, name in ((100, full_call, "add_value"), (100, full_array, "add_element"), (MOST_ROOM, long_call, "add_value"),
                                  (MOST_ROOM, long_array, "add_element"), (MOST_ROOM, long_row, "add_cell")):
            yield room, [steps.forging(state), (name, ((wire_type, WRONG[wire_type]),))], (cause, state.position)
            yield room, [steps.forging(state), (name, (steps.given(wire_type, RIGHT[wire_type]),))], (LIMIT, state.position)
        yield CALL_AT + size, [BEGIN_CALL, ("add_value", ((wire_type, WRONG[wire_type]),))], (cause, CALL_AT)
        yield CALL_AT + size, [BEGIN_CALL, ("add_value", (steps.given(wire_type, RIGHT[wire_type]),))], (OUTPUT_SHORT, CALL_AT + size + 1)
    for room, state in ((100, State(REPLY_OPEN, 22, 20, MOST_ITEMS)), (MOST_ROOM, State(REPLY_OPEN, MOST_ROOM - 20, 20, 0))):
        for name, number in ((b"\x80", BAD_NAME), (b"\x7f", LIMIT)):
            yield room, [steps.forging(state), ("open_table", (0, ((TINYINT, 0, 1),), name))], (number, state.position)
    for name, answer in ((b"\x80", (BAD_NAME, REPLY_AT)), (b"\x7f", (OUTPUT_SHORT, REPLY_AT + 21))):
        yield REPLY_AT + 20, [begin_reply(), ("open_table", (0, ((TINYINT, 0, 1),), name))], answer
