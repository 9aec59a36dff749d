"""Scripts of writer steps (steps.py) that are given text.

    by_turns(step)     ->  (script, verdict) pairs: each text of generate_texts in a message of its own, in one field after another; the verdict
                           is the reader's on such a message
    in_order()         ->  (script, answer) pairs: of two faults the one that is found first, what isn't looked at, and the limits; the answer is
                           that of the last step
    torn(maker, step)  ->  the step with one of its texts torn; None if it has none
"""

import generate_texts
import steps
from encoder import encode
from wire import *
from writer import ARRAY_OPEN, CALL, ROW_OPEN, State, typed

# Which arguments of a step are text. Of the steps that take a value, it is the value if that is a string.
TEXT_ARGUMENTS = {"login": (2, 3), "login_reply": (6,), "begin_invocation": (1,), "begin_reply": (4, 6)}


def by_turns(step):
    for kind, record, verdict in generate_texts.held(step):
        yield [("buffer", (len(encode(kind, record)),)), *steps.spelled(kind, record), ("show", ())], verdict


def torn(maker, step):
    name, arguments = step
    if name in steps.VALUE_FUNCTIONS and arguments[0][0] == STRING:
        return name, ((STRING, maker.torn(arguments[0][1] or b"")),)
    if name in TEXT_ARGUMENTS:
        at = maker.rng.choice(TEXT_ARGUMENTS[name])
        return name, (*arguments[:at], maker.torn(arguments[at] or b""), *arguments[at + 1:])
    return None


# -- Which fault is found first.

TEXT, TORN = "café".encode(), b"caf\xc3"
LONGEST = b"x" * (MOST_BODY - 2) + "é".encode()
TOO_LONG, BOTH = LONGEST + b"x", LONGEST + b"\xc3"  # longer than a text may be; the same, and torn
HASH, CLIENT = bytes(20), bytes(8)
MOST_ROOM = MOST_MESSAGE + 4


def in_order():
    return steps.scripted((*logins(), *calls(), *replies(), *at_limits()))


def logins():
    for version, hash_version, service, user, hash_, answer in (
            (2, 0, TORN, TEXT, HASH, (BAD_VERSION, 0)), (1, 2, TORN, TEXT, HASH, (BAD_VERSION, 0)), (0, 2, TORN, TEXT, HASH, (BAD_TEXT, 0)),
            (0, 0, BOTH, TORN, HASH, (LIMIT, 0)), (0, 0, TORN, TOO_LONG, HASH, (BAD_TEXT, 0)), (0, 0, TEXT, BOTH, b"", (LIMIT, 0)),
            (0, 0, TEXT, TORN, b"", (BAD_TEXT, 0)), (0, 0, TEXT, TORN, HASH + b"h", (BAD_TEXT, 0)), (0, 0, TEXT, TEXT, b"", (NO_ROOM, 0)),
            (0, 0, TEXT, TEXT, HASH + b"h", (LEFT_OVER, 0)), (0, 0, TEXT, TEXT, HASH, "fine"), (0, 0, LONGEST, LONGEST, HASH, (OUTPUT_SHORT, 2097185))):
        yield 43, [("login", (version, hash_version, service, user, hash_))], answer
    for version, result, build, answer in (
            (2, 0, TORN, (BAD_VERSION, 0)), (0, 0, TORN, (BAD_TEXT, 0)), (0, 0, BOTH, (LIMIT, 0)), (0, 0, TEXT, "fine"),
            (0, 1, TORN, "fine"), (0, -1, BOTH, "fine"), (0, 0, LONGEST, (OUTPUT_SHORT, 34 + MOST_BODY))):
        yield 39, [("login_reply", (version, result, 0, 0, 0, bytes(4), build))], answer


def calls():
    for version, procedure, answer in (
            (2, TORN, (BAD_VERSION, 0)), (0, TORN, (BAD_TEXT, 0)), (0, BOTH, (LIMIT, 0)), (0, TEXT, "fine"), (0, LONGEST, (OUTPUT_SHORT, 1048595))):
        yield 24, [("begin_invocation", (version, procedure, CLIENT))], answer
    begun = ("begin_invocation", (0, b"", CLIENT))
    for wire_type, body, answer in (
            (STRING, TORN, (BAD_TEXT, 19)), (STRING, BOTH, (LIMIT, 19)), (STRING, TEXT, "fine"), (STRING, None, "fine"),
            (VARBINARY, TORN, "fine"), (GEOGRAPHY, TORN, "fine"), (VARBINARY, BOTH, (LIMIT, 19)), (INTEGER, TORN, (BAD_TYPE, 19))):
        yield 29, [begun, ("add_value", ((wire_type, body),))], answer
    yield 29, [("add_value", ((STRING, TORN),))], (WRONG_STAGE, 0)
    yield 29, [begun, ("open_array", (STRING,)), ("add_value", ((STRING, TORN),))], (WRONG_STAGE, 23)
    yield 29, [begun, ("add_byte_array", (TORN,))], "fine"
    for array_type, wire_type, body, answer in (
            (STRING, STRING, TORN, (BAD_TEXT, 23)), (STRING, STRING, BOTH, (LIMIT, 23)), (STRING, STRING, TEXT, "fine"),
            (STRING, VARBINARY, TORN, (BAD_TYPE, 23)), (VARBINARY, STRING, TORN, (BAD_TYPE, 23)), (VARBINARY, VARBINARY, TORN, "fine"),
            (GEOGRAPHY, GEOGRAPHY, TORN, "fine")):
        yield 32, [begun, ("open_array", (array_type,)), ("add_element", ((wire_type, body),))], answer


def replies():
    def begun(flags, status_string, application_string, exception):
        return "begin_reply", (0, CLIENT, flags, 1, status_string, 0, application_string, 0, exception)

    for flags, status_string, application_string, exception, answer in (
            (33, TORN, TEXT, b"", (BAD_FLAGS, 0)), (32, TORN, TEXT, b"", (BAD_TEXT, 0)), (32, BOTH, TEXT, b"", (LIMIT, 0)),
            (128, TEXT, TORN, b"", (BAD_TEXT, 0)), (128, TEXT, BOTH, b"", (LIMIT, 0)), (160, TORN, TOO_LONG, b"", (BAD_TEXT, 0)),
            (160, TOO_LONG, TORN, b"", (LIMIT, 0)), (160, None, TORN, b"", (BAD_TEXT, 0)), (224, TEXT, TORN, TOO_LONG, (BAD_TEXT, 0)),
            (224, TEXT, TEXT, TOO_LONG, (LIMIT, 0)), (224, TEXT, None, TORN, "fine"), (128, TORN, TEXT, BOTH, "fine"),
            (32, TEXT, TORN, BOTH, "fine"), (64, TORN, TORN, TORN, "fine"), (0, BOTH, BOTH, BOTH, "fine")):
        yield 60, [begun(flags, status_string, application_string, exception)], answer
    for column, wire_type, body, answer in (
            (STRING, STRING, TORN, (BAD_TEXT, 46)), (STRING, STRING, BOTH, (LIMIT, 46)), (STRING, STRING, TEXT, "fine"),
            (STRING, VARBINARY, TORN, (BAD_TYPE, 46)), (VARBINARY, STRING, TORN, (BAD_TYPE, 46)), (VARBINARY, VARBINARY, TORN, "fine"),
            (GEOGRAPHY, GEOGRAPHY, TORN, "fine")):
        opened = [begun(0, None, None, b""), ("open_table", (0, ((column, 0, 0),), b"")), ("open_row", ())]
        yield 55, [*opened, ("add_cell", ((wire_type, body),))], answer
        yield 55, [*opened[:2], ("add_cell", ((wire_type, body),))], (WRONG_STAGE, 42)
    yield 60, [*opened, ("add_cell", ((GEOGRAPHY, TORN),)), ("add_cell", ((STRING, TORN),))], (WRONG_STAGE, 54)


def at_limits():
    """Of a count, of the message, of a row, and of the buffer: a text's own faults come before them."""
    full_call = State(CALL, 19, 17, MOST_ITEMS)
    full_array = State(ARRAY_OPEN, 23, 17, 1, 21, STRING, MOST_ITEMS)
    long_call = State(CALL, MOST_ROOM - len(TEXT) - 4, 17, 0)
    long_array = State(ARRAY_OPEN, MOST_ROOM - len(TEXT) - 3, 17, 1, 21, STRING, 0)
    long_row = State(ROW_OPEN, 46 + MOST_ROW - len(TEXT) - 3, 20, 1, 42, 0, 0, 22, 38, 1, **typed(STRING))
    for room, state, name in ((100, full_call, "add_value"), (100, full_array, "add_element"), (MOST_ROOM, long_call, "add_value"),
                              (MOST_ROOM, long_array, "add_element"), (MOST_ROOM, long_row, "add_cell")):
        for body, number in ((TORN, BAD_TEXT), (TEXT, LIMIT), (BOTH, LIMIT)):
            yield room, [steps.forging(state), (name, ((STRING, body),))], (number, state.position)
    for room, body, answer in ((28, TORN, (BAD_TEXT, 19)), (28, TEXT, (OUTPUT_SHORT, 29)), (29, TEXT, "fine"), (MOST_ROOM, LONGEST, "fine")):
        yield room, [("begin_invocation", (0, b"", CLIENT)), ("add_value", ((STRING, body),))], answer
