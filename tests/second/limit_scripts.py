"""Scripts of writer steps (steps.py) at both sides of each limit, on forged states.

    in_order()  ->  (script, answer) pairs: each step at the end of the message, of its row, of its count and of the buffer, and where nothing is
                    open; the answer is that of the last step
"""

from dataclasses import replace

import steps
from wire import *
from writer import ARRAY_OPEN, CALL, REPLY_OPEN, ROW_OPEN, TABLE_OPEN, State, typed

MOST_ROOM = MOST_MESSAGE + 4

# What is open, each with nothing in it yet: a call, an array of integers, a reply, a table of one integer, a row of that, and that row with its cell; a
# table of as many integers as can be, and a row of that with all cells but one.
IN_CALL = State(CALL, 19, 17, 0)
IN_ARRAY = State(ARRAY_OPEN, 23, 17, 1, 21, INTEGER, 0)
IN_REPLY = State(REPLY_OPEN, 22, 20, 0)
IN_TABLE = State(TABLE_OPEN, 42, 20, 1, table_at=22, rows_at=38, **typed(INTEGER))
IN_ROW = replace(IN_TABLE, stage=ROW_OPEN, position=46, inner_at=42, rows=1)
FULL_ROW = replace(IN_ROW, position=50, inner_count=1)
WIDE_TABLE = replace(IN_TABLE, position=37 + 5 * MOST_COLUMNS, rows_at=33 + 5 * MOST_COLUMNS, **typed(*[INTEGER] * MOST_COLUMNS))
WIDE_ROW = replace(WIDE_TABLE, stage=ROW_OPEN, position=WIDE_TABLE.position + 4 * MOST_COLUMNS, inner_at=WIDE_TABLE.position, rows=1,
                   inner_count=MOST_COLUMNS - 1)
FULL_WIDE_ROW = replace(WIDE_ROW, position=WIDE_ROW.position + 4, inner_count=MOST_COLUMNS)
WIDE_OPENING = "open_table", (0, ((INTEGER, 0, 0),) * MOST_COLUMNS, b"")

# A step, the state that permits it, how many bytes it writes, and the count that it raises, with its limit.
STEPS = (
    (("add_null", ()), IN_CALL, 1, ("count", MOST_ITEMS)),
    (("add_value", ((TINYINT, 7),)), IN_CALL, 2, ("count", MOST_ITEMS)),
    (("add_value", ((STRING, None),)), IN_CALL, 5, ("count", MOST_ITEMS)),
    (("add_byte_array", (b"",)), IN_CALL, 6, ("count", MOST_ITEMS)),
    (("open_array", (INTEGER,)), IN_CALL, 4, ("count", MOST_ITEMS)),
    (("finish_invocation", ()), IN_CALL, 0, None),
    (("add_element", ((INTEGER, 7),)), IN_ARRAY, 4, ("inner_count", MOST_ITEMS)),
    (("add_element", ((VARBINARY, b""),)), replace(IN_ARRAY, inner_type=VARBINARY), 4, ("inner_count", MOST_ITEMS)),
    (("close_array", ()), IN_ARRAY, 0, None),
    (("open_table", (0, (), b"")), IN_REPLY, 15, ("count", MOST_ITEMS)),
    (("finish_reply", ()), IN_REPLY, 0, None),
    (("open_row", ()), IN_TABLE, 4, ("rows", MOST_ROWS)),
    (("close_table", ()), IN_TABLE, 0, None),
    (("add_cell", ((INTEGER, 7),)), IN_ROW, 4, None),
    (("add_cell", ((STRING, None),)), replace(IN_ROW, **typed(STRING)), 4, None),
    (("close_row", ()), FULL_ROW, 0, None),
    (WIDE_OPENING, IN_REPLY, WIDE_TABLE.position - IN_REPLY.position, ("count", MOST_ITEMS)),
    (("open_row", ()), WIDE_TABLE, 4, ("rows", MOST_ROWS)),
    (("close_table", ()), WIDE_TABLE, 0, None),
    (("add_cell", ((INTEGER, 7),)), WIDE_ROW, 4, None),
    (("close_row", ()), FULL_WIDE_ROW, 0, None),
)


def in_order():
    return steps.scripted(triple for step in STEPS for triple in (*at_the_end(*step), *past_a_count(*step), *past_a_row(*step)))


def at_the_end(step, state, size, _):
    """Of the message, in a buffer that is longer; of the buffer; and with nothing open."""
    last = replace(state, position=MOST_ROOM - size)
    if state.stage == ROW_OPEN:  # its row begins late enough
        last = replace(last, inner_at=last.position - 100)
    past = replace(last, position=last.position + 1)
    yield MOST_ROOM + 100, [steps.forging(last), step], "fine"
    yield MOST_ROOM + 100, [steps.forging(past), step], (LIMIT, past.position)
    reached = state.position + size
    yield reached, [steps.forging(state), step], "fine"
    yield reached - 1, [steps.forging(state), step], (OUTPUT_SHORT, reached) if size else (WRONG_STAGE, reached)
    yield reached, [step], (WRONG_STAGE, 0)


def past_a_count(step, state, size, counted):
    if counted:
        count, most = counted
        room = state.position + size
        yield room, [steps.forging(replace(state, **{count: most - 1})), step], "fine"
        yield room, [steps.forging(replace(state, **{count: most})), step], (LIMIT, state.position)
        yield room, [steps.forging(replace(state, **{count: most + 1})), step], (WRONG_STAGE, state.position)


def past_a_row(step, state, size, _):
    if state.stage == ROW_OPEN:
        last = state.inner_at + 4 + MOST_ROW - size
        yield MOST_ROOM, [steps.forging(replace(state, position=last)), step], "fine"
        yield MOST_ROOM, [steps.forging(replace(state, position=last + 1)), step], (LIMIT, last + 1)
