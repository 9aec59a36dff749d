"""Scripts of writer steps: as Python lists, as lines of text, and run on the second writer.

A script is a list of steps, each (name, arguments). Its text has one step a line: the name and its arguments, one space between.
Numbers are decimal; bytes are hexadecimal, `-` if empty and `null` if null; a value is its wire type, `:` and the value (a float
its 64 bits in hexadecimal, a point two such with a comma between, a null one too; the bare bits of a number `#` and they); a list has
commas between its entries, `-` if empty.

    buffer SIZE                                         a new buffer, byte i holding i mod 251; no state
    login VERSION HASHVERSION SERVICE USER HASH         the two logins are whole messages from 0
    login_reply VERSION RESULT HOST CONNECTION START LEADER BUILD
    begin_invocation VERSION PROCEDURE CLIENT
    begin_reply VERSION CLIENT FLAGS STATUS STATUSSTRING APPLICATION APPLICATIONSTRING ROUNDTRIP EXCEPTION
    add_null | add_value VALUE | add_byte_array BYTES | open_array TYPE | add_element VALUE | close_array
    open_table STATUS COLUMNS NAMES                     a column is TYPE/START/SIZE
    finish_invocation | open_row | add_cell VALUE | close_row | close_table | finish_reply
    whole_row NUMBERS BYTES                             two numbers for a cell; bodies stand in the bytes
    forge STAGE POSITION COUNTAT COUNT INNERAT INNERTYPE INNERCOUNT TABLEAT ROWSAT ROWS COLUMNS TYPES
                                                        sets the whole state, whatever it is; TYPES are MOST_COLUMNS bytes
    show                                                the position, and the buffer's bytes

What is answered, a line a step: `fine`, or `refused NUMBER PLACE`; for `buffer` and `forge` nothing; for `show` the position, a space
and the buffer in hexadecimal. A program prints the name of the exported function before a step's answer, and after it a line with what it left
(`left`).

For a program, `packed` makes each step a frame (frames.py): a byte that names the step (its place in NAMES), then its arguments: a
number as 8 bytes; bytes as a length of 4 bytes (-1 null) and the bytes; a value as its wire type and a byte, 0 before 16 bytes of a number
and 1 before bytes; columns as their number in 4 bytes, then for each its type and two numbers; a list of numbers as their number in 4 bytes, and
they.
"""

import struct
import zlib
from dataclasses import astuple, replace

import encoder
import writer
from wire import *
from writer import ARRAY_OPEN, CALL, NULL_SIZE, ROW_OPEN, TABLE_OPEN, Bits, No, State

WHOLE = {"login": writer.write_login, "login_reply": writer.write_login_reply}
BEGINNINGS = {"begin_invocation": writer.begin_invocation, "begin_reply": writer.begin_reply}
STEPS = {step.__name__: step for step in (
    writer.add_null, writer.add_value, writer.add_byte_array, writer.open_array, writer.add_element, writer.close_array,
    writer.finish_invocation, writer.open_table, writer.open_row, writer.add_cell, writer.close_row, writer.whole_row, writer.close_table,
    writer.finish_reply)}
NO_STEPS = ("buffer", "forge", "show")

# The exported functions of the steps, where they have another name; of a value there are two, for bits and for a body.
FUNCTIONS = {"login": "write_login_request", "login_reply": "write_login_response", "begin_invocation": "begin_call", "add_null": "null_param",
             "add_byte_array": "bytes_param", "finish_invocation": "finish_call"}
VALUE_FUNCTIONS = {"add_value": "param", "add_element": "element", "add_cell": "cell"}
NAMES = (*NO_STEPS, *WHOLE, *BEGINNINGS, *STEPS)
NO_STATE = State(writer.CLOSED, 0)


class Numbers(tuple):
    """A list of numbers without a sign, which a step is lent."""


def fresh(size):
    return (bytes(range(251)) * (size // 251 + 1))[:size]


def walked(script):
    """After each step, the answer of the second writer, and the state and the buffer that it leaves. What is no step has no answer."""
    state, buffer = NO_STATE, b""
    for name, arguments in script:
        answer = None
        if name == "buffer":
            state, buffer = NO_STATE, fresh(*arguments)
        elif name == "forge":
            state = State(*arguments)
        elif name == "show":
            answer = "%d %s" % (state.position, buffer.hex() or "-")
        else:
            try:
                if name in WHOLE:
                    buffer = WHOLE[name](buffer, *arguments)
                elif name in BEGINNINGS:
                    begun, buffer = BEGINNINGS[name](buffer, *arguments)
                    state = replace(begun, types=state.types)  # it isn't lent them
                else:
                    state, buffer = STEPS[name](state, buffer, *arguments)
                answer = "fine"
            except No as no:
                answer = refused(*no.answer)
        yield answer, state, buffer


def run(script):
    """The answers of the second writer, and the state and the buffer that it leaves."""
    answers, state, buffer = [], NO_STATE, b""
    for answer, state, buffer in walked(script):
        if answer is not None:
            answers.append(answer)
    return answers, state, buffer


def scripted(triples):
    """(script, answer) pairs of (room, steps, answer): the answer of the last step is to be `fine`, or the number and the place of a refusal."""
    for room, taken, answer in triples:
        yield [("buffer", (room,)), *taken], answer if answer == "fine" else refused(*answer)


def lines(script):
    """What a program must print for a script: each answer, that of a step behind its function's name, and then what it left."""
    for (name, arguments), (answer, state, buffer) in zip(script, walked(script)):
        if name not in NO_STEPS:
            yield "%s %s" % (function(name, arguments), answer)
            yield left(state, buffer)
        elif answer is not None:
            yield answer


def function(name, arguments):
    """The name of the exported function that takes a step."""
    if name in VALUE_FUNCTIONS:
        return ("body_" if is_body(arguments[0][1]) else "fixed_") + VALUE_FUNCTIONS[name]
    return FUNCTIONS.get(name, name)


def is_body(it):
    return it is None or isinstance(it, bytes)


def left(state, buffer):
    """The stage, the position, what is open at that stage, and the checksums of all types, whatever is open, and of the buffer."""
    s, words = state, [state.stage, state.position]
    if CALL <= s.stage <= ROW_OPEN:
        words += [s.count_at, s.count]
    if s.stage == ARRAY_OPEN:
        words += [s.inner_at, s.inner_type % 2**64, s.inner_count]
    if s.stage == ROW_OPEN:
        words += [s.inner_at, s.inner_count]
    if s.stage in (TABLE_OPEN, ROW_OPEN):
        words += [s.table_at, s.rows_at, s.rows, s.columns]
    return " ".join(map(str, words)) + " %08x %08x" % (zlib.crc32(s.types), zlib.crc32(buffer))


def forging(state, **changes):
    """The step that sets `state`, with some fields changed."""
    return "forge", astuple(replace(state, **changes))


def cell_by_cell(values):
    """The steps that write a row."""
    return [("open_row", ()), *[("add_cell", (value,)) for value in values], ("close_row", ())]


def in_one(values):
    """The step that writes a row whole; its bodies stand one behind the other, with nothing else."""
    numbers, lent = [], b""
    for wire_type, it in values:
        numbers += pair(wire_type, it, len(lent))
        lent += it if isinstance(it, bytes) else b""
    return [("whole_row", (Numbers(numbers), lent))]


def pair(wire_type, it, start):
    """The two numbers for a value in a whole row, the body of which starts there; the start of a null isn't looked at."""
    if is_body(it):
        return start, NULL_SIZE if it is None else len(it)
    return divmod(int.from_bytes(bits_of(wire_type, it), "big"), 2**64)


def bits_of(wire_type, it):
    return it.to_bytes(16, "big") if isinstance(it, Bits) else encoder.value(wire_type, it)


def spelled(kind, record, row=cell_by_cell):
    """The steps that write a record, those of a row as `row` has them."""
    if kind == LOGIN:
        return [("login", (record["version"], record.get("hash_version", 0), record["service"], record["user"], record["hash"]))]
    if kind == LOGIN_REPLY:
        return [("login_reply", (record["version"], record["result"], record.get("host", 0), record.get("connection", 0),
                                 record.get("start", 0), record.get("leader", bytes(4)), record.get("build", b"")))]
    script = []
    if kind == INVOCATION:
        script.append(("begin_invocation", (record["version"], record["procedure"], record["client_data"])))
        for wire_type, it in record["parameters"]:
            script += spelled_parameter(wire_type, it)
    else:
        script.append(("begin_reply", (
            record["version"], record["client_data"], record["flags"], record["status"], record.get("status_string"),
            record["application"], record.get("application_string"), record["round_trip"], record.get("exception", b""))))
        for table in record["tables"]:
            script += spelled_table(table, row)
    return script + [("finish_invocation" if kind == INVOCATION else "finish_reply", ())]


def spelled_parameter(wire_type, it):
    if wire_type == NULL:
        return [("add_null", ())]
    if wire_type != ARRAY:
        return [("add_value", (given(wire_type, it),))]
    element_type, elements = it
    if element_type == TINYINT:
        return [("add_byte_array", (elements,))]
    return [("open_array", (element_type,)), *[("add_element", (given(element_type, e),)) for e in elements], ("close_array", ())]


def spelled_table(table, spelled_row):
    names, columns = b"", []
    for wire_type, name in zip(table["types"], table["names"]):
        columns.append((wire_type, len(names), len(name)))
        names += name
    script = [("open_table", (table["status"], tuple(columns), names))]
    for row in table["rows"]:
        script += spelled_row([*map(given, table["types"], row)])
    return script + [("close_table", ())]


def given(wire_type, it):
    """A record's value as a step takes it: a null point by its numbers, as a position."""
    return wire_type, NULL_POINT if wire_type == POINT and it is None else it


# -- Text.

def text(script):
    return "".join(" ".join([name, *map(word, arguments)]) + "\n" for name, arguments in script)


def word(argument):
    if argument is None:
        return "null"
    if isinstance(argument, bytes):
        return argument.hex() or "-"
    if isinstance(argument, Numbers):
        return ",".join(map(str, argument)) or "-"
    if isinstance(argument, tuple) and len(argument) == 2 and not isinstance(argument[0], tuple):
        return "%d:%s" % (argument[0], value_word(*argument))
    if isinstance(argument, tuple):
        return ",".join("%d/%d/%d" % column for column in argument) or "-"
    return str(argument)


def value_word(wire_type, it):
    if isinstance(it, Bits):
        return "#%x" % it
    if wire_type == FLOAT:
        return "%016x" % it
    if wire_type == POINT:
        return "%s,%s" % tuple(struct.pack(">d", degrees).hex() for degrees in it)
    return word(it)


# -- Frames.

def packed(script):
    out = b""
    for name, arguments in script:
        body = bytes([NAMES.index(name)]) + b"".join(map(packed_argument, arguments))
        out += len(body).to_bytes(4, "big") + body
    return out


def packed_argument(argument):
    if argument is None or isinstance(argument, bytes):
        return encoder.counted(argument)
    if isinstance(argument, Numbers):
        return len(argument).to_bytes(4, "big") + b"".join(map(packed_argument, argument))
    if isinstance(argument, tuple) and len(argument) == 2 and not isinstance(argument[0], tuple):
        return encoder.number(argument[0], 1) + packed_value(*argument)
    if isinstance(argument, tuple):
        columns = [encoder.number(t, 1) + start.to_bytes(8, "big") + size.to_bytes(8, "big") for t, start, size in argument]
        return len(columns).to_bytes(4, "big") + b"".join(columns)
    return (argument % 2**64).to_bytes(8, "big")


def packed_value(wire_type, it):
    if is_body(it):
        return b"\1" + encoder.counted(it)
    return b"\0" + bits_of(wire_type, it).rjust(16, b"\0")
