"""Scripts of writer steps (steps.py) that write whole rows.

    by_turns(step)          ->  pairs of scripts, one that writes its rows cell by cell and one that writes the same whole: those of generate_texts, or
                                each step-th of these, of generate_values and of generate_columns, in messages of their own
    in_order()              ->  (script, answer) pairs: values and nulls of every type, bodies all over the lent bytes and past them, cells too few and
                                too many, of two faults the first, the limits, output that ends at each byte of a row, and forged states and types; the
                                answer is that of the last step
    scattered(rng, values)  ->  the step that writes a row whole, its bodies anywhere in the lent bytes
    spoiled(maker, values)  ->  the same with something that is refused
"""

import itertools
from dataclasses import replace

import generate_columns
import generate_texts
import generate_values
import steps
from cards import NEAR_COLUMNS, POSITIONS
from column_scripts import BEGIN, HUGE, IN_TABLE, NO_TYPES, ROOM, TINYINTS, reached
from encoder import encode, value
from generate import MANY_COLUMNS
from wire import *
from writer import ARRAY_OPEN, CALL, CLOSED, NULL_SIZE, REPLY_OPEN, ROW_OPEN, TABLE_OPEN, Bits

MOST_ROOM = MOST_MESSAGE + 4
ROW_HEAD = 4  # what opening a row writes


def by_turns(step):
    """Of the wrong columns each third, as in column_scripts."""
    columns = *generate_columns.of_each_number(), *list(generate_columns.wrong_columns())[::3]
    for kind, record, _ in (*generate_texts.held(step), *generate_values.held(), *columns):
        if kind == REPLY and any(table["rows"] for table in record["tables"]):
            buffer = "buffer", (len(encode(kind, record)),)
            yield tuple([buffer, *steps.spelled(kind, record, row), ("show", ())] for row in (steps.cell_by_cell, steps.in_one))


# -- Made up from a random source.

NO_TEXT = b"\xc3"  # torn, if a byte too many of it is taken for text


def scattered(rng, values):
    """In any order, with bytes between that are no text; now and then a number stands behind the last cell's."""
    lent, starts = b"", {}
    bodies = [it for _, it in values if isinstance(it, bytes)]
    for body in rng.sample(bodies, len(bodies)):
        lent += NO_TEXT * rng.choice((0, 0, 1, 9))
        starts[body] = len(lent)
        lent += body
    lent += NO_TEXT * rng.choice((0, 0, 1))
    numbers = [n for wire_type, it in values for n in steps.pair(wire_type, it, starts.get(it, rng.choice((0, len(lent), NULL_SIZE))))]
    return "whole_row", (steps.Numbers(numbers + [rng.getrandbits(64)] * (rng.random() < 0.2)), lent)


def spoiled(maker, values):
    """One of its cells; a cell too few or too many; or the last byte isn't lent, which is refused if a body has it."""
    rng, values = maker.rng, list(values)
    way = rng.choice(("cell", "cell", "cell", "few", "many", "lent")) if values else "many"
    if way == "cell":
        at = rng.randrange(len(values))
        values[at] = spoiled_cell(maker, *values[at])
    elif way == "few":
        values.pop()
    elif way == "many":
        values.append((0, Bits(rng.choice((0, NULL_SIZE, *PAST_ALL)))))
    name, (numbers, lent) = scattered(rng, values)
    return name, (numbers, lent[:-1] if way == "lent" else lent)


# A start and a size that no lent bytes have. Some have a sum that is small if it is cut to 64 or to 32 bits.
PAST_ALL = [start << 64 | size for start, size in (
    (2**32, 0), (2**64 - 1, 0), (0, 2**32), (2**32, 2**32), (2**63, 2**63), (1, 2**64 - 2), (2, 2**64 - 2), (3, 2**64 - 2), (2**64 - 1, 1),
    (2**64 - 1, 2))]


def spoiled_cell(maker, wire_type, it):
    """Of the same type, but by its own rule, by its bits, or for bytes that aren't lent."""
    rng = maker.rng
    if wire_type in CAUSE_OF_TYPE and (wire_type != GEOGRAPHY or rng.random() < 0.5):
        return wire_type, maker.wrong(CAUSE_OF_TYPE[wire_type])
    if wire_type == STRING and rng.random() < 0.5:
        return wire_type, maker.torn(it or b"")
    if wire_type in COUNTED_TYPES:
        return wire_type, Bits(rng.choice(PAST_ALL))
    return wire_type, Bits(rng.randrange(256**FIXED_SIZES.get(wire_type, 1), 2**128))


# -- In their order.

def in_order():
    return steps.scripted((
        *of_every_type(), *body_places(), *far_places(), *long_bodies(), *cell_values(), *cells_too_few_or_many(), *first_faults(),
        *ends_of_output(), *ends_of_message(), *ends_of_rows(), *row_counts(), *many_columns(), *forged_states(), *forged_types()))


def opened(*types):
    """The steps that open a table of such columns. Its first row would begin at `reached(len(types))`, and the first cell of that ROW_HEAD behind."""
    return [BEGIN, ("open_table", (0, tuple((wire_type, 0, 0) for wire_type in types), b""))]


def whole(*pairs, lent=b"", odd=()):
    return "whole_row", (steps.Numbers((*itertools.chain(*pairs), *odd)), lent)


def written_whole(values):
    """A table of the columns of some values, and a row of these."""
    return opened(*(wire_type for wire_type, _ in values)) + steps.in_one(values)


def sizes(values):
    """How many bytes the steps of a row write, one after the other."""
    return [ROW_HEAD, *(len(value(*it)) for it in values)]


def end(values):
    """Where the reply stands behind the first row."""
    return reached(len(values)) + sum(sizes(values))


def stopped(at, sizes, most, refusal):
    """The answer of a row that stands there, whose steps write so much, if no step may reach further than `most`: the first that does is refused."""
    for size in sizes:
        if at + size > most:
            return refusal(at, at + size)
        at += size
    return "fine"


EVERY = [
    (TINYINT, -5), (SMALLINT, -300), (INTEGER, -70_000), (BIGINT, -1), (FLOAT, 0xBFE0000000000000), (STRING, "Ærø".encode()), (TIMESTAMP, -2**63),
    (DECIMAL, -MOST_DECIMAL), (VARBINARY, b"\x00\xff\x80"), (POINT, (12.5, -55.75)), (GEOGRAPHY, b"\xc0\x01")]
NULLS = [(STRING, None), (DECIMAL, NULL_DECIMAL), (VARBINARY, None), (POINT, NULL_POINT), (GEOGRAPHY, None)]
EMPTIES = [(STRING, b""), (VARBINARY, b""), (VARBINARY, None), (STRING, None), (GEOGRAPHY, b"\0"), (STRING, b"")]


def of_every_type():
    """Each alone, and together in both orders; then rows of both ways in one table, whose message is finished."""
    for values in (EVERY, EVERY[::-1], NULLS, NULLS[::-1], EMPTIES, *([it] for it in EVERY + NULLS + EMPTIES)):
        yield end(values), written_whole(values), "fine"
        rows = [*steps.in_one(values), *steps.cell_by_cell(values), *steps.in_one(values)]
        room = end(values) + 3 * sum(sizes(values))
        yield room, [*written_whole(values), *rows, ("close_table", ()), ("finish_reply", ())], "fine"


LENT = "aéb".encode()


def body_places():
    """At each start, of each size: what ends by the end of the lent bytes is theirs, and a text may not cut a character."""
    for wire_type, lent in itertools.product(COUNTED_TYPES, (LENT, b"")):
        cell_at = reached(1) + ROW_HEAD
        for start, size in itertools.product(range(len(lent) + 3), repeat=2):
            body = lent[start:start + size]
            answer = ((PAST_END, 0) if start + size > len(lent) else (BAD_TEXT, cell_at) if wire_type == STRING and not is_text(body)
                      else (BAD_GEOGRAPHY, cell_at) if wire_type == GEOGRAPHY and size == 0 else "fine")
            yield 100, [*opened(wire_type), whole((start, size), lent=lent)], answer
            # the same body twice, and behind a null
            yield 100, [*opened(wire_type, wire_type), whole((start, size), (start, size), lent=lent)], moved(answer, 5)
            yield 100, [*opened(wire_type, wire_type), whole((start, NULL_SIZE), (start, size), lent=lent)], moved(answer, 5 + 4)


def is_text(body):
    try:
        body.decode()
        return True
    except UnicodeDecodeError:
        return False


def moved(answer, by):
    """The same answer, so many bytes behind."""
    return answer if answer == "fine" else refused_at(answer[0], answer[1] + by)


def far_places():
    """Far past the lent bytes, where a sum that wraps would be among them. A null may start anywhere."""
    far = (0, 1, len(LENT), 2**16, 2**31, 2**32, 2**32 + 1, *HUGE, *(2**64 - few for few in range(1, len(LENT) + 3)))
    for wire_type, start, size in itertools.product(COUNTED_TYPES, far, far):
        if start + size > len(LENT):
            yield 100, [*opened(wire_type), whole((start, size), lent=LENT)], "fine" if size == NULL_SIZE else (PAST_END, 0)


def long_bodies():
    """One that is too long is refused so, if it is lent; whatever it says."""
    lent = b"x" * MOST_BODY + NO_TEXT
    for wire_type in COUNTED_TYPES:
        for start, size, answer in ((0, MOST_BODY, "fine"), (0, MOST_BODY + 1, (LIMIT, reached(1) + ROW_HEAD)), (1, MOST_BODY + 1, (PAST_END, 0))):
            yield MOST_ROOM, [*opened(wire_type), whole((start, size), lent=lent)], answer


def cell_values():
    """Bits that just fit their type, and that don't: none is cut. All bits set are a number, where a body would be null. Then values at the edges of
    their own rules."""
    cell_at = reached(1) + ROW_HEAD
    for wire_type, size in FIXED_SIZES.items():
        if size < 16:
            most = 256**size
            for bits in (0, 1, most // 2, most - 1, most, most + 1, 2**64 - 1, 2**64, 2**64 + 1, 2**127, 2**128 - 2**64, 2**128 - 1):
                yield 100, [*opened(wire_type), *steps.in_one([(wire_type, Bits(bits))])], "fine" if bits < most else (BAD_TYPE, cell_at)
    for wire_type, cause in CAUSE_OF_TYPE.items():
        for given, answer in ((generate_values.RIGHT, "fine"), (generate_values.WRONG, (cause, cell_at))):
            for it in given[wire_type]:
                yield 100, written_whole([steps.given(wire_type, it)]), answer


def cells_too_few_or_many():
    """Up to two more than there are columns, each time without and with a number behind them. What stands behind the last type is no type."""
    for columns, cells, odd, (wire_type, pair, size) in itertools.product(
            range(4), range(6), ((), (7,)), ((TINYINT, (0, 7), 1), (VARBINARY, (2**63, NULL_SIZE), 4), (STRING, (1, 0), 4))):
        if cells <= columns + 2:
            row_at = reached(columns) + ROW_HEAD
            answer = "fine" if cells == columns else (WRONG_STAGE, row_at + size * min(cells, columns))
            yield 100, [*opened(*[wire_type] * columns), whole(*[pair] * cells, lent=b"x", odd=odd)], answer
    for columns, behind in itertools.product((0, 1, 2), COUNTED_TYPES):
        state = replace(IN_TABLE, columns=columns, types=TINYINTS[:columns] + bytes([behind]) * (MOST_COLUMNS - columns))
        for pair in ((0, 0), (0, 1), (1, 0), (0, NULL_SIZE), (2**64 - 1, 1)):
            place = state.position + ROW_HEAD + columns
            yield ROOM, [steps.forging(state), whole(*[(0, 7)] * columns, pair)], (WRONG_STAGE, place)


# Each fault of a cell: its column's type, the value, how it is refused, and a value of that type that is right.
PAST = Bits(1 << 64 | 2**32)
FAULTS = [
    *((wire_type, Bits(256**size), BAD_TYPE, 7) for wire_type, size in FIXED_SIZES.items() if size < 16), (STRING, NO_TEXT, BAD_TEXT, b"x"),
    (STRING, PAST, PAST_END, None), (VARBINARY, PAST, PAST_END, b""), (GEOGRAPHY, PAST, PAST_END, b"x"),
    *((wire_type, generate_values.WRONG[wire_type][0], cause, steps.given(wire_type, generate_values.RIGHT[wire_type][0])[1])
      for wire_type, cause in CAUSE_OF_TYPE.items())]


def refused_at(number, place):
    """What isn't lent has no place."""
    return number, 0 if number == PAST_END else place


def first_faults():
    """Of two faults the first cell's, whichever it is; a row that lacks a cell or has one too many is refused so behind all of its cells; and before
    all of them comes what refuses to open it."""
    for (wire_type, wrong, number, right), (other_type, other_wrong, other_number, other_right) in itertools.product(FAULTS, repeat=2):
        types, cell_at = (wire_type, other_type), reached(2) + ROW_HEAD
        behind = cell_at + len(value(wire_type, right))
        for values, answer in (
                ([(wire_type, wrong), (other_type, other_wrong)], refused_at(number, cell_at)),
                ([(wire_type, wrong), (other_type, other_right)], refused_at(number, cell_at)),
                ([(wire_type, right), (other_type, other_wrong)], refused_at(other_number, behind)),
                ([(wire_type, right), (other_type, other_right)], "fine"),
                ([(wire_type, wrong)], refused_at(number, cell_at)),
                ([(wire_type, right)], (WRONG_STAGE, behind)),
                ([(wire_type, right), (other_type, other_wrong), (other_type, other_wrong)], refused_at(other_number, behind)),
                ([(wire_type, right), (other_type, other_right), (other_type, other_wrong)],
                 (WRONG_STAGE, behind + len(value(other_type, other_right))))):
            yield 120, [*opened(*types), *steps.in_one(values)], answer
    for wire_type, wrong, *_ in FAULTS:
        row = steps.in_one([(wire_type, wrong)])
        yield 100, row, (WRONG_STAGE, 0)
        yield 100, [BEGIN, *row], (WRONG_STAGE, reached(0) - 15)
        yield 100, [*opened(wire_type), ("open_row", ()), *row], (WRONG_STAGE, reached(1) + ROW_HEAD)
        yield reached(1) + ROW_HEAD - 1, [*opened(wire_type), *row], (OUTPUT_SHORT, reached(1) + ROW_HEAD)
        state = replace(IN_TABLE, rows=MOST_ROWS, columns=1, types=bytes([wire_type]) + TINYINTS[1:])
        yield ROOM, [steps.forging(state), *row], (LIMIT, state.position)


# -- Where a row ends.

def ends_of_output():
    """At each byte of a row, which is then written nowhere; what is wrong with a cell comes before its room, and behind that of those before it."""
    for values in (EVERY, EVERY[::-1], NULLS, EMPTIES):
        row_at = reached(len(values))
        for room in range(row_at, end(values) + 1):
            yield room, written_whole(values), stopped(row_at, sizes(values), room, lambda _, after: (OUTPUT_SHORT, after))
    for wire_type, wrong, number, right in FAULTS:
        row_at = reached(2)
        for room in range(row_at, row_at + 30):
            answer = stopped(row_at, [ROW_HEAD, 4], room, lambda _, after: (OUTPUT_SHORT, after))
            answer = refused_at(number, row_at + ROW_HEAD + 4) if answer == "fine" else answer
            yield room, [*opened(INTEGER, wire_type), *steps.in_one([(INTEGER, 7), (wire_type, wrong)])], answer


def ends_of_message():
    """The message's limit, at each byte of a row; it comes before the output's end."""
    values = [(INTEGER, 7), (STRING, None), (STRING, b"xy")]
    types = bytes(wire_type for wire_type, _ in values)
    for position in range(MOST_ROOM - sum(sizes(values)), MOST_ROOM + 1):
        state = replace(IN_TABLE, position=position, columns=len(values), types=types + TINYINTS[len(types):])
        for room in (MOST_ROOM + 100, position):
            answer = stopped(position, sizes(values), MOST_ROOM, lambda before, _: (LIMIT, before))
            if room == position and answer != (LIMIT, position):
                answer = OUTPUT_SHORT, position + ROW_HEAD
            yield room, [steps.forging(state), *steps.in_one(values)], answer


def ends_of_rows():
    """The row's limit, around its last cell; it comes before the output's end. Bodies may share what is lent."""
    most = reached(3) + ROW_HEAD + MOST_ROW
    for last, pair, size in ((VARBINARY, (0, NULL_SIZE), 4), (TINYINT, (0, 7), 1), (DECIMAL, (0, 7), 16)):
        for over in sorted({-1, 0, 1, size, size + 1}):  # how many bytes more than a row may have
            second = MOST_ROW - (4 + MOST_BODY) - 4 - size + over
            answer = stopped(reached(3), [ROW_HEAD, 4 + MOST_BODY, 4 + second, size], most, lambda before, _: (LIMIT, before))
            yield most, [*opened(VARBINARY, VARBINARY, last), whole((0, MOST_BODY), (0, second), pair, lent=bytes(MOST_BODY))], answer


def row_counts():
    state = replace(IN_TABLE, columns=1, types=TINYINTS)
    for rows, answer in ((0, "fine"), (MOST_ROWS - 1, "fine"), (MOST_ROWS, (LIMIT, state.position)), (MOST_ROWS + 1, (WRONG_STAGE, state.position)),
                         *((huge, (WRONG_STAGE, state.position)) for huge in HUGE if huge > MOST_ROWS)):
        yield ROOM, [steps.forging(replace(state, rows=rows)), whole((0, 7))], answer


def many_columns():
    """In just enough room and in a byte less; with a cell too few, and one too many, and a number behind them; and with something wrong at last."""
    for columns in (NEAR_COLUMNS - 1, NEAR_COLUMNS, *MANY_COLUMNS):
        values = list(itertools.islice(itertools.cycle(EVERY), columns))
        *before, (last_type, last) = values
        table, room = opened(*(wire_type for wire_type, _ in values)), end(values)
        last_at = room - len(value(last_type, last))
        (name, (numbers, lent)), = steps.in_one(values)
        yield room, [*table, (name, (numbers, lent))], "fine"
        yield room, [*table, (name, (steps.Numbers((*numbers, 7)), lent))], "fine"
        yield room - 1, [*table, (name, (numbers, lent))], (OUTPUT_SHORT, room)
        yield room, [*table, *steps.in_one(before)], (WRONG_STAGE, last_at)
        yield room + 9, [*table, (name, (steps.Numbers((*numbers, 0, 0)), lent))], (WRONG_STAGE, room)
        wrong, number = next((wrong, number) for wire_type, wrong, number, _ in FAULTS if wire_type == last_type)
        yield room, [*table, *steps.in_one([*before, (last_type, wrong)])], refused_at(number, last_at)


# -- Forged states: a table of tinyints that is open, somewhere in a buffer that is long enough.

def forged_states():
    """Every other stage, each place and each count at both sides of what permits the step, and what isn't looked at."""
    state = replace(IN_TABLE, columns=2, types=TINYINTS)
    row = whole((0, 7), (0, 8))
    yield ROOM, [steps.forging(state), row], "fine"
    for stage in (CLOSED, CALL, ARRAY_OPEN, REPLY_OPEN, ROW_OPEN, 6, 256 + TABLE_OPEN, 2**32 + TABLE_OPEN, 2**64 - 1):
        yield ROOM, [steps.forging(replace(state, stage=stage)), row], (WRONG_STAGE, state.position)
    needed = ROW_HEAD + 2
    for field, fine, wrong in (
            ("position", (94, ROOM - needed), (0, 93, ROOM + 1, *HUGE)), ("count_at", (4, 20), (0, 3, 21, 90, *HUGE)),
            ("count", (0, MOST_ITEMS), (MOST_ITEMS + 1, *HUGE)),
            ("table_at", (22, 86), (0, 21, 87, *HUGE)), ("rows_at", (26, 96), (0, 25, 97, *HUGE)), ("columns", (2,), (MOST_COLUMNS + 1, *HUGE)),
            ("inner_at", (0, ROOM, *HUGE), ()), ("inner_type", (0, *HUGE), ()), ("inner_count", (0, 3, MOST_COLUMNS + 1, *HUGE), ())):
        for number in fine:
            yield ROOM, [steps.forging(replace(state, **{field: number})), row], "fine"
        for number in wrong:
            forged = replace(state, **{field: number})
            yield ROOM, [steps.forging(forged), row], (WRONG_STAGE, forged.position)
    for position in range(ROOM - needed + 1, ROOM + 1):
        forged = replace(state, position=position)
        yield ROOM, [steps.forging(forged), row], stopped(position, [ROW_HEAD, 1, 1], ROOM, lambda _, after: (OUTPUT_SHORT, after))


def forged_types():
    """A type that is no column's is refused if a column has it, and isn't looked at behind the last one; each byte as the last column's type, whose
    cell is then of that type."""
    for at in range(MOST_COLUMNS):
        state = replace(IN_TABLE, columns=2, types=TINYINTS[:at] + bytes([NO_TYPES[at % len(NO_TYPES)]]) + TINYINTS[at + 1:])
        yield ROOM, [steps.forging(state), whole((0, 7), (0, 8))], (WRONG_STAGE, state.position) if at < state.columns else "fine"
    for columns in (NEAR_COLUMNS, MOST_COLUMNS):
        for at in POSITIONS:
            state = replace(IN_TABLE, columns=columns, types=TINYINTS[:at] + b"\0" + TINYINTS[at + 1:])
            room = state.position + ROW_HEAD + columns
            yield room, [steps.forging(state), whole(*[(0, 7)] * columns)], (WRONG_STAGE, state.position) if at < columns else "fine"
    for byte in range(256):
        state = replace(IN_TABLE, columns=NEAR_COLUMNS, types=(TINYINTS[1:NEAR_COLUMNS] + bytes([byte])).ljust(MOST_COLUMNS, b"\0"))
        last_at = state.position + ROW_HEAD + NEAR_COLUMNS - 1
        answer = (WRONG_STAGE, state.position) if byte not in COLUMN_TYPES else (BAD_GEOGRAPHY, last_at) if byte == GEOGRAPHY else "fine"
        yield 2 * ROOM, [steps.forging(state), whole(*[(0, 0)] * NEAR_COLUMNS)], answer
