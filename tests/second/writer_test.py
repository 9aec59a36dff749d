#!/usr/bin/env python3
"""Checks the second writer against the second reader and encoder: writer_test.py [N] [SEED]

The steps that a record spells write its encoding and nothing past it; in a buffer that is too short by k bytes some step answers 8
at the place that it would reach, and changes nothing; a run of wild steps that reaches its end has written an accepted message. A null
point is written from its numbers and from its bits, and what is nearly one is refused. Text that is torn, and what breaks another rule of its own, is
refused where the writer stands, behind the faults before it and before those after it, and not looked at where it is left out or may be any bytes; the
limits hold to the byte, and to the column, on forged states too. A whole row writes and answers what its steps do, and changes nothing if one of those is
refused. The same of the steps that write a geography's body. What was refused is counted (tally.py), by the second writer's answers.
"""

import random
import sys
from collections import Counter

import area_calls
import area_scripts
import areas
import column_scripts
import limit_scripts
import row_scripts
import steps
import text_scripts
import value_scripts
import writer
from cards import NEAR_COLUMNS
from encoder import encode
from generate import IN_RANGE, MANY_COLUMNS, NEARLY_NULL, Maker
from generate_areas import AreaMaker
from reader import read
from tally import Tally
from wire import *

# The types of what is written. Those whose values have a rule of their own have more than their share.
TYPES = COLUMN_TYPES + (POINT, STRING, DECIMAL, GEOGRAPHY) * 3

MANY_OR_TOO_MANY = (*MANY_COLUMNS, MOST_COLUMNS + 1)
NO_COLUMN_TYPES = (ARRAY % 256, NULL, 0)

OF_WRITING = (NO_ROOM, LIMIT, LEFT_OVER, BAD_VERSION, BAD_TYPE, OUTPUT_SHORT, PAST_END, WRONG_STAGE, BAD_TEXT, *CAUSES)

# The steps that refuse what breaks its own rule, or isn't lent, by number.
SPOILED = {
    BAD_TEXT: (*text_scripts.TEXT_ARGUMENTS, *steps.VALUE_FUNCTIONS, "whole_row"), BAD_FLAGS: ("begin_reply",), BAD_NAME: ("open_table",),
    **{number: (*steps.VALUE_FUNCTIONS, "whole_row") for number in CAUSE_OF_TYPE.values()}, PAST_END: ("open_table", "whole_row"),
}


def main():
    count = int(sys.argv[1]) if len(sys.argv) > 1 else 2000
    seed = int(sys.argv[2]) if len(sys.argv) > 2 else 1
    maker = Maker(random.Random(seed))
    tally, spoiled = Tally("writer_test", must=OF_WRITING if count >= 2000 else ()), Counter()
    for _ in range(count):
        spelled_once(maker)
        wild_once(maker, tally, spoiled)
    for _ in range(count // 200):
        check_spelled(maker, REPLY, maker.wide_record())
    check_points()
    check_first_refusals()
    check_whole_rows()
    check_order()
    for number in sorted(SPOILED):
        print("writer_test: %d was given by %s" % (number, ", ".join("%s %d" % (name, spoiled[name, number]) for name in SPOILED[number])))
    assert count < 2000 or set(spoiled) == {(name, number) for number, names in SPOILED.items() for name in names}, spoiled
    assert tally.settled("seed %d, %d records" % (seed, count))
    maker, tally = AreaMaker(random.Random(seed)), Tally("writer_test", must=(LIMIT, OUTPUT_SHORT, WRONG_STAGE, BAD_GEOGRAPHY) if count >= 2000 else ())
    for _ in range(count):
        area_once(maker)
        wild_area_once(maker, tally)
    check_area_limits(maker)
    assert tally.settled("%d areas" % count)
    print("writer_test passed")


def spelled_once(maker):
    kind = maker.rng.choice(KINDS)
    record = maker.record(kind)
    if len(encode(kind, record)) <= 3000:
        check_spelled(maker, kind, record)


def check_spelled(maker, kind, record):
    message = encode(kind, record)
    by_cells = steps.spelled(kind, record)
    in_rows = steps.spelled(kind, record, row=lambda values: [row_scripts.scattered(maker.rng, values)])
    spare = maker.rng.choice((0, 1, 50))
    short = maker.rng.randrange(len(message))
    for script in (by_cells, in_rows):
        answers, _, buffer = steps.run([("buffer", (len(message) + spare,)), *script])
        assert set(answers) == {"fine"}, (kind, record, answers)
        assert buffer == message + steps.fresh(len(message) + spare)[len(message):]
        answers, _, buffer = steps.run([("buffer", (short,)), *script])
        places = [place for number, place in map(refusal, answers) if number == OUTPUT_SHORT]
        assert places and places[0] > short, (answers, short)
    check_alike(*([("buffer", (short,)), *script] for script in (by_cells, in_rows)))


def wild_once(maker, tally, spoiled):
    script = wild(maker)
    answers, state, buffer = steps.run(script)
    answering = [name for name, _ in script if name not in ("buffer", "forge")]
    for name, answer in zip(answering, answers[:-1]):
        tally.add(answer, other="fine")
        number, _ = refusal(answer)
        spoiled.update([(name, number)] if number in SPOILED else [])
    forged = any(name == "forge" for name, _ in script)
    if not forged and state.stage == writer.CLOSED and state.position:
        kind = INVOCATION if any(n == "begin_invocation" for n, _ in script[1:2]) else REPLY
        read(kind, buffer[:state.position])


def refusal(answer):
    """The number and the place that an answer tells; 0 and 0 if it is no refusal."""
    words = answer.split()
    return (int(words[1]), int(words[2])) if words[0] == "refused" else (0, 0)


def check_points():
    def added(it):
        script = [("buffer", (50,)), ("begin_invocation", (0, b"", bytes(8))), ("add_value", ((POINT, it),)), ("finish_invocation", ())]
        answers, state, buffer = steps.run(script)
        return answers[1], buffer[:state.position]

    bits = bytes.fromhex("4076800000000000" * 2)
    null = encode(INVOCATION, {"version": 0, "procedure": b"", "client_data": bytes(8), "parameters": [(POINT, None)]})
    assert null.endswith(bytes([POINT]) + bits)
    assert added(NULL_POINT) == added(writer.Bits.from_bytes(bits, "big")) == ("fine", null)
    assert added(None)[0] == refused(BAD_TYPE, 19)
    for nearly in NEARLY_NULL:
        point = tuple(0.0 if number is IN_RANGE else number for number in nearly)
        assert added(point)[0] == refused(BAD_POINT, 19), point


def check_first_refusals():
    """The first step that is given torn text, or what breaks another rule of its own, or too many columns, is refused where the writer stands, and
    changes nothing."""
    for script, verdict in (*text_scripts.by_turns(step=11), *value_scripts.by_turns(), *column_scripts.by_turns()):
        walk = list(steps.walked(script[:-1]))
        first = first_refused(walk)
        assert (first is None) == (verdict == "accepted"), steps.text(script)
        if first is not None:
            _, state, buffer = walk[first - 1]
            assert walk[first] == (refused(verdict[0], state.position), state, buffer), steps.text(script)


def first_refused(walk):
    """The number of the first step that is refused, if one is."""
    return next((n for n, (answer, *_) in enumerate(walk) if answer not in (None, "fine")), None)


def check_whole_rows():
    for by_cells, in_rows in row_scripts.by_turns(step=11):
        check_alike(by_cells[:-1], in_rows[:-1])


def check_alike(by_cells, in_rows):
    """Of two scripts that write the same, in whole rows what is refused first is what is refused first by their steps, and changes nothing; if nothing
    is, both leave the same."""
    wanted, found = list(steps.walked(by_cells)), list(steps.walked(in_rows))
    at, found_at = first_refused(wanted), first_refused(found)
    assert (at is None) == (found_at is None), steps.text(in_rows)
    if at is None:
        assert found[-1][1:] == wanted[-1][1:], steps.text(in_rows)
    else:
        assert found[found_at] == (wanted[at][0], *found[found_at - 1][1:]), steps.text(in_rows)


def check_order():
    for script, answer in (*text_scripts.in_order(), *value_scripts.in_order(), *limit_scripts.in_order(), *column_scripts.in_order(),
                           *row_scripts.in_order()):
        *fine, last = steps.run(script)[0]
        assert set(fine) <= {"fine"} and last == answer, (steps.text(script)[:400], fine, last, answer)


# -- Bodies of geographies.

def area_once(maker):
    area = maker.area()
    body, script = areas.encode(area), area_calls.spelled(area)
    spare = maker.rng.choice((0, 1, 50))
    second = area_calls.Second()
    lines = second.lines([("buffer", (len(body) + spare,)), *script])
    assert all(line.startswith("fine") for line in lines), lines
    assert second.out == body + steps.fresh(len(body) + spare)[len(body):] and second.state == (0, len(body), 0, 0, 0)
    second.take()
    assert second.area == area
    short = maker.rng.randrange(len(body))
    number, place = next(filter(any, map(refusal, second.lines([("buffer", (short,)), *script]))))
    assert number == OUTPUT_SHORT and place > short, (number, place, short)


def wild_area_once(maker, tally):
    """A refusal changes nothing; and a run that is finished on no forged state has written an area."""
    script = area_scripts.wild(maker)
    second = area_calls.Second()
    for name, arguments in script:
        before = second.state, bytes(second.out)
        line = second.line(name, arguments)
        if name in area_calls.STEPS:
            tally.add(line, other="fine")
            assert line.startswith("fine") or (second.state, bytes(second.out)) == before
        if name == "finish" and line.startswith("fine") and not any(other == "forge" for other, _ in script):
            areas.read(bytes(second.out[:second.state.position]))


def check_area_limits(maker):
    """A count stops at 2^31 - 1, and is filled in whole; too few are refused where the writer stands."""
    def answers(state, *names):
        second = area_calls.Second()
        lines = second.lines([("buffer", (200,)), ("forge", state), *(area_scripts.step_of(maker, name) for name in names)])
        return [" ".join(line.split()[:3]) if line.startswith("refused") else "fine" for line in lines], bytes(second.out)

    assert answers((1, 7, MOST_COUNT - 1, 0, 0), "open_ring", "close_ring")[0] == ["fine", refused(BAD_GEOGRAPHY, 12)]
    assert answers((1, 7, MOST_COUNT, 0, 0), "open_ring")[0] == [refused(LIMIT, 7)]
    assert answers((1, 7, MOST_COUNT + 1, 0, 0), "open_ring")[0] == [refused(WRONG_STAGE, 7)]
    told, out = answers((2, 100, MOST_COUNT, 20, MOST_COUNT - 1), "add_vertex", "add_vertex", "close_ring", "finish")
    assert told == ["fine", refused(LIMIT, 124), "fine", "fine"]
    assert out[21:25] == out[3:7] == MOST_COUNT.to_bytes(4, "big") and out[2] == 1
    assert answers((0, 0, 0, 0, 0), "begin", "finish", "add_vertex")[0] == ["fine", refused(BAD_GEOGRAPHY, 7), refused(WRONG_STAGE, 7)]


def wild(maker, forging=0.5):
    """A script that begins well and then takes likely and unlikely steps, some with wrong arguments, some on forged states."""
    rng = maker.rng
    script = [("buffer", (rng.choice((0, 30, 100, 400, 1000, 1000, 4000, 12000)),))]
    if rng.random() < 0.15:
        return script + [wild_login(maker), ("show", ())]
    kind = rng.choice((INVOCATION, REPLY))
    first = steps.spelled(kind, maker.record(kind))[0]
    script.append(first if rng.random() < 0.8 else wrong_beginning(maker, first))
    forging = rng.random() < forging
    stage, types = (writer.CALL if kind == INVOCATION else writer.REPLY_OPEN), ()
    _, state, _ = steps.run(script)
    for _ in range(rng.randint(1, 25)):
        if forging and rng.random() < 0.15:
            script.append(forgery(rng, state))
        if stage == writer.CLOSED and rng.random() < 0.6:
            break
        name, arguments = likely(maker, stage, types) if rng.random() < 0.85 else anything(maker)
        script.append((name, arguments))
        _, state, _ = steps.run(script)
        stage, types = state.stage, due(state)
    return script + [("show", ())]


def due(state):
    """The types of the values that are due: of an element, of the cells that the open row lacks, or of a whole row's."""
    if state.stage in (writer.TABLE_OPEN, writer.ROW_OPEN):
        return state.types[state.inner_count if state.stage == writer.ROW_OPEN else 0:state.columns]
    return (state.inner_type,)


def wild_login(maker):
    rng = maker.rng
    version = rng.choice((0, 1, 1, 2, -1))
    if rng.random() < 0.5:
        hash_ = rng.randbytes(rng.choice((0, 19, 20, 20, 21, 31, 32, 32, 33)))
        step = "login", (version, rng.choice((0, 1, 1, 2, -128)), maker.text(), maker.text(), hash_)
    else:
        step = "login_reply", (version, rng.choice((0, 0, 1, -1)), maker.integer(4), maker.integer(8), maker.integer(8), rng.randbytes(4),
                               maker.text())
    return text_scripts.torn(maker, step) if rng.random() < 0.2 else step


def likely(maker, stage, types):
    rng = maker.rng
    if stage == writer.CALL:
        return rng.choice((("add_null", ()), ("add_value", (some_value(maker),)), ("add_byte_array", (maker.blob()[:40],)),
                           ("open_array", (rng.choice(TYPES),)), ("finish_invocation", ())))
    if stage == writer.ARRAY_OPEN:
        return rng.choice((("add_element", (some_value(maker, types),)), ("add_element", (some_value(maker, types),)), ("close_array", ())))
    if stage == writer.REPLY_OPEN:
        return rng.choice((table(maker), table(maker), ("finish_reply", ())))
    if stage == writer.TABLE_OPEN:
        return rng.choice((("open_row", ()), ("open_row", ()), some_row(maker, types), some_row(maker, types), ("close_table", ())))
    if stage == writer.ROW_OPEN:
        return ("add_cell", (some_value(maker, types),)) if types else ("close_row", ())
    return anything(maker)


def anything(maker):
    rng = maker.rng
    return rng.choice((("add_null", ()), ("add_value", (some_value(maker),)), ("add_byte_array", (maker.blob()[:40],)),
                       ("open_array", (rng.choice((*COLUMN_TYPES, ARRAY, NULL, 0, 2, 127, -128)),)), ("add_element", (some_value(maker),)),
                       ("close_array", ()), table(maker), ("open_row", ()), ("add_cell", (some_value(maker),)), ("close_row", ()),
                       some_row(maker, rng.choices(TYPES, k=rng.randrange(4))),
                       ("close_table", ()), ("finish_invocation", ()), ("finish_reply", ())))


def some_value(maker, types=()):
    """A value, mostly of the type that is due, now and then one that its own rule refuses, or that is none of its type."""
    rng = maker.rng
    wire_type = types[0] if types and types[0] in COLUMN_TYPES and rng.random() < 0.9 else rng.choice(TYPES)
    if rng.random() < 0.05:
        return odd_value(rng, wire_type)
    if wire_type in CAUSE_OF_TYPE and rng.random() < 0.3:
        return wire_type, maker.wrong(CAUSE_OF_TYPE[wire_type])
    if wire_type == STRING and rng.random() < 0.3:
        return wire_type, maker.torn(maker.text())
    return short_value(maker, wire_type)


def short_value(maker, wire_type):
    value = maker.value(wire_type)
    return steps.given(wire_type, value[:40] if isinstance(value, bytes) else value)


def some_row(maker, types):
    """A whole row of these types, often with something that is refused."""
    values = [short_value(maker, wire_type) for wire_type in types]
    return row_scripts.spoiled(maker, values) if maker.rng.random() < 0.6 else row_scripts.scattered(maker.rng, values)


def odd_value(rng, wire_type):
    """Bits that just fit the type or just don't, or are of a type without them; or a body of a type that has none."""
    if rng.random() < 0.2:
        wire_type = rng.choice((*COLUMN_TYPES, ARRAY, NULL, 0, 2, 127, -128))
    if rng.random() < 0.2:
        return wire_type, rng.choice((None, b"", b"odd"))
    most = 256**rng.choice((FIXED_SIZES.get(wire_type, 1), 1, 2, 4, 8, 16))
    return wire_type, writer.Bits(rng.choice((0, most - 1, most % 2**128, (most + 44) % 2**128, most // 2, rng.randrange(most))))


def table(maker):
    rng = maker.rng
    columns = rng.choice((0, 1, 2, 3, 3, NEAR_COLUMNS, NEAR_COLUMNS + 1) if rng.random() < 0.9 else MANY_OR_TOO_MANY)
    names = bytes(rng.choice((65, 66, 127)) for _ in range(rng.randint(0, 12)))
    if rng.random() < 0.15 and names:
        names = names[:-1] + b"\x80"
    entries, seldom = [], min(0.03, 0.3 / max(columns, 1))  # so that most wide tables are right too
    for _ in range(columns):
        start = rng.randint(0, len(names))
        size = rng.randint(0, len(names) - start) if rng.random() > seldom else rng.choice((len(names) + 1, 2**32, 2**63))
        wire_type = rng.choice(TYPES) if rng.random() > seldom else rng.choice((ARRAY, NULL, 0))
        entries.append((wire_type, start, size))
    return "open_table", (maker.integer(1), tuple(entries), names)


def wrong_beginning(maker, first):
    name, arguments = first
    arguments = list(arguments)
    arguments[0] = maker.rng.choice((0, 1, 2, -1))
    if name == "begin_reply" and maker.rng.random() < 0.5:
        arguments[2] = maker.rng.randrange(256)
    step = name, tuple(arguments)
    return text_scripts.torn(maker, step) if maker.rng.random() < 0.5 else step


def forgery(rng, state):
    """The state with one field, or two, forged."""
    changes = {}
    for _ in range(rng.choice((1, 1, 2))):
        field = rng.choice(("stage", "position", "count_at", "count", "inner_at", "inner_type", "inner_count", "table_at", "rows_at",
                            "rows", "columns", "types"))
        near = rng.choice((0, 1, 3, 4, 6, 10, 17, 19, 21, 22, 26, 30, 40, 50, 100, 200, 2**31 - 1, 2**63, 2**64 - 1))
        if field == "stage":
            changes[field] = rng.randrange(6)
        elif field == "inner_type":
            changes[field] = rng.choice((*COLUMN_TYPES, ARRAY, NULL, 0))
        elif field in ("count", "inner_count", "rows"):
            changes[field] = rng.choice((0, 1, 2, 32766, 32767, 32768, 2**31 - 2, 2**31 - 1, 2**31, 2**63))
        elif field == "columns":
            changes[field] = rng.choice((0, 1, 2, NEAR_COLUMNS, *MANY_OR_TOO_MANY, 2**63))
        elif field == "types":
            changes[field] = forged_types(rng, state.types)
        elif field == "position":
            changes[field] = rng.choice((near, (state.position + 1) % 2**64, state.position - 1 if state.position else 0))
        else:
            value = getattr(state, field)
            changes[field] = rng.choice((near, (value + 1) % 2**64, value - 1 if value else 0))
    return steps.forging(state, **changes)


def forged_types(rng, types):
    """All of them others; or one that isn't a column's, among those of the columns or anywhere."""
    if rng.random() < 0.5:
        return bytes(rng.choices((*COLUMN_TYPES, *COLUMN_TYPES, *COLUMN_TYPES, *NO_COLUMN_TYPES), k=MOST_COLUMNS))
    at = rng.choice((0, 1, 2, NEAR_COLUMNS - 1, NEAR_COLUMNS, MOST_COLUMNS - 1, rng.randrange(MOST_COLUMNS)))
    return types[:at] + bytes([rng.choice(NO_COLUMN_TYPES)]) + types[at + 1:]


if __name__ == "__main__":
    main()
