#!/usr/bin/env python3
"""Checks the second reader against itself: selftest.py [N] [SEED]

What is accepted encodes to the same bytes and its fields tile it; every fault that reading can find is found in every field
where the paper lets it be, and values that break their own rules wherever such a value can be; null points, and all that is nearly one, are met
wherever a point can be, and characters, and all that is nearly one, wherever a text can be; what text is, Python's codec says too; the limits hold to
the byte, and to the column; each column has one card, which opens it and nothing else, and a card that doesn't fit is told the first reason that holds.
The same of geographies' bodies; turning their holes twice restores them, and document 000's own is read at the places that it prints. What was refused is
counted (tally.py), by the second reader's answers.
"""

import itertools
import struct
import sys
from collections import Counter

import areas
import cards
import generate_areas
import generate_columns
import generate_texts
import generate_values
import wire_poly
from encoder import encode
from frames import frame, swept
from generate import IN_RANGE, NEARLY_NULL, messages, wide_messages
from listing import listing
from reader import Refused, read
from tally import Tally
from utf8 import torn_at
from wire import *

FIXED = (2, 3, 8, 10, 11, 12, 13, 14, 22, 24, 25, 28, 30, 31, 34, 37, 43, 45, 51)
COUNTS = (23, 40, 44, 48)                      # 26 is a count, and for byte arrays a length
LENGTHS = (4, 6, 15, 20, 26, 27, 32, 35, 38, 41, 42, 46, 49, 50)
LIMITED = (1, 4, 6, 15, 20, 26, 27, 32, 35, 38, 44, 46, 49, 50)
POSSIBLE = {
    NO_ROOM: {1, *FIXED, *COUNTS, *LENGTHS} - {2},   # a message length is at least 1, so the version always fits
    BAD_SIGN: {1, *COUNTS, *LENGTHS},
    LIMIT: {*LIMITED},
    LEFT_OVER: {1, 41, 42, 49},
    BAD_VERSION: {2, 3},
    BAD_TYPE: {0, 24, 25, 45},
    BAD_TEXT: {5, 7, 16, 21, 28, 33, 36, 51},
    BAD_DECIMAL: {28, 51},
    BAD_POINT: {28, 51},
    BAD_FLAGS: {30},
    BAD_NAME: {47},
    BAD_GEOGRAPHY: {27, 50},
}
POSSIBLE_INSIDE = {NO_ROOM: {*range(60, 69)}, BAD_SIGN: {63, 65}, LEFT_OVER: {68}, BAD_GEOGRAPHY: {62, 63, 65}}

# Where a value can stand, and so what breaks a rule of its own.
PLACES = ("parameter", "element", "cell")
CAUSES_BY_PLACE = [*itertools.product(CAUSE_OF_TYPE.values(), PLACES), (BAD_FLAGS, "flags"), (BAD_NAME, "name")]


def main():
    count = int(sys.argv[1]) if len(sys.argv) > 1 else 20000
    seed = int(sys.argv[2]) if len(sys.argv) > 2 else 1
    tally = Tally("selftest", must=OF_READING if count >= 20000 else ())
    at_fields, causes, listed, points = Counter(), Counter(), Counter(), Counter()
    for kind, message in (*messages(count, seed), *wide_messages(count // 500, seed)):
        try:
            record, fields = read(kind, message)
        except Refused as refusal:
            tally.add(refused(refusal.number, refusal.place))
            at_fields[refusal.number, refusal.field] += 1
            if refusal.number in CAUSES:
                causes[refusal.number, place_of_fault(refusal)] += 1
            if refusal.number == BAD_POINT:
                points.update((BAD_POINT, *it) for it in points_in(refusal.fields[-2:], message))
            continue
        tally.add("accepted")
        assert encode(kind, record) == message, (kind, message.hex())
        check_tiling(fields, message)
        listed.update(field[2] for field in fields)
        points.update((0, *it) for it in points_in(fields, message))
    assert tally.settled("seed %d, %d fields of what was accepted" % (seed, sum(listed.values())))
    report(count, at_fields, listed)
    report_causes(count, causes)
    report_points(count, points)
    check_values()
    check_columns()
    check_cards()
    check_fits()
    check_text()
    check_texts()
    check_order_of_text()
    check_limits()
    check_frames()
    check_areas(count // 4, seed)
    check_order_inside()
    check_wire_poly()
    print("selftest passed")


def check_tiling(fields, message):
    at = 0
    for offset, size, *_ in fields:
        assert offset == at and size > 0, message.hex()
        at += size
    assert at == len(message), message.hex()


def points_in(fields, message):
    """Where each value of 16 bytes stands, and its two numbers if it is a point; IN_RANGE for those that are."""
    for before, (at, size, number, *_) in zip(fields, fields[1:]):
        if size == 16 and number in (F_VALUE + 1, F_CELL + 1):
            where = "cell" if number == F_CELL + 1 else "parameter" if before[2] == F_TYPE else "element"
            point = struct.unpack(">dd", message[at:at + size])
            yield where, tuple(IN_RANGE if abs(degrees) <= most else degrees for degrees, most in zip(point, (180.0, 90.0)))


def place_of_fault(refusal):
    """Where what broke its own rule stands: a value directly behind its type is a parameter, and behind anything else an element."""
    if refusal.field in (F_FLAGS, F_COLUMN_NAME + 1):
        return "flags" if refusal.field == F_FLAGS else "name"
    if refusal.field in (F_CELL, F_CELL + 1):
        return "cell"
    return "parameter" if refusal.fields[-2][2] == F_TYPE else "element"


def report(count, at_fields, listed):
    for number in sorted(POSSIBLE):
        hit = {field for n, field in at_fields if n == number}
        print("  %d at %d of %d fields" % (number, len(hit), len(POSSIBLE[number])))
        assert hit <= POSSIBLE[number], (number, hit - POSSIBLE[number])
        if count >= 20000:
            assert hit == POSSIBLE[number], (number, POSSIBLE[number] - hit)
    if count >= 20000:
        assert set(listed) == {1, *FIXED, *COUNTS, *LENGTHS, 5, 7, 16, 21, 33, 36, 39, 47}, sorted(listed)


def report_causes(count, causes):
    print("  values that break their own rules: %s" % ", ".join("%d %s %d" % (*pair, causes[pair]) for pair in CAUSES_BY_PLACE))
    assert set(causes) <= set(CAUSES_BY_PLACE), causes
    assert count < 20000 or min(causes[pair] for pair in CAUSES_BY_PLACE) >= 30, causes


def report_points(count, points):
    verdicts = ((0, NULL_POINT), *((BAD_POINT, nearly) for nearly in NEARLY_NULL))
    met = [points[number, where, point] for where in PLACES for number, point in verdicts]
    print("  null points accepted, and %d that are nearly null refused, as cells, parameters and elements: each at least %d times" % (
        len(NEARLY_NULL), min(met)))
    assert count < 20000 or min(met) > 0, met


def verdict(kind, message):
    try:
        read(kind, message)
        return "accepted"
    except Refused as refusal:
        return refusal.number, refusal.place


def check_values():
    check_verdicts("values at the edges of their own rules", generate_values.messages())


def check_verdicts(what, triples):
    verdicts = Counter()
    for kind, message, expected in triples:
        assert verdict(kind, message) == expected, (kind, message.hex(), expected)
        verdicts[expected if expected == "accepted" else expected[0]] += 1
    print("  %s: %d accepted; refused %s" % (
        what, verdicts.pop("accepted"), ", ".join("%d: %d" % pair for pair in sorted(verdicts.items()))))


def check_columns():
    check_verdicts("tables of many columns", generate_columns.messages())


def check_cards():
    """Each column of the widest table has one card, of the size and with the position that request 6 says; no other card opens it, and it opens no other."""
    table = cards.wide_table()
    made = [cards.card_of(c, *column) for c, column in enumerate(zip(table["types"], table["names"]))]
    assert [len(card) for card in made] == [36] * 64 + [37] * 960
    assert [card[:2] for card in made[:64]] == [bytes([1, c]) for c in range(64)]
    assert [card[:3] for card in made[64:]] == [bytes([2, c >> 8, c & 255]) for c in range(64, 1024)]
    for c, card in enumerate(made):
        assert cards.broken_at(card) is None and cards.opened(table, card) == c, card.hex()
        shorter = {part: table[part][:c] for part in ("types", "names")}
        assert cards.opened(shorter, card) is None, card.hex()
    answers = Counter()
    for card in set(cards.edges()):
        wrong = cards.broken_at(card)
        position = cards.opened(table, card) if wrong is None else None
        assert position is None or card == made[position], card.hex()
        answers["broken" if wrong is not None else "stale" if position is None else "fitting"] += 1
    for card, place in broken_cards():
        assert cards.broken_at(card) == place, (card.hex(), place)
    print("  cards at the edges of their form: %s" % ", ".join("%d %s" % (answers[what], what) for what in ("fitting", "stale", "broken")))


def broken_cards():
    """Cards with where they are wrong, in the order in which that is looked for; each fault stands before all that come behind it."""
    near, far = bytes([1, 63, BIGINT, 1]) + b"n" + bytes(31), bytes([2, 0, 64, BIGINT, 1]) + b"n" + bytes(31)
    yield from ((b"", 0), (bytes(36), 0), (b"\3" + far[1:], 0), (b"\3", 0), (b"\xff" * 37, 0))
    for size in range(1, 80):
        yield from (((card * 3)[:size], min(size, len(card))) for card in (near, far) if size != len(card))
    yield from ((near, None), (far, None), (b"\2" + near[1:], 36), (b"\1" + far[1:], 36))
    yield from ((bytes([1, position]) + b"\0\xff" + b"\xff" * 32, 1) for position in (64, 65, 128, 255))
    yield from ((bytes([2, *position]) + b"\0\xff" + b"\xff" * 32, 1) for position in ((0, 0), (0, 63), (4, 0), (4, 64), (64, 0), (255, 255)))
    for head, at in ((b"\1\x3f", 2), (b"\2\0\x40", 3), (b"\2\3\xff", 3)):
        yield from ((head + bytes([wire_type]) + b"\xff" * 33, at) for wire_type in (0, 1, 2, 7, 28, 157, 255))
        yield from ((head + bytes([BIGINT, size]) + b"\xff" * 32, at + 1) for size in (33, 64, 255))
        for size in (0, 1, 31, 32):
            name = b"\x7f" * size + bytes(32 - size)
            yield head + bytes([BIGINT, size]) + name, None
            for wrong in range(32):
                byte = b"\x80" if wrong < size else b"\1"
                yield head + bytes([BIGINT, size]) + name[:wrong] + byte + b"\xff" * (31 - wrong), at + 2 + wrong


def check_fits():
    """Why a card doesn't fit and where its column stands now: some by hand, then all of columns that are nearly equal, where each reason is met by both
    kinds of card, wherever the column can stand."""
    harbour = {"types": [INTEGER, STRING, DECIMAL, STRING, STRING], "names": [b"ID", b"VESSEL", b"LIMIT", b"NOTE", b"NOTE"]}
    for position, wire_type, name, expected in (
            (2, DECIMAL, b"LIMIT", None), (3, STRING, b"NOTE", None), (4, STRING, b"NOTE", None),
            (5, DECIMAL, b"LIMIT", (1, 2)), (64, STRING, b"NOTE", (1, 3)), (5, INTEGER, b"LIMIT", (1, None)),
            (1, DECIMAL, b"LIMIT", (2, 2)), (4, DECIMAL, b"LIMIT", (2, 2)), (2, FLOAT, b"LIMIT", (2, None)), (0, FLOAT, b"LIMIT", (2, None)),
            (1, STRING, b"NOTE", (3, 3)), (4, STRING, b"VESSEL", (3, 1)), (2, DECIMAL, b"LIMITS", (3, None)), (2, DECIMAL, b"", (3, None))):
        assert cards.fit(harbour, cards.card_of(position, wire_type, name)) == expected, (position, wire_type, name)
    met = Counter(situation(table, card) for table, some in cards.moved() for card in some)
    wheres = ("nowhere", "before", "behind", "before, and again", "behind, and again")
    possible = {*itertools.product(cards.FORMS, (None,), ("first", "again")), *itertools.product(cards.FORMS, cards.REASONS, wheres)}
    possible -= {(form, cards.PAST_COLUMNS, where) for form in cards.FORMS for where in wheres if where.startswith("behind")}
    assert set(met) == possible, set(met) ^ possible
    print("  cards of columns that are nearly equal: %d; each of %d situations at least %d times" % (sum(met.values()), len(met), min(met.values())))


def situation(table, card):
    """The kind of a card, why it doesn't fit, and where its column stands: which all must be what is told."""
    form, told = cards.form_of(card), cards.fit(table, card)
    position, wire_type, size, rest = form.parts(card)
    columns, own = list(zip(table["types"], table["names"])), (wire_type, rest[:size])
    places = [at for at, column in enumerate(columns) if column == own]
    assert cards.opened(table, card) == (position if told is None else None), card.hex()
    if told is None:
        return form, None, "first" if places[0] == position else "again"
    (there,) = columns[position:position + 1] or [None]
    facts = [there is None, there and there[0] != wire_type, there and there[1] != rest[:size]]
    assert told == (1 + facts.index(True), min(places, default=None)), card.hex()
    if not places:
        return form, told[0], "nowhere"
    return form, told[0], ("before" if places[0] < position else "behind") + (", and again" if len(places) > 1 else "")


def check_text():
    """All sequences of one and two bytes, longer ones at the edges of their bytes' ranges; all characters of up to three, each 97th of four."""
    edges = (0, 0x7F, 0x80, 0x8F, 0x90, 0x9F, 0xA0, 0xBF, 0xC0, 0xC2, 0xFF)
    count = 0
    for parts in itertools.chain(
            itertools.product(range(256)), itertools.product(range(256), range(256)),
            itertools.product(range(0xE0, 0xF0), edges, edges), itertools.product(range(0xF0, 0x100), edges, edges, edges)):
        check_with_codec(bytes(parts))
        count += 1
    whole = "".join(map(chr, (*range(0xD800), *range(0xE000, 0x10000), *range(0x10000, 0x110000, 97), 0x10FFFF)))
    check_with_codec(whole.encode())
    print("  text: %d sequences and %d characters, as Python's codec says" % (count, len(whole)))


def check_with_codec(body):
    """All before the place is text, and no character begins there: the codec is asked whether, never where."""
    at = torn_at(body)
    if at is None:
        assert is_text(body), body.hex()
    else:
        assert is_text(body[:at]) and at < len(body), body.hex()
        assert not any(is_text(body[at:end]) for end in range(at + 1, at + 5)), body.hex()


def is_text(body):
    try:
        body.decode("utf-8", "strict")
        return True
    except UnicodeDecodeError:
        return False


def check_texts():
    """Each made-up text by itself; then in the fields that are text, by turns, and where bytes are right or other rules are."""
    for text, place in generate_texts.texts():
        assert torn_at(text) == place, text.hex()
        check_with_codec(text)
    verdicts = Counter()
    for kind, message, expected in generate_texts.messages(step=11):
        assert verdict(kind, message) == expected, (kind, message.hex(), expected)
        verdicts[expected if expected == "accepted" else expected[0]] += 1
    print("  texts in messages: %d accepted, %d refused for text, %d for a name" % (verdicts["accepted"], verdicts[BAD_TEXT], verdicts[BAD_NAME]))


def check_order_of_text():
    """A text's own length comes first, then the text, then what follows it; what isn't a character's whole is refused at its first byte."""
    for message, expected in (
            ("00 00000005 c3", (NO_ROOM, 5)), ("00 fffffffe c3", (BAD_SIGN, 5)), ("00 00100001 c3", (LIMIT, 5)),
            ("00 00000002 61c3", (BAD_TEXT, 10)), ("00 00000002 c3a9", (NO_ROOM, 11)),
            ("00 00000001 c3 a9", (BAD_TEXT, 9)), ("00 00000001 c3 ffffffff", (BAD_TEXT, 9)),
            ("00 00000001 73 00000002 75e2 82ac", (BAD_TEXT, 15)), ("00 00000003 e282c3 00000005", (BAD_TEXT, 9)),
            ("02 00000001 c3", (BAD_VERSION, 4)), ("01 02 00000001 c3", (BAD_VERSION, 5))):
        body = bytes.fromhex(message)
        assert verdict(LOGIN, len(body).to_bytes(4, "big") + body) == expected, message


def check_limits():
    """Limits that are too long for a frame."""
    def call(*parameters):
        return encode(INVOCATION, {"version": 0, "procedure": b"p", "client_data": bytes(8), "parameters": list(parameters)})

    most = bytes(MOST_BODY)
    assert verdict(INVOCATION, call((STRING, most))) == "accepted"
    assert verdict(INVOCATION, call((STRING, most + b"x"))) == (LIMIT, 21)
    assert verdict(INVOCATION, call((STRING, most[2:] + b"\xc3\xa9"))) == "accepted"
    assert verdict(INVOCATION, call((STRING, most[1:] + b"\xc3"))) == (BAD_TEXT, 24 + MOST_BODY)
    assert verdict(INVOCATION, call((STRING, b"\xc3" + most))) == (LIMIT, 21)
    assert verdict(INVOCATION, call((VARBINARY, most[1:] + b"\xc3"))) == "accepted"
    assert verdict(INVOCATION, call((ARRAY, (TINYINT, most)))) == "accepted"
    assert verdict(INVOCATION, call((ARRAY, (TINYINT, most + b"x")))) == (LIMIT, 22)
    assert verdict(INVOCATION, call(*[(NULL, None)] * MOST_ITEMS)) == "accepted"
    full = call(*[(STRING, bytes(MOST_BODY - 100))] * 4)
    rest = MOST_MESSAGE + 4 - len(full)
    assert verdict(INVOCATION, call(*[(STRING, bytes(MOST_BODY - 100))] * 4, (STRING, bytes(rest - 5)))) == "accepted"
    assert verdict(INVOCATION, call(*[(STRING, bytes(MOST_BODY - 100))] * 4, (STRING, bytes(rest - 4)))) == (LIMIT, 0)

    def answer(types, row):
        it = {"status": 0, "types": types, "names": [b""] * len(types), "rows": [row]}
        return encode(REPLY, {"version": 0, "client_data": bytes(8), "flags": 0, "status": 1, "application": 0,
                              "round_trip": 0, "tables": [it]})

    assert verdict(REPLY, answer([STRING, STRING], [most, bytes(MOST_BODY - 8)])) == "accepted"
    assert verdict(REPLY, answer([STRING, STRING], [most, bytes(MOST_BODY - 7)])) == (LIMIT, 47)
    for columns in (64, 65, 1024):
        assert verdict(REPLY, answer([TINYINT] * columns, [1] * columns)) == "accepted"
    assert verdict(REPLY, answer([TINYINT] * 1025, [1] * 1025)) == (LIMIT, 31)


def check_frames():
    paper = bytes.fromhex("000000020003")
    lines = "0 4 1 0 0 0\n4 1 2 0 0 0\n5 1 10 0 0 0\n"
    assert listing(b"\2" + paper) == lines
    assert listing(b"") == listing(b"\0") == listing(b"\5" + bytes(65537)) == refused(BAD_TYPE, 0) + "\n"
    assert listing(b"\2") == refused(NO_ROOM, 0) + "\n"
    assert listing(b"\2" + bytes(65536)) == refused(BAD_SIGN, 0) + "\n"
    assert listing(b"\2" + bytes(65537)) == refused(LIMIT, 0) + "\n"
    assert swept(b"") == ""
    assert swept(frame(2, paper) + bytes(4)) == lines + ".\nrefused 6 0\n.\n"
    for cut in range(1, 11):
        assert swept(frame(2, paper) + frame(2, paper)[:cut]) == lines + ".\nbroken\n"
    assert swept(bytes.fromhex("00010002") + bytes(65538)) == "broken\n"


def check_areas(count, seed):
    tally, at_fields, listed = Tally("selftest", must=tuple(POSSIBLE_INSIDE)), Counter(), Counter()
    for body in itertools.chain(generate_areas.edges(), generate_areas.bodies(count, seed)):
        try:
            area, fields = areas.read(body)
        except Refused as refusal:
            tally.add(refused(refusal.number, refusal.place))
            at_fields[refusal.number, refusal.field] += 1
            continue
        tally.add("accepted")
        assert areas.encode(area) == body, body.hex()
        check_tiling(fields, body)
        check_turning(area, fields, body)
        listed.update(field[2] for field in fields)
    assert tally.settled("bodies of geographies, %d fields of what was accepted; each of %d faults at least %d times" % (
        sum(listed.values()), len(at_fields), min(at_fields.values())))
    assert set(at_fields) == {(number, field) for number, fields in POSSIBLE_INSIDE.items() for field in fields}, at_fields
    assert set(listed) == {*range(60, 69)}


def check_turning(area, fields, body):
    """Only the vertices of the holes move, but not the first of a ring; and twice is the same body."""
    other = areas.encode(areas.turned(area))
    again, other_fields = areas.read(other)
    assert other_fields == fields and areas.encode(areas.turned(again)) == body, body.hex()
    for at, size, number, ring, vertex, axis in fields:
        if number != F_COORDINATE or ring == 0 or vertex == 0:
            assert other[at:at + size] == body[at:at + size], body.hex()
        else:
            count = len(area["rings"][ring]["vertices"])
            assert again["rings"][ring]["vertices"][vertex] == area["rings"][ring]["vertices"][count - vertex], body.hex()


def check_order_inside():
    """The third byte by itself, then the count by itself, then the byte against the count, then the rings."""
    body = areas.encode(generate_areas.plain(3))
    for holes, count, answer in (
            (2, -1, (BAD_GEOGRAPHY, 2)), (255, 1, (BAD_GEOGRAPHY, 2)), (1, -1, (BAD_SIGN, 3)), (0, 0, (BAD_GEOGRAPHY, 3)), (1, 0, (BAD_GEOGRAPHY, 3)),
            (1, 1, (BAD_GEOGRAPHY, 2)), (0, 2, (BAD_GEOGRAPHY, 2)), (0, MOST_COUNT, (BAD_GEOGRAPHY, 2)), (0, 1, "accepted"),
            (1, 2, (NO_ROOM, 151)), (1, MOST_COUNT, (NO_ROOM, 151))):
        changed = generate_areas.replaced(body, 2, bytes([holes]) + generate_areas.count_bytes(count))
        assert verdict_inside(changed) == answer, (holes, count, verdict_inside(changed))
    assert verdict_inside(b"") == (NO_ROOM, 0)
    assert verdict_inside(bytes.fromhex("000102")) == (BAD_GEOGRAPHY, 2)  # before it is seen that no count follows
    assert verdict_inside(bytes.fromhex("000101")) == (NO_ROOM, 3)


def verdict_inside(body):
    try:
        areas.read(body)
        return "accepted"
    except Refused as refusal:
        return refusal.number, refusal.place


def check_wire_poly():
    body = wire_poly.body()
    area, fields = areas.read(body)
    assert [field[:2] for field in fields] == [row[:2] for row in wire_poly.TABLE] and len(body) == 318
    assert [field[2:] for field in fields[:6]] == [(number, 0, 0, 0) for number in range(60, 66)]
    assert (191, 8, 66, 1, 1, 2) in fields and fields[-2:] == [(247, 38, 67, 1, 0, 0), (285, 33, 68, 0, 0, 0)]
    places = [[place_of(vertex) for vertex in ring["vertices"]] for ring in area["rings"]]
    outer, hole = [row[:2] for row in wire_poly.POINTS[:4]], [row[:2] for row in wire_poly.POINTS[4:]]
    assert places == [outer, hole[:1] + hole[:0:-1]]  # the table says so: "Note that the second ring has been reversed"
    back = [[place_of(vertex) for vertex in ring["vertices"]] for ring in areas.turned(area)["rings"]]
    assert back == [outer, hole]
    check_turning(area, fields, body)
    for longitude, latitude, *printed in wire_poly.POINTS:
        assert [round(number, 6) for number in wire_poly.vertex(longitude, latitude)] == printed


def place_of(vertex):
    """The longitude and latitude of the printed point that has these coordinates."""
    numbers = list(struct.unpack(">3d", struct.pack(">3Q", *vertex)))
    return next((longitude, latitude) for longitude, latitude, *printed in wire_poly.POINTS if printed == numbers)


if __name__ == "__main__":
    main()
