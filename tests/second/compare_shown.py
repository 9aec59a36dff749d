#!/usr/bin/env python3
"""Runs tests/shown.c, which asks the exported functions, and the second reader over the same messages: compare_shown.py N SEED

N made-up ones, the hand-written cases, some at the edges of text and of values' own rules, some with the longest names, and some with many columns.
For each message lines of numbers, as include/chaloenpik.h orders them, each behind the name of the function that gave them, and a dot:
- whether it is accepted; how many fields it has; the length and the checksum of its field list, and the entry behind its last; the owners of its
  first byte, of one in its middle and of the one behind its last;
- its record;
- of an invocation, each parameter and after it each element, one more than there are (and one of what is no array); a parameter more;
- of a response, how many tables it has, and for each one, and one more: how many rows and columns it has; for each column the first of its name in
  that table and in the next; the answers to making its card in a byte too little and in some more than enough, each with all bytes of the buffer; the
  columns that the card opens in both tables, and how it fits there. The same for a name that isn't even text, and what isn't a card. Then each column's
  type, and where its name stands, one more than there are; and each row's cells, one more than there are, and a row more than there are, after each cell
  where its bytes stand.
A refused message gives its refusal to each of these. Behind some responses stand cards, many broken or stale, that are opened in the first table and asked how
they fit, and names whose cards are made in some room; a dot behind each.
"""

import pathlib
import random
import struct
import subprocess
import sys
import zlib

import cards
import cases
import generate_columns
import generate_texts
import generate_values
from encoder import encode
from frames import frame
from generate import messages, wide_messages
from reader import Refused, read
from tally import Tally
from wire import *

ROOT = pathlib.Path(__file__).resolve().parents[2]
RUN = [ROOT / "tools" / "c" / "kit", "run", ROOT / "target" / "tests" / "shown"]
MOST_SIZE = 4096
FIXED, BYTES, NONE, MANY = range(4)
TORN_NAME = b"\xc3"
CARD_FRAME, MAKE_FRAME = 100, 101  # stand where a message has its kind
BUFFER, MARK = cards.MOST_SIZE + 4, b"\x55"  # the most room that a card is made in, and what stands there before
ROOMS = (0, cards.NEAR.size - 1, cards.NEAR.size, cards.FAR.size, cards.FAR.size + 1)

# What is asked, by functions: of a card, of any message, and of one of a kind if it is refused.
OF_CARDS = ("open_card", "card_fit")
ASKED_ANY = ("accept", "field_count", "fields", "fields", "owner", "owner", "owner")
ASKED_REFUSED = {
    LOGIN: ("login_request",), LOGIN_REPLY: ("login_response",), INVOCATION: ("invocation", "parameter", "element"),
    REPLY: ("response", "tables", "rows", "columns", "find_column", "find_column", "make_card", "make_card", *OF_CARDS, "column_type", "column_name",
            "cell", "cell_place"),
}
MUST = (*OF_READING, OUTPUT_SHORT, NO_COLUMN, STALE_CARD, PAST_END, BROKEN_CARD)


def main():
    count, seed = int(sys.argv[1]), int(sys.argv[2])
    print("compare_shown: %d messages, seed %d" % (count, seed), flush=True)
    given = list(frames(count, seed))
    data = b"".join(frame(kind, body) for kind, body in given)
    found = subprocess.run(RUN, input=data, stdout=subprocess.PIPE, check=True).stdout.decode().split(".\n")
    tally, message = Tally("compare_shown", must=MUST), None
    for (kind, body), one in zip(given, found):
        if kind == CARD_FRAME:
            expected = message.card_lines(body)
        elif kind == MAKE_FRAME:
            expected = [message.made(0, body[1:], body[0])]
        else:
            message = Shown(kind, body)
            expected = message.lines()
        lines = one.splitlines()
        if lines != expected:
            return report(message, expected, lines)
        for line in lines:
            tally.add(line, other="answered")
    if len(found) != len(given) + 1:
        print("compare_shown: DIFFERENCE: %d answers to %d frames" % (len(found) - 1, len(given)))
        return 1
    return 0 if tally.settled("no difference") else 1


def frames(count, seed):
    """What is given to the program: messages, and behind every other response a card and a name."""
    rng = random.Random(seed)
    small = (one for one in (*fixed_messages(), *messages(count, seed)) if len(one[1]) <= MOST_SIZE)
    for kind, message in (*small, *many_columns(count, seed)):
        yield kind, message
        if kind == REPLY and rng.random() < 0.5:
            yield CARD_FRAME, made_up_card(rng, message)
            yield MAKE_FRAME, made_up_name(rng, message)
    yield from longest_names()
    yield from ((REPLY, message) for message in (twins(), wide_twins(), long_names(), equal_names()))
    yield from cards_by_size()
    yield from moved_cards()


def fixed_messages():
    yield from ((kind, message) for _, kind, message, _ in cases.load())
    yield from ((kind, message) for kind, message, _ in (*generate_texts.messages(step=7), *generate_values.messages()))


def many_columns(count, seed):
    yield from ((kind, message) for kind, message, _ in generate_columns.messages())
    yield from wide_messages(count // 400, seed)


def cards_by_size():
    """All cards at the edges of their form, in a table that has all columns; those that fit that one also in smaller tables, where some are past the
    last column; and cards made in each room that may be just enough."""
    fitting = cards.wide_table()
    for columns in (0, 1, 2, cards.NEAR_COLUMNS - 1, cards.NEAR_COLUMNS, cards.NEAR_COLUMNS + 1, 256, 257, MOST_COLUMNS - 1):
        yield REPLY, encode(REPLY, generate_values.reply(0, cards.wide_table(columns)))
        yield from ((CARD_FRAME, cards.card_of(at, fitting["types"][at], fitting["names"][at])) for at in cards.POSITIONS)
    yield REPLY, encode(REPLY, generate_values.reply(0, fitting))
    yield from ((CARD_FRAME, card) for card in cards.edges())
    yield from ((MAKE_FRAME, bytes([room]) + fitting["names"][at]) for at in cards.POSITIONS for room in ROOMS)


def moved_cards():
    """Tables of columns that are nearly equal, and the card of each at every position."""
    for table, some in cards.moved():
        yield REPLY, encode(REPLY, generate_values.reply(0, table))
        yield from ((CARD_FRAME, card) for card in some)


def made_up_card(rng, message):
    """The card of a column of the first table, or of one that there isn't, sometimes at another position; mostly with a byte or two changed, or of another
    size."""
    types, names = columns_of(message)
    at = rng.randrange(len(names)) if names else rng.choice(cards.POSITIONS)
    place = at if not names or rng.random() < 0.7 else rng.randint(0, min(len(names), cards.FAR.highest))
    card = bytearray(cards.card_of(place, types[at], names[at][:cards.MOST_NAME]) if names else cards.card_of(place, BIGINT, b"N"))
    for _ in range(rng.choice((0, 1, 1, 2))):
        card[rng.choice((0, 1, 2, 3, 4, rng.randrange(len(card))))] = rng.choice((*cards.EDGE_BYTES, rng.randrange(256)))
    return bytes(card[:rng.choice((0, 1, len(card) - 1))] if rng.random() < 0.1 else card)


def made_up_name(rng, message):
    """The room for a card, and the name of a column of the first table, or one that it hasn't."""
    _, names = columns_of(message)
    return bytes([rng.choice((*ROOMS, rng.randint(0, BUFFER)))]) + rng.choice(names or [b"N"])


def columns_of(message):
    """The types and names of a reply's first table; none if it is refused or has no table."""
    try:
        tables = read(REPLY, message)[0]["tables"]
    except Refused:
        tables = []
    return (tables[0]["types"], tables[0]["names"]) if tables else ([], [])


def twins():
    """Two tables that differ in a column's type and in a column's name, so that cards of one don't fit the other."""
    one = generate_values.table([BIGINT, BIGINT, STRING], [b"ID", b"NAME", b"NOTE"])
    other = generate_values.table([BIGINT, TINYINT, STRING], [b"ID", b"NAME", b"TEXT"])
    return encode(REPLY, generate_values.reply(0, one, other))


def wide_twins():
    """Tables of as many columns as can be, alike but for the type of some and the name of others; then two with fewer."""
    one, other = cards.wide_table(), cards.wide_table()
    for at in cards.POSITIONS[::2]:
        other["types"][at] = COLUMN_TYPES[(at + 1) % len(COLUMN_TYPES)]
    for at in cards.POSITIONS[1::2]:
        other["names"][at] = other["names"][at][:-1] + b"x"
    fewer = [cards.wide_table(columns) for columns in (cards.NEAR_COLUMNS + 1, cards.NEAR_COLUMNS)]
    return encode(REPLY, generate_values.reply(0, one, other, *fewer))


def long_names():
    """Columns of both kinds of card, with names that just fit one or just don't."""
    names = [b"n" * (cards.MOST_NAME - 4 + at % 2) + b"%04d" % at for at in range(2 * cards.NEAR_COLUMNS)]
    return encode(REPLY, generate_values.reply(0, generate_values.table([BIGINT] * len(names), names)))


def equal_names():
    """Names that stand twice, the first time at one side of where cards become far ones, and then at both."""
    table = cards.wide_table()
    first, last = cards.NEAR.highest, cards.FAR.lowest
    for at, other in ((first, last), (last + 1, MOST_COLUMNS - 1), (first - 1, MOST_COLUMNS - 2)):
        table["names"][other] = table["names"][at]
    return encode(REPLY, generate_values.reply(0, table))


def longest_names():
    """Replies whose names are as long as they can be, and differ in one byte: the first, one between, the last."""
    name = b"N" * MOST_BODY
    for at in (0, MOST_BODY // 2, MOST_BODY - 1):
        names = [name[:at] + b"M" + name[at + 1:], name]
        tables = [{"status": 0, "types": [BIGINT] * len(some), "names": some, "rows": []} for some in (names, names[1:])]
        yield REPLY, encode(REPLY, {"version": 1, "client_data": bytes(8), "flags": 0, "status": 1, "application": -128, "round_trip": 0, "tables": tables})


class Shown:
    """A message: its record, and its fields by number and indices; or its refusal."""

    def __init__(self, kind, message):
        self.kind, self.message, self.refusal, self.fields = kind, message, None, []
        try:
            self.record, self.fields = read(kind, message)
        except Refused as no:
            self.refusal = refused(no.number, no.place)
        self.places = {field[2:]: field[:2] for field in self.fields}
        self.firsts = [first_places(table["names"]) for table in self.record["tables"]] if kind == REPLY and not self.refusal else []

    def lines(self):
        if self.refusal:
            return [refusal_line(call, self.refusal) for call in ASKED_ANY + ASKED_REFUSED.get(self.kind, ())]
        kinds = {LOGIN: self.login, LOGIN_REPLY: self.login_reply, INVOCATION: self.invocation, REPLY: self.reply}
        return [*self.any(), *kinds[self.kind]()]

    def any(self):
        count = len(self.fields)
        packed = struct.pack("<%dQ" % (6 * count), *(number for field in self.fields for number in field))
        yield line("accept", 0)
        yield line("field_count", count)
        yield line("fields", "%d %08x" % (count, zlib.crc32(packed)))
        yield line("fields", refused(PAST_END, 0))
        yield line("owner", 0)
        yield line("owner", self.owner(len(self.message) // 2))
        yield line("owner", refused(PAST_END, 0))

    def owner(self, offset):
        return next(n for n, (at, size, *_) in enumerate(self.fields) if at <= offset < at + size)

    def login(self):
        it = self.record
        yield line("login_request", it["version"], "hash_version" in it, it.get("hash_version", 0), *self.part(F_SERVICE), *self.part(F_USER),
                   *self.places[F_HASH, 0, 0, 0])

    def login_reply(self):
        it = self.record
        leader = int.from_bytes(it.get("leader", b""), "big")
        build = (1, *self.part(F_BUILD)) if "build" in it else (0, 0, 0)
        yield line("login_response", it["version"], it["result"], it.get("host", 0), it.get("connection", 0), it.get("start", 0), leader, *build)

    def invocation(self):
        it = self.record
        yield line("invocation", it["version"], *self.part(F_PROCEDURE), int.from_bytes(it["client_data"], "big"), len(it["parameters"]),
                   sum(self.places[F_PARAMETERS, 0, 0, 0]))
        for p, (wire_type, value) in enumerate(it["parameters"]):
            if wire_type != ARRAY:
                yield line("parameter", *self.value(wire_type, value, F_VALUE, p, 0, 0))
                yield line("element", refused(BAD_TYPE, self.places[F_TYPE, p, 0, 0][0]))
                continue
            element_type, elements = value
            yield line("parameter", ARRAY % 256, MANY, element_type, len(elements))
            for i, e in enumerate(elements):
                yield line("element", *((TINYINT, FIXED, 0, e) if element_type == TINYINT else self.value(element_type, e, F_VALUE, p, i, 0)))
            yield line("element", refused(PAST_END, 0))
        yield line("parameter", refused(PAST_END, 0))
        yield line("element", refused(PAST_END, 0))

    def reply(self):
        it = self.record
        yield line("response", it["version"], int.from_bytes(it["client_data"], "big"), it["flags"], it["status"], *self.optional(F_STATUS_STRING),
                   it["application"], *self.optional(F_APPLICATION_STRING), it["round_trip"], *self.optional(F_EXCEPTION),
                   len(it["tables"]), sum(self.places[F_TABLES, 0, 0, 0]))
        yield line("tables", len(it["tables"]))
        for t, table in enumerate(it["tables"]):
            yield from self.table(t, table)
        past = refused(PAST_END, 0)
        for call in ASKED_REFUSED[REPLY][2:]:  # of a table that there isn't; what isn't a card comes before that
            yield refusal_line(call, past if call not in OF_CARDS else refused(BROKEN_CARD, 0))

    def table(self, t, table):
        types, names, past = table["types"], table["names"], refused(PAST_END, 0)
        yield line("rows", len(table["rows"]))
        yield line("columns", len(types))
        for name in (*names, TORN_NAME):
            yield line("find_column", self.found(t, name))
            yield line("find_column", self.found(t + 1, name))
            yield from self.card(t, name)
        yield from (line(call, refused(BROKEN_CARD, 0)) for call in OF_CARDS)
        for c, wire_type in enumerate(types):
            yield line("column_type", wire_type)
            yield line("column_name", *self.part(F_COLUMN_NAME, t, 0, c))
        yield line("column_type", past)
        yield line("column_name", past)
        for r, row in enumerate(table["rows"]):
            for c, wire_type in enumerate(types):
                yield line("cell", *self.value(wire_type, row[c], F_CELL, t, r, c))
                yield line("cell_place", *self.place(F_CELL, t, r, c))
            yield from (line("cell", past), line("cell_place", past))
        yield from [line("cell", past), line("cell_place", past)] * (len(types) + 1)

    def found(self, t, name):
        if t == len(self.firsts):
            return refused(PAST_END, 0)
        return self.firsts[t].get(name, refused(NO_COLUMN, 0))

    def card(self, t, name):
        """What is told of a column's card; of what has none, both refusals."""
        at = self.found(t, name)
        if isinstance(at, str) or len(name) > cards.MOST_NAME:
            return [self.made(t, name, 0), self.made(t, name, BUFFER)]
        card = cards.card_of(at, self.record["tables"][t]["types"][at], name)
        return [self.made(t, name, len(card) - 1), self.made(t, name, BUFFER), *self.asked(t, card), *self.asked(t + 1, card)]

    def made(self, t, name, room):
        """A card that is made in some room: the message's own refusal, then whether there is a table, a column, and whether its name and the card fit."""
        at = self.refusal or self.found(t, name)
        if isinstance(at, str):
            return refusal_line("make_card", at)
        if len(name) > cards.MOST_NAME:
            return refusal_line("make_card", refused(LIMIT, self.places[F_COLUMN_NAME, t, 0, at][0]))
        card = cards.card_of(at, self.record["tables"][t]["types"][at], name)
        if room < len(card):
            return refusal_line("make_card", refused(OUTPUT_SHORT, len(card)))
        return line("make_card", at, card.ljust(BUFFER, MARK).hex())

    def asked(self, t, card):
        """What is told of a card of the right form in a table."""
        return [line("open_card", self.opened(t, card)), line("card_fit", *self.fit(t, card))]

    def opened(self, t, card):
        if t >= len(self.record["tables"]):
            return refused(PAST_END, 0)
        position = cards.opened(self.record["tables"][t], card)
        return refused(STALE_CARD, 0) if position is None else position

    def fit(self, t, card):
        if t >= len(self.record["tables"]):
            return [refused(PAST_END, 0)]
        reason, now = cards.fit(self.record["tables"][t], card) or (0, None)
        return reason, now is not None, now or 0

    def card_lines(self, card):
        """Of any card, in the first table: the message's own refusal, then the card's form, then whether there is a table, and its column."""
        wrong = cards.broken_at(card)
        refusal = self.refusal or (wrong is not None and refused(BROKEN_CARD, wrong))
        return [line(call, refusal) for call in OF_CARDS] if refusal else self.asked(0, card)

    def value(self, wire_type, it, field, *index):
        """A value by its bytes, or that it is null. A counted one's number is `field`, and a body's or a fixed one's the next."""
        if it is None:
            return wire_type, NONE, 0, 0
        if wire_type in COUNTED_TYPES:
            return wire_type, BYTES, *self.part(field, *index)
        at, size = self.places[(field + 1, *index)]
        bits = int.from_bytes(self.message[at:at + size], "big")
        return wire_type, FIXED, bits >> 64, bits % 2**64

    def place(self, field, *index):
        """Start and size of all that is listed for a value: a length, a body, or both."""
        listed = [self.places[(n, *index)] for n in (field, field + 1) if (n, *index) in self.places]
        return listed[0][0], sum(size for _, size in listed)

    def part(self, field, *index):
        """Start and size of a counted body; a size of -1 is null."""
        at, size = self.places[(field, *(index or (0, 0, 0)))]
        return at + size, int.from_bytes(self.message[at:at + size], "big", signed=True)

    def optional(self, field):
        if (field, 0, 0, 0) not in self.places:
            return 0, 0, 0
        start, size = self.part(field)
        return (1, 0, 0) if size < 0 else (2, start, size)


def first_places(names):
    """Where each name stands first."""
    places = {}
    for at, name in enumerate(names):
        places.setdefault(name, at)
    return places


def refusal_line(call, refusal):
    """Making a card also tells what stands where it was to be made, and so that nothing was written there."""
    return line(call, refusal, *([(MARK * BUFFER).hex()] if call == "make_card" else []))


def line(call, *told):
    """What a function answers: words, or numbers."""
    return " ".join([call, *(one if isinstance(one, str) else str(int(one) % 2**64) for one in told)])


def report(message, expected, found):
    kept = ROOT / "target" / "difference.bin"
    kept.write_bytes(message.message)
    print("compare_shown: DIFFERENCE in a message of kind %d, kept in target/%s, or in a card behind it" % (message.kind, kept.name))
    for i, (a, b) in enumerate(zip(expected + ["(end)"], found + ["(end)"])):
        if a != b:
            print("line %d: second reader: %s; shown: %s" % (i + 1, a, b))
            break
    return 1


if __name__ == "__main__":
    sys.exit(main())
