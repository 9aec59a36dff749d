"""Shortcut cards, as paper 01 and requests 6 and 7 say them: near ones for the first columns of a table, far ones for those behind.

    FORMS, NEAR, FAR                        the two kinds: each with its kind byte, how many bytes its position has, and which positions these can be
    form_at(position)                   ->  the kind of card that a column has
    card_of(position, type, name)       ->  the bytes of its card
    broken_at(card)                     ->  the first byte that breaks its form; None if it has it
    opened(table, card)                 ->  the position that a card of the right form opens in a table of a record, or None
    fit(table, card)                    ->  None if such a card fits; else why it doesn't, and the first position where its column stands now, or None
    edges()                             ->  cards of both kinds, each fitting `wide_table`, with one byte changed to every other, with another
                                            position, of another kind, and of every size up to some more than they have
    moved()                             ->  (table, cards) pairs: columns that are nearly equal in every order, and the card of each at every position
"""

import itertools
from typing import NamedTuple

from wire import *

MOST_NAME = 32
POSITION_AT = 1  # behind the kind byte


class Form(NamedTuple):
    """Behind the position stand the type and the name's length, a byte each, and then the name and zeros."""
    kind: int
    width: int
    lowest: int
    highest: int

    @property
    def type_at(self):
        return POSITION_AT + self.width

    @property
    def name_at(self):
        return self.type_at + 2

    @property
    def size(self):
        return self.name_at + MOST_NAME

    def spelled(self, position, wire_type, name):
        """A card of this kind, whether the position may be there or not."""
        return bytes([self.kind]) + position.to_bytes(self.width, "big") + bytes([wire_type % 256, len(name)]) + name.ljust(MOST_NAME, b"\0")

    def parts(self, card):
        """The position, the type, the name's length, and the bytes behind it."""
        position = int.from_bytes(card[POSITION_AT:self.type_at], "big")
        return position, card[self.type_at], card[self.type_at + 1], card[self.name_at:]


NEAR, FAR = FORMS = Form(1, 1, 0, 63), Form(2, 2, 64, MOST_COLUMNS - 1)
MOST_SIZE = max(form.size for form in FORMS)
NEAR_COLUMNS = FAR.lowest  # the most columns whose cards are all near


def form_at(position):
    (form,) = (form for form in FORMS if form.lowest <= position <= form.highest)
    return form


def form_of(card):
    """The kind of card that its first byte says; None if that is none."""
    return next((form for form in FORMS if card[:1] == bytes([form.kind])), None)


def card_of(position, wire_type, name):
    return form_at(position).spelled(position, wire_type, name)


def broken_at(card):
    """The kind byte, then the size, then the rest."""
    form = form_of(card)
    if form is None:
        return 0
    if len(card) != form.size:
        return min(len(card), form.size)
    position, wire_type, size, rest = form.parts(card)
    if not form.lowest <= position <= form.highest:
        return POSITION_AT
    if wire_type not in COLUMN_TYPES:
        return form.type_at
    if size > MOST_NAME:
        return form.type_at + 1
    wrong = (at for at, byte in enumerate(rest) if (byte > 127 if at < size else byte != 0))
    return next((form.name_at + at for at in wrong), None)


def opened(table, card):
    position, wire_type, size, rest = form_of(card).parts(card)
    if position >= len(table["types"]):
        return None
    return position if (table["types"][position], table["names"][position]) == (wire_type, rest[:size]) else None


# Why a card doesn't fit. The first that holds is the reason.
PAST_COLUMNS, OTHER_TYPE, OTHER_NAME = REASONS = 1, 2, 3


def fit(table, card):
    position, wire_type, size, rest = form_of(card).parts(card)
    name, types, names = rest[:size], table["types"], table["names"]
    if position >= len(types):
        reason = PAST_COLUMNS
    elif types[position] != wire_type:
        reason = OTHER_TYPE
    elif names[position] != name:
        reason = OTHER_NAME
    else:
        return None
    return reason, next((at for at, column in enumerate(zip(types, names)) if column == (wire_type, name)), None)


# -- Cards at the edges of their form.

# Positions at both ends of each kind, and where the second byte of a far one turns over; the bytes of the last one, exchanged, are a position too.
POSITIONS = (0, 1, NEAR.highest, FAR.lowest, FAR.lowest + 1, 255, 256, FAR.highest - 1, FAR.highest, 0x0102)
TRIED_WHOLE = (NEAR.highest, 0x0102)  # where each byte is changed to every other; elsewhere to those at some edge
EDGE_BYTES = (0, 1, 2, 3, 27, 32, 33, 63, 64, 127, 128, 255)
KIND_BYTES = (0, NEAR.kind, FAR.kind, 3, 255)
LONGEST = 80


def wide_table(columns=MOST_COLUMNS):
    """A table whose columns all differ."""
    types = [COLUMN_TYPES[c % len(COLUMN_TYPES)] for c in range(columns)]
    return {"status": 0, "types": types, "names": [wide_name(c) for c in range(columns)], "rows": []}


def wide_name(column):
    """Its number, behind so many letters that names have 4 to 32 bytes; at the last column of 32 the most."""
    return b"N" * (column % 32 * (MOST_NAME - 4) // 31) + b"%04d" % column


def edges():
    fitting = wide_table()
    for position in POSITIONS:
        card = card_of(position, fitting["types"][position], fitting["names"][position])
        yield card
        yield from with_bytes_changed(card, range(256) if position in TRIED_WHOLE else EDGE_BYTES)
        yield from with_another_position(card)
        yield from of_another_kind(card)
    for kind in KIND_BYTES:
        for card in (card_of(NEAR.highest, BIGINT, b"n" * MOST_NAME), card_of(FAR.lowest, BIGINT, b"n" * MOST_NAME), b""):
            long_one = bytes([kind]) + card[1:].ljust(LONGEST, b"\0")
            yield from (long_one[:size] for size in range(LONGEST + 1))


def with_bytes_changed(card, others):
    for at in range(len(card)):
        yield from (card[:at] + bytes([byte]) + card[at + 1:] for byte in others)


def with_another_position(card):
    """With the bytes of its position exchanged; and with others, the next ones and those at each edge, whether its kind has them or not."""
    form = form_of(card)
    position, *_ = form.parts(card)
    most = 256**form.width - 1
    others = {position - 1, position + 1, *POSITIONS, MOST_COLUMNS, 2**15, most}
    for place in (card[POSITION_AT:form.type_at][::-1], *(other.to_bytes(form.width, "big") for other in sorted(others) if 0 <= other <= most)):
        yield card[:POSITION_AT] + place + card[form.type_at:]


def of_another_kind(card):
    """The other kind's byte before the same bytes, with the size as it was and as that kind has it; and the same column by the other kind, where
    its position has room there."""
    (other,) = (form for form in FORMS if form != form_of(card))
    changed = bytes([other.kind]) + card[1:]
    yield changed
    yield changed.ljust(other.size, b"\0")[:other.size]
    position, wire_type, size, rest = form_of(card).parts(card)
    if position < 256**other.width:
        yield other.spelled(position, wire_type, rest[:size])


# -- Cards whose columns have moved.

# A name, and others that are nearly it: with another first byte or last one, shorter, longer, with a zero behind it as a card has, and none at all; and
# the longest that a card holds, beside one that it doesn't.
NAME, FIRST_OTHER, *MORE_OTHERS = b"LIMIT", b"KIMIT", b"LIMIS", b"LIMI", b"LIMITS", b"LIMIT\0", b""
LONG_NAMES = b"n" * MOST_NAME, b"n" * (MOST_NAME + 1)

# How many other columns come before those that are looked for: these have near cards, some of each kind, far ones, and the last that there are.
ACROSS, LAST_THREE = NEAR.highest - 1, MOST_COLUMNS - 3


def moved():
    """All tables of up to three columns that have one of two types and one of two names, behind others: so a card's column stands nowhere, before its
    position, there, behind it, or at several of these, beside columns that have only its type or only its name. Of other names two columns."""
    columns = nearly_equal(NAME, FIRST_OTHER)
    for before in (0, ACROSS, FAR.lowest):
        yield from (asked(before, some, columns) for count in range(4) for some in itertools.product(columns, repeat=count))
        for others in (*(nearly_equal(NAME, other) for other in MORE_OTHERS), nearly_equal(*LONG_NAMES)):
            yield from (asked(before, some, others) for some in itertools.permutations(others, 2))
    yield from (asked(LAST_THREE, some, columns) for some in itertools.permutations(columns[1:]))


def nearly_equal(*names):
    return list(itertools.product((BIGINT, FLOAT), names))


def asked(before, some, columns):
    """A table with some columns behind others, and a card for each of the columns at each of their positions, at the next one, and at the edges."""
    table = wide_table(before)
    table["types"] += [wire_type for wire_type, _ in some]
    table["names"] += [name for _, name in some]
    positions = sorted({0, NEAR.highest, FAR.lowest, *range(before, before + len(some) + 1)} - {MOST_COLUMNS})
    return table, [card_of(at, wire_type, name) for at in positions for wire_type, name in columns if len(name) <= MOST_NAME]
