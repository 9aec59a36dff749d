"""A shortcut card over a table of a response: the column that it opens, or why it opens none, in words, and the fields of the message that this is seen by.

Whether it opens, and why it doesn't, are two answers of the proved library, and told only if they agree. A card's own bytes are in no field list: what they say is
the second reader's (second.py), and told only if it finds the card's form as the library does, right or broken at the same byte.
"""

import struct
from typing import NamedTuple, Optional, Tuple

from . import building, cells, paper, second, values
from .building import Missing
from .fields import shown_name
from .listing import run

GIVEN, SAID = struct.Struct(">QB"), struct.Struct("<5Q")  # what cards.c is given before the card and the message, and what it says

COMPARED, NOW, TABLES = "compared", "now", "tables"  # groups of fields

REFUSES = "Opening by this card is refused, so that no limit or other value is read from the wrong column."
BY_HAND = "A new card is made by hand, with chaloenpik_make_card, once it is clear which column is meant."
DISAGREED = "The second reader (tests/second) doesn't find this card's form so: one of the two is wrong, and what the card says can't be told. Please report it."


class Unequal(Exception):
    """The library's two answers on a card don't agree: something is broken, and neither is to be trusted."""


class Answer(NamedTuple):
    """The column that a card opens; or the refusal, and of a card that doesn't fit the reason, and where a column of its name and type stands now, if one does."""
    column: Optional[int] = None
    refusal: Optional[Tuple[int, int]] = None
    reason: Optional[int] = None
    now: Optional[int] = None


def asked(message, table, card):
    """What the proved library says of a card over a table."""
    raw = run(building.cards_program(), GIVEN.pack(table, len(card)) + card + message)
    if len(raw) != SAID.size:
        raise Missing("the program that opens cards said something else than it was asked")
    opened, fit, reason, stands, position = SAID.unpack(raw)
    check_agreement(opened, fit, reason)
    if opened & 255 == 0:
        return Answer(column=opened >> 8)
    why = {} if fit else {"reason": reason, "now": position if stands else None}
    return Answer(refusal=(opened & 255, opened >> 8), **why)


def check_agreement(opened, fit, reason):
    """Asking whether a card fits is refused as opening it is, but where opening says that it doesn't fit: then it gives a reason. The library is proved to answer
    so; what stands between it and this program isn't."""
    if fit:
        agree = opened == fit and fit & 255 in (paper.NO_TABLE, paper.CARD_BROKEN)
    else:
        agree = reason in paper.FITS and (opened == paper.CARD_STALE if reason else opened & 255 == 0)
    if not agree:
        raise Unequal("opening the card and asking whether it fits gave answers that don't agree: don't trust this program's answers")


class Card:
    """A card over a table of an accepted response: the sentences that tell what it says and what became of it, and fields in groups."""

    def __init__(self, explained, table, raw):
        self.explained, self.table, self.raw = explained, table, raw
        self.answer = asked(explained.message, table, raw)
        self.number, self.place = self.answer.refusal or (None, None)
        self.broken = self.number == paper.CARD_BROKEN
        followed = second.cards().broken_at(raw) == (self.place if self.broken else None)
        self.said = Said.by(raw) if followed and not self.broken else None
        self.form_words = [DISAGREED] if not followed else [fault(raw, self.place)] if self.broken else [self.said.sentence()]
        self.words, self.groups = self.told()

    def told(self):
        """The sentences, and by group the fields."""
        if self.number is None:
            column = self.explained.column_text(self.table, self.answer.column)
            return ["the card fits: it opens %s of table %d" % (column, self.table), *self.form_words], {COMPARED: self.compared(self.answer.column)}
        words = ["refused %d at %d: %s" % (self.number, self.place, paper.CARD_REFUSALS[self.number]), *self.form_words]
        if self.number == paper.CARD_STALE:
            return words + self.stale_words(), {COMPARED: self.compared(self.there), NOW: self.declaring(self.answer.now)}
        if self.number == paper.NO_TABLE:
            tables = self.explained.matching(lambda offset, size, number, *rest: number == paper.TABLE_COUNT)
            return words + ["%s." % cells.no_table(self.explained, self.table).capitalize()], {TABLES: tables}
        return words, {}

    # -- A card that doesn't fit

    @property
    def there(self):
        """The column that stands at its position; None if there is none, or the position can't be told."""
        return self.said.position if self.said and self.answer.reason != paper.COLUMN_PAST else None

    def stale_words(self):
        return ["The reason: %s." % paper.FITS[self.answer.reason], *self.there_words(), self.now_words(), REFUSES, BY_HAND]

    def there_words(self):
        if self.answer.reason == paper.COLUMN_PAST:
            return ["Table %d has %s." % (self.table, values.count_of(len(cells.names_of(self.explained, self.table)), "column"))]
        return [] if self.there is None else ["At its position now stands %s." % self.explained.column_text(self.table, self.there)]

    def now_words(self):
        if self.answer.now is None:
            return "No column of table %d has its name and type." % self.table
        return "Its name and type now stand at %s." % self.explained.column_text(self.table, self.answer.now)

    # -- Fields

    def compared(self, column):
        """What a card is compared with: the column count, and of the column at its position the type and the name."""
        return self.explained.at((paper.COLUMN_COUNT,), (self.table, 0, 0)) + self.declaring(column)

    def declaring(self, column):
        return [] if column is None else self.explained.at(cells.DECLARING, (self.table, 0, column))


# -- A card's own bytes

class Said(NamedTuple):
    """What a card of the right form says."""
    kind: str
    position: int
    wire_type: str
    name: bytes

    @classmethod
    def by(cls, raw):
        form = second.cards().form_of(raw)
        position, wire_type, size, rest = form.parts(raw)
        return cls(kind_name(form), position, paper.TYPES[wire_type], rest[:size])

    def sentence(self):
        return "The card is a %s one: position %d, type %s, name %s." % (self.kind, self.position, self.wire_type, shown_name(self.name))


def kind_name(form):
    return "near" if form == second.cards().NEAR else "far"


def fault(raw, place):
    """Which byte breaks a card's form, and what would be right."""
    form = second.cards().form_of(raw)
    if not raw:
        return "The card is empty: it has not even a kind."
    if form is None:
        return stands(0, "its kind", raw[:1], " and ".join("%d is a %s card" % (other.kind, kind_name(other)) for other in second.cards().FORMS))
    if len(raw) != form.size:
        size = "more" if len(raw) > second.cards().MOST_SIZE else values.count_of(len(raw), "byte")  # of a longer file no more is read
        return "A %s card, of kind %d, has %s, and this one has %s." % (kind_name(form), form.kind, values.count_of(form.size, "byte"), size)
    return stands(place, *broken_part(raw, place, form))


def stands(place, what, raw, rule):
    return "At byte %d stands %s, %d (hex %s): %s." % (place, what, int.from_bytes(raw, "big"), raw.hex(" "), rule)


def broken_part(raw, place, form):
    """What stands at a place, its bytes, and its rule."""
    _, _, size, _ = form.parts(raw)
    one = raw[place:place + 1]
    if place < form.type_at:
        return "its position", raw[place:form.type_at], "a %s card holds positions from %d to %d" % (kind_name(form), form.lowest, form.highest)
    if place == form.type_at:
        name = paper.TYPES.get(values.signed(one))
        return "its type", one, "a column can't be %s" % name if name else "there is no such wire type"
    if place < form.name_at:
        return "the length of its name", one, "a name on a card has at most %s" % values.count_of(second.cards().MOST_NAME, "byte")
    if place < form.name_at + size:
        return "number %d of the %d bytes of its name" % (place - form.name_at + 1, size), one, "a column's name has bytes from 0 to %d" % paper.MOST_IN_NAME
    return "a byte behind its name", one, "these are 0 up to the card's end"
