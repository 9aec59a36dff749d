"""Why a message is refused, in words: which field, what it says, the rule that it breaks, what the bytes say, and how the row begins that it stands in.

That it is refused, the number and the place are the proved library's. Of a refused message the library lists no fields, so the fields up to the place are the
second reader's (second.py). They are told only if it refuses the message with the same number at the same place.
"""

import functools

from . import cells, lines, paper, rules, second, texts, values
from .fields import Explained, shown_name

MOST_FIELDS = 40  # the last ones before the place that are shown as text
MOST_CELLS = 4    # the first ones of a row, which tell people whose row it is

# Which count says how many of a field there are.
COUNTS = {paper.PARAMETER_TYPE: paper.PARAMETER_COUNT, paper.VALUE_LENGTH: paper.ELEMENT_COUNT, paper.VALUE: paper.ELEMENT_COUNT,
          paper.TABLE_LENGTH: paper.TABLE_COUNT, paper.COLUMN_TYPE: paper.COLUMN_COUNT, paper.COLUMN_NAME_LENGTH: paper.COLUMN_COUNT,
          paper.ROW_LENGTH: paper.ROW_COUNT}


class Refusal:
    """A refused message: the sentences that tell why, and the fields up to the place."""

    def __init__(self, kind, message, refusal, accepting=()):
        self.message, (self.number, self.place) = message, refusal
        self.second = second.same(second.of_message(kind, message)[0], refusal)
        self.explained = Explained(message, self.fields_up_to(kind) if self.second else [])
        self.words = [self.headline(), *(self.particular() if self.second else self.general())] + [
            "As %d, %s, the same bytes are accepted." % (other, paper.KINDS[other]) for other in accepting]

    def last_fields(self):
        return [self.explained[n] for n in range(max(0, len(self.explained) - MOST_FIELDS), len(self.explained))]

    def headline(self):
        return "refused %d at %d: %s" % (self.number, self.place, paper.REFUSALS[self.number][0])

    def general(self):
        return ["The place is: %s." % paper.REFUSALS[self.number][1],
                "The second reader (tests/second) doesn't refuse this message so: one of the two is wrong, and no more can be said. Please report it."]

    def particular(self):
        told = {
            paper.NO_ROOM: self.no_room, paper.BAD_SIGN: self.bad_sign, paper.LIMIT: self.limit, paper.LEFT_OVER: self.left_over,
            paper.BAD_VERSION: self.bad_version, paper.BAD_TYPE: self.bad_type, paper.BAD_TEXT: self.bad_text, paper.BAD_DECIMAL: self.bad_decimal,
            paper.BAD_POINT: self.bad_point, paper.BAD_FLAGS: self.bad_flags, paper.BAD_NAME: self.bad_name, paper.BAD_GEOGRAPHY: rules.empty_geography,
        }
        return [*self.field_words(), *told[self.number](), *self.row_words()]

    def fields_up_to(self, kind):
        """Those that were read; of a file that goes on behind its message, whose bytes weren't looked at for that, those of the message by itself."""
        return second.of_message(kind, self.message[:self.place])[1] if self.goes_on() else self.second.fields

    def goes_on(self):
        return self.number == paper.LEFT_OVER and self.place == 4 + values.signed(self.message[:4]) and self.second.room == len(self.message)

    # -- The field

    @functools.cached_property
    def field(self):
        """The field at the place, if it could be read."""
        found = self.explained.owner(self.place)
        return found if found and found.number == self.second.field else None

    def field_words(self):
        if self.number == paper.LEFT_OVER:
            return []
        where = self.explained.where(self.second.field, *self.second.index)
        name = "The field is: %s%s" % (paper.FIELDS[self.second.field][0], ", " + where if where else "")
        if not self.field:
            return ["%s, at %d; the message has %s." % (name, self.place, values.count_of(len(self.message), "byte"))]
        return ["%s. Its bytes are %s: %s." % (name, lines.short_hex(self.field.raw), self.said() if self.number == paper.BAD_SIGN else self.field.value)]

    def row_words(self):
        """Of a cell: the first cells of its row, as far as they were read before it."""
        table, row, column = self.second.index
        before = range(min(column, MOST_CELLS) if self.second.field in cells.CELL_FIELDS else 0)
        told = ["%s %s" % (shown_name(self.explained.column_name(table, other)), cells.Cell(self.explained, table, row, other).value()) for other in before]
        return ["Its row begins with %s." % ", ".join(told)] if told else []

    def said(self):
        return values.signed(self.field.raw)

    def room_name(self):
        """The room that the field stands in, which is the innermost."""
        number, (i, j, _) = self.second.field, self.second.index
        if number >= paper.CELL_LENGTH:
            return "row %d of table %d" % (j, i)
        if paper.TABLE_STATUS <= number <= paper.COLUMN_NAME:
            return "the metadata of table %d" % i
        return "table %d" % i if number in (paper.METADATA_LENGTH, paper.ROW_COUNT, paper.ROW_LENGTH) else "the message"

    # -- What the bytes say, by the refusal's number

    def no_room(self):
        if self.field:
            there = self.second.room - self.field.end
            missing = self.said() - there
            return ["It says %d bytes, and %d are there, up to the end of %s at %d: %s missing." % (
                self.said(), there, self.room_name(), self.second.room, "1 byte is" if missing == 1 else "%d bytes are" % missing)]
        there = self.second.room - self.place
        return ["It would have %s, and %d are there, up to the end of %s at %d." % (
            values.count_of(self.second.size, "byte"), there, self.room_name(), self.second.room), *self.count_words()]

    def count_words(self):
        """If a count says that there is one more than there is room for."""
        count = self.explained.matching(lambda offset, size, number, i, *rest: number == COUNTS.get(self.second.field) and (
            number not in (paper.ELEMENT_COUNT, paper.COLUMN_COUNT, paper.ROW_COUNT) or i == self.second.index[0]))
        if not count:
            return []
        i, j, k = self.second.index
        nth = {paper.ROW_COUNT: j, paper.COLUMN_COUNT: k, paper.ELEMENT_COUNT: j}.get(count[0].number, i)
        return ["The %s, at %d, says %d, and this is number %d of them." % (count[0].name, count[0].offset, values.signed(count[0].raw), nth + 1)]

    def bad_sign(self):
        if self.said() == 0:
            return ["A message has at least its version byte, so its length isn't 0."]
        null = " -1 stands for null only in the two status strings and in string, varbinary and geography values." if self.said() == paper.NULL_LENGTH else ""
        return ["A length or a count isn't negative, and this one is %d.%s" % (self.said(), null)]

    def limit(self):
        return ["It says %d, and the limit is %d." % (self.said(), self.second.most)]

    def left_over(self):
        left = self.second.room - self.place
        if self.goes_on():
            return ["The message's length says %d, so it ends at %d, and the file has %s more." % (self.place - 4, self.place, values.count_of(left, "byte")), *self.next_words()]
        room = self.explained.at((self.second.field,), self.second.index)[0]
        what = "%s of %s" % (room.name, room.where) if room.where else room.name
        return ["The %s, at %d, says %d, so its room ends at %d, and %s left in it after its last field." % (
            what, room.offset, values.signed(room.raw), self.second.room, "1 byte is" if left == 1 else "%d bytes are" % left)]

    def next_words(self):
        """Whether what follows looks like a message: its length, and a version byte."""
        rest = self.message[self.place:]
        length = values.signed(rest[:4])
        if len(rest) < 5 or not 1 <= length <= len(rest) - 4 or rest[4] not in (0, 1):
            return []
        return ["Another message seems to begin at %d: its length says %d, and so many bytes are there." % (self.place, length)]

    def bad_version(self):
        return ["It is 0 or 1, and this one is %d." % self.said()]

    def bad_type(self):
        if self.said() in paper.TYPES:
            return ["A column or an element of an array can't be %s." % paper.TYPES[self.said()]]
        return ["There is no wire type %d. They are: %s." % (self.said(), ", ".join("%d %s" % pair for pair in sorted(paper.TYPES.items())))]

    def bad_decimal(self):
        return rules.decimal(self.field.raw)

    def bad_point(self):
        return rules.point(self.field.raw)

    def bad_flags(self):
        return rules.flags(self.field.raw[0])

    def bad_name(self):
        return rules.name(self.field.raw, self.place - self.field.offset)

    def bad_text(self):
        raw, at = self.field.raw, self.place - self.field.offset
        return ["Around byte %d, number %d of the text's %d, stands %s: no character of UTF-8 begins there." % (self.place, at + 1, len(raw), texts.around(raw, at)),
                texts.fault(raw[at:])]
