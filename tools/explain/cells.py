"""One cell, as the insurer asks for it: which one is meant, and the bytes that are it, that name it, and that fix its place."""

import difflib
import fractions
import struct

from . import paper, values
from .fields import shown_name

CELL_FIELDS = (paper.CELL_LENGTH, paper.CELL)
DECLARING = (paper.COLUMN_TYPE, paper.COLUMN_NAME_LENGTH, paper.COLUMN_NAME)

# What is read on the way to a table, and in a table on the way to a row.
TO_TABLE = (paper.MESSAGE_LENGTH, paper.FLAG_BYTE, paper.STATUS_LENGTH, paper.APPLICATION_LENGTH, paper.EXCEPTION_LENGTH, paper.TABLE_COUNT, paper.TABLE_LENGTH)
TO_ROW = (paper.METADATA_LENGTH, paper.COLUMN_COUNT, paper.COLUMN_NAME_LENGTH, paper.ROW_COUNT, paper.ROW_LENGTH)

VALUE, NAMES, PLACE = "value", "name", "place"
MOST_TOLD = 8  # rows, or columns, told in a sentence; a table may have a thousand


class NotThere(Exception):
    """The message has no such cell."""


class Cell:
    """A cell of a message, its value in words, and its bytes' fields in three groups."""

    def __init__(self, explained, table, row, column, key=None):
        self.explained, self.table, self.row, self.column, self.key = explained, table, row, column, key
        self.own = explained.at(CELL_FIELDS, (table, row, column))
        self.start, self.end = self.own[0].offset, self.own[-1].end

    @property
    def wire_type(self):
        return self.explained.column_type(self.table, self.column)

    @property
    def raw(self):
        """The bytes of the value, without a length; None for a text or binary null."""
        last = self.own[-1]
        return last.raw if last.number == paper.CELL else None if values.signed(last.raw) == paper.NULL_LENGTH else b""

    def value(self):
        return "null" if self.raw is None else values.value_text(self.wire_type, self.raw)

    def raw_number(self):
        return "no bytes: the length says null" if self.raw is None else values.raw_text(self.wire_type, self.raw)

    def groups(self):
        """The fields of each group, in wire order."""
        found = {VALUE: [], NAMES: [], PLACE: []}
        for entry in self.explained.entries():
            group = self.group(*entry)
            if group:
                found[group].append(self.explained.field(entry))
        return found

    def group(self, offset, size, number, i, j, k):
        if number in CELL_FIELDS and (i, j, k) == (self.table, self.row, self.column):
            return VALUE
        if i == self.table and ((number in DECLARING and k in (self.column, self.key)) or (number in CELL_FIELDS and (j, k) == (self.row, self.key))):
            return NAMES
        return PLACE if offset < self.start and self.fixes_place(number, i, j, k) else None

    def fixes_place(self, number, i, j, k):
        """Whether a field before the cell has a part in where it stands: rows before its own are passed by their lengths, cells before it by their columns'
        types and their own lengths."""
        if number in TO_TABLE:
            return True
        in_row = (number == paper.COLUMN_TYPE and k < self.column) or (number == paper.CELL_LENGTH and j == self.row)
        return i == self.table and (number in TO_ROW or in_row)


# -- Which cell is meant

class Chosen:
    """The cell that a question means, and sentences on how it was found."""

    def __init__(self, explained, question):
        self.explained, self.table = explained, question.cell
        self.names = names_of(explained, question.cell)
        self.notes = []
        row = self.checked_row(question.row) if question.where is None else None
        key = None if question.where is None else self.key_column(question.where)
        column = self.find(question.column)
        if key is not None:
            row = self.row_of(key, question.where[len(self.names[key]) + 1:])
        self.note_name(column, question.column)
        self.cell = Cell(explained, self.table, row, column, key)

    def checked_row(self, row):
        rows = row_count(self.explained, self.table)
        if row >= rows:
            raise NotThere("there is no row %d: table %d has %s" % (row, self.table, values.count_of(rows, "row")))
        return row

    def find(self, word):
        """A column by its name, the first that has it; or by its number, if none has that name."""
        if word in self.names:
            return self.names.index(word)
        if word.isdigit() and int(word) < len(self.names):
            return int(word)
        raise NotThere("table %d has no column %s; it has %s" % (self.table, shown_name(word), self.columns_told(word)))

    def columns_told(self, word):
        """All names, or of many those that come near a word."""
        if len(self.names) <= MOST_TOLD:
            return ", ".join(map(shown_name, self.names)) or "none"
        found = list(map(shown_name, near(word, self.names))) or ["none"]
        return "%d columns, and of their names %s %s near (without --cell all are told)" % (len(self.names), some(found), "come" if found[1:] else "comes")

    def key_column(self, where):
        """The column that the words before a = name."""
        ends = [at for at, byte in enumerate(where) if byte == ord("=")]
        found = [where[:at] for at in ends if where[:at] in self.names]
        return self.find(found[0] if found else where[:ends[0]])

    def row_of(self, key, word):
        wire_type = self.explained.column_type(self.table, key)
        wanted = key_value(wire_type, word)
        if wanted is None:
            raise NotThere("%s is no value that a column of type %s can be asked for" % (values.quoted(word), paper.TYPES[wire_type]))
        cells = key_cells(self.explained, self.table, key)
        rows = [row for row, raw in cells.items() if raw is not None and plain_value(wire_type, raw) == wanted]
        name = shown_name(self.names[key])
        if not rows:
            raise NotThere("no row of table %d has %s %s; it has %s" % (self.table, name, values.quoted(word), values.count_of(len(cells), "row")))
        self.note_rows(rows, name, word.decode(), len(cells))
        return rows[0]

    def note_rows(self, rows, name, word, count):
        if len(rows) == 1:
            self.notes.append("row %d is the only one of %s whose %s is %s" % (rows[0], values.count_of(count, "row"), name, word))
        else:
            self.notes.append("%d rows have the %s %s: this is the first of them; the others are %s" % (len(rows), name, word, some(rows[1:])))
        if rows[0] > 0:
            self.notes.append("the rows before it were looked at and passed over: they have another %s" % name)

    def note_name(self, column, word):
        if column > 0 and self.names[column] == word:
            self.notes.append("the columns before it were looked at and passed over: they have other names")
        same = [other for other, name in enumerate(self.names) if name == self.names[column]]
        if len(same) > 1:
            which = "the first, as the search for a name takes it" if column == same[0] else "the one asked for by its number"
            self.notes.append("%d columns have this name, %s: this is %s" % (len(same), some(same) if same[2:] else "%d and %d" % tuple(same), which))


def some(things):
    """The first of some things, one after the other."""
    return ", ".join(map(str, things[:MOST_TOLD])) + (", .." if len(things) > MOST_TOLD else "")


def near(word, names):
    """The names that have a word in them, in small letters or capitals; if there is none, those that are spelt much like it."""
    as_text = {name.decode("latin-1"): name for name in names}
    having = [name for name in as_text.values() if word.lower() in name.lower()]
    return having or [as_text[it] for it in difflib.get_close_matches(word.decode("latin-1"), as_text, MOST_TOLD)]


def names_of(explained, table):
    counts = explained.at((paper.COLUMN_COUNT,), (table, 0, 0))
    if not counts:
        raise NotThere(no_table(explained, table))
    return [explained.column_name(table, column) for column in range(values.signed(counts[0].raw))]


def no_table(explained, table):
    tables = [values.signed(field.raw) for field in explained.matching(lambda offset, size, number, *rest: number == paper.TABLE_COUNT)]
    return "there is no table %d: the message has %s" % (table, values.count_of(sum(tables), "table"))


def row_count(explained, table):
    return values.signed(explained.at((paper.ROW_COUNT,), (table, 0, 0))[0].raw)


def key_cells(explained, table, column):
    """For each row the bytes of its cell in a column, without a length; None for a text or binary null."""
    cells = {}
    for offset, size, number, i, j, k in explained.entries():
        if number in CELL_FIELDS and i == table and k == column:
            raw = explained.message[offset:offset + size]
            cells[j] = raw if number == paper.CELL else None if values.signed(raw) == paper.NULL_LENGTH else b""
    return cells


def plain_value(wire_type, raw):
    """A value to be compared with what `key_value` gives."""
    if wire_type == paper.FLOAT:
        return struct.unpack(">d", raw)[0]
    if wire_type in (paper.STRING, paper.VARBINARY):
        return raw
    number = values.signed(raw)
    if wire_type == paper.DECIMAL:
        return None if number == paper.NULL_DECIMAL else fractions.Fraction(number, 10**paper.DECIMAL_PLACES)
    return number


def key_value(wire_type, word):
    """What a word means as a value of a column's type; None if nothing."""
    try:
        if wire_type == paper.STRING:
            return word
        if wire_type == paper.VARBINARY:
            return bytes.fromhex(word.decode("ascii").removeprefix("0x"))
        if wire_type in (paper.POINT, paper.GEOGRAPHY):
            return None
        return {paper.FLOAT: float, paper.DECIMAL: fractions.Fraction}.get(wire_type, int)(word.decode("ascii"))
    except (ValueError, ZeroDivisionError):
        return None
