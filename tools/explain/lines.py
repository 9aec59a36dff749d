"""The answers as lines of text."""

import itertools

from . import areas, cards, cells, values

BYTES_SHOWN = 8     # bytes of a field shown in hex before they are cut
BYTES_IN_LINE = 16  # of a field shown whole, and of the bytes around a place
LINES_AROUND = 2    # before and after the place's own line
BLOCK = 4096        # fields put into words at once, so that the first lines of a long list come at once
RUN_SHOWN = 3       # fields shown at each end of a long run of one number
INDENT = "  "       # before the name of a field inside an area

PROMISE = """\
No byte but those of the value and the one of its column's type has a part in what is read: two accepted replies in which these are equal show the same
value, whatever their other bytes are (proved: `cells_alike`, over `cell_reads_its_bytes`; docs/PROMISES.md, demand 3). The other bytes above say
which cell it is and where it stands. Whether the message is accepted at all hangs on all its bytes. The digits and words are put to them outside the proof."""


class Columns:
    """How wide each column must be for all of some fields, so that their lines stand below each other; never less than for the fields before them."""

    def __init__(self, hexed=None):
        self.hexed = hexed or short_hex
        self.offset = self.size = self.bytes = self.name = self.where = 0

    def widen(self, fields):
        self.offset = max(self.offset, *(len(str(field.offset)) for field in fields))
        self.size = max(self.size, *(len(str(field.size)) for field in fields))
        self.bytes = max(self.bytes, *(len(self.hexed(field.raw)) for field in fields))
        self.name = max(self.name, *(len(indented_name(field)) for field in fields))
        self.where = max(self.where, *(len(field.where) for field in fields))

    def line(self, field):
        return "%*d  %*d  %-*s  %-*s  %-*s  %s" % (
            self.offset, field.offset, self.size, field.size, self.bytes, self.hexed(field.raw),
            self.name, indented_name(field), self.where, field.where, field.value)


def indented_name(field):
    return field.name if field.inside is None else INDENT + field.name


def field_lines(fields):
    """A line for each field, a block at a time."""
    columns, fields = Columns(), iter(fields)
    for block in iter(lambda: list(itertools.islice(fields, BLOCK)), []):
        columns.widen(block)
        yield from map(columns.line, block)


def tiling_line(explained):
    return "%s, side by side from byte 0 to byte %d: every byte has one owner" % (values.count_of(len(explained), "field"), len(explained.message) - 1)


def short_hex(raw):
    """The bytes, or the first and the last of them: a number's last bytes say the most."""
    if len(raw) <= BYTES_SHOWN:
        return raw.hex(" ")
    return "%s .. %s" % (raw[:BYTES_SHOWN // 2].hex(" "), raw[1 - BYTES_SHOWN // 2:].hex(" "))


def first_hex(raw):
    """The bytes of a line's length; the rest is shown below."""
    return raw[:BYTES_IN_LINE].hex(" ")


def span(offset, size):
    return "byte %d" % offset if size == 1 else "bytes %d to %d" % (offset, offset + size - 1)


# -- One byte

def byte_lines(explained, offset, inside=areas.Opaque()):
    byte = explained.message[offset]
    which, lines = "byte %d (hex %02x, decimal %d) is" % (offset, byte, byte), []
    for field in inside.owners(explained.owner(offset), offset):
        lines += ["%s number %d of the %s of:" % (which, offset - field.offset + 1, values.count_of(field.size, "byte")), *field_lines([field])]
        which = "and in this area it is"
    return lines


# -- One cell

def cell_lines(chosen, inside=areas.Opaque()):
    cell = chosen.cell
    groups = cell.groups()
    groups[cells.VALUE] = list(inside.among(groups[cells.VALUE]))
    columns = Columns(first_hex)
    for fields in groups.values():
        columns.widen(fields)
    where = "table %d, row %d, %s" % (cell.table, cell.row, cell.explained.column_text(cell.table, cell.column))
    return [
        "%s is %s" % (where, inside.value(cell)), "the number or bytes behind it: %s" % cell.raw_number(), *chosen.notes, "",
        "The bytes that are the value, %s:" % span(cell.start, cell.end - cell.start), *whole_lines(columns, groups[cells.VALUE]), "",
        "The bytes that name it, its column's type and name%s:" % (", and the column and the cell that chose its row" if cell.key is not None else ""),
        *whole_lines(columns, groups[cells.NAMES]), "",
        "The bytes that fix its place, the lengths, counts and types that are read on the way to it:", *shortened(columns, groups[cells.PLACE]), "",
        *PROMISE.splitlines()]


def whole_lines(columns, fields):
    """Lines that leave no byte out."""
    for field in fields:
        yield columns.line(field)
        for at in range(BYTES_IN_LINE, field.size, BYTES_IN_LINE):
            yield "%*d  %*s  %s" % (columns.offset, field.offset + at, columns.size, "", field.raw[at:at + BYTES_IN_LINE].hex(" "))


def shortened(columns, fields):
    """Lines in which the middle of a long run of fields of one number, such as the lengths of all rows before, is one sentence."""
    for _, run in itertools.groupby(fields, lambda field: field.number):
        run = list(run)
        left_out = run[RUN_SHOWN:-RUN_SHOWN]
        if len(left_out) <= RUN_SHOWN:
            yield from whole_lines(columns, run)
            continue
        yield from whole_lines(columns, run[:RUN_SHOWN])
        yield "%*s  .. %d more of the same, between bytes %d and %d (--json lists each)" % (columns.offset, "", len(left_out), left_out[0].offset, left_out[-1].end - 1)
        yield from whole_lines(columns, run[-RUN_SHOWN:])


# -- A card

CARD_GROUPS = {
    cards.COMPARED: "The bytes that the card was compared with:",
    cards.NOW: "The bytes that say where its name and type stand now:",
    cards.TABLES: "The bytes that say how many tables there are:",
}


def card_lines(card):
    """The sentences, the fields by group, and of a card that breaks its form the card's own bytes."""
    groups = {group: fields for group, fields in card.groups.items() if fields}
    columns, told = Columns(first_hex), list(card.words)
    for fields in groups.values():
        columns.widen(fields)
    for group, fields in groups.items():
        told += ["", CARD_GROUPS[group], *whole_lines(columns, fields)]
    return told + (["", "The card's bytes:", *around(card.raw, card.place)] if card.broken else [])


# -- A refusal

def refusal_lines(refused):
    fields = refused.last_fields()
    left_out = len(refused.explained) - len(fields)
    lines = list(refused.words)
    if fields:
        lines += ["", "The fields up to there, by the second reader (tests/second), which refuses the message at the same place for the same fault:"]
        lines += ["(%d fields before these)" % left_out] * (left_out > 0) + list(field_lines(fields))
    return lines + [""] + around(refused.message, refused.place)


def around(message, place):
    """The bytes around a place, with a mark below it."""
    line_of_place = place // BYTES_IN_LINE * BYTES_IN_LINE
    start = max(0, line_of_place - LINES_AROUND * BYTES_IN_LINE)
    end = line_of_place + (LINES_AROUND + 1) * BYTES_IN_LINE
    width = len(str(end))
    lines = []
    for at in range(start, end, BYTES_IN_LINE):
        raw = message[at:at + BYTES_IN_LINE]
        if raw or at == line_of_place:
            lines.append(("%*d  %-*s  %s" % (width, at, 3 * BYTES_IN_LINE - 1, raw.hex(" "), printable(raw))).rstrip())
        if at == line_of_place:
            lines.append(" " * (width + 2 + 3 * (place - at)) + "^^ %d" % place)
    return lines


def printable(raw):
    return "".join(chr(byte) if 32 <= byte < 127 else "." for byte in raw)
