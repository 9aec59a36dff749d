"""The words of the command line."""

import os

from . import paper

USAGE = """\
usage: explain [KIND] FILE [--byte N | --cell TABLE .. | --card CARD [--table N]] [--inside] [--json | --html OUT] [--geojson OUT]

Says what each byte of a message means.

  KIND            %s;
                  also as --kind KIND; if it is left out, the only kind that accepts the message
  FILE            holds one message, its length first, of at most %d bytes; - is standard input
  --byte N        only the field that owns byte N
  --cell TABLE ROW COLUMN
  --cell TABLE --row ROW --column COLUMN
  --cell TABLE --where NAME=VALUE --column COLUMN
                  the value of a cell, and the bytes that are it, that name it and that fix its place. COLUMN is a name, or if no
                  column has that name a number. With --where, the cell is of the first row whose column NAME is VALUE
  --card CARD     opens the shortcut card in the file CARD over a table of a response: the column that it opens, and the bytes that it was compared
                  with; or why it doesn't fit, what stands at its position and where a column of its name and type stands now; or which byte
                  breaks its form. CARD may be - if FILE isn't
  --table N       with --card, the table; 0 if it is left out
  --inside        looks into geographies too: below the body of one that is an area its own fields, indented, with their places in the message:
                  the leading bytes, the rings, each vertex and its longitude and latitude, the kept bytes. A body that is no area is told so
  --json          the fields as lines of JSON: offset, size, field (its number), indices, name, where, value, bytes (in hex), with --cell, with
                  --card and of a refused message their group, and of a field in an area the offset of the body that it stands inside; the last line
                  says the kind and what the answer was made from
  --html OUT      writes a page that shows the bytes, for a browser
  --geojson OUT   writes the geographies of a response's tables as GeoJSON: a feature for each cell, with the other cells of its row, the place of
                  its bytes, and if it is an area a polygon, its holes turned clockwise by the proved library. Of a refused message nothing is written
  --              what follows is KIND and FILE, even if it begins with -

Each line: offset, size, bytes in hex, the field's name, where it belongs, and what it says. Tables, rows, columns, parameters and elements are
counted from 0. Where fields stand, and whether a card fits or why it doesn't, is told by the proved library; words, decimals and moments are put to
their bytes, and degrees computed from the vertices of areas, outside the proof. Exit status: 0 answered, 1 refused or not there, 2 the command
can't be carried out.""" % (
    ", ".join("%d %s" % kind for kind in paper.KINDS.items()), paper.MOST_BYTES)

TAKES_WORD = ("--kind", "--byte", "--row", "--column", "--where", "--card", "--table", "--html", "--geojson")
OPTIONS = TAKES_WORD + ("--cell", "--inside", "--json", "--help", "-h", "--")


class Usage(Exception):
    """The command line asks for nothing that can be done."""


class Options:
    def __init__(self, words):
        self.kind = self.file = self.byte = self.cell = self.row = self.column = self.where = self.card = self.table = self.html = self.geojson = None
        self.json = self.inside = self.help = False
        self.take(list(words))
        if not self.help:
            self.check()

    def take(self, words):
        places = []
        while words:
            word = words.pop(0)
            if word == "--":
                places, words = places + words, []
            elif word in ("--help", "-h"):
                self.help = True
            elif word in ("--json", "--inside"):
                setattr(self, word[2:], True)
            elif word == "--cell":
                self.take_cell(words)
            elif word.split("=")[0] in TAKES_WORD:
                self.take_word(*word.split("=", 1), words=words)
            elif word.startswith("-") and word != "-":
                raise Usage("there is no option %s" % word)
            else:
                places.append(word)
        self.take_places(places)

    def take_word(self, option, *joined, words):
        """An option and its word, which may be joined to it by = and may begin with -."""
        if not joined and not words:
            raise Usage("%s needs a word" % option)
        word = joined[0] if joined else words.pop(0)
        setattr(self, option[2:], word)

    def take_cell(self, words):
        """TABLE, which `cell` keeps, or TABLE ROW COLUMN: a column's name may be any word but an option's."""
        if not words:
            raise Usage("--cell needs a table's number")
        self.cell = words.pop(0)
        if len(words) >= 2 and words[0].isdecimal() and words[1] not in OPTIONS:
            self.row, self.column = words.pop(0), words.pop(0)

    def take_places(self, places):
        if not self.help and len(places) not in (1, 2):
            raise Usage("one FILE is needed, and a KIND may stand before it")
        if len(places) == 2:
            if self.kind is not None:
                raise Usage("the kind is given twice")
            self.kind = places[0]
        self.file = places[-1] if places else None

    def check(self):
        for name in ("kind", "byte", "table", "row"):
            setattr(self, name, natural(name, getattr(self, name)))
        self.cell = natural("table", self.cell)
        if self.kind is not None and self.kind not in paper.KINDS:
            raise Usage("there is no kind %d: they are 1 to %d" % (self.kind, max(paper.KINDS)))
        if self.cell is None and (self.row, self.column, self.where) != (None, None, None):
            raise Usage("--row, --where and --column go with --cell TABLE")
        if self.cell is not None and (self.column is None or (self.row is None) == (self.where is None)):
            raise Usage("--cell needs a row, by its number or by --where NAME=VALUE, and a column")
        if [self.byte, self.cell, self.card].count(None) < 2 or (self.json and self.html is not None):
            raise Usage("--byte, --cell and --card, or --json and --html, don't go together")
        if self.inside and self.html is not None:
            raise Usage("--inside and --html don't go together: the page shows the message's own fields")
        self.check_card()
        if self.where is not None and "=" not in self.where:
            raise Usage("--where takes NAME=VALUE")
        self.column, self.where = as_bytes(self.column), as_bytes(self.where)

    def check_card(self):
        if self.card is None and self.table is not None:
            raise Usage("--table goes with --card: --cell has its own")
        if self.card is not None and self.inside:
            raise Usage("--inside and --card don't go together: a card is about a column, and not about its cells")
        if self.card == self.file == "-":
            raise Usage("FILE and CARD can't both be standard input")


def natural(name, word):
    """A number from 0 on, in decimal digits without a sign or a 0 before it."""
    if word is None:
        return None
    if not (word.isascii() and word.isdecimal() and len(word) <= 18) or (word[0] == "0" and word != "0"):
        raise Usage("%s is a number from 0 on, and not %s" % (name.upper(), ascii(word)))
    return int(word)


def as_bytes(word):
    return None if word is None else os.fsencode(word)
