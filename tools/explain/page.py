"""One self-contained page: the bytes as a grid coloured by field, and the field list. It needs no network.

The page can hold four million bytes and as many fields, so it gets both packed, and its scripts unpack them and draw what is visible.
The scripts tell a field in the words of fields.py and values.py; the paper's names are handed to them, so that they stand once.
"""

import array
import base64
import html
import itertools
import json
import operator
import pathlib
import re
import sys

from . import paper, values

FOLDER = pathlib.Path(__file__).parent
FRAME, STYLE = "page.html", "page.css"
SCRIPTS = ("values.js", "fields.js", "rows.js", "draw.js", "page.js")
NUMBERS_IN_ENTRY = 6  # offset, size, field number, three indices

# The numbers of the paper that the scripts go by, under their names in paper.py.
NUMBERS = (
    "PARAMETER_TYPE", "ELEMENT_TYPE", "VALUE_LENGTH", "VALUE", "COLUMN_TYPE", "COLUMN_NAME_LENGTH", "COLUMN_NAME", "ROW_LENGTH", "CELL_LENGTH", "CELL",
    "ARRAY", "TINYINT", "FLOAT", "STRING", "TIMESTAMP", "DECIMAL", "VARBINARY", "POINT", "GEOGRAPHY",
)


def page(kind, name, message, entries, refusal=None, words=(), footer=()):
    """The page as text. entries: a flat sequence of numbers (six for each field: offset, size, field number, three indices), in wire
    order, covering the message; of a refused message (refusal is (number, place), else None) those of the fields before its place.
    words: the sentences that tell a refusal, the first is its headline. footer: lines for the page's end."""
    templates, ids = packed(entries)
    told = {"paper": paper_words(), "place": refusal[1] if refusal else None, "templates": templates, "bytes_in_id": ids.itemsize}
    return filled({
        "title": html.escape("%s, %s" % (encodable(name), paper.KINDS[kind])),
        "summary": "{:,} bytes, {:,} fields{}".format(len(message), len(ids), " up to the refusal" if refusal else ""),
        "state": "refused" if refusal else "accepted",
        "words": paragraphs(words),
        "footer": paragraphs(footer),
        "style": text_of(STYLE),
        "told": script_json(told),
        "bytes": base64.b64encode(message).decode("ascii"),
        "ids": base64.b64encode(little_endian(ids)).decode("ascii"),
        "script": "\n".join(map(text_of, SCRIPTS)),
    })


def filled(parts):
    return re.sub(r"\{\{(\w+)\}\}", lambda hole: parts[hole[1]], text_of(FRAME))


def text_of(name):
    return (FOLDER / name).read_text(encoding="utf-8")


def paragraphs(sentences):
    return "".join("<p>%s</p>" % html.escape(encodable(sentence)) for sentence in sentences)


def encodable(text):
    """Text that can be written as UTF-8: a file's name need not be."""
    return text.encode("utf-8", errors="backslashreplace").decode("utf-8")


def script_json(told):
    """JSON that can stand in a script element: without a <, nothing in it closes the element or opens a comment."""
    return json.dumps(told, separators=(",", ":")).replace("<", "\\u003c")


# -- Fields, packed: each is an id into a list of templates, of which a message has few.

def packed(entries):
    """(templates, ids). A template is a field's number, its size, and how far each index is from that of the field before."""
    columns = [entries[at::NUMBERS_IN_ENTRY] for at in range(NUMBERS_IN_ENTRY)]
    offsets, sizes, numbers, *indices = columns
    if any(map(operator.ne, offsets, itertools.accumulate(sizes, initial=0))):
        raise ValueError("the fields don't follow each other from the message's start")
    ids_of = Numbered()
    ids = list(map(ids_of.__getitem__, zip(numbers, sizes, *map(differences, indices))))
    return list(ids_of), array.array(smallest_type(len(ids_of)), ids)


class Numbered(dict):
    """Gives each new key the next number."""

    def __missing__(self, key):
        self[key] = len(self)
        return self[key]


def differences(column):
    return map(operator.sub, column, itertools.chain([0], column))


def smallest_type(count):
    """The array type that holds the numbers below a count in the fewest bytes."""
    return next(code for code in "BHI" if count <= 256 ** array.array(code).itemsize)


def little_endian(ids):
    """The ids' bytes as the browsers' machines order them."""
    if sys.byteorder == "big":
        ids.byteswap()
    return ids.tobytes()


# -- Words

def paper_words():
    return {
        "fields": paper.FIELDS,
        "types": paper.TYPES,
        "statuses": paper.STATUSES,
        "results": paper.RESULTS,
        "hashes": paper.HASHES,
        "flags": list(paper.FLAGS.items()),
        "parameter_fields": [paper.PARAMETER_FIELDS[0], paper.PARAMETER_FIELDS[-1]],
        "table_fields": [paper.TABLE_FIELDS[0], paper.TABLE_FIELDS[-1]],
        "decimal_places": paper.DECIMAL_PLACES,
        "most_shown": values.MOST_SHOWN,
        **{name: getattr(paper, name) for name in NUMBERS},
    }
