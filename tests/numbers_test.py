"""Tests that docs/NUMBERS.md says what all others say that have these numbers too: the headers, the Rust wrapper, the proved code and its definition, explain, the second reader. They read the
sources, and need nothing built. Run: python3 tests/numbers_test.py"""

import itertools
import os
import pathlib
import re
import sys
import unittest

sys.dont_write_bytecode = True
ROOT = pathlib.Path(__file__).resolve().parents[1]
sys.path.insert(0, str(ROOT / "tools"))

sys.path.insert(0, str(ROOT / "tests" / "second"))

import cards
import writer
from explain import paper


def source(path):
    return (ROOT / path).read_text()


def part(text, start, end):
    """What stands between two marks, of which the first stands once."""
    _, rest = text.split(start)
    return rest[:rest.index(end)]


def numbered(pattern, text):
    """The pairs of a name and its number, in their order."""
    return [(name, int(number)) for name, number in re.findall(pattern, text, re.MULTILINE)]


PAGE = source("docs/NUMBERS.md")
HEADER = source("include/chaloenpik.h")
WORDS = source("include/chaloenpik_words.h")


def table(*header):
    """The rows of the page's only table with a header."""
    _, below = PAGE.split("| %s |\n" % " | ".join(header))
    rows = itertools.takewhile(lambda line: line.startswith("|"), below.splitlines()[1:])
    return [[cell.strip() for cell in row.strip("|").split("|")] for row in rows]


def plain(cell):
    """A name that stands in a cell alone."""
    return re.fullmatch("`([A-Z_]+)`", cell).group(1)


REFUSALS = table("No.", "Name", "Given exactly if", "Place", "Calls")
FIELDS = table("No.", "Name", "What it is", "Indices")
NAMED_REFUSALS = [(plain(row[1]), int(row[0])) for row in REFUSALS]
NAMED_FIELDS = [(plain(row[1]), int(row[0])) for row in FIELDS]
GROUPS = {group: re.fullmatch("`(.+)`", calls).group(1).split("`, `") for group, calls in table("Group", "Calls")}
GROUPS_OF = {int(row[0]): row[4].split("; ") for row in REFUSALS}


def given_by(call):
    return sorted(number for number, groups in GROUPS_OF.items() if any(call in GROUPS[group] for group in groups))


class Refusals(unittest.TestCase):
    def test_their_order_and_their_gaps(self):
        self.assertEqual([number for _, number in NAMED_REFUSALS], [*range(1, 7), *range(8, 14), *range(20, 26)])
        self.assertEqual(len(dict(NAMED_REFUSALS)), len(NAMED_REFUSALS))

    def test_the_header_has_them(self):
        self.assertEqual(numbered(r"CHALOENPIK_(\w+) = (\d+)", part(HEADER, "/* Refusals, and their places", "};")), NAMED_REFUSALS)

    def test_each_has_a_sentence(self):
        told = re.findall(r'case CHALOENPIK_(\w+): return "(.+)";', part(WORDS, "chaloenpik_refusal_text(unsigned refusal) {\n    switch", "default"))
        self.assertEqual([name for name, _ in told], [name for name, _ in NAMED_REFUSALS])
        self.assertEqual(len({words for _, words in told}), len(told))

    def test_rust_has_them(self):
        others = {int(number): name for number, name in re.findall(r"(\d+) `(\w+)`", part(PAGE, "Seven have another name in Rust: ", "\n"))}
        self.assertEqual(len(others), 7)
        wanted = [(others.get(number, name.title().replace("_", "")), number) for name, number in NAMED_REFUSALS]
        rust = source("bindings/rust/src/refusal.rs")
        self.assertEqual(numbered(r"^    (\w+) = (\d+),", part(rust, "pub enum Cause {", "\n}")), [*wanted, ("UnknownAnswer", 0)])
        self.assertEqual(re.findall(r"Cause::(\w+),", part(rust, "const CAUSES: ", "];")), [name for name, _ in wanted])

    def test_the_proved_code_and_its_definition_give_them(self):
        code = numbered(r"Fault::(\w+) => (\d+),", part(source("crates/format/src/lib.rt"), "impl From<Fault> for u8 {", "\n}"))
        self.assertEqual(numbered(r"^number_of (\w+) = (\d+)$", source("crates/format/specs/Result.antt")), code)
        self.assertEqual(sorted(number for _, number in code), [number for _, number in NAMED_REFUSALS])

    def test_explain_has_those_of_reading(self):
        self.assertEqual(sorted(paper.REFUSALS), given_by("accept"))

    def test_the_second_reader_has_those_of_reading(self):
        names_and_numbers = part(source("tests/second/wire.py"), "# Refusal numbers of reading.", "\n\n")
        self.assertEqual(sorted(map(int, re.findall(r"\b\d+\b", names_and_numbers))), given_by("accept"))


class Calls(unittest.TestCase):
    def test_every_function_of_the_header_is_in_a_group(self):
        functions = re.findall(r"^(?:static inline )?\w+ chaloenpik_(\w+)\(", HEADER, re.MULTILINE)
        self.assertEqual(sorted({call for calls in GROUPS.values() for call in calls}), sorted(functions))

    def test_those_of_the_archive_can_be_refused_and_the_others_not(self):
        for call in re.findall(r"^uint64_t chaloenpik_(\w+)\(", HEADER, re.MULTILINE):
            self.assertTrue(given_by(call), call)
        for call in re.findall(r"^static inline \w+ chaloenpik_(\w+)\(", HEADER, re.MULTILINE):
            self.assertEqual(given_by(call), [], call)

    def test_groups_are_named_where_they_are_and_no_call_twice(self):
        self.assertEqual({group for groups in GROUPS_OF.values() for group in groups} | {"never refused"}, set(GROUPS))
        self.assertEqual(len(GROUPS), len(table("Group", "Calls")))
        for listed in (*GROUPS.values(), *GROUPS_OF.values()):
            self.assertEqual(len(set(listed)), len(listed), listed)


def count(text):
    return int(text.replace(",", ""))


def places(text):
    """The first and the last place of a cell: one, two, or from one to another."""
    found = re.findall(r"[\d,]*\d", text.replace(", ", " "))
    return count(found[0]), count(found[-1])


class Cards(unittest.TestCase):
    """Their two kinds, by name: kind byte, size, positions; and the bytes of each."""

    ROWS = table("Card", "Kind byte", "Bytes in all", "Positions", "Position at", "Type at", "Name length at", "Name at")
    SAID = {name: (count(kind), count(size), *places(positions)) for name, kind, size, positions, *_ in ROWS}
    MOST_COLUMNS = SAID["far"][3] + 1

    def test_their_bytes_follow_each_other(self):
        for name, _, size, _, *parts in self.ROWS:
            (first, last), *rest = map(places, parts)
            self.assertEqual(first, 1, name)
            for begin, end in rest:
                self.assertEqual(begin, last + 1, name)
                last = end
            self.assertEqual((last + 1, end - begin + 1), (count(size), cards.MOST_NAME), name)

    def test_each_position_has_one(self):
        self.assertEqual(list(self.SAID), ["near", "far"])
        self.assertEqual([low for *_, low, _ in self.SAID.values()], [0, self.SAID["near"][3] + 1])

    def test_the_page_says_them_where_they_are_refused(self):
        limit, short, broken = (" ".join(row[2:4]) for row in REFUSALS if row[0] in ("3", "8", "12"))
        self.assertIn(" {:,} columns, on a card {} bytes of a name".format(self.MOST_COLUMNS, cards.MOST_NAME), limit)
        self.assertIn("the bytes needed: %d for a near card, %d for a far one;" % tuple(size for _, size, *_ in self.SAID.values()), short)
        self.assertIn("a kind byte that isn't %d or %d" % tuple(kind for kind, *_ in self.SAID.values()), broken)
        self.assertIn("longer than %d bytes" % cards.MOST_NAME, broken)

    def test_the_header_has_their_sizes(self):
        sizes = dict(numbered(r"CHALOENPIK_(\w+) = (\d+)", part(HEADER, "/* Sizes. */", "};")))
        self.assertEqual((sizes["NEAR_CARD"], sizes["FAR_CARD"]), tuple(size for _, size, *_ in self.SAID.values()))
        self.assertEqual((sizes["FAR_POSITION"], sizes["TYPES"]), (self.SAID["far"][2], self.MOST_COLUMNS))

    def test_rust_has_them(self):
        sizes = dict(numbered(r"const (\w+): usize = (\d+);", source("bindings/rust/src/card.rs")))
        self.assertEqual((sizes["NEAR_SIZE"], sizes["FAR_POSITION"], sizes["MOST_SIZE"]), (self.SAID["near"][1], self.SAID["far"][2], self.SAID["far"][1]))
        self.assertIn("pub type Types = [u8; %d];" % self.MOST_COLUMNS, source("bindings/rust/src/foreign.rs"))

    def test_the_proved_code_and_its_definition_have_them(self):
        code, definition = source("crates/cards/src/lib.rt"), source("crates/cards/specs/Card.antt")
        wanted = {name: {"number": kind, "width": cards.FORMS[kind - 1].width, "low": low, "high": high} for name, (kind, _, low, high) in self.SAID.items()}
        kinds = re.findall(r"^const (\w+): Kind = Kind \{(.+?)\}", code, re.M | re.S)
        self.assertEqual({name.lower(): dict(numbered(r"(\w+): (\d+)", fields)) for name, fields in kinds}, wanted)
        kinds = re.findall(r"^(near|far) = record \{(.+?)\}", definition, re.M)
        self.assertEqual({name: dict(numbered(r"(\w+) = (\d+)", fields)) for name, fields in kinds}, wanted)
        self.assertEqual(numbered(r"pub const (MOST_COLUMNS): u64 = (\d+);", source("crates/format/src/lib.rt")), [("MOST_COLUMNS", self.MOST_COLUMNS)])
        self.assertEqual(numbered(r"^(most_columns) = (\d+)$", source("crates/format/specs/Message.antt")), [("most_columns", self.MOST_COLUMNS)])

    def test_the_second_reader_has_them(self):
        second = [(form.kind, form.size, form.lowest, form.highest) for form in cards.FORMS]
        self.assertEqual(list(self.SAID.values()), second)
        self.assertEqual(cards.MOST_COLUMNS, self.MOST_COLUMNS)


class Fits(unittest.TestCase):
    """How a card fits: the answers by number, in words, and by their names in C and Rust."""

    ROWS = table("Answer", "Name", "When", "In Rust")
    SAID = {int(number): words for number, _, words, _ in ROWS}
    REASONS = [(re.fullmatch(r"`Reason::(\w+)`", rust).group(1), int(number)) for number, *_, rust in ROWS if number != "0"]

    def test_their_order(self):
        self.assertEqual(list(self.SAID), [0, *cards.REASONS])

    def test_the_header_has_them_in_the_same_words(self):
        named = [(plain(name), int(number)) for number, name, *_ in self.ROWS]
        self.assertEqual(numbered(r"CHALOENPIK_(\w+) = (\d+)", part(HEADER, "/* How a card fits a table", "};")), named)
        told = re.findall(r'case CHALOENPIK_(\w+): return "(.+)";', part(WORDS, "chaloenpik_fit_text(uint64_t fit) {\n    switch", "default"))
        self.assertEqual(told, [(name, self.SAID[number]) for name, number in named])

    def test_rust_has_them_in_the_same_words(self):
        rust = source("bindings/rust/src/card.rs")
        self.assertEqual(numbered(r"^    (\w+) = (\d+),", part(rust, "pub enum Reason {", "\n}")), self.REASONS)
        self.assertEqual(re.findall(r"Reason::(\w+)", part(rust, "const ALL: ", "];")), [name for name, _ in self.REASONS])
        told = re.findall(r'Reason::(\w+) => "(.+)",', part(rust, "impl fmt::Display for Reason {", "\n}"))
        self.assertEqual(told, [(name, self.SAID[number]) for name, number in self.REASONS])
        self.assertIn('Fit::Fits => f.pad("%s")' % self.SAID[0], rust)

    def test_the_proved_code_and_its_definition_have_the_reasons(self):
        code = part(source("crates/numbers/src/lib.rt"), "fn reason_number(", "\n}")
        self.assertEqual(numbered(r"Reason::(\w+) => (\d+),", code), self.REASONS)
        self.assertEqual(numbered(r"^reason_number Reason\.(\w+) = (\d+)$", source("crates/cards/specs/Reasons.antt")), self.REASONS)

    def test_explain_has_them_in_the_same_words(self):
        self.assertEqual(paper.FITS, self.SAID)


class WholeRows(unittest.TestCase):
    """The size of a null, which is the same number everywhere."""

    NULL_SIZE = next(row[2] for row in table("Column", "First number", "Second number") if "null" in row[0])

    def test_the_page_has_it(self):
        self.assertEqual(self.NULL_SIZE, "2^64 - 1, which is `CHALOENPIK_NULL_SIZE` in C and `NULL_SIZE` in Rust")

    def test_the_headers_and_rust_have_it(self):
        self.assertIn("#define CHALOENPIK_NULL_SIZE UINT64_MAX\n", HEADER)
        self.assertIn("pub const NULL_SIZE: u64 = u64::MAX;\n", source("bindings/rust/src/foreign.rs"))

    def test_the_proved_code_and_its_definition_have_it(self):
        self.assertIn("pub const NULL_SIZE: u64 = 0xffff_ffff_ffff_ffff;\n", source("crates/whole/src/lib.rt"))
        self.assertIn("null_size = 2 ^ 64 - 1\n", source("crates/whole/specs/Rows.antt"))

    def test_the_second_writer_has_it(self):
        self.assertEqual(writer.NULL_SIZE, 2**64 - 1)


class Fields(unittest.TestCase):
    def test_their_order_and_their_gaps(self):
        self.assertEqual([number for _, number in NAMED_FIELDS], [*range(1, 9), *range(10, 17), *range(20, 29), *range(30, 52), *range(60, 69)])
        self.assertEqual(len(dict(NAMED_FIELDS)), len(NAMED_FIELDS))

    def test_the_header_has_them(self):
        self.assertEqual(numbered(r"CHALOENPIK_FIELD_(\w+) = (\d+)", HEADER), NAMED_FIELDS)
        self.assertEqual(re.findall(r"case CHALOENPIK_FIELD_(\w+):", WORDS), [name for name, _ in NAMED_FIELDS])

    def test_rust_has_them(self):
        self.assertEqual(numbered(r"^    pub const (\w+): u8 = (\d+);", source("bindings/rust/src/field.rs")), NAMED_FIELDS)

    def test_explain_has_them_in_the_same_words(self):
        self.assertEqual([int(row[0]) for row in FIELDS], sorted(paper.FIELDS))
        for number, _, what, _ in FIELDS:
            self.assertRegex(what, "^%s[, ]" % re.escape(paper.FIELDS[int(number)][0]))

    def test_each_has_three_indices(self):
        groups = {paper.PARAMETER_FIELDS: "parameter", paper.TABLE_FIELDS: "table", paper.RING_FIELDS: "ring"}
        for number, _, _, indices in FIELDS:
            first, _, _ = indices.split(":")[0].split(", ")
            self.assertEqual(first, next((name for fields, name in groups.items() if int(number) in fields), "0"), number)


def below(folder):
    """The files below a folder. What `rt` makes in a crate's folder out/ is none of its files, and comes and goes while `rt` runs beside: it isn't entered."""
    for at, folders, names in os.walk(folder):
        folders[:] = [name for name in folders if name != "out"]
        for name in names:
            yield pathlib.Path(at, name)


class Seven(unittest.TestCase):
    """It is no longer given, nor told: a name or an expected answer that still has it was forgotten. The notes on requests say what was, and the crate
    `causes` proves what became of it."""

    FOLDERS = ("bench", "bindings", "crates", "docs", "examples", "include", "samples", "tests", "tools")
    OF_BEFORE = (ROOT / "docs" / "requests", ROOT / "crates" / "causes")
    TOLD = re.compile(r"\brefus(?:ed|al) 7\b|BAD[_]VALUE|Cause::Bad[V]alue")

    def test_nothing_tells_it(self):
        files = [path for folder in self.FOLDERS for path in below(ROOT / folder)] + [ROOT / "README.md"]
        self.assertGreater(len(files), 100)
        told = [str(path.relative_to(ROOT)) for path in files
                if not any(folder in path.parents for folder in self.OF_BEFORE) and self.TOLD.search(path.read_bytes().decode(errors="replace"))]
        self.assertEqual(told, [])


if __name__ == "__main__":
    unittest.main()
