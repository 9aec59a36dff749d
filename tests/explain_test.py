"""Tests of ./explain, ./list and the words of tests/compare. The listing of the sample is stored (explain/engines.list), so that most need no built program; where the kit is, the programs are
built and asked too. Run: python3 tests/explain_test.py"""

import array
import contextlib
import io
import itertools
import json
import math
import os
import pathlib
import re
import shutil
import signal
import struct
import subprocess
import sys
import tempfile
import time
import unittest
from unittest import mock

sys.dont_write_bytecode = True
ROOT = pathlib.Path(__file__).resolve().parents[1]
sys.path[:0] = [str(ROOT / "tools"), str(ROOT / "tests" / "second")]

import areas as second_areas
import cards as second_cards
import encoder
import generate
import generate_areas
import harbour
import reader
import wire
import wire_poly
from explain import areas, building, cards, cells, command, geojson, lines, listing, main, paper, records, refusals, sources, texts, values
from explain.fields import Explained

STORED = ROOT / "tests" / "explain"
SAMPLE = STORED / "engines.reply"
MESSAGE = SAMPLE.read_bytes()
LISTED = (STORED / "engines.list").read_text()
ENGINES = ROOT / "samples" / "4-engines.bin"
POSITIONS = ROOT / "samples" / "4-positions.bin"
AREAS = ROOT / "samples" / "4-areas.bin"
BROKEN = ROOT / "samples" / "4-engines-limit-broken.bin"
BIG = ROOT / "samples" / "4-big-report.bin"
WITHOUT_VESSEL = ROOT / "samples" / "4-engines-without-vessel.bin"
NEAR_CARD = ROOT / "samples" / "limit.card"
FAR_CARD = ROOT / "samples" / "limit-far.card"
NO_LONGER_GIVEN = "refused %d " % 7  # which was split by cause


def sample():
    return Explained(MESSAGE, listing.from_text(LISTED)[1])


def explained(hex_bytes, *entries):
    return Explained(bytes.fromhex(hex_bytes), list(entries))


def read_by_second(message, kind=wire.REPLY):
    return Explained(message, reader.read(kind, message)[1])


def reply(types, names, rows):
    return encoder.encode(wire.REPLY, harbour.reply({"status": 0, "types": types, "names": names, "rows": rows}))


def call(*parameters):
    return encoder.encode(wire.INVOCATION, {"version": 0, "procedure": b"", "client_data": bytes(8), "parameters": list(parameters)})


def chosen(message, *words):
    return cells.Chosen(read_by_second(message), command.Options(["4", "x", *words]))


class Sample(unittest.TestCase):
    def test_lines(self):
        self.assertEqual("\n".join(lines.field_lines(sample())) + "\n", (STORED / "engines.txt").read_text())

    def test_every_byte_has_the_line_of_its_field(self):
        shown = sample()
        for offset in range(len(MESSAGE)):
            field = shown.owner(offset)
            self.assertTrue(field.offset <= offset < field.end)
        self.assertIsNone(shown.owner(len(MESSAGE)))

    def test_byte(self):
        first, line = lines.byte_lines(sample(), 157)
        self.assertEqual(first, "byte 157 (hex 8b, decimal 139) is number 14 of the 16 bytes of:")
        self.assertEqual(line, "144  16  00 00 00 00 .. 8b d8 00  cell  table 0, row 0, column 2 THROTTLE_LIMIT (decimal)  5.500000000000")

    def test_a_long_list_comes_in_blocks(self):
        with mock.patch.object(lines, "BLOCK", 10):
            told = list(lines.field_lines(sample()))
        self.assertEqual([line.split() for line in told], [line.split() for line in (STORED / "engines.txt").read_text().splitlines()])

    def test_json(self):
        told = [json.loads(line) for line in records.field_records(sample())]
        self.assertEqual(b"".join(bytes.fromhex(record["bytes"]) for record in told), MESSAGE)
        self.assertEqual(told[34], {"offset": 144, "size": 16, "field": 51, "indices": [0, 0, 2], "name": "cell", "bytes": "00000000000000000000050091 8bd800".replace(" ", ""),
                                    "where": "table 0, row 0, column 2 THROTTLE_LIMIT (decimal)", "value": "5.500000000000"})


class Harbour(unittest.TestCase):
    def test_the_samples_are_its_messages_and_cards(self):
        self.assertEqual({file.name: file.read_bytes() for file in (ROOT / "samples").iterdir()}, harbour.samples())

    def test_the_input_of_limit_is_its_replies(self):
        program, messages = ROOT / "crates" / "limit", harbour.replies()
        self.assertEqual(((program / "stdin").read_bytes(), (program / "stdout").read_text()), (harbour.framed(messages), harbour.limits(messages)))

    def test_cards_are_stale_there_for_each_reason(self):
        for messages in (harbour.replies(), harbour.big_replies()):
            stale = [line.split("; ") for line in harbour.limits(messages).splitlines() if line.startswith("stale: ")]
            self.assertEqual({reason for reason, _ in stale}, {"stale: " + paper.FITS[reason] for reason in second_cards.REASONS})
            self.assertEqual({now.rstrip("0123456789") for _, now in stale}, {"no column has its name and type", "its name and type now stand at column "})


class InsurersQuestion(unittest.TestCase):
    """Which bytes set the limit of engine 2?"""

    def setUp(self):
        self.message = ENGINES.read_bytes()

    def asked(self, *words):
        return lines.cell_lines(chosen(self.message, "--cell", "0", *words))

    def test_by_engine(self):
        told = self.asked("--where", "ENGINE_ID=2", "--column", "THROTTLE_LIMIT")
        self.assertEqual(told[:3], ["table 0, row 1, column 3 THROTTLE_LIMIT (decimal) is 0.800000000000",
                                    "the number or bytes behind it: 800000000000 x 10^-12", "row 1 is the only one of 4 rows whose ENGINE_ID is 2"])
        self.assertIn("The bytes that are the value, bytes 238 to 253:", told)
        self.assertTrue(any(line.startswith("238  16  00 00 00 00 00 00 00 00 00 00 00 ba 43 b7 40 00  cell") for line in told))
        self.assertTrue(any("`cells_alike`" in line for line in told))

    def test_the_promises_it_names_are_there(self):
        promises = (ROOT / "docs" / "PROMISES.md").read_text() + (ROOT / "crates" / "exactly" / "proofs" / "Exactly.antt").read_text()
        for name in ("cells_alike", "cell_reads_its_bytes"):
            self.assertIn("`%s`" % name, lines.PROMISE)
            self.assertIn("pub %s :" % name, promises)

    def test_the_three_groups(self):
        groups = chosen(self.message, "--cell", "0", "--where", "ENGINE_ID=2", "--column", "THROTTLE_LIMIT").cell.groups()
        self.assertEqual([(field.offset, field.size) for field in groups["value"]], [(238, 16)])
        self.assertEqual([field.offset for field in groups["name"]], [39, 42, 46, 50, 79, 83, 212])
        self.assertEqual([field.offset for field in groups["place"]], [0, 13, 15, 26, 28, 32, 37, 40, 41, 59, 69, 97, 110, 119, 131, 135, 208, 216, 225])

    def test_the_groups_fix_the_cell(self):
        """A byte outside them can be changed, as long as the message is accepted, and the cell stays where it is and what it is."""
        cell = chosen(self.message, "--cell", "0", "1", "THROTTLE_LIMIT").cell
        listed = {at for fields in cell.groups().values() for field in fields for at in range(field.offset, field.end)}
        tried = 0
        for at in set(range(len(self.message))) - listed:
            changed = bytearray(self.message)
            changed[at] ^= 1
            with contextlib.suppress(reader.Refused):
                other = cells.Cell(read_by_second(bytes(changed)), 0, 1, 3)
                self.assertEqual((other.start, other.raw), (cell.start, cell.raw))
                tried += 1
        self.assertGreater(tried, 200)

    def test_by_number_and_name(self):
        first = self.asked("1", "THROTTLE_LIMIT")[0]
        for words in (["1", "3"], ["--row", "1", "--column", "3"], ["--row=1", "--column=THROTTLE_LIMIT"]):
            self.assertEqual(self.asked(*words)[0], first)

    def test_keys_of_each_type(self):
        for where, row in (("ENGINE_ID=9", 3), ("VESSEL=Ærø", 2), ("THROTTLE_LIMIT=0.8", 1), ("THROTTLE_LIMIT=.85", 0), ("COOLANT_C=76", 3), ("SERVICED=0", 2)):
            self.assertEqual(chosen(self.message, "--cell", "0", "--where", where, "--column", "0").cell.row, row)

    def test_several_rows(self):
        self.assertIn("2 rows have the VESSEL Bodil: this is the first of them; the others are 1", self.asked("--where", "VESSEL=Bodil", "--column", "0"))

    def test_not_there(self):
        for words, told in ((["--where", "ENGINE_ID=3", "--column", "0"], 'no row of table 0 has ENGINE_ID "3"; it has 4 rows'),
                            (["--where", "ENGINE_ID=x", "--column", "0"], '"x" is no value that a column of type integer can be asked for'),
                            (["--where", "BERTH=0", "--column", "0"], '"0" is no value that a column of type point can be asked for'),
                            (["--where", "ENGINE=", "--column", "0"], 'no row of table 0 has ENGINE ""; it has 4 rows'),
                            (["--where", "VESSEL=\udcc3", "--column", "0"], 'no row of table 0 has VESSEL "\\xc3"; it has 4 rows'),
                            (["4", "0"], "there is no row 4: table 0 has 4 rows"),
                            (["0", "7"], "table 0 has no column 7; it has ENGINE_ID, VESSEL, ENGINE, THROTTLE_LIMIT, COOLANT_C, BERTH, SERVICED")):
            with self.assertRaises(cells.NotThere) as stopped:
                self.asked(*words)
            self.assertEqual(str(stopped.exception), told)
        with self.assertRaisesRegex(cells.NotThere, "there is no table 1: the message has 1 table"):
            chosen(self.message, "--cell", "1", "0", "X")

    def test_two_columns_of_one_name(self):
        message = reply([wire.INTEGER] * 3, [b"A", b"LIMIT", b"LIMIT"], [[1, 2, 3]])
        first, second = (chosen(message, "--cell", "0", "0", word) for word in ("LIMIT", "2"))
        self.assertEqual((first.cell.column, second.cell.column), (1, 2))
        self.assertIn("2 columns have this name, 1 and 2: this is the first, as the search for a name takes it", first.notes)
        self.assertIn("2 columns have this name, 1 and 2: this is the one asked for by its number", second.notes)

    def test_odd_names(self):
        message = reply([wire.INTEGER] * 4, [b"-A", b"--column", b"A=B", b"7"], [[1, 2, 3, 4]])
        for words, column in ((["0", "-A"], 0), (["--row", "0", "--column", "--column"], 1), (["--row", "0", "--column=--column"], 1), (["0", "7"], 3),
                              (["--where", "A=B=3", "--column", "-A"], 0)):
            self.assertEqual(chosen(message, "--cell", "0", *words).cell.column, column)

    def test_null_and_empty_cells_differ(self):
        told = [lines.cell_lines(chosen(MESSAGE, "--cell", "0", str(row), "MODEL")) for row in (1, 2)]
        self.assertEqual(told[0][:2], ["table 0, row 1, column 1 MODEL (string) is null", "the number or bytes behind it: no bytes: the length says null"])
        self.assertEqual(told[1][:2], ['table 0, row 2, column 1 MODEL (string) is ""', "the number or bytes behind it: 0 bytes"])

    def test_a_boat_without_a_position(self):
        for row, value, bits in ((1, "longitude 10.4072° E, latitude 54.8889° N", "0x4024d07c84b5dcc6 and 0x404b71c779a6b50b"),
                                 (2, "null", "0x4076800000000000 and 0x4076800000000000")):
            told = lines.cell_lines(chosen(POSITIONS.read_bytes(), "--cell", "0", str(row), "POSITION"))
            self.assertEqual(told[:2], ["table 0, row %d, column 2 POSITION (point) is %s" % (row, value), "the number or bytes behind it: the bits %s" % bits])
        clam = chosen(POSITIONS.read_bytes(), "--cell", "0", "--where", "VESSEL=Clam", "--column", "POSITION")
        cell, field, *_ = map(json.loads, records.cell_records(clam))
        self.assertEqual((cell["cell"]["value"], field["value"], field["size"]), ("null", "null", 16))

    def test_no_byte_is_left_out(self):
        message = reply([wire.STRING], [b"NOTE"], [[bytes(range(40))]])
        told = lines.cell_lines(chosen(message, "--cell", "0", "0", "NOTE"))
        start = told.index(next(line for line in told if line.startswith("The bytes that are the value")))
        shown = re.findall(r"(?<=  )[0-9a-f]{2}(?: [0-9a-f]{2})+", "\n".join(told[start + 1:start + 5]))
        self.assertEqual(bytes.fromhex("".join(shown)), (40).to_bytes(4, "big") + bytes(range(40)))

    def test_a_long_way_is_shortened(self):
        message = reply([wire.INTEGER], [b"N"], [[n] for n in range(100)])
        told = lines.cell_lines(chosen(message, "--cell", "0", "--where", "N=90", "--column", "N"))
        self.assertTrue(any("85 more of the same" in line for line in told))
        rows = [json.loads(line) for line in records.cell_records(chosen(message, "--cell", "0", "90", "N"))]
        self.assertEqual(sum(record.get("name") == "row length" for record in rows), 91)


class BigReport(unittest.TestCase):
    """An answer about a table of hundreds of columns is no longer than people read."""

    def setUp(self):
        self.message = BIG.read_bytes()

    def test_the_insurers_question(self):
        told = lines.cell_lines(chosen(self.message, "--cell", "0", "--where", "ENGINE_ID=2", "--column", "THROTTLE_LIMIT"))
        self.assertEqual(told[0], "table 0, row 1, column 257 THROTTLE_LIMIT (decimal) is 0.800000000000")
        self.assertEqual([line.split(",")[0].strip() for line in told if "more of the same" in line],
                         [".. %d more of the same" % count for count in (256 - 6, 400 - 2 - 6, 2 + 63 - 6)])  # types, names' lengths, texts' lengths
        self.assertLess(len(told), 60)

    def test_every_column_keeps_its_position(self):
        fields = read_by_second(self.message)
        for position, name in enumerate(harbour.BIG_REPORT["names"]):
            self.assertTrue(fields.column_text(0, position).startswith("column %d %s (" % (position, name.decode())))
            self.assertEqual(cells.Cell(fields, 0, 3, position).column, cells.Chosen(fields, command.Options(["4", "x", "--cell", "0", "3", name.decode()])).cell.column)

    def test_a_column_that_is_not_there(self):
        for word, told in (("limit", "THROTTLE_LIMIT comes"), ("ENGINE_IDS", "ENGINE_ID, ENGINE come"), ("400", "none comes"),
                           ("sensor_09", "%s, .. come" % ", ".join("SENSOR_%03d_%s" % (sensor, what) for sensor in (90, 91) for what in ("MEAN", "PEAK", "ALARMS", "NOTE")))):
            with self.assertRaises(cells.NotThere) as stopped:
                chosen(self.message, "--cell", "0", "0", word)
            self.assertEqual(str(stopped.exception), "table 0 has no column %s; it has 400 columns, and of their names %s near (without --cell all are told)" % (word, told))

    def test_columns_of_one_name(self):
        message = reply([wire.TINYINT] * 300, [b"N"] * 300, [[1] * 300])
        self.assertIn("300 columns have this name, 0, 1, 2, 3, 4, 5, 6, 7, ..: this is the one asked for by its number", chosen(message, "--cell", "0", "0", "299").notes)

    def test_a_value_that_breaks_its_rule(self):
        message = encoder.encode(wire.REPLY, harbour.reply(harbour.with_cell(harbour.BIG_REPORT, 1, b"THROTTLE_LIMIT", 10**38)))
        with self.assertRaises(reader.Refused) as stopped:
            reader.read(wire.REPLY, message)
        told = lines.refusal_lines(refusals.Refusal(wire.REPLY, message, (stopped.exception.number, stopped.exception.place)))
        self.assertTrue(told[1].startswith("The field is: cell, table 0, row 1, column 257 THROTTLE_LIMIT (decimal). "))
        self.assertEqual(told[4], 'Its row begins with ENGINE_ID 2, VESSEL "Bodil", ENGINE "starboard", SENSOR_001_MEAN 1.5.')
        self.assertLess(len(told), 60)


def asked_of_second(bodies, turned=False):
    """What the second reader says of bodies, in the library's stead, which tests/compare holds it against."""
    told = []
    for body in bodies:
        try:
            area, fields = second_areas.read(body)
        except reader.Refused as no:
            told.append(((no.number, no.place), array.array("I"), b""))
            continue
        told.append((None, array.array("I", [n for field in fields for n in field]), second_areas.encode(second_areas.turned(area)) if turned else body))
    return told


class AsOfSecond(unittest.TestCase):
    def setUp(self):
        patch = mock.patch.object(areas, "asked", asked_of_second)
        patch.start()
        self.addCleanup(patch.stop)


# What is wrong with the sample's area that was stored as text.
STORED_AS_TEXT = "no area by document 000: refused 25 at 2 of the body, byte 725 of the message: the third byte is 0 or 1, and here it is 76"


def area_reply(*bodies):
    return reply([wire.GEOGRAPHY], [b"AREA"], [[body] for body in bodies])


class InsideAreas(AsOfSecond):
    """No-wake areas: which bytes of a reply are which corner?"""

    def setUp(self):
        super().setUp()
        self.message = AREAS.read_bytes()
        self.explained = read_by_second(self.message)
        self.inside = areas.Inside(self.explained)

    def test_the_fields_inside_stand_side_by_side_below_their_body(self):
        told = list(self.inside.among(self.explained))
        self.assertEqual([field.offset for field in told if field.inside is None], [entry[0] for entry in self.explained.entries()])
        bodies = [field for field in told if field.number == paper.CELL and "geography" in field.where]
        self.assertEqual([field.value.split(":")[0] for field in bodies], ["318 bytes, an area of 2 rings", "179 bytes, an area of 1 ring", "58 bytes, no area by document 000"])
        for body in bodies[:2]:
            inner = [field for field in told if field.inside == body.offset]
            self.assertEqual(b"".join(field.raw for field in inner), body.raw)
            self.assertEqual((inner[0].offset, inner[-1].end), (body.offset, body.end))
            at = told.index(body)
            self.assertEqual(told[at + 1:at + 1 + len(inner)], inner)
        self.assertFalse([field for field in told if field.inside == bodies[2].offset])
        self.assertEqual(self.inside.counts(), {"areas": 2, "others": 1, "fields": 55})

    def test_document_000s_polygon(self):
        """At the places of its table, with its values as far as they are printed."""
        area = self.inside.areas[124]
        self.assertEqual([(field.offset - 124, field.size) for field in area], [row[:2] for row in wire_poly.TABLE])
        for field, (_, size, printed) in zip(area, wire_poly.TABLE):
            if size == 8:
                self.assertEqual("%.6f" % float(field.value.split(";")[0]), "%.6f" % printed)
        told = {field.offset - 124: (field.name, field.where, field.value) for field in area}
        self.assertEqual(told[2], ("holes", "", "1: there are some"))
        self.assertEqual(told[147], ("vertex count", "ring 1 (hole)", "4"))
        self.assertEqual(told[215][:2], ("coordinate", "ring 1 (hole), vertex 2, z"))
        self.assertTrue(told[215][2].endswith("; the vertex is at longitude 0.9° E, latitude 0.9° N"))
        self.assertEqual(told[108], ("ring's kept bytes", "ring 0 (exterior)", "38 bytes, not looked into"))

    def test_lines(self):
        told = list(lines.field_lines(self.inside.among(self.explained)))
        self.assertIn("126    1  01                         holes                                                           1: there are some", told)
        self.assertIn("283    8  3f 5c 98 6d 35 71 a6 34    coordinate          ring 1 (hole), vertex 0, y                  0.001745325707612", told)
        self.assertEqual(self.inside.line(), "inside 2 areas: 55 fields, indented below the bodies that they stand in; bodies that are no area: 1")

    def test_a_byte(self):
        self.assertEqual(lines.byte_lines(self.explained, 155, self.inside), [
            "byte 155 (hex 00, decimal 0) is number 32 of the 318 bytes of:",
            "124  318  00 01 01 00 .. 00 00 00  cell  table 0, row 0, column 3 AREA (geography)  318 bytes, an area of 2 rings",
            "and in this area it is number 4 of the 8 bytes of:",
            "152  8  00 00 00 00 00 00 00 00    coordinate  ring 0 (exterior), vertex 0, z  0.0; the vertex is at longitude 0.0° E, latitude 0.0° N"])
        self.assertEqual(len(lines.byte_lines(self.explained, 155)), 2)
        self.assertEqual(len(lines.byte_lines(self.explained, 730, self.inside)), 2)
        for offset in range(len(self.message)):
            owners = self.inside.owners(self.explained.owner(offset), offset)
            self.assertTrue(all(field.offset <= offset < field.end for field in owners))

    def test_a_cell(self):
        told = lines.cell_lines(chosen(self.message, "--cell", "0", "--where", "AREA_ID=2", "--column", "AREA"), self.inside)
        self.assertEqual(told[0], "table 0, row 1, column 3 AREA (geography) is 179 bytes, an area of 1 ring")
        self.assertTrue(any(line.endswith("the vertex is at longitude 12.59° E, latitude 55.72° N") for line in told))
        for row, value in ((2, "null"), (3, "58 bytes, " + STORED_AS_TEXT)):
            told = lines.cell_lines(chosen(self.message, "--cell", "0", str(row), "AREA"), self.inside)
            self.assertEqual(told[0], "table 0, row %d, column 3 AREA (geography) is %s" % (row, value))
        first, *rest = map(json.loads, records.cell_records(chosen(self.message, "--cell", "0", "0", "AREA"), self.inside))
        self.assertEqual(first["cell"]["value"], "318 bytes, an area of 2 rings")
        self.assertEqual(sum(record.get("inside") == 124 and record["group"] == "value" for record in rest), 35)

    def test_json(self):
        told = [json.loads(line) for line in records.field_records(self.inside.among(self.explained))]
        self.assertEqual(b"".join(bytes.fromhex(record["bytes"]) for record in told if "inside" not in record), self.message)
        self.assertEqual(next(record for record in told if record.get("inside") == 477 and record["offset"] == 485), {
            "offset": 485, "size": 4, "field": 65, "indices": [0, 0, 0], "name": "vertex count", "where": "ring 0 (exterior)", "value": "4", "bytes": "00000004", "inside": 477})

    def test_parameters_and_elements(self):
        body, no_body = wire_poly.body(), b"no area"
        message = call((wire.VARBINARY, body), (wire.GEOGRAPHY, body), (wire.GEOGRAPHY, None), (wire.ARRAY, (wire.GEOGRAPHY, [no_body, None, body])),
                       (wire.ARRAY, (wire.VARBINARY, [body])))
        explained_call = read_by_second(message, wire.INVOCATION)
        inside = areas.Inside(explained_call)
        self.assertEqual([explained_call.owner(offset).where for offset in sorted({**inside.areas, **inside.others})], ["parameter 1", "parameter 3, element 0", "parameter 3, element 2"])
        self.assertEqual(inside.counts(), {"areas": 2, "others": 1, "fields": 70})
        self.assertTrue(all(message[start:start + 318] == body for start in inside.areas))

    def test_a_message_without_geographies_asks_nothing(self):
        with mock.patch.object(areas, "run", side_effect=AssertionError):
            self.assertEqual(areas.Inside(read_by_second(ENGINES.read_bytes())).counts(), {"areas": 0, "others": 0, "fields": 0})

    def test_every_refused_body_has_words(self):
        bodies = [body for body in (*generate_areas.edges(), *generate_areas.bodies(300, 5)) if body]
        numbers = set()
        for start in range(0, len(bodies), 500):
            some = bodies[start:start + 500]
            inside = areas.Inside(read_by_second(area_reply(*some)))
            self.assertEqual(len(inside.areas) + len(inside.others), len(some))
            numbers |= {other.number for other in inside.others.values()}
            self.assertTrue(all(other.summary().endswith(other.why()) for other in inside.others.values()))
            self.assertFalse([other.why() for other in inside.others.values() if NO_LONGER_GIVEN in other.why()])
            self.assertTrue(all(field.value for area in list(inside.areas.values())[:20] for field in area))
        self.assertEqual(numbers, {1, 2, 4, 25})

    def test_what_is_wrong_with_a_body(self):
        body = wire_poly.body()
        holes = "the third byte is 0 for one ring and 1 for more, and here it is %d and the ring count says %d"
        vertices = "a ring has at least 3 vertices, and here the vertex count of %s says %d"
        for changed, number, place, words in (
                (body[:-1], 1, 285, "a field doesn't fit"),
                (damaged(body, 3, 255), 2, 3, "a count is negative"),
                (body + b"!", 4, 318, "bytes are left after the last field"),
                (damaged(body, 2, 2), 25, 2, "the third byte is 0 or 1, and here it is 2"),
                (b"\0\1\xff", 25, 2, "the third byte is 0 or 1, and here it is 255"),
                (damaged(body, 2, 0), 25, 2, holes % (0, 2)),
                (damaged(body, 3, 0, 0, 0, 1), 25, 2, holes % (1, 1)),
                (damaged(body, 3, 0, 0, 0, 0), 25, 3, "an area has at least 1 ring, and here the ring count says 0"),
                (damaged(body, 8, 0, 0, 0, 2), 25, 8, vertices % ("ring 0 (exterior)", 2)),
                (damaged(body, 147, 0, 0, 0, 0), 25, 147, vertices % ("ring 1 (hole)", 0))):
            message = area_reply(changed)
            (other,) = areas.Inside(read_by_second(message)).others.values()
            self.assertEqual(other.why(), "no area by document 000: refused %d at %d of the body, byte %d of the message: %s" % (
                number, place, len(message) - len(changed) + place, words))

    def test_a_reader_that_disagrees_names_no_ring(self):
        body = damaged(wire_poly.body(), 147, 0, 0, 0, 1)
        self.assertTrue(areas.NoArea(body, 0, len(body), (25, 8)).why().endswith(": a ring has at least 3 vertices, and here the vertex count says 4"))


class Vertices(unittest.TestCase):
    def place(self, *numbers):
        return areas.place_of(struct.pack(">3d", *numbers))

    def test_the_documents_points(self):
        """The formula and its way back; from the printed coordinates, as far as their six digits go."""
        for longitude, latitude, *printed in wire_poly.POINTS:
            self.assertEqual(self.place(*wire_poly.vertex(longitude, latitude)), (longitude, latitude))
            for there, printed_there in zip(self.place(*printed), (longitude, latitude)):
                self.assertAlmostEqual(there, printed_there, places=3)

    def test_all_round(self):
        for longitude, latitude in ((-122.0264, 36.90719), (180.0, 0.0), (-179.5, -89.5), (12.5683, 55.6761), (0.0, 90.0), (0.0, -90.0), (90.0, 0.0)):
            self.assertEqual(self.place(*wire_poly.vertex(longitude, latitude)), (0.0 if abs(latitude) == 90 else longitude, latitude))

    def test_odd_ones(self):
        self.assertEqual(str(self.place(1.0, -0.0, -0.0)), "(0.0, 0.0)")
        for odd in (math.nan, math.inf, -math.inf):
            self.assertIsNone(self.place(1.0, odd, 0.0))
            self.assertEqual(areas.vertex_text(struct.pack(">3d", odd, 0.0, 0.0)), "the vertex is nowhere")
        self.assertEqual(self.place(1e300, 1e300, 0.0), (45.0, 0.0))


class AreasProgram(unittest.TestCase):
    """What areas.c says, taken apart."""

    def asked(self, said, *bodies, **more):
        with mock.patch.object(areas, "run", return_value=said) as run, mock.patch.object(building, "areas_program"):
            told = areas.asked(list(bodies), **more)
        self.given = run.call_args[0][1]
        return told

    def said(self, body):
        numbers = [n for field in second_areas.read(body)[1] for n in field]
        return (len(numbers) // 6 << 8).to_bytes(8, "little") + struct.pack("<%dI" % len(numbers), *numbers) + body

    def test_answers(self):
        body = wire_poly.body()
        told = self.asked(bytes([25, 2, 0, 0, 0, 0, 0, 0]) + self.said(body) + bytes([1, 0, 1, 0, 0, 0, 0, 0]), b"XYZ", body, b"more", turned=True)
        self.assertEqual([refusal for refusal, _, _ in told], [(25, 2), None, (1, 256)])
        self.assertEqual(told[1], asked_of_second([body])[0])
        self.assertEqual(self.given[:8] + self.given[8:13], bytes([0, 0, 0, 4, 1]) + b"XYZ" + bytes([0, 0, 1, 63, 1]))

    def test_a_broken_answer_is_told(self):
        body = wire_poly.body()
        with self.assertRaisesRegex(building.Missing, "something else"):
            self.asked(self.said(body) + b"!", body)
        with self.assertRaises(listing.Untiled):
            self.asked(self.said(body)[:-40], body + b"!")


class GeoJson(AsOfSecond):
    def features(self, message):
        sources = mock.Mock(**{"record.return_value": {"sha256": "its"}})
        told = json.loads(geojson.Collection(read_by_second(message)).text(sources))
        self.assertEqual((told["type"], told["made_from"]), ("FeatureCollection", {"sha256": "its"}))
        self.assertIn("outside the proof", told["note"])
        return told["features"]

    def test_the_sample(self):
        first, second, third, fourth = self.features(AREAS.read_bytes())
        self.assertEqual(first["geometry"], {"type": "Polygon", "coordinates": [
            [[0.0, 0.0], [1.0, 0.0], [1.0, 1.0], [0.0, 1.0], [0.0, 0.0]], [[0.1, 0.1], [0.1, 0.9], [0.9, 0.9], [0.9, 0.1], [0.1, 0.1]]]})
        self.assertEqual(first["properties"], {"table": 0, "row": 0, "column": "AREA", "bytes": [124, 441], "AREA_ID": 1, "NAME": "Training water", "LIMIT_KN": 5.0})
        self.assertEqual(second["geometry"]["coordinates"], [[[12.57, 55.715], [12.59, 55.712], [12.59, 55.72], [12.58, 55.723], [12.57, 55.715]]])
        self.assertEqual(second["properties"]["NAME"], "Svanemølle")
        self.assertEqual((third["geometry"], third["properties"]["bytes"], third["properties"]["no_geometry"]), (None, None, "null"))
        self.assertEqual((fourth["geometry"], fourth["properties"]["bytes"]), (None, [723, 780]))
        self.assertEqual(fourth["properties"]["no_geometry"], STORED_AS_TEXT)

    def test_rings_are_closed_and_turn_as_rfc_7946_wants(self):
        """The exterior counterclockwise, holes clockwise: twice the area that is enclosed, with its sign."""
        for feature in self.features(AREAS.read_bytes())[:2]:
            for n, ring in enumerate(feature["geometry"]["coordinates"]):
                self.assertEqual(ring[0], ring[-1])
                self.assertEqual(sum(x * v - u * y for (x, y), (u, v) in zip(ring, ring[1:])) > 0, n == 0)

    def test_cells_as_json(self):
        types = [wire.TINYINT, wire.BIGINT, wire.FLOAT, wire.FLOAT, wire.STRING, wire.STRING, wire.TIMESTAMP, wire.DECIMAL, wire.DECIMAL, wire.VARBINARY, wire.POINT, wire.POINT]
        values_told = [-5, 2**63 - 1, 0x3FE0000000000000, 0x7FF8000000000001, "Ærø".encode(), None, 0, 1, wire.NULL_DECIMAL, b"\0\xff", (12.5, -1.5), None]
        message = reply([*types, wire.GEOGRAPHY], [b"C%d" % n for n in range(len(types))] + [b"AREA"], [[*values_told, None]])
        (feature,) = self.features(message)
        self.assertEqual([feature["properties"]["C%d" % n] for n in range(len(types))], [
            -5, 2**63 - 1, 0.5, "NaN (bits 7ff8000000000001)", "Ærø", None, "1970-01-01 00:00:00.000000 UTC", "0.000000000001", None, "0x00ff", [12.5, -1.5], None])

    def test_columns_of_the_same_name(self):
        message = reply([wire.INTEGER] * 4 + [wire.GEOGRAPHY] * 2, [b"table", b"A", b"A", b"A (column 2)", b"A", b"B"], [[1, 2, 3, 4, None, wire_poly.body()]])
        first, second = (feature["properties"] for feature in self.features(message))
        self.assertEqual(first, {"table": 0, "row": 0, "column": "A", "bytes": None, "table (column 0)": 1, "A": 2, "A (column 2)": 3, "A (column 2) (column 3)": 4, "no_geometry": "null"})
        self.assertEqual((second["column"], second["bytes"][1] - second["bytes"][0]), ("B", 317))

    def test_several_tables(self):
        tables = [harbour.ENGINES, harbour.NO_WAKE, harbour.NO_WAKE]
        message = encoder.encode(wire.REPLY, dict(harbour.reply(None), tables=tables))
        told = [(feature["properties"]["table"], feature["properties"]["row"]) for feature in self.features(message)]
        self.assertEqual(told, [(table, row) for table in (1, 2) for row in range(4)])
        self.assertEqual(self.features(ENGINES.read_bytes()), [])

    def test_a_vertex_that_is_nowhere(self):
        body = damaged(wire_poly.body(), 60, *struct.pack(">d", math.nan))
        (feature,) = self.features(area_reply(body))
        self.assertEqual((feature["geometry"], feature["properties"]["no_geometry"]), (None, "a coordinate of a vertex isn't finite"))


def card_asked_of_second(message, table, card):
    """What the second reader says of a card, in the library's stead, which tests/compare holds it against."""
    broken = second_cards.broken_at(card)
    if broken is not None:
        return cards.Answer(refusal=(paper.CARD_BROKEN, broken))
    tables = reader.read(wire.REPLY, message)[0]["tables"]
    if table >= len(tables):
        return cards.Answer(refusal=(paper.NO_TABLE, 0))
    misfit = second_cards.fit(tables[table], card)
    if misfit is None:
        return cards.Answer(column=second_cards.opened(tables[table], card))
    return cards.Answer(refusal=(paper.CARD_STALE, 0), reason=misfit[0], now=misfit[1])


def listed_by_second(kind, message):
    try:
        return None, read_by_second(message, kind).numbers
    except reader.Refused as no:
        return (no.number, no.place), array.array("I")


class CardsOfSecond(unittest.TestCase):
    def setUp(self):
        for module, name, stand_in in ((cards, "asked", card_asked_of_second), (main, "listing", listed_by_second), (sources, "said", lambda command_line: "")):
            patch = mock.patch.object(module, name, stand_in)
            patch.start()
            self.addCleanup(patch.stop)

    def card(self, message, raw, table=0):
        return cards.Card(read_by_second(message), table, raw)

    def over(self, table, raw):
        """Of a card over a table of the harbour."""
        return self.card(encoder.encode(wire.REPLY, harbour.reply(table)), raw)


def places(fields):
    return [(field.offset, field.size) for field in fields]


SAID_BY_NEAR = "The card is a near one: position 3, type decimal, name THROTTLE_LIMIT."
SAID_BY_FAR = "The card is a far one: position 257, type decimal, name THROTTLE_LIMIT."
STALE = "refused 10 at 0: a well-formed card doesn't fit the table"
NO_LIMIT_READ = ["Opening by this card is refused, so that no limit or other value is read from the wrong column.",
                 "A new card is made by hand, with chaloenpik_make_card, once it is clear which column is meant."]


class OverATable(CardsOfSecond):
    """A shortcut card: does it still open the limit's column, and if not, why?"""

    def test_it_opens(self):
        for file, raw, column, said, told in ((ENGINES, NEAR_CARD, 3, SAID_BY_NEAR, [(37, 2), (42, 1), (79, 4), (83, 14)]),
                                              (BIG, FAR_CARD, 257, SAID_BY_FAR, [(37, 2), (296, 1), (5424, 4), (5428, 14)])):
            card = self.card(file.read_bytes(), raw.read_bytes())
            self.assertEqual(card.words, ["the card fits: it opens column %d THROTTLE_LIMIT (decimal) of table 0" % column, said])
            self.assertEqual({group: places(fields) for group, fields in card.groups.items()}, {"compared": told})
        self.assertEqual(lines.card_lines(self.card(ENGINES.read_bytes(), NEAR_CARD.read_bytes()))[2:], [
            "", "The bytes that the card was compared with:",
            "37   2  00 07                                      column count        table 0                                     7",
            "42   1  16                                         column type         table 0, column 3 THROTTLE_LIMIT (decimal)  22: decimal",
            "79   4  00 00 00 0e                                column name length  table 0, column 3 THROTTLE_LIMIT (decimal)  14 bytes",
            '83  14  54 48 52 4f 54 54 4c 45 5f 4c 49 4d 49 54  column name         table 0, column 3 THROTTLE_LIMIT (decimal)  "THROTTLE_LIMIT"'])

    def check_stale(self, table, raw, said, reason, there, now, compared, stands):
        card = self.over(table, raw.read_bytes())
        self.assertEqual(card.words, [STALE, said, "The reason: %s." % paper.FITS[reason], there, now, *NO_LIMIT_READ])
        self.assertEqual({group: places(fields) for group, fields in card.groups.items()}, {"compared": compared, "now": stands})
        told = lines.card_lines(card)
        self.assertEqual((told[:7], "The bytes that say where its name and type stand now:" in told), (card.words, stands != []))

    def test_another_type(self):
        engines = harbour.ENGINES
        self.check_stale(harbour.without(engines, b"VESSEL"), NEAR_CARD, SAID_BY_NEAR, 2, "At its position now stands column 3 COOLANT_C (float).",
                         "Its name and type now stand at column 2 THROTTLE_LIMIT (decimal).", [(37, 2), (42, 1), (86, 4), (90, 9)], [(41, 1), (68, 4), (72, 14)])
        self.check_stale(harbour.changed(engines, b"THROTTLE_LIMIT", types=wire.VARBINARY, value=None), NEAR_CARD, SAID_BY_NEAR, 2,
                         "At its position now stands column 3 THROTTLE_LIMIT (varbinary).", "No column of table 0 has its name and type.",
                         [(37, 2), (42, 1), (79, 4), (83, 14)], [])

    def test_another_name(self):
        self.check_stale(harbour.changed(harbour.ENGINES, b"THROTTLE_LIMIT", names=b"two words"), NEAR_CARD, SAID_BY_NEAR, 3,
                         'At its position now stands column 3 "two words" (decimal).', "No column of table 0 has its name and type.",
                         [(37, 2), (42, 1), (79, 4), (83, 9)], [])

    def test_past_the_last_column(self):
        self.check_stale(harbour.ENGINES, FAR_CARD, SAID_BY_FAR, 1, "Table 0 has 7 columns.", "Its name and type now stand at column 3 THROTTLE_LIMIT (decimal).",
                         [(37, 2)], [(42, 1), (79, 4), (83, 14)])
        self.check_stale(harbour.only(harbour.ENGINES, b"VESSEL"), NEAR_CARD, SAID_BY_NEAR, 1, "Table 0 has 1 column.", "No column of table 0 has its name and type.", [(37, 2)], [])

    def test_each_table_has_its_own_answer(self):
        message = encoder.encode(wire.REPLY, dict(harbour.reply(None), tables=[harbour.BOATS, harbour.ENGINES]))
        first, second, third = (self.card(message, NEAR_CARD.read_bytes(), table) for table in range(3))
        self.assertEqual((first.words[0], first.words[3]), (STALE, "At its position now stands column 3 SEEN (timestamp)."))
        self.assertEqual(second.words[0], "the card fits: it opens column 3 THROTTLE_LIMIT (decimal) of table 1")
        self.assertEqual(third.words, ["refused 11 at 0: there is no such table", SAID_BY_NEAR, "There is no table 2: the message has 2 tables."])
        self.assertEqual(lines.card_lines(third)[3:], ["", "The bytes that say how many tables there are:", "26  2  00 02  table count    2"])

    def test_the_fields_tell_the_reason(self):
        """Of columns that are nearly equal: what was compared says the card's type and name exactly if it opens, and what stands now always does."""
        reasons = set()
        for table, raws in itertools.islice(second_cards.moved(), 0, None, 5):
            message = read_by_second(encoder.encode(wire.REPLY, harbour.reply(table)))
            for raw in raws:
                card = cards.Card(message, 0, raw)
                _, wire_type, size, rest = second_cards.form_of(raw).parts(raw)
                declared = [bytes([wire_type]), size.to_bytes(4, "big")] + [rest[:size]] * (size > 0)
                _, *compared = [field.raw for field in card.groups["compared"]]
                self.assertEqual(compared == declared, card.number is None)
                self.assertEqual(compared == [], card.answer.reason == paper.COLUMN_PAST)
                self.assertIn([field.raw for field in card.groups.get("now", ())], ([], declared))
                self.assertEqual(lines.card_lines(card)[:len(card.words)], card.words)
                reasons.add((card.answer.reason, card.answer.now is None))
        self.assertEqual(reasons, {(None, True), *itertools.product(second_cards.REASONS, (False, True))})

    def test_what_breaks_its_form(self):
        near, far = NEAR_CARD.read_bytes(), FAR_CARD.read_bytes()
        for raw, place, told in (
                (b"", 0, "The card is empty: it has not even a kind."),
                (damaged(near, 0, 3), 0, "At byte 0 stands its kind, 3 (hex 03): 1 is a near card and 2 is a far card."),
                (near[:-1], 35, "A near card, of kind 1, has 36 bytes, and this one has 35 bytes."),
                (near + b"\0", 36, "A near card, of kind 1, has 36 bytes, and this one has 37 bytes."),
                (far[:1], 1, "A far card, of kind 2, has 37 bytes, and this one has 1 byte."),
                (far + b"\0", 37, "A far card, of kind 2, has 37 bytes, and this one has more."),
                (damaged(near, 1, 64), 1, "At byte 1 stands its position, 64 (hex 40): a near card holds positions from 0 to 63."),
                (damaged(far, 1, 0, 63), 1, "At byte 1 stands its position, 63 (hex 00 3f): a far card holds positions from 64 to 1023."),
                (damaged(near, 2, 1), 2, "At byte 2 stands its type, 1 (hex 01): a column can't be null."),
                (damaged(far, 3, 0x9d), 3, "At byte 3 stands its type, 157 (hex 9d): a column can't be array."),
                (damaged(near, 2, 7), 2, "At byte 2 stands its type, 7 (hex 07): there is no such wire type."),
                (damaged(far, 4, 33), 4, "At byte 4 stands the length of its name, 33 (hex 21): a name on a card has at most 32 bytes."),
                (damaged(near, 17, 0xff), 17, "At byte 17 stands number 14 of the 14 bytes of its name, 255 (hex ff): a column's name has bytes from 0 to 127."),
                (damaged(far, 19, 1), 19, "At byte 19 stands a byte behind its name, 1 (hex 01): these are 0 up to the card's end.")):
            card = self.card(ENGINES.read_bytes(), raw)
            self.assertEqual((card.words, card.groups), (["refused 12 at %d: a card breaks its form" % place, told], {}))
            self.assertEqual(lines.card_lines(card)[2:4], ["", "The card's bytes:"])
            self.assertTrue(any(line.endswith("^^ %d" % place) for line in lines.card_lines(card)))

    def test_every_broken_card_has_words(self):
        for raw in second_cards.edges():
            place = second_cards.broken_at(raw)
            if place is not None:
                self.assertRegex(cards.fault(raw, place), r"^(At byte %d stands .*: .*|A .* card, of kind .* and this one has .*|The card is empty: .*)\.$" % place)

    def test_a_reader_that_disagrees_is_not_followed(self):
        opened, broken, stale = cards.Answer(column=3), cards.Answer(refusal=(12, 5)), cards.Answer(refusal=(10, 0), reason=2)
        for library, reader_says, headline, more in ((opened, 5, "the card fits: it opens column 3 THROTTLE_LIMIT (decimal) of table 0", []),
                                                     (broken, None, "refused 12 at 5: a card breaks its form", []), (broken, 4, "refused 12 at 5: a card breaks its form", []),
                                                     (stale, 5, STALE, ["The reason: %s." % paper.FITS[2], "No column of table 0 has its name and type.", *NO_LIMIT_READ])):
            with mock.patch.object(cards, "asked", return_value=library), mock.patch.object(second_cards, "broken_at", return_value=reader_says):
                card = self.card(ENGINES.read_bytes(), NEAR_CARD.read_bytes())
            self.assertEqual((card.words, card.said), ([headline, cards.DISAGREED, *more], None))
            self.assertTrue(lines.card_lines(card) and list(records.card_records(card)))

    def test_json(self):
        card = self.card(WITHOUT_VESSEL.read_bytes(), NEAR_CARD.read_bytes())
        first, *fields = map(json.loads, records.card_records(card))
        said = {"table": 0, "kind": "near", "position": 3, "type": "decimal", "name": "THROTTLE_LIMIT"}
        self.assertEqual(first, {"refused": 10, "place": 0, "card": {**said, "reason": 2, "now": 2}, "words": card.words})
        self.assertEqual([(field["group"], field["offset"]) for field in fields], [("compared", at) for at in (37, 42, 86, 90)] + [("now", at) for at in (41, 68, 72)])
        (first, *_), (broken,) = (list(map(json.loads, records.card_records(self.card(ENGINES.read_bytes(), raw)))) for raw in (NEAR_CARD.read_bytes(), b"?"))
        self.assertEqual((first["card"], "refused" in first), ({**said, "opens": 3}, False))
        self.assertEqual((broken["refused"], broken["place"], broken["card"]), (12, 0, {"table": 0}))

    def test_the_words_are_those_of_c(self):
        header = (ROOT / "include" / "chaloenpik_words.h").read_text()
        for number, name in ((paper.CARD_STALE, "CARD_STALE"), (paper.CARD_BROKEN, "CARD_BROKEN")):
            self.assertIn('case CHALOENPIK_%s: return "%s";' % (name, paper.CARD_REFUSALS[number]), header)


class CardAnswers(CardsOfSecond):
    """The whole command, but for the library and the programs that are asked about what an answer was made from."""

    def answered(self, *words):
        out = io.TextIOWrapper(io.BytesIO())
        with mock.patch.object(sys, "stdout", out):
            status = main.answer([str(word) for word in words])
        return status, out.buffer.getvalue().decode().splitlines()

    def test_statuses(self):
        for status, first, *words in ((0, "the card fits: it opens column 3 THROTTLE_LIMIT (decimal) of table 0", 4, ENGINES, "--card", NEAR_CARD),
                                      (0, "the card fits: it opens column 257 THROTTLE_LIMIT (decimal) of table 0", 4, BIG, "--card=%s" % FAR_CARD, "--table", 0),
                                      (0, "kind 4, invocation response: no other kind accepts these bytes", ENGINES, "--card", NEAR_CARD),
                                      (1, STALE, 4, WITHOUT_VESSEL, "--card", NEAR_CARD),
                                      (1, "refused 11 at 0: there is no such table", 4, ENGINES, "--card", NEAR_CARD, "--table", 1),
                                      (1, "refused 12 at 0: a card breaks its form", 4, ENGINES, "--card", ENGINES),
                                      (1, "refused 21 at 238: a decimal is out of its range and isn't null", 4, BROKEN, "--card", NEAR_CARD)):
            self.assertEqual((self.answered(*words)[0], self.answered(*words)[1][0]), (status, first))

    def test_what_it_was_made_from(self):
        _, told = self.answered(4, WITHOUT_VESSEL, "--card", NEAR_CARD)
        self.assertEqual(told[-3], "card: 36 bytes were read, in hex %s" % NEAR_CARD.read_bytes().hex())
        self.assertIn("card: 0 bytes were read", self.answered(4, ENGINES, "--card", os.devnull)[1])
        _, told = self.answered(4, WITHOUT_VESSEL, "--card", NEAR_CARD, "--json")
        self.assertEqual((json.loads(told[0])["refused"], json.loads(told[-1])["card_bytes"]), (10, NEAR_CARD.read_bytes().hex()))

    def test_a_refused_message_is_told_as_ever(self):
        for more in ((), ("--json",)):
            self.assertEqual(self.answered(4, BROKEN, "--card", NEAR_CARD, *more), self.answered(4, BROKEN, *more))

    def test_a_file_longer_than_any_card(self):
        with tempfile.NamedTemporaryFile() as long_one:
            long_one.write(NEAR_CARD.read_bytes() + bytes(100))
            long_one.flush()
            status, told = self.answered(4, ENGINES, "--card", long_one.name)
        self.assertEqual((status, told[:2]), (1, ["refused 12 at 36: a card breaks its form", "A near card, of kind 1, has 36 bytes, and this one has more."]))

    def test_what_can_not_be_carried_out(self):
        with self.assertRaisesRegex(main.Failed, "--card takes the tables of an invocation response, kind 4, and this is kind 3"):
            self.answered(3, ROOT / "samples" / "3-engine-limits.bin", "--card", NEAR_CARD)
        with self.assertRaises(FileNotFoundError):
            self.answered(4, ENGINES, "--card", STORED / "none")
        with self.assertRaisesRegex(main.Failed, "is the card itself"):
            self.answered(4, ENGINES, "--card", NEAR_CARD, "--html", NEAR_CARD)

    def test_with_a_page(self):
        with tempfile.TemporaryDirectory() as folder:
            out = pathlib.Path(folder, "page.html")
            status, told = self.answered(4, WITHOUT_VESSEL, "--card", NEAR_CARD, "--html", out)
            self.assertEqual((status, told[0], out.read_text(encoding="utf-8")[:15]), (1, STALE, "<!doctype html>"))


class CardsProgram(unittest.TestCase):
    """What cards.c says, taken apart."""

    def asked(self, *numbers, more=b""):
        with mock.patch.object(cards, "run", return_value=struct.pack("<%dQ" % len(numbers), *numbers) + more) as run, mock.patch.object(building, "cards_program"):
            told = cards.asked(b"message", 258, b"card")
        self.assertEqual(run.call_args[0][1], bytes([0, 0, 0, 0, 0, 0, 1, 2, 4]) + b"cardmessage")
        return told

    def test_answers(self):
        for numbers, told in (((257 << 8, 0, 0, 0, 0), cards.Answer(column=257)),
                              ((10, 0, 2, 1, 7), cards.Answer(refusal=(10, 0), reason=2, now=7)),
                              ((10, 0, 1, 1, 0), cards.Answer(refusal=(10, 0), reason=1, now=0)),
                              ((10, 0, 3, 0, 0), cards.Answer(refusal=(10, 0), reason=3)),
                              ((11, 11, 0, 0, 0), cards.Answer(refusal=(11, 0))),
                              ((12 | 36 << 8, 12 | 36 << 8, 0, 0, 0), cards.Answer(refusal=(12, 36)))):
            self.assertEqual(self.asked(*numbers), told)

    def test_answers_that_do_not_agree_are_none(self):
        for numbers in ((3 << 8, 0, 2, 0, 0), (10, 0, 0, 0, 0), (10, 10, 0, 0, 0), (10 | 1 << 8, 0, 2, 0, 0), (11, 12, 0, 0, 0), (12, 12 | 1 << 8, 0, 0, 0), (3 << 8, 11, 0, 0, 0),
                        (10, 12, 1, 0, 0), (11, 0, 0, 0, 0), (12, 0, 1, 0, 0), (10, 0, 4, 0, 0), (1, 1, 0, 0, 0)):
            with self.assertRaisesRegex(cards.Unequal, "don't agree: don't trust", msg=numbers):
                self.asked(*numbers)

    def test_a_broken_answer_is_told(self):
        for numbers, more in (((0, 0, 0, 0), b""), ((0, 0, 0, 0, 0), b"!"), ((), b"")):
            with self.assertRaisesRegex(building.Missing, "something else"):
                self.asked(*numbers, more=more)

    def test_main_has_a_sentence_for_it(self):
        said = io.StringIO()
        with mock.patch.object(main, "answer", side_effect=cards.Unequal("not to be trusted")), mock.patch.object(main, "forget_output"), contextlib.redirect_stderr(said):
            self.assertEqual(main.main([]), 2)
        self.assertEqual(said.getvalue(), "explain: not to be trusted\n")


class Command(unittest.TestCase):
    def test_a_card(self):
        options = command.Options(["4", "-", "--card", "file", "--table", "7"])
        self.assertEqual((options.card, options.table, options.cell), ("file", 7, None))
        options = command.Options(["x", "--card=-"])
        self.assertEqual((options.card, options.table, options.file), ("-", None, "x"))
        self.assertEqual(command.Options(["x", "--cell", "2", "0", "A"]).table, None)

    def test_the_help_has_every_option(self):
        for option in set(command.OPTIONS) - {"--help", "-h"}:
            self.assertIn(" %s " % option, command.USAGE)

    def test_inside(self):
        options = command.Options(["4", "x", "--inside", "--byte", "7", "--geojson=out"])
        self.assertEqual((options.inside, options.byte, options.geojson, options.html), (True, 7, "out", None))
        self.assertFalse(command.Options(["x"]).inside)
        self.assertEqual(command.Options(["x", "--cell", "0", "0", "A", "--inside"]).column, b"A")

    def test_words(self):
        options = command.Options(["--byte", "7", "4", "--", "-file"])
        self.assertEqual((options.kind, options.file, options.byte), (4, "-file", 7))
        options = command.Options(["file", "--json"])
        self.assertEqual((options.kind, options.file, options.json), (None, "file", True))
        self.assertEqual(command.Options(["--kind=2", "-"]).file, "-")

    def test_bad_words(self):
        bad = ("5 x", "4", "x y z", "04 x", "4 x --byte -1", "4 x --byte 1_0", "4 x --byte", "4 x --cell", "4 x --cell 0", "4 x --cell 0 a b", "4 x --cell 0 --row 1",
               "4 x --cell 0 --row 1 --where A=1 --column B", "4 x --column B", "4 x --cell 0 --where A --column B", "4 x --byte 1 --cell 0 0 A", "4 x --json --html y",
               "--kind 4 4 x", "4 x --what", "4 x --inside --html y", "4 x --geojson", "4 x --card", "4 x --table 0", "4 x --card c --table", "4 x --card c --table -1",
               "4 x --card c --byte 1", "4 x --card c --cell 0 0 A", "4 x --cell 0 0 A --table 0", "4 x --card c --inside", "4 - --card -", "")
        for words in bad:
            with self.assertRaises(command.Usage, msg=words):
                options = command.Options(words.split())
                if options.kind == 4 and words == "4":
                    raise AssertionError("a lone word is a file's name")
                if words == "4":
                    raise command.Usage


def damaged(message, at, *new):
    return message[:at] + bytes(new) + message[at + len(new):]


class AskedOfSecond(unittest.TestCase):
    """The second reader's refusal stands in for the library's, which tests/compare holds it against."""

    def refused(self, message, kind=wire.REPLY):
        with self.assertRaises(reader.Refused) as stopped:
            reader.read(kind, message)
        no = stopped.exception
        return refusals.Refusal(kind, message, (no.number, no.place))

    def words(self, message, kind=wire.REPLY):
        return self.refused(message, kind).words


class Refused(AskedOfSecond):
    def test_what_the_bytes_say(self):
        m = ENGINES.read_bytes()
        for message, told in (
                (m[:200], ["The field is: message length. Its bytes are 00 00 01 a8: 424 bytes.",
                           "It says 424 bytes, and 196 are there, up to the end of the message at 200: 228 bytes are missing."]),
                (m + m, ["The message's length says 424, so it ends at 428, and the file has 428 bytes more.",
                         "Another message seems to begin at 428: its length says 424, and so many bytes are there."]),
                (m + b"\0\0\0\7", ["The message's length says 424, so it ends at 428, and the file has 4 bytes more."]),
                (m[:2], ["The field is: message length, at 0; the message has 2 bytes.", "It would have 4 bytes, and 2 are there, up to the end of the message at 2."]),
                (damaged(m, 0, 0, 0, 0, 0), ["The field is: message length. Its bytes are 00 00 00 00: 0.", "A message has at least its version byte, so its length isn't 0."]),
                (damaged(m, 4, 2), ["The field is: version. Its bytes are 02: 2.", "It is 0 or 1, and this one is 2."]),
                (damaged(m, 28, 0, 0, 1, 0x8d), ["The field is: table length, table 0. Its bytes are 00 00 01 8d: 397 bytes.",
                                                 "It says 397 bytes, and 396 are there, up to the end of the message at 428: 1 byte is missing."]),
                (damaged(m, 37, 4, 1), ["The field is: column count, table 0. Its bytes are 04 01: 1025.", "It says 1025, and the limit is 1024."]),
                (damaged(m, 41, 1), ["The field is: column type, table 0, column 2 (null). Its bytes are 01: 1: null.", "A column or an element of an array can't be null."]),
                (damaged(m, 131, 0, 0, 0, 5), ["The field is: row length, table 0, row 4, at 428; the message has 428 bytes.",
                                               "It would have 4 bytes, and 0 are there, up to the end of table 0 at 428.",
                                               "The row count, at 131, says 5, and this is number 5 of them."]),
                (damaged(m, 208, 0, 0, 0, 75), ["The row length of table 0, row 1, at 208, says 75, so its room ends at 287, and 1 byte is left in it after its last field."])):
            self.assertEqual(self.words(message)[1:], told)

    def test_how_a_row_begins(self):
        """Of a cell that is refused, for whatever fault, the first cells of its row are told, so that people know whose row it is."""
        types, names = [wire.INTEGER, wire.STRING, wire.STRING, wire.DECIMAL, wire.FLOAT, wire.STRING], [b"ID", b"two words", b"", b"LIMIT", b"HEAT", b"NOTE"]
        row = [7, None, b"", 500_000_000_000, 0x4054800000000000, b"cut \xc3"]
        self.assertEqual(self.words(reply(types, names, [row]))[-1], 'Its row begins with ID 7, "two words" null, "" "", LIMIT 0.500000000000.')
        self.assertEqual(self.words(reply(types, names, [row[:3] + [10**38] + row[4:]]))[-1], 'Its row begins with ID 7, "two words" null, "" "".')
        m = reply(types[:2], names[:2], [[1, b"one"], [2, b"two"]])
        self.assertEqual(self.words(damaged(m, len(m) - 7, 0, 0, 0, 4))[-1], "Its row begins with ID 2.")
        for no_cell_before in (reply([wire.STRING], [b"NOTE"], [[b"cut \xc3"]]), damaged(m, len(m) - 15, 0, 0, 0, 3), m[:-1]):
            self.assertFalse(any("row begins" in sentence for sentence in self.words(no_cell_before)))

    def test_a_torn_name(self):
        """A hirer's name, cut in mid-character."""
        hirers = reply([wire.STRING, wire.TINYINT], [b"HIRER", b"BERTH"], [[b"Bodil", 1], ["Zoë Ærø".encode()[:-1], -128]])
        self.assertEqual(self.words(hirers), [
            "refused 20 at 93: a text isn't well-formed UTF-8",
            'The field is: cell, table 0, row 1, column 0 HIRER (string). Its bytes are 5a 6f c3 ab .. 86 72 c3: "Zoë Ær\\xc3".',
            "Around byte 93, number 9 of the text's 9, stands 5a 6f c3 ab 20 c3 86 72 [c3]: no character of UTF-8 begins there.",
            "c3 begins a character of 2 bytes, and the text ends after 1 of them: it was cut inside that character."])
        told = lines.refusal_lines(refusals.Refusal(wire.REPLY, hirers, (20, 93)))
        self.assertTrue(any(line.startswith("85  9  5a 6f c3 ab .. 86 72 c3  cell ") and line.endswith('  "Zoë Ær\\xc3"') for line in told))
        self.assertEqual(told[-1].strip(), "^^ 93")

    def test_every_text_field(self):
        login = {"version": 0, "service": b"", "user": b"", "hash": bytes(20)}
        build = {"version": 0, "result": 0, "host": 0, "connection": 0, "start": 0, "leader": bytes(4)}
        call = {"version": 0, "procedure": b"", "client_data": bytes(8), "parameters": []}
        answer = dict(harbour.reply(harbour.ENGINES), flags=wire.FLAG_STATUS_STRING | wire.FLAG_APPLICATION_STRING, application_string=None)
        torn = b"cut \xc3"
        for kind, record, field in (
                (wire.LOGIN, dict(login, service=torn), "service"),
                (wire.LOGIN, dict(login, user=torn), "user"),
                (wire.LOGIN_REPLY, dict(build, build=torn), "build"),
                (wire.INVOCATION, dict(call, procedure=torn), "procedure"),
                (wire.INVOCATION, dict(call, parameters=[(wire.NULL, None), (wire.STRING, torn)]), "value, parameter 1"),
                (wire.INVOCATION, dict(call, parameters=[(wire.ARRAY, (wire.STRING, [b"", torn]))]), "value, parameter 0, element 1"),
                (wire.REPLY, dict(answer, status_string=torn), "status string"),
                (wire.REPLY, dict(answer, application_string=torn), "application string"),
                (wire.REPLY, dict(answer, tables=[harbour.changed(harbour.ENGINES, b"VESSEL", value=torn)]), "cell, table 0, row 0, column 1 VESSEL (string)")):
            message = encoder.encode(kind, record)
            headline, told, *_ = self.words(message, kind)
            self.assertEqual(headline, "refused 20 at %d: a text isn't well-formed UTF-8" % message.index(b"\xc3"))
            self.assertEqual(told, 'The field is: %s. Its bytes are 63 75 74 20 c3: "cut \\xc3".' % field)

    def test_the_fields_before_are_shown(self):
        m = damaged(ENGINES.read_bytes(), 41, 7)
        told = lines.refusal_lines(refusals.Refusal(wire.REPLY, m, (6, 41)))
        self.assertTrue(told[-8].startswith("41  1  07") and told[-3].strip() == "^^ 41", told)

    def test_a_reader_that_disagrees_is_not_followed(self):
        refused = refusals.Refusal(wire.REPLY, ENGINES.read_bytes(), (4, 5))
        self.assertEqual(len(refused.explained), 0)
        self.assertIn("one of the two is wrong", refused.words[-1])

    def test_another_kind(self):
        refused = refusals.Refusal(wire.LOGIN_REPLY, ENGINES.read_bytes(), (3, 30), [wire.REPLY])
        self.assertEqual(refused.words[-1], "As 4, invocation response, the same bytes are accepted.")

    def test_every_made_up_refusal_has_words(self):
        """And the fields before it stand side by side from byte 0, up to the place or past it."""
        numbers, empty = set(), [case[:2] for case in in_each_place(wire.GEOGRAPHY, b"x", b"")]  # which are seldom made up
        for kind, message in (*generate.messages(3000, 11), *empty):
            try:
                reader.read(kind, message)
            except reader.Refused as no:
                if kind not in wire.KINDS:
                    continue
                refused = refusals.Refusal(kind, message, (no.number, no.place))
                numbers.add(no.number)
                self.assertGreaterEqual(len(refused.words), 2)
                self.assertNotIn(NO_LONGER_GIVEN, "\n".join([*lines.refusal_lines(refused), *records.refusal_records(refused)]))
                end = 0
                for offset, size, *_ in refused.explained.entries():
                    self.assertEqual(offset, end)
                    end += size
                self.assertTrue(end >= no.place or refused.goes_on())
        self.assertEqual(numbers, set(paper.REFUSALS))

    def test_a_place_past_the_end_is_marked(self):
        self.assertEqual(lines.around(bytes.fromhex("000000020000"), 6)[-1], "                      ^^ 6")


def in_each_place(wire_type, good, bad):
    """A value as a cell, a parameter and an element, each the last one, with good ones before it: (kind, message, field's name, words for its place, and for its row)."""
    in_row = reply([wire.INTEGER, wire_type], [b"ENGINE_ID", b"VALUE"], [[1, good], [2, bad]])
    return ((wire.REPLY, in_row, "cell", "table 0, row 1, column 1 VALUE (%s)" % paper.TYPES[wire_type], ["Its row begins with ENGINE_ID 2."]),
            (wire.INVOCATION, call((wire.NULL, None), (wire_type, bad)), "value", "parameter 1", []),
            (wire.INVOCATION, call((wire.ARRAY, (wire_type, [good, good, bad]))), "value", "parameter 0, element 2", []))


class WhichValue(AskedOfSecond):
    """Each cause that had the number 7 has its own, and its own words: what the bytes say, and where that lies against the rule."""

    def check_value(self, wire_type, good, bad, headline, shown, told):
        number, words = headline
        for kind, message, name, where, row in in_each_place(wire_type, good, bad):
            raw = message[-16:]
            refused = self.refused(message, kind)
            self.assertEqual(refused.words, ["refused %d at %d: %s" % (number, len(message) - 16, words),
                                             "The field is: %s, %s. Its bytes are %s: %s." % (name, where, lines.short_hex(raw), shown), *told, *row])
            self.assertEqual([refused.explained[-1 + len(refused.explained)].raw, sum(field.size for field in refused.explained)], [raw, len(message)])

    def test_decimals(self):
        end = "99999999999999999999999999.999999999999"
        above = ["It is above the greatest decimal, %s." % end, "It counts %d units of 10^-12, and the greatest counts 10^38 - 1."]
        below = ["It is below the least decimal, -%s." % end, "It counts %d units of 10^-12; the least counts -(10^38 - 1), and null -2^127%s."]
        for units, shown, (first, second), *more in ((10**38, "100000000000000000000000000.000000000000", above),
                                                     (2**127 - 1, "170141183460469231731687303.715884105727", above),
                                                     (-(10**38), "-100000000000000000000000000.000000000000", below, ""),
                                                     (-(2**127) + 1, "-170141183460469231731687303.715884105727", below, ": this is the number next to null"),
                                                     (-(2**127) + 2, "-170141183460469231731687303.715884105726", below, "")):
            self.check_value(wire.DECIMAL, 0, units, (21, "a decimal is out of its range and isn't null"), shown, [first, second % (units, *more)])

    def test_points(self):
        for longitude, latitude, east, in_east, north, in_north, half in (
                (360.0, 0.0, "360.0° E", "out of", "0.0° N", "in", ": here only the longitude is so"),
                (-0.0, 360.0, "0.0° W", "in", "360.0° N", "out of", ": here only the latitude is so"),
                (360.0, -360.0, "360.0° E", "out of", "360.0° S", "out of", ": here only the longitude is so"),
                (360.0, 360.00000000000006, "360.0° E", "out of", "360.00000000000006° N", "out of", ": here only the longitude is so"),
                (-360.0, -360.0, "360.0° W", "out of", "360.0° S", "out of", ""),
                (-180.0, 90.00000000000001, "180.0° W", "in", "90.00000000000001° N", "out of", ""),
                (180.00000000000003, -90.0, "180.00000000000003° E", "out of", "90.0° S", "in", ""),
                (180.0, -90.00000000000001, "180.0° E", "in", "90.00000000000001° S", "out of", ""),
                (-180.00000000000003, 90.0, "180.00000000000003° W", "out of", "90.0° N", "in", ""),
                (0.0, -math.inf, "0.0° E", "in", "inf° S", "out of", "")):
            self.check_value(wire.POINT, (1.0, 2.0), (longitude, latitude), (22, "a point is neither a position nor null"), "longitude %s, latitude %s" % (east, north), [
                "The longitude, %s, is %s its range, from 180° W to 180° E." % (east, in_east), "The latitude, %s, is %s its range, from 90° S to 90° N." % (north, in_north),
                "Null would be longitude 360° E with latitude 360° N%s." % half])

    def test_points_that_are_no_numbers(self):
        self.check_value(wire.POINT, None, (math.nan, 360.0), (22, "a point is neither a position nor null"), "longitude NaN, latitude 360.0° N", [
            "The longitude, NaN (bits 7ff8000000000000), is no number, and so not in its range, from 180° W to 180° E.",
            "The latitude, 360.0° N, is out of its range, from 90° S to 90° N.", "Null would be longitude 360° E with latitude 360° N: here only the latitude is so."])

    def test_flags(self):
        every = "32 (status string), 64 (exception), 128 (application string)"
        for flags, shown, without, meant in ((1, "01: 1: none", "1", "none"),
                                             (0x21, "21: 33: status string", "1", "32 (status string)"),
                                             (0x90, "90: 144: application string", "16", "128 (application string)"),
                                             (0x1f, "1f: 31: none", "1, 2, 4, 8, 16", "none"),
                                             (0xff, "ff: 255: status string, exception, application string", "1, 2, 4, 8, 16", every)):
            self.assertEqual(self.words(damaged(ENGINES.read_bytes(), 13, flags)), [
                "refused 23 at 13: the flag byte has a bit set other than 32, 64 and 128", "The field is: flags. Its bytes are %s." % shown,
                "Bits set without a meaning: %s. Bits set with one: %s." % (without, meant),
                "Only the bits %s have a meaning; the others must be 0." % every])

    def test_names(self):
        for name, shown, byte, number, before, would_be in (
                ("LÆNGDE".encode(), '"LÆNGDE"', "195 (hex c3)", "2 of its 7", 'Before it stands "L"', 'In UTF-8, c3 86 would be the character "Æ" (U+00C6).'),
                ("€".encode(), '"€"', "226 (hex e2)", "1 of its 3", "It is the first", 'In UTF-8, e2 82 ac would be the character "€" (U+20AC).'),
                ("A😀".encode(), '"A😀"', "240 (hex f0)", "2 of its 5", 'Before it stands "A"', 'In UTF-8, f0 9f 98 80 would be the character "😀" (U+1F600).'),
                ("\u202e".encode(), '"\\u{202e}"', "226 (hex e2)", "1 of its 3", "It is the first", 'In UTF-8, e2 80 ae would be the character "\\u{202e}" (U+202E).'),
                (b"L\xc6NGDE", '"L\\xc6NGDE"', "198 (hex c6)", "2 of its 6", 'Before it stands "L"', "In UTF-8 it would begin no character either: " + texts.fault(b"\xc6NGDE")),
                (b"CUT\xc3", '"CUT\\xc3"', "195 (hex c3)", "4 of its 4", 'Before it stands "CUT"', "In UTF-8 it would begin no character either: " + texts.fault(b"\xc3")),
                (b"\x80", '"\\x80"', "128 (hex 80)", "1 of its 1", "It is the first",
                 "In UTF-8 it would begin no character either: 80 only goes on with a character, and none was begun.")):
            message = reply([wire.INTEGER, wire.DECIMAL], [b"ENGINE_ID", name], [])
            at = message.rindex(name) + next(at for at, it in enumerate(name) if it > 127)
            self.assertEqual(self.words(message), [
                "refused 24 at %d: a column's name has a byte above 127" % at,
                "The field is: column name, table 0, column 1 %s (decimal). Its bytes are %s: %s." % (shown, name.hex(" "), shown),
                "A column's name has bytes from 0 to 127, and number %s is %s. %s." % (number, byte, before), would_be])

    def test_a_long_name_is_cut(self):
        told = self.words(reply([wire.TINYINT], [b"x" * 100 + b"\xff"], []))
        self.assertIn('number 101 of its 101 is 255 (hex ff). Before it stands "%s.." (100 bytes).' % ("x" * 60), told[2])

    def test_empty_geographies(self):
        for kind, message, name, where, row in in_each_place(wire.GEOGRAPHY, b"x", b""):
            self.assertEqual(self.words(message, kind), [
                "refused 25 at %d: a geography is empty" % (len(message) - 4), "The field is: %s length, %s. Its bytes are 00 00 00 00: 0 bytes." % (name, where),
                "Its length is 0, and a geography isn't empty: the shortest that is accepted has 1 byte. Null would be the length -1.", *row])

    def test_what_they_say_is_the_edge_of_what_is_accepted(self):
        """Just inside the ends that the words name, and null, are accepted."""
        for wire_type, fine in ((wire.DECIMAL, (paper.MOST_DECIMAL, -paper.MOST_DECIMAL, paper.NULL_DECIMAL)),
                                (wire.POINT, ((180.0, 90.0), (-180.0, -90.0), (paper.NULL_DEGREES,) * 2)), (wire.GEOGRAPHY, (bytes(paper.SHORTEST_GEOGRAPHY), None))):
            for it in fine:
                for kind, message, *_ in in_each_place(wire_type, it, it):
                    reader.read(kind, message)
        reader.read(wire.REPLY, damaged(ENGINES.read_bytes(), 84, paper.MOST_IN_NAME))
        for flags in itertools.product(*((0, bit) for bit in paper.FLAGS)):
            reader.read(wire.REPLY, encoder.encode(wire.REPLY, dict(harbour.reply(harbour.ENGINES), flags=sum(flags), application_string=None, exception=b"")))

    def test_the_fields_before_are_shown(self):
        told = lines.refusal_lines(self.refused(BROKEN.read_bytes()))
        self.assertEqual(told[:5], [
            "refused 21 at 238: a decimal is out of its range and isn't null",
            "The field is: cell, table 0, row 1, column 3 THROTTLE_LIMIT (decimal). Its bytes are 7f ff ff ff .. ff ff ff: 170141183460469231731687303.715884105727.",
            "It is above the greatest decimal, 99999999999999999999999999.999999999999.",
            "It counts 170141183460469231731687303715884105727 units of 10^-12, and the greatest counts 10^38 - 1.",
            'Its row begins with ENGINE_ID 2, VESSEL "Bodil", ENGINE "starboard".'])
        self.assertTrue(any(line.startswith("212   4  00 00 00 02 ") and line.endswith("  2") for line in told))
        self.assertTrue(any(line.startswith("238  16  7f ff ff ff .. ff ff ff  cell ") for line in told))
        first, *fields = map(json.loads, records.refusal_records(self.refused(BROKEN.read_bytes())))
        self.assertEqual((first["refused"], first["place"], first["words"]), (21, 238, told[:5]))
        self.assertEqual((fields[-1]["offset"], fields[-1]["where"]), (238, "table 0, row 1, column 3 THROTTLE_LIMIT (decimal)"))


class Texts(unittest.TestCase):
    def test_faults(self):
        for raw, told in (
                (b"\xc3", "c3 begins a character of 2 bytes, and the text ends after 1 of them: it was cut inside that character."),
                (b"\xf0\x9f\x98", "f0 begins a character of 4 bytes, and the text ends after 3 of them: it was cut inside that character."),
                (b"\xc3r", "c3 begins a character of 2 bytes, and after 1 of them comes 72, which doesn't go on with it."),
                (b"\xe2\x82\xc3\xa9", "e2 begins a character of 3 bytes, and after 2 of them comes c3, which doesn't go on with it."),
                (b"\xa9", "a9 only goes on with a character, and none was begun."),
                (b"\xc0\x80", "c0 never occurs in UTF-8: it could only begin an overlong form."),
                (b"\xe0\x80\xaf", "e0 80 begins an overlong form: its character has a shorter one."),
                (b"\xf0\x8f\xbf\xbf", "f0 8f begins an overlong form: its character has a shorter one."),
                (b"\xed\xa0\xbd", "ed a0 begins a surrogate, which is half of a character in UTF-16 and none here."),
                (b"\xf4\x90\x80\x80", "f4 90 begins what would be above U+10FFFF, the last character."),
                (b"\xff\xfe", "ff never occurs in UTF-8: no character is above U+10FFFF.")):
            self.assertEqual(texts.fault(raw), told)

    def test_each_fault_is_of_the_kind_that_python_names(self):
        words_for = {"invalid start byte": ("only goes on", "never occurs"), "unexpected end of data": ("text ends after",),
                       "invalid continuation byte": ("doesn't go on", "overlong", "surrogate", "above U+10FFFF")}
        edges = b"\x00\x7f\x80\x8f\x90\x9f\xa0\xbf\xc0\xc1\xc2\xdf\xe0\xe1\xec\xed\xee\xef\xf0\xf1\xf3\xf4\xf5\xff"
        for raw in map(bytes, itertools.chain.from_iterable(itertools.product(edges, repeat=size) for size in (1, 2, 3))):
            try:
                raw.decode()
            except UnicodeDecodeError as no:
                told = texts.fault(raw[no.start:])
                self.assertTrue(any(words in told for words in words_for[no.reason]), (raw, told))

    def test_bytes_around(self):
        self.assertEqual(texts.around(b"\xc3", 0), "[c3]")
        self.assertEqual(texts.around(bytes(range(17)), 8), "00 01 02 03 04 05 06 07 [08] 09 0a 0b 0c 0d 0e 0f 10")
        self.assertEqual(texts.around(bytes(range(19)), 9), ".. 01 02 03 04 05 06 07 08 [09] 0a 0b 0c 0d 0e 0f 10 11 ..")


class Values(unittest.TestCase):
    def decimal(self, units):
        return values.decimal(units.to_bytes(16, "big", signed=True))

    def test_decimals(self):
        self.assertEqual(self.decimal(-23325234250000000), "-23325.234250000000")
        self.assertEqual(self.decimal(0), "0.000000000000")
        self.assertEqual(self.decimal(-1), "-0.000000000001")
        self.assertEqual(self.decimal(10**38 - 1), "99999999999999999999999999.999999999999")
        self.assertEqual(self.decimal(-(2**127)), "null")

    def test_moments(self):
        self.assertEqual(values.utc(0), "1970-01-01 00:00:00.000000 UTC")
        self.assertEqual(values.utc(-1), "1969-12-31 23:59:59.999999 UTC")
        self.assertEqual(values.utc(951_782_400_000_000), "2000-02-29 00:00:00.000000 UTC")
        self.assertEqual(values.utc(2**63 - 1), "294247-01-10 04:00:54.775807 UTC")
        self.assertEqual(values.utc(-(2**63)), "-290308-12-21 19:59:05.224192 UTC")

    def test_floats(self):
        self.assertEqual(values.float_text(struct.pack(">d", 0.1)), "0.1")
        self.assertEqual(values.float_text(struct.pack(">d", -0.0)), "-0.0")
        self.assertEqual(values.float_text(struct.pack(">d", float("-inf"))), "-inf")
        self.assertEqual(values.float_text(bytes.fromhex("7ff8000000000001")), "NaN (bits 7ff8000000000001)")

    def test_points(self):
        self.assertEqual(values.point(struct.pack(">dd", -122.0264, 36.90719)), "longitude 122.0264° W, latitude 36.90719° N")
        self.assertEqual(values.point(struct.pack(">dd", -0.0, 0.0)), "longitude 0.0° W, latitude 0.0° N")
        self.assertEqual(values.point(bytes.fromhex("4076800000000000" * 2)), "null")

    def test_text(self):
        self.assertEqual(values.quoted(b'a "b" \\ \n'), '"a \\"b\\" \\\\ \\u{a}"')
        self.assertEqual(values.quoted("Zoë".encode()), '"Zoë"')
        self.assertEqual(values.quoted(b"cut \xc3"), '"cut \\xc3"')
        self.assertEqual(values.quoted("\x1b[2J\u202e".encode()), '"\\u{1b}[2J\\u{202e}"')
        self.assertEqual(values.quoted(b"x" * 61), '"%s.." (61 bytes)' % ("x" * 60))

    def test_numbers_keep_their_sign(self):
        self.assertEqual(values.value_text(3, b"\x80"), "-128")
        self.assertEqual(values.value_text(6, b"\xff" * 8), "-1")

    def test_what_stands_behind_a_value(self):
        for wire_type, raw, told in ((22, (800_000_000_000).to_bytes(16, "big"), "800000000000 x 10^-12"), (3, b"\xff", "-1"), (8, b"\0" * 8, "the bits 0x0000000000000000"),
                                     (11, b"\0" * 8, "0 microseconds since 1970-01-01 00:00 UTC"), (9, b"abc", "3 bytes")):
            self.assertEqual(values.raw_text(wire_type, raw), told)

    def test_flags(self):
        self.assertEqual(values.flags(0), "0: none")
        self.assertEqual(values.flags(0xe0), "224: status string, exception, application string")


class OtherKinds(unittest.TestCase):
    def test_an_invocation(self):
        """Document 000's: an array of two strings and a decimal; then an array of bytes and a null."""
        shown = explained("9d09" "0002" "00000001" "66" "00000000" "16" "ffffffffffffffffffad21d2b239d980" "9d03" "00000002" "beef" "01",
                          (0, 1, 24, 0, 0, 0), (1, 1, 25, 0, 0, 0), (2, 2, 26, 0, 0, 0), (4, 4, 27, 0, 0, 0), (8, 1, 28, 0, 0, 0), (9, 4, 27, 0, 1, 0),
                          (13, 1, 24, 1, 0, 0), (14, 16, 28, 1, 0, 0),
                          (30, 1, 24, 2, 0, 0), (31, 1, 25, 2, 0, 0), (32, 4, 26, 2, 0, 0), (36, 2, 28, 2, 0, 0), (38, 1, 24, 3, 0, 0))
        self.assertEqual([(field.where, field.value) for field in shown], [
            ("parameter 0", "-99: array"), ("parameter 0", "9: string"), ("parameter 0", "2 elements"),
            ("parameter 0, element 0", "1 byte"), ("parameter 0, element 0", '"f"'), ("parameter 0, element 1", "0 bytes"),
            ("parameter 1", "22: decimal"), ("parameter 1", "-23325.234250000000"),
            ("parameter 2", "-99: array"), ("parameter 2", "3: tinyint"), ("parameter 2", "2 bytes"), ("parameter 2", "0xbeef"),
            ("parameter 3", "1: null"),
        ])

    def test_null_points(self):
        message = call((wire.POINT, None), (wire.ARRAY, (wire.POINT, [(12.5, 0.0), None])))
        told = [(field.where, field.value) for field in read_by_second(message, wire.INVOCATION) if field.number == paper.VALUE]
        self.assertEqual(told, [("parameter 0", "null"), ("parameter 1, element 0", "longitude 12.5° E, latitude 0.0° N"), ("parameter 1, element 1", "null")])

    def test_a_login_response(self):
        shown = explained("00" "0000000000000069" "c0a80001", (0, 1, 10, 0, 0, 0), (1, 8, 13, 0, 0, 0), (9, 4, 14, 0, 0, 0))
        self.assertEqual([field.value for field in shown], ["0: accepted", "1970-01-01 00:00:00.105000 UTC", "192.168.0.1"])

    def test_every_field_can_be_shown(self):
        """Each field number of the paper has a name, and a way to be shown."""
        numbers = [*range(1, 9), *range(10, 17), *range(20, 29), *range(30, 52), *range(60, 69)]
        self.assertEqual(sorted(paper.FIELDS), numbers)
        raw = "16" + "00" * 15
        for number in numbers:
            declared = [(0, 1, paper.PARAMETER_TYPE, 0, 0, 0), (0, 1, paper.ELEMENT_TYPE, 0, 0, 0), (0, 1, paper.COLUMN_TYPE, 0, 0, 0)]
            size = {"type": 1, "float": 8}.get(paper.FIELDS[number][1], 16)
            self.assertTrue(list(explained(raw, *declared, (0, size, number, 0, 0, 0)))[-1].value)

    def test_each_number_of_reading_has_words(self):
        self.assertEqual(sorted(paper.REFUSALS), [*range(1, 7), *range(20, 26)])


class Listing(unittest.TestCase):
    def test_what_the_programs_say(self):
        self.assertEqual(listing.from_text("refused 4 6\n"), ((4, 6), array.array("I")))
        self.assertEqual(listing.from_text("0 4 1 0 0 0\n4 1 2 0 0 0\n")[1].tolist(), [0, 4, 1, 0, 0, 0, 4, 1, 2, 0, 0, 0])
        self.assertEqual(listing.from_numbers(bytes([4, 6, 0, 0, 0, 0, 0, 0])), ((4, 6), array.array("I")))
        self.assertEqual(listing.from_numbers(bytes(8) + bytes([9, 1, 0, 0]))[1].tolist(), [265])

    def test_fields_that_do_not_cover_the_message_are_told(self):
        good = [0, 4, 1, 0, 0, 0, 4, 1, 2, 0, 0, 0, 5, 1, 10, 0, 0, 0]
        listing.check_tiling(array.array("I", good), 6)
        for at, number in ((0, 1), (1, 3), (7, 0), (6, 5), (13, 2)):
            with self.assertRaises(listing.Untiled):
                listing.check_tiling(array.array("I", good[:at] + [number] + good[at + 1:]), 6)


class Building(unittest.TestCase):
    def test_the_crates_of_a_program(self):
        self.assertEqual(set(building.closure("list")), {"list", "listing", "frames", "fields", "tour", "tally", "message", "quick", "scan", "text", "format"})

    def test_a_line_for_each_crate(self):
        said = io.StringIO()
        with contextlib.redirect_stderr(said):
            progress = building.Progress(["format", "scan", "quick"])
            for line in ("fn scan::x: proved", "library format: modules loaded=3 checked=0", "crate scan: modules loaded=22 checked=11", "logic=proved functions=1", "only=0 proved=0",
                         "crate quick: modules loaded=0 checked=9", "logic=proved functions=4"):
                progress.line(line)
        self.assertEqual(said.getvalue(), "explain: 2 of 3: scan proved\nexplain: 3 of 3: quick proved\n")

    def test_what_is_older_than_its_sources_is_made_again(self):
        with tempfile.TemporaryDirectory() as folder:
            made, source = pathlib.Path(folder, "made"), pathlib.Path(folder, "source")
            source.touch()
            self.assertFalse(building.fresh(made, source))
            made.touch()
            os.utime(source, (1, 1))
            self.assertTrue(building.fresh(made, source))
            os.utime(made, (0, 0))
            self.assertFalse(building.fresh(made, source))

    def test_the_prover_is_asked_before_each_answer(self):
        """So that no program answers that is older than the crates."""
        with tempfile.TemporaryDirectory() as folder:
            rt, asked = pathlib.Path(folder, "rt"), pathlib.Path(folder, "asked")
            rt.write_text("#!/bin/sh\necho $* >>'%s'\nexit $(wc -l <'%s')\n" % (asked, asked))
            rt.chmod(0o755)
            with mock.patch.dict(os.environ, PATH=folder + os.pathsep + os.environ["PATH"]), mock.patch.object(building, "LOGS", ROOT / "target" / "explain" / "test"):
                with self.assertRaisesRegex(building.Missing, "`rt run` failed; target/explain/test/list.log says why"):
                    building.list_program()
            self.assertEqual(asked.read_text(), "run\n")

    def test_no_kit(self):
        done = subprocess.run([sys.executable, str(ROOT / "explain"), "4", str(SAMPLE)], env={"PATH": "/nowhere"}, stderr=subprocess.PIPE, encoding="utf-8")
        self.assertEqual(done.returncode, 2)
        self.assertIn("the Rattle kit's command `rt` isn't found", done.stderr)
        self.assertNotIn("Traceback", done.stderr)


@unittest.skipUnless(shutil.which("rt"), "the Rattle kit isn't here")
class WithTheProvedLibrary(unittest.TestCase):
    @classmethod
    def setUpClass(cls):
        cls.folder = tempfile.TemporaryDirectory()
        cls.addClassCleanup(cls.folder.cleanup)

    def path(self, name, data=None):
        file = os.path.join(self.folder.name, name)
        if data is not None:
            pathlib.Path(file).write_bytes(data)
        return file

    def run_it(self, *words, program="explain", **more):
        more = {"stdout": subprocess.PIPE, "stderr": subprocess.PIPE, **more}
        return subprocess.run([str(ROOT / program), *words], encoding="utf-8", **more)

    def failed(self, told, *words, **more):
        done = self.run_it(*words, **more)
        self.assertEqual((done.returncode, done.stdout or ""), (2, ""))
        self.assertIn(told, done.stderr)
        self.assertNotIn("Traceback", done.stderr)

    def test_both_programs_list_alike(self):
        for file in sorted((ROOT / "samples").glob("*.bin")):
            kind = int(file.name[0])
            stored = listing.listing(kind, file.read_bytes())
            with mock.patch.object(paper, "MOST_LISTED", -1):
                self.assertEqual(listing.listing(kind, file.read_bytes()), stored)

    def test_many_columns(self):
        """Both programs list as many as a table may have, and refuse one more."""
        def wide(columns):
            return reply([wire.TINYINT] * columns, [b"C%d" % column for column in range(columns)], [[column % 100 for column in range(columns)]])
        most = wide(wire.MOST_COLUMNS)
        for longest in (paper.MOST_LISTED, -1):
            with mock.patch.object(paper, "MOST_LISTED", longest):
                self.assertEqual(listing.listing(4, most), (None, read_by_second(most).numbers))
                self.assertEqual(listing.listing(4, wide(wire.MOST_COLUMNS + 1))[0], (paper.LIMIT, 37))
        done = self.run_it("4", self.path("most", most), "--cell", "0", "0", "C1023")
        self.assertEqual((done.returncode, done.stdout.splitlines()[0]), (0, "table 0, row 0, column 1023 C1023 (tinyint) is 23"))
        done = self.run_it("4", self.path("more", wide(wire.MOST_COLUMNS + 1)))
        self.assertEqual((done.returncode, done.stdout.splitlines()[2]), (1, "It says 1025, and the limit is 1024."))

    def test_a_far_card(self):
        """The program `limit`, whose own input has it make a near card."""
        messages = harbour.big_replies()
        printed = listing.run(building.program("limit"), harbour.framed(messages)).decode("ascii")
        self.assertEqual(printed, harbour.limits(messages))
        self.assertEqual([line.split(",")[0].split(":")[0] for line in printed.splitlines()], ["limit 800000000000 x 10^-12"] * 2 + ["card refused 10 0", "stale"] * 3)

    def test_the_whole_command(self):
        done = self.run_it("4", str(SAMPLE))
        told, _, ending = done.stdout.partition("\n\n")
        self.assertEqual((done.returncode, told + "\n"), (0, (STORED / "engines.txt").read_text()))
        self.assertIn("49 fields, side by side from byte 0 to byte 287: every byte has one owner", ending)
        self.assertIn("message: 288 bytes, SHA-256 ", ending)
        self.assertIn("\nchaloenpik: commit ", ending)
        kit = subprocess.run(["rt", "version"], stdout=subprocess.PIPE, encoding="utf-8").stdout
        self.assertTrue(ending.endswith("kit: " + kit))

    def test_the_insurers_question(self):
        done = self.run_it("4", str(ENGINES), "--cell", "0", "--where", "ENGINE_ID=2", "--column", "THROTTLE_LIMIT")
        self.assertEqual((done.returncode, done.stdout.splitlines()[0]), (0, "table 0, row 1, column 3 THROTTLE_LIMIT (decimal) is 0.800000000000"))
        self.assertIn("SHA-256", done.stdout)

    def test_a_boat_without_a_position(self):
        done = self.run_it("4", str(POSITIONS), "--cell", "0", "--where", "VESSEL=Clam", "--column", "POSITION")
        self.assertEqual((done.returncode, done.stdout.splitlines()[0]), (0, "table 0, row 2, column 2 POSITION (point) is null"))
        m = POSITIONS.read_bytes()
        at = m.index(struct.pack(">dd", 360.0, 360.0))
        done = self.run_it("4", self.path("turned", damaged(m, at, 0xc0)))
        self.assertEqual(done.returncode, 1)
        self.assertIn("refused 22 at %d: " % at, done.stdout)
        self.assertIn("longitude 360.0° W, latitude 360.0° N", done.stdout)

    def test_areas_are_listed_and_turned_as_the_second_reader_does(self):
        large = [body for _, body in itertools.islice(generate_areas.large(3), 4)]
        bodies = [body for body in (b"", *generate_areas.bodies(200, 9), *generate_areas.edges(), *large) if len(body) <= wire.MOST_BODY]
        for turned in (False, True):
            self.assertEqual(areas.asked(bodies, turned), asked_of_second(bodies, turned))

    def test_inside(self):
        done = self.run_it("4", str(AREAS), "--inside")
        with mock.patch.object(areas, "asked", asked_of_second):
            inside, explained_sample = areas.Inside(read_by_second(AREAS.read_bytes())), read_by_second(AREAS.read_bytes())
        self.assertEqual((done.returncode, done.stdout.partition("\n\n")[0].splitlines()), (0, list(lines.field_lines(inside.among(explained_sample)))))
        self.assertIn("every byte has one owner\n%s\n\n%s\n\nmessage: 781 bytes, SHA-256 " % (inside.line(), areas.NOTE), done.stdout)
        done = self.run_it(str(AREAS), "--byte", "155", "--inside")
        self.assertEqual((done.returncode, done.stdout.splitlines()[1:5]), (0, lines.byte_lines(explained_sample, 155, inside)))
        *told, last = map(json.loads, self.run_it("4", str(AREAS), "--cell", "0", "0", "AREA", "--inside", "--json").stdout.splitlines())
        self.assertEqual((told[0]["cell"]["value"], last["inside"]["fields"], len([record for record in told if "inside" in record])), ("318 bytes, an area of 2 rings", 55, 35))

    def test_geojson(self):
        out = self.path("areas.geojson")
        done = self.run_it("4", str(AREAS), "--geojson", out)
        self.assertEqual((done.returncode, done.stdout.splitlines()[0]), (0, "%s has 4 features, 2 of them with a polygon" % out))
        told = json.loads(pathlib.Path(out).read_text(encoding="ascii"))
        with mock.patch.object(areas, "asked", asked_of_second):
            self.assertEqual(told["features"], geojson.Collection(read_by_second(AREAS.read_bytes())).features)
        self.assertEqual((told["made_from"]["size"], len(told["made_from"]["sha256"])), (781, 64))
        self.failed("this is kind 3", str(ROOT / "samples" / "3-engine-limits.bin"), "--geojson", out)
        self.failed("is the message itself", "4", self.path("copy", AREAS.read_bytes()), "--geojson", self.path("copy"))
        self.failed("No space left on device", "4", str(AREAS), "--geojson", "/dev/full")
        done = self.run_it("4", self.path("cut", AREAS.read_bytes()[:-1]), "--geojson", self.path("unwritten"))
        self.assertEqual((done.returncode, os.path.exists(self.path("unwritten"))), (1, False))
        self.assertIn("isn't written: the message is refused", done.stderr)

    def test_cards_are_judged_as_the_second_reader_does(self):
        near, far = NEAR_CARD.read_bytes(), FAR_CARD.read_bytes()
        broken = b"", near[:-1], far + b"\0", damaged(near, 0, 3), damaged(near, 1, 64), damaged(far, 1, 0, 63), damaged(far, 3, 7), damaged(near, 35, 1)
        asked = [*itertools.product(harbour.replies() + harbour.big_replies(), (0,), (near, far)), *itertools.product([ENGINES.read_bytes()], (0, 1, 10**18 - 1), (near, *broken))]
        with mock.patch.object(building, "cards_program", return_value=building.cards_program()):  # so that the prover is asked once
            for message, table, raw in asked:
                self.assertEqual(cards.asked(message, table, raw), card_asked_of_second(message, table, raw))

    def test_a_card(self):
        done = self.run_it("4", str(ENGINES), "--card", str(NEAR_CARD))
        with mock.patch.object(cards, "asked", card_asked_of_second):
            told, stale = (lines.card_lines(cards.Card(read_by_second(file.read_bytes()), 0, NEAR_CARD.read_bytes())) for file in (ENGINES, WITHOUT_VESSEL))
        self.assertEqual((done.returncode, done.stdout.splitlines()[:len(told)], done.stderr), (0, told, ""))
        with open(NEAR_CARD, "rb") as given:
            done = self.run_it(str(WITHOUT_VESSEL), "--card", "-", "--table=0", stdin=given)
        self.assertEqual((done.returncode, done.stdout.splitlines()[1:1 + len(stale)]), (1, stale))
        done = self.run_it("4", str(ENGINES), "--card", "/dev/zero")
        self.assertEqual((done.returncode, done.stdout.splitlines()[0]), (1, "refused 12 at 0: a card breaks its form"))
        self.assertEqual(self.run_it("4", str(BROKEN), "--card", str(NEAR_CARD)).stdout, self.run_it("4", str(BROKEN)).stdout)
        self.failed("this is kind 3", str(ROOT / "samples" / "3-engine-limits.bin"), "--card", str(NEAR_CARD))
        self.failed("can't both be standard input", "4", "-", "--card", "-")
        self.failed("No such file or directory", "4", str(ENGINES), "--card", self.path("missing"))
        self.failed("Is a directory", "4", str(ENGINES), "--card", self.folder.name)

    def test_a_refused_message(self):
        done = self.run_it("2", str(ENGINES))
        self.assertEqual((done.returncode, done.stdout.splitlines()[0]), (1, "refused 3 at 30: a limit is passed"))
        self.assertIn("As 4, invocation response, the same bytes are accepted.", done.stdout)

    def test_each_cause_has_its_number(self):
        """As a cell, a parameter and an element, in text, as JSON and on the page."""
        m = ENGINES.read_bytes()
        values_of = ((21, wire.DECIMAL, 0, 10**38), (22, wire.POINT, (0.0, 0.0), (360.0, 0.0)), (25, wire.GEOGRAPHY, b"x", b""))
        broken = [(number, kind, message) for number, *value in values_of for kind, message, *_ in in_each_place(*value)]
        for number, kind, message in (*broken, (23, wire.REPLY, damaged(m, 13, 0x21)), (24, wire.REPLY, damaged(m, 84, 0xc3))):
            file, out = self.path("broken", message), self.path("broken.html")
            done = self.run_it(str(kind), file, "--html", out)
            told = json.loads(self.run_it(str(kind), file, "--json").stdout.splitlines()[0])
            self.assertEqual((done.returncode, told["refused"], done.stdout.splitlines()[:len(told["words"])]), (1, number, told["words"]))
            self.assertTrue(told["words"][1].startswith("The field is: "))
            written = pathlib.Path(out).read_text(encoding="utf-8")
            self.assertIn("<p>refused %d at %d: " % (number, told["place"]), written)
            self.assertNotIn(NO_LONGER_GIVEN, done.stdout + written)

    def test_a_torn_name(self):
        hirers = self.path("torn", reply([wire.STRING, wire.TINYINT], [b"HIRER", b"BERTH"], [["Ærø".encode()[:-1], -128]]))
        done = self.run_it("4", hirers)
        self.assertEqual((done.returncode, done.stdout.splitlines()[0]), (1, "refused 20 at 74: a text isn't well-formed UTF-8"))
        self.assertIn("c3 begins a character of 2 bytes, and the text ends after 1 of them", done.stdout)
        self.assertEqual(self.run_it("4", hirers, "--html", self.path("torn.html")).returncode, 1)
        self.assertIn("<p>c3 begins a character of 2 bytes", pathlib.Path(self.path("torn.html")).read_text(encoding="utf-8"))

    def test_the_kind_is_guessed(self):
        done = self.run_it(str(ENGINES), "--byte", "0")
        self.assertEqual((done.returncode, done.stdout.splitlines()[0]), (0, "kind 4, invocation response: no other kind accepts these bytes"))
        self.failed("no kind accepts these bytes", self.path("none", b"abc"))

    def test_json_and_standard_input(self):
        with open(ENGINES, "rb") as given:
            done = self.run_it("4", "-", "--json", stdin=given)
        told = [json.loads(line) for line in done.stdout.splitlines()]
        self.assertEqual((len(told), told[-1]["fields"], told[-1]["kind"]), (76, 75, 4))
        self.assertEqual("".join(record["bytes"] for record in told[:-1]), ENGINES.read_bytes().hex())
        refused = [json.loads(line) for line in self.run_it("2", str(ENGINES), "--json").stdout.splitlines()]
        self.assertEqual((refused[0]["refused"], refused[0]["place"]), (3, 30))

    def test_failures_have_a_sentence(self):
        self.failed("Is a directory", "4", self.folder.name)
        self.failed("No such file or directory", "4", self.path("missing"))
        self.failed("is longer than a message can be, which has at most 4194308 bytes", "4", "/dev/zero")
        large = self.path("large", ENGINES.read_bytes())
        os.truncate(large, 3 << 30)
        self.failed("`head -c 428` cuts it out", "4", large)
        self.failed("there is no kind 9", "9", str(ENGINES))
        self.failed("is the message itself", "4", large.replace("large", "copy"), "--html", self.path("copy", MESSAGE))
        with open("/dev/full", "w") as full:
            done = self.run_it("4", str(ENGINES), stdout=full)
            self.assertEqual((done.returncode, done.stderr), (2, "explain: No space left on device\n"))
        self.failed("No space left on device", "4", str(ENGINES), "--html", "/dev/full")
        self.failed("No such file or directory", "4", str(ENGINES), "--html", self.path("no/such"))

    def test_an_unreadable_file(self):
        """Root reads every file, so nobody is asked to, if nobody may run explain."""
        file = self.path("secret", MESSAGE)
        os.chmod(file, 0)
        os.chmod(self.folder.name, 0o755)
        other = {"user": 65534, "group": 65534, "extra_groups": []} if os.geteuid() == 0 else {}
        try:
            subprocess.run([str(ROOT / "explain"), "--help"], stdout=subprocess.DEVNULL, stderr=subprocess.DEVNULL, check=True, **other)
        except (OSError, subprocess.CalledProcessError):
            self.skipTest("nobody can't run explain here")
        self.failed("Permission denied", "4", file, **other)

    def test_odd_file_names(self):
        for name in ("two words", "line\nfeed", "Ærø", os.fsdecode(b"\xff\xfe"), "<b>", "-"):
            file = self.path(name, MESSAGE)
            done = self.run_it("4", file, "--html", self.path("page.html"))
            self.assertEqual((done.returncode, done.stderr), (0, ""), name)

    def test_a_page(self):
        out = self.path("page.html")
        done = self.run_it("4", str(SAMPLE), "--html", out)
        self.assertEqual((done.returncode, done.stdout.splitlines()[0]), (0, "%s shows 49 fields" % out))
        self.assertTrue(pathlib.Path(out).read_text(encoding="utf-8").startswith("<!doctype html>"))
        self.assertEqual(self.run_it("2", str(SAMPLE), "--html", out).returncode, 1)
        self.assertIn("refused 3 at 30", pathlib.Path(out).read_text(encoding="utf-8"))

    def test_a_closed_pipe(self):
        done = subprocess.run("'%s' 4 '%s' | head -n 1" % (ROOT / "explain", ENGINES), shell=True, stdout=subprocess.PIPE, stderr=subprocess.PIPE, encoding="utf-8")
        self.assertEqual(done.stderr, "")

    def test_stopped_by_the_keyboard(self):
        # A shell lets what it runs in the background ignore the keyboard, and that is inherited.
        running = subprocess.Popen([str(ROOT / "explain"), "4", "-"], stdin=subprocess.PIPE, stderr=subprocess.PIPE, encoding="utf-8",
                                   preexec_fn=lambda: signal.signal(signal.SIGINT, signal.SIG_DFL))
        time.sleep(1.5)  # until it reads its input
        running.send_signal(signal.SIGINT)
        self.assertEqual((running.communicate()[1], running.returncode), ("explain: stopped\n", 2))

    def test_several_at_once(self):
        """Each asks `rt`, whose verdicts stand in one place: none takes what another has only begun to write for its own."""
        for words in (("4", str(SAMPLE)), ("4", str(AREAS), "--inside")):
            together = [subprocess.Popen([str(ROOT / "explain"), *words], stdout=subprocess.DEVNULL, stderr=subprocess.PIPE, encoding="utf-8") for _ in range(4)]
            self.assertEqual([(one.communicate()[1], one.returncode) for one in together], [("", 0)] * len(together))

    def test_a_message_of_4_megabytes(self):
        """The longest that there is, with the harbour's table; one byte more is too many."""
        table = dict(harbour.ENGINES, rows=[harbour.ENGINES["rows"][1]] * 53_000)
        record = harbour.reply(table)
        room = paper.MOST_BYTES - len(encoder.encode(wire.REPLY, record))
        message = encoder.encode(wire.REPLY, dict(record, status_string=b"ok" + b"." * room))
        self.assertEqual(len(message), paper.MOST_BYTES)
        done = self.run_it("4", self.path("whole", message), "--cell", "0", "52999", "THROTTLE_LIMIT")
        self.assertEqual((done.returncode, done.stdout.splitlines()[0]), (0, "table 0, row 52999, column 3 THROTTLE_LIMIT (decimal) is 0.800000000000"))
        self.assertEqual(listing.listing(4, message)[1].tolist()[-6:], [len(message) - 8, 8, 51, 0, 52_999, 6])
        self.failed("is longer than a message can be", "4", self.path("whole", message + b"."))


@unittest.skipUnless(shutil.which("rt"), "the Rattle kit isn't here")
class Readme(unittest.TestCase):
    def test_its_examples_are_what_the_commands_print(self):
        """An example is a line with $ and the lines below it, which are the beginning of what the command prints."""
        examples = re.findall(r"^    \$ (.*)\n((?:    .*\n|\n(?=    (?!\$)))+)", (ROOT / "README.md").read_text(), re.MULTILINE)
        self.assertGreaterEqual(len(examples), 3)
        for command_line, shown in examples:
            printed = subprocess.run(command_line, shell=True, cwd=ROOT, stdout=subprocess.PIPE, encoding="utf-8").stdout.splitlines()
            told = [line[4:] for line in shown.rstrip("\n").split("\n")]
            self.assertEqual([line.rstrip() for line in printed[:len(told)]], told, command_line)


@unittest.skipUnless(shutil.which("rt"), "the Rattle kit isn't here")
class List(unittest.TestCase):
    def run_it(self, *words, **more):
        more = {"stdout": subprocess.PIPE, "stderr": subprocess.PIPE, **more}
        return subprocess.run([str(ROOT / "list"), *words], encoding="utf-8", **more)

    def test_the_papers_own(self):
        done = self.run_it("2", "-", input="\0\0\0\2\0\3")
        self.assertEqual((done.returncode, done.stdout), (0, "0 4 1 0 0 0\n4 1 2 0 0 0\n5 1 10 0 0 0\n"))

    def test_the_sample(self):
        self.assertEqual(self.run_it("4", str(SAMPLE)).stdout, LISTED)

    def test_refused(self):
        self.assertEqual(self.run_it("4", "/dev/null").stdout, "refused 1 0\n")
        done = self.run_it("9", "/dev/zero")
        self.assertEqual((done.returncode, done.stdout), (1, "refused 6 0\n"))

    def test_failures(self):
        for words, told in ((["4", str(ROOT)], "is a directory"), (["4", "/no/such"], "there is no file /no/such"), (["010", str(SAMPLE)], "KIND is a byte in decimal"),
                            (["08", str(SAMPLE)], "KIND is a byte"), (["256", str(SAMPLE)], "KIND is a byte"), (["4"], "usage"), ([], "usage")):
            done = self.run_it(*words)
            self.assertEqual((done.returncode, done.stdout), (2, ""))
            self.assertIn(told, done.stderr)
        with open("/dev/full", "w") as full:
            done = self.run_it("4", str(SAMPLE), stdout=full)
            self.assertEqual(done.returncode, 2)
            self.assertIn("list: the list couldn't be written", done.stderr)


class Compare(unittest.TestCase):
    def test_nonsense_is_refused(self):
        for words in (["0"], ["-5"], ["x"], ["010"], ["1e5"], ["10", "-1"], ["10", "x"], ["1", "2", "3"]):
            done = subprocess.run([str(ROOT / "tests" / "compare"), *words], stdout=subprocess.PIPE, stderr=subprocess.PIPE, encoding="utf-8")
            self.assertEqual((done.returncode, done.stdout), (2, ""))
            self.assertTrue(done.stderr.startswith("usage: tests/compare"))


if __name__ == "__main__":
    unittest.main()
