#!/usr/bin/env python3
"""Makes samples/: messages of a made-up harbour whose engine control asks a database for the limits of its engines, a reply that lacks
a column, one with the positions of boats, one with no-wake areas, the big report of 400 columns, and two that are refused, one in which a name is torn and one in which a
limit is no decimal; the shortcut cards of the limit's column, in the reply and in the big report; and, for the program `limit`, its input and what it prints: the sample
reply, the same with a row more, four in which the limit's column is no longer what it was, one that lacks a later column, one that has the big report's columns behind its
own, and the big report.

    harbour.py          writes the files
    harbour.py --big    puts out another input for `limit`, which makes a far card of it: the big report, the same with a row more, and three in which the limit's column is
                        no longer what it was
"""

import pathlib
import struct
import sys

sys.dont_write_bytecode = True
ROOT = pathlib.Path(__file__).resolve().parents[2]
sys.path.append(str(ROOT / "tools"))

import areas
import cards
from encoder import encode
from explain.paper import FITS  # the words alone: which of them is true is judged by cards.py
from reader import Refused, read
from wire import *
from wire_poly import vertex

SAMPLES = ROOT / "samples"
REQUEST = bytes.fromhex("00000000000000 2a".replace(" ", ""))

ENGINES = {
    "status": 0,
    "types": [INTEGER, STRING, STRING, DECIMAL, FLOAT, POINT, TIMESTAMP],
    "names": [b"ENGINE_ID", b"VESSEL", b"ENGINE", b"THROTTLE_LIMIT", b"COOLANT_C", b"BERTH", b"SERVICED"],
    "rows": [
        # A throttle limit is a fraction of full throttle, in units of 10^-12.
        [1, b"Bodil", b"port", 850_000_000_000, 0x4054800000000000, (12.5683, 55.6761), 1_760_000_000_000_000],
        [2, b"Bodil", b"starboard", 800_000_000_000, 0x4055200000000000, (12.5683, 55.6761), 1_761_000_000_000_000],
        [7, "Ærø".encode(), b"main", NULL_DECIMAL, 0x7FF8000000000000, (10.4072, 54.8889), 0],
        [9, b"Tug 9", None, 1_000_000_000_000, 0x4053000000000000, (-0.0, 51.5), 1_759_000_000_000_000],
    ],
}

BOATS = {
    "status": 0,
    "types": [INTEGER, STRING, POINT, TIMESTAMP],
    "names": [b"BOAT_ID", b"VESSEL", b"POSITION", b"SEEN"],
    "rows": [
        [1, b"Bodil", (12.6127, 55.7034), 1_762_000_000_000_000],
        [4, "Ærø".encode(), (10.4072, 54.8889), 1_762_000_060_000_000],
        # A boat whose plotter is off.
        [5, b"Clam", None, 1_761_900_000_000_000],
        [9, b"Tug 9", (-0.0, 51.5), 1_762_000_030_000_000],
    ],
}

BERTHS = {
    "status": 0,
    "types": [INTEGER, STRING],
    "names": [b"BERTH", b"HIRER"],
    "rows": [
        [11, "Bodil Sørensen".encode()],
        # A name of which twelve bytes were kept: of its last letter that is the first of two.
        [12, "Åge Kjærgård".encode()[:12]],
        [14, b"Tug 9 ApS"],
    ],
}


def area(*rings):
    """The body of a new area, by the places of its rings, all counterclockwise. What the server fills in is 0, and the internal byte 1."""
    return areas.encode({"edition": 0, "internal": 1, "kept": bytes(AREA_KEPT), "rings": [
        {"mark": 0, "vertices": [rounded_bits(vertex(*place)) for place in ring], "kept": bytes(RING_KEPT)} for ring in rings]})


def rounded_bits(numbers):
    """Rounded, so that the last bit of a machine's cosine doesn't make another sample."""
    return struct.unpack(">3Q", struct.pack(">3d", *(round(number, 15) for number in numbers)))


NO_WAKE = {
    "status": 0,
    "types": [INTEGER, STRING, FLOAT, GEOGRAPHY],
    "names": [b"AREA_ID", b"NAME", b"LIMIT_KN", b"AREA"],
    "rows": [
        # Document 000's polygon, which has a hole.
        [1, b"Training water", 0x4014000000000000,
         area([(0.0, 0.0), (1.0, 0.0), (1.0, 1.0), (0.0, 1.0)], [(0.1, 0.1), (0.9, 0.1), (0.9, 0.9), (0.1, 0.9)])],
        [2, "Svanemølle".encode(), 0x4008000000000000, area([(12.57, 55.715), (12.59, 55.712), (12.59, 55.72), (12.58, 55.723)])],
        # An area that nobody has drawn yet, and one that was stored as text.
        [3, b"North mole", 0x4012000000000000, None],
        [4, b"Old basin", 0x4004000000000000, b"POLYGON((12.6 55.69, 12.61 55.69, 12.61 55.7, 12.6 55.69))"],
    ],
}


# What the engines' new control tells of each sensor, by the sensor's number and the engine's.
SENSED = [
    (b"MEAN", FLOAT, lambda sensor, engine: float_bits(sensor + engine / 4)),
    (b"PEAK", FLOAT, lambda sensor, engine: float_bits(1.5 * sensor + engine)),
    (b"ALARMS", SMALLINT, lambda sensor, engine: sensor * engine % 5),
    (b"NOTE", STRING, lambda sensor, engine: b"cleaned" if (sensor + engine) % 7 == 0 else None),
]
REPORT_COLUMNS, LIMIT_AT = 400, 257  # of the limit's position both bytes of a card count


def float_bits(number):
    return struct.unpack(">Q", struct.pack(">d", number))[0]


def sensed(count):
    """A table of so many columns of sensors, with a row for each engine."""
    columns = [(sensor, *SENSED[at % len(SENSED)]) for at, sensor in ((at, 1 + at // len(SENSED)) for at in range(count))]
    return {"types": [wire_type for _, _, wire_type, _ in columns], "names": [b"SENSOR_%03d_%s" % (sensor, what) for sensor, what, _, _ in columns],
            "rows": [[told(sensor, row[0]) for sensor, _, _, told in columns] for row in ENGINES["rows"]]}


def engine_report(limit_at):
    """The engines with columns of sensors, some before the limit's and the others behind all."""
    more, own = sensed(REPORT_COLUMNS - len(ENGINES["types"])), ENGINES["names"].index(b"THROTTLE_LIMIT")
    def joined(engines, sensors):
        return engines[:own] + sensors[:limit_at - own] + engines[own:] + sensors[limit_at - own:]
    return {"status": 0, "types": joined(ENGINES["types"], more["types"]), "names": joined(ENGINES["names"], more["names"]),
            "rows": [joined(*rows) for rows in zip(ENGINES["rows"], more["rows"])]}


BIG_REPORT = engine_report(LIMIT_AT)


# The tables whose limit has a card among the samples: a near one, and a far one.
CARDS = {"limit": ENGINES, "limit-far": BIG_REPORT}


def limit_card(table):
    position = table["names"].index(b"THROTTLE_LIMIT")
    return cards.card_of(position, table["types"][position], table["names"][position])


def reply(table):
    return {"version": 0, "client_data": REQUEST, "flags": FLAG_STATUS_STRING, "status": 1, "status_string": b"ok", "application": -128,
            "round_trip": 2, "tables": [table]}


def without(table, column):
    """The table with a column dropped."""
    at = table["names"].index(column)
    def drop(entries):
        return entries[:at] + entries[at + 1:]
    return dict(table, types=drop(table["types"]), names=drop(table["names"]), rows=[drop(row) for row in table["rows"]])


def only(table, *columns):
    """The table with no other columns."""
    for column in table["names"]:
        table = table if column in columns else without(table, column)
    return table


def changed(table, column, **changes):
    """The table with a column's type, name or values changed."""
    at = table["names"].index(column)
    rows = [row[:at] + [changes.get("value", row[at])] + row[at + 1:] for row in table["rows"]]
    return dict(table, rows=rows, **{key: table[key][:at] + [new] + table[key][at + 1:] for key, new in changes.items() if key in table})


def with_cell(table, row, column, value):
    """The table with one cell changed."""
    at, rows = table["names"].index(column), table["rows"]
    return dict(table, rows=rows[:row] + [rows[row][:at] + [value] + rows[row][at + 1:]] + rows[row + 1:])


MESSAGES = {
    "1-login": (LOGIN, {"version": 1, "hash_version": 0, "service": b"database", "user": b"harbour", "hash": bytes(range(20))}),
    "2-login-reply": (LOGIN_REPLY, {"version": 1, "result": 0, "host": 3, "connection": 12, "start": 1_760_000_000_000,
                                    "leader": bytes([10, 0, 0, 1]), "build": b"6.0 harbour"}),
    "3-engine-limits": (INVOCATION, {"version": 0, "procedure": b"EngineLimits", "client_data": REQUEST, "parameters": [
        (STRING, b"Bodil"), (ARRAY, (INTEGER, [1, 2])), (ARRAY, (TINYINT, b"\1\2")), (NULL, None)]}),
    "4-engines": (REPLY, reply(ENGINES)),
    "4-engines-without-vessel": (REPLY, reply(without(ENGINES, b"VESSEL"))),
    "4-positions": (REPLY, reply(BOATS)),
    "4-areas": (REPLY, reply(NO_WAKE)),
    "4-big-report": (REPLY, reply(BIG_REPORT)),
}

# Replies that are refused, by the numbers.
REFUSED = {
    "4-berths-torn": (BERTHS, BAD_TEXT),
    # Somebody meant that engine 2 has no limit, and sent the greatest number that fits.
    "4-engines-limit-broken": (with_cell(ENGINES, 1, b"THROTTLE_LIMIT", 2**127 - 1), BAD_DECIMAL),
}


def samples():
    """The files and their bytes. Those of the messages say their records."""
    made = {}
    for name, (kind, record) in MESSAGES.items():
        made[name + ".bin"] = encode(kind, record)
        assert read(kind, made[name + ".bin"])[0] == record
    for name, (table, number) in REFUSED.items():
        made[name + ".bin"] = encode(REPLY, reply(table))
        assert refusal(REPLY, made[name + ".bin"]) == number
    for name, table in CARDS.items():
        made[name + ".card"] = limit_card(table)
        assert cards.fit(table, made[name + ".card"]) is None
    return made


def refusal(kind, message):
    try:
        read(kind, message)
    except Refused as no:
        return no.number


def replies():
    more = dict(ENGINES, rows=[[5, b"Clam", None, 500_000_000_000, 0, (0.0, 0.0), 0]] + ENGINES["rows"])
    tables = [ENGINES, more, without(ENGINES, b"VESSEL"), changed(ENGINES, b"THROTTLE_LIMIT", names=b"THROTTLE_LIMITS"),
              changed(ENGINES, b"THROTTLE_LIMIT", types=VARBINARY, value=None), only(ENGINES, b"ENGINE_ID", b"THROTTLE_LIMIT"), without(ENGINES, b"SERVICED"),
              engine_report(ENGINES["names"].index(b"THROTTLE_LIMIT")), BIG_REPORT]
    return [encode(REPLY, reply(table)) for table in tables]


def big_replies():
    more = dict(BIG_REPORT, rows=BIG_REPORT["rows"][:1] + BIG_REPORT["rows"])
    renamed = changed(BIG_REPORT, b"THROTTLE_LIMIT", names=b"THROTTLE_LIMITS")
    return [encode(REPLY, reply(table)) for table in (BIG_REPORT, more, without(BIG_REPORT, b"VESSEL"), renamed, ENGINES)]


def framed(messages):
    return b"".join(len(message).to_bytes(4, "big") + message for message in messages)


def limits(messages):
    """What the program `limit` prints for these replies, by the second reader."""
    lines, card = [], None
    for message in messages:
        record, fields = read(REPLY, message)
        table = record["tables"][0]
        card = card or limit_card(table)
        misfit = cards.fit(table, card)
        if misfit:
            lines += ["card refused 10 0", stale(*misfit)]
            continue
        position = cards.opened(table, card)
        row = [row[table["names"].index(b"ENGINE_ID")] for row in table["rows"]].index(2)
        offset, size = next(field[:2] for field in fields if field[2:] == (51, 0, row, position))
        lines.append("limit %d x 10^-12, column %d, row %d: %d bytes from %d; byte %d is of field 51, table 0, row %d, column %d"
                     % (table["rows"][row][position], position, row, size, offset, offset, row, position))
    return "".join(line + "\n" for line in lines)


def stale(reason, position):
    now = "no column has its name and type" if position is None else "its name and type now stand at column %d" % position
    return "stale: %s; %s" % (FITS[reason], now)


if __name__ == "__main__":
    if sys.argv[1:] == ["--big"]:
        sys.stdout.buffer.write(framed(big_replies()))
        sys.exit()
    SAMPLES.mkdir(exist_ok=True)
    for name, message in samples().items():
        (SAMPLES / name).write_bytes(message)
    program, messages = ROOT / "crates" / "limit", replies()
    (program / "stdin").write_bytes(framed(messages))
    (program / "stdout").write_text(limits(messages))
