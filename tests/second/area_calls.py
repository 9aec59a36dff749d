"""Calls on geographies' bodies and steps of writing them: carried out by the second reader and writer, and packed for tests/areas.c.

A script is a list of calls, each (name, arguments):

    body BYTES                                      the body that the calls below ask
    rings | ring R | vertex R V | ring_kept R | kept
    field_count | fields FIRST SIZE | owner OFFSET  SIZE is how many numbers the lent list has room for
    turn                                            turns the holes of the body, which stays so
    buffer SIZE                                     a new buffer, byte i holding i mod 251; no state
    forge STAGE POSITION RINGS RINGAT VERTICES      sets the whole state, whatever it is
    begin EDITION INTERNAL | open_ring MARK | add_vertex X Y Z | close_ring KEPT | finish KEPT
    show                                            the buffer's bytes
    take                                            makes the bytes up to the position the body

What is answered, a line a call: `fine`, what the answer says was found, and the numbers that were lent; or `refused NUMBER PLACE`. After
that, for `turn`, the body; for a step, the state and the buffer's checksum. `show` gives bytes alone; `body`, `buffer`, `forge` and `take`
give no line. Bytes are hexadecimal, or if they are many a checksum; a checksum of a large buffer is left to `show`. A program prints the name of
the exported function before its answer (`named`).

For a program, `packed` makes each call a frame (frames.py): a byte that names it (its place in NAMES), then its arguments: a number as 8
bytes; bytes as a length of 4 bytes and the bytes.
"""

import bisect
import zlib

import steps
from area_writer import NO_STATE, STEPS, State
from areas import encode, read, turned
from reader import Refused
from wire import *
from writer import No

NUMBERS = 6     # of an entry of the field list
MOST_SHOWN = 65_536
PLACES = 2**56  # an answer of the C interface has so many bits for a place; only a forged position needs more
SILENT = ("body", "buffer", "forge", "take")
ASKING = ("rings", "ring", "vertex", "ring_kept", "kept", "field_count", "fields", "owner")
NAMES = (*SILENT, *ASKING, "turn", "show", *STEPS)


class Second:
    """What the calls are about, and the answers of the second reader and writer."""

    def __init__(self):
        self.state, self.out = NO_STATE, bytearray()
        self.body(b"")

    def line(self, name, arguments):
        """What a program must print for a call; None if nothing."""
        if name in STEPS:
            return self.step(name, arguments)
        if name in ASKING:
            return self.asked(name, arguments)
        return getattr(self, name)(*arguments)

    def lines(self, script):
        return [line for line in (self.line(*call) for call in script) if line is not None]

    # -- A body.

    def body(self, body):
        self.given, self.area, self.listed, self.refusal = body, None, [], None
        try:
            self.area, self.listed = read(body)
        except Refused as no:
            self.refusal = refused(no.number, no.place)
        self.offsets = [field[0] for field in self.listed]
        self.places = {field[2:]: field[:2] for field in self.listed}

    def asked(self, name, arguments):
        """The body's own refusal comes first; what isn't there is past the end."""
        if self.refusal:
            return self.refusal
        try:
            return " ".join(map(str, ("fine", *getattr(self, name)(*arguments))))
        except LookupError:
            return refused(PAST_END, 0)

    def rings(self):
        return (len(self.area["rings"]),)

    def ring(self, r):
        ring = self.area["rings"][r]
        return 0, self.places[F_MARK, r, 0, 0][0], ring["mark"], len(ring["vertices"])

    def vertex(self, r, v):
        return 0, *self.area["rings"][r]["vertices"][v]

    def ring_kept(self, r):
        return 0, *self.places[F_RING_KEPT, r, 0, 0]

    def kept(self):
        return 0, *self.places[F_AREA_KEPT, 0, 0, 0]

    def field_count(self):
        return (len(self.listed),)

    def fields(self, first, size):
        if first >= len(self.listed):
            raise LookupError
        window = self.listed[first:first + size // NUMBERS]
        return len(window), *(number for field in window for number in field)

    def owner(self, offset):
        if offset >= len(self.given):
            raise LookupError
        return (bisect.bisect_right(self.offsets, offset) - 1,)

    def turn(self):
        if self.refusal:
            return "%s %s" % (self.refusal, shown(self.given))
        self.area = turned(self.area)  # its fields stay where they are
        self.given = encode(self.area)
        return "fine %d %s" % (len(self.area["rings"]), shown(self.given))

    # -- Writing.

    def buffer(self, size):
        self.state, self.out = NO_STATE, bytearray(steps.fresh(size))

    def forge(self, *numbers):
        self.state = State(*numbers)

    def show(self):
        return shown(bytes(self.out))

    def take(self):
        self.body(bytes(self.out[:self.state.position]))

    def step(self, name, arguments):
        try:
            self.state = STEPS[name](self.state, self.out, *arguments)
            answer = "fine %d" % self.state.position
        except No as no:
            number, place = no.answer
            answer = refused(number, place % PLACES)
        return "%s %s%s" % (answer, " ".join(map(str, self.state)), " " + checksum(self.out) if len(self.out) <= MOST_SHOWN else "")


def named(script, lines):
    """The lines of a script as a program prints them."""
    answering = [name for name, _ in script if name not in SILENT]
    return [line if name == "show" else "%s %s" % (function(name), line) for name, line in zip(answering, lines)]


def function(name):
    return "area_" + {"turn": "turn_holes"}.get(name, name)


def shown(data):
    return checksum(data) if len(data) > MOST_SHOWN else data.hex() or "-"


def checksum(data):
    return "%08x" % zlib.crc32(data)


def spelled(area):
    """The steps that write an area."""
    script = [("begin", (area["edition"], area["internal"]))]
    for ring in area["rings"]:
        vertices = [("add_vertex", vertex) for vertex in ring["vertices"]]
        script += [("open_ring", (ring["mark"],)), *vertices, ("close_ring", (ring["kept"],))]
    return script + [("finish", (area["kept"],))]


def text(script):
    return "".join(" ".join([name, *map(steps.word, arguments)]) + "\n" for name, arguments in script)


def packed(script):
    out = []
    for name, arguments in script:
        frame = bytes([NAMES.index(name)]) + b"".join(map(steps.packed_argument, arguments))
        out += [len(frame).to_bytes(4, "big"), frame]
    return b"".join(out)
