"""Bodies of geographies: made up from a seed, at the edges of each rule, and large ones.

    bodies(count, seed)  ->  bodies, the same ones for the same seed: a third areas, the rest damaged
    edges()              ->  each cut of two small areas, each leading byte, counts at their ends beside right and wrong third bytes, bytes
                             left over
    large(seed)          ->  (what, body) pairs: as long as a message lets a geography be, and longer than any message; and these damaged
"""

import random

from areas import bits, encode, read
from generate import FLOAT_PATTERNS
from reader import Refused
from wire import *

COUNTS = (-2**31, 1 - 2**31, -2, -1, 0, 1, 2, 3, 4, 5, 127, 128, 255, 256, 65_536, 2**24, MOST_COUNT - 1, MOST_COUNT)
HOLES = (0, 1, 2, 127, 128, 255)
ONE = bits(bytes.fromhex("3ff0000000000000"))


def bodies(count, seed):
    maker = AreaMaker(random.Random(seed))
    return [maker.body() for _ in range(count)]


class AreaMaker:
    def __init__(self, rng):
        self.rng = rng

    def body(self):
        body = encode(self.area())
        turn = self.rng.random()
        if turn > 0.33:
            body = self.damaged(body)
        return self.damaged(body) if turn > 0.9 else body

    # -- Areas.

    def area(self):
        rings = [self.ring() for _ in range(self.rng.choice((1, 1, 2, 2, 3, 4, 12)))]
        return {"edition": self.byte(), "internal": self.byte(), "rings": rings, "kept": self.kept(AREA_KEPT)}

    def ring(self):
        vertices = [self.vertex() for _ in range(self.rng.choice((3, 3, 3, 4, 4, 5, 6, 7, 30)))]
        return {"mark": self.byte(), "vertices": vertices, "kept": self.kept(RING_KEPT)}

    def vertex(self):
        """Any floats: no rule looks at them."""
        return tuple(self.float_bits() for _ in range(3))

    def float_bits(self):
        rng = self.rng
        return rng.choice((rng.getrandbits(64), rng.getrandbits(64), rng.choice(FLOAT_PATTERNS), ONE - rng.getrandbits(52)))

    def byte(self):
        return self.rng.choice((0, 1, 2, 127, 128, 255, self.rng.randrange(256)))

    def kept(self, size):
        return bytes(size) if self.rng.random() < 0.5 else self.rng.randbytes(size)

    # -- Damage.

    def damaged(self, body):
        """The body with one fault put in, or two that show which is found first. An already refused one is damaged blindly."""
        rng = self.rng
        try:
            fields = read(body)[1]
        except Refused:
            return self.blindly(body)
        way = rng.random()
        if way < 0.15:
            return replaced(replaced(body, 2, bytes([rng.choice(HOLES)])), 3, count_bytes(self.other_count(bits(body[3:7]))))
        if way < 0.5:
            return self.field_changed(body, self.chosen(fields))
        if way < 0.85:
            return self.resized(body, self.chosen(fields))
        return self.blindly(body)

    def chosen(self, fields):
        """A field, by its number first, so that rare ones are chosen as often as frequent ones."""
        number = self.rng.choice(sorted({field[2] for field in fields}))
        return self.rng.choice([field for field in fields if field[2] == number])

    def field_changed(self, body, field):
        at, size, number = field[:3]
        if number in (F_RING_COUNT, F_VERTEX_COUNT):
            return replaced(body, at, count_bytes(self.other_count(bits(body[at:at + size]))))
        return replaced(body, at, bytes([self.rng.choice(HOLES)]) if number == F_HOLES else self.rng.randbytes(size))

    def other_count(self, old):
        return self.rng.choice((old + 1, old - 1, self.rng.randint(0, 40), *COUNTS))

    def resized(self, body, field):
        """Cut in a field or beside it, or with bytes put in or taken out there."""
        rng, (at, size) = self.rng, field[:2]
        at += rng.choice((0, 0, rng.randint(0, size), size))
        if rng.random() < 0.5:
            return body[:at]
        taken = rng.choice((0, 1, size, 24))
        return body[:at] + rng.randbytes(rng.choice((0, 0, 1, 4, 24))) + body[at + taken:]

    def blindly(self, body):
        rng = self.rng
        way = rng.randrange(5)
        if way == 0:
            return body[:rng.randrange(len(body) + 1)]
        if way == 1:
            return body + rng.randbytes(rng.choice((1, 2, 33, 38)))
        if way == 2:
            return rng.randbytes(rng.randint(0, 300))
        if way == 3:  # noise behind a head that is in order
            rings, vertices = rng.choice((1, 2, 3, MOST_COUNT)), rng.choice((3, 4, 5))
            head = bytes([0, 1, rings > 1]) + count_bytes(rings) + b"\0" + count_bytes(vertices)
            return head + rng.randbytes(rng.randint(0, 300))
        out = bytearray(body)
        for _ in range(rng.choice((1, 2, 4)) if out else 0):
            out[rng.randrange(len(out))] = rng.randrange(256)
        return bytes(out)


def replaced(body, at, new):
    return body[:at] + new + body[at + len(new):]


def count_bytes(count):
    return (count % 2**32).to_bytes(4, "big")


def plain(*sizes):
    """An area with rings of so many vertices; no two of its numbers and kept bytes are alike."""
    def kept(ring, size):
        return bytes((ring * 50 + i) % 256 for i in range(size))

    rings = [{"mark": r % 256, "vertices": [tuple(ONE - 2**30 * r - 2**10 * v - axis for axis in range(3)) for v in range(size)],
              "kept": kept(r, RING_KEPT)} for r, size in enumerate(sizes)]
    return {"edition": 0, "internal": 1, "rings": rings, "kept": kept(len(sizes), AREA_KEPT)}


def edges():
    for area in (plain(3), plain(3, 4)):
        body = encode(area)
        yield from (body[:end] for end in range(len(body) + 1))
        yield from (replaced(body, at, bytes([byte])) for at in range(3) for byte in (range(256) if at == 2 else HOLES))
        yield from (replaced(body, 2, bytes([holes]) + count_bytes(count)) for holes in HOLES for count in COUNTS)
        for at, _, number, *_ in read(body)[1]:
            if number == F_VERTEX_COUNT:
                changed = [replaced(body, at, count_bytes(count)) for count in COUNTS]
                yield from changed
                yield from (one[:at + 4] for one in changed)
        yield from (body + bytes(left) for left in (1, 5, 33, 38))


def large(seed):
    rng = random.Random(seed)
    whole, many, longest = encode(of_size(MOST_BODY, rng)), encode(plain(*[3] * 9000)), encode(of_size(MOST_MESSAGE + 5, rng))
    last_count = len(many) - AREA_KEPT - RING_KEPT - 3 * 24 - 4
    yield "an area as long as a message lets one be", whole
    yield "the same, cut by a byte", whole[:-1]
    yield "an area of many rings", many
    yield "the same, its last vertex count negative", replaced(many, last_count, count_bytes(-1))
    yield "the same, its last vertex count too small", replaced(many, last_count, count_bytes(FEWEST_VERTICES - 1))
    yield "an area longer than any message", longest
    yield "the same, with a byte more", longest + b"\0"
    yield "the same, its third byte wrong", replaced(longest, 2, bytes([2]))


def of_size(size, rng):
    """An area whose body has exactly so many bytes. A vertex has 24; a ring 43 more, and 24 of these make every remainder."""
    spare = size - 7 - AREA_KEPT
    rings = next(n for n in range(1, 25) if (spare - 43 * n) % 24 == 0)
    vertices = [tuple(rng.getrandbits(64) for _ in range(3)) for _ in range((spare - 43 * rings) // 24)]
    parts = [vertices[3 * n:3 * n + 3] for n in range(rings - 1)] + [vertices[3 * (rings - 1):]]
    return {"edition": 0, "internal": 1, "kept": rng.randbytes(AREA_KEPT),
            "rings": [{"mark": 0, "vertices": part, "kept": rng.randbytes(RING_KEPT)} for part in parts]}
