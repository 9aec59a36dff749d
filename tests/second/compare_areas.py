#!/usr/bin/env python3
"""Runs tests/areas.c, which asks the exported functions, and the second reader and writer over the same geographies: compare_areas.py N SEED

N made-up bodies, and those at the edges of each rule: all that can be asked of each, also past its ends, into lists of several sizes; then
its holes are turned twice. N scripts of writer steps, half of them spelling an area, half wild and on forged states, and each step on states
at its edges: after each step the whole state and the buffer; what was written is read back. And some of both at the limits of 1 and 4 MB.
What `areas` prints must be what the second ones say.
"""

import pathlib
import random
import subprocess
import sys

from area_calls import SILENT, Second, named, packed, spelled, text
from area_scripts import asking, at_every_edge, spelling, step_of, wild
from generate_areas import AreaMaker, bodies, edges, large, of_size
from tally import Tally
from wire import *

ROOT = pathlib.Path(__file__).resolve().parents[2]
RUN = [ROOT / "tools" / "c" / "kit", "run", ROOT / "target" / "tests" / "areas"]
MUST = (NO_ROOM, BAD_SIGN, LIMIT, LEFT_OVER, OUTPUT_SHORT, PAST_END, WRONG_STAGE, BAD_GEOGRAPHY)


def main():
    count, seed = int(sys.argv[1]), int(sys.argv[2])
    print("compare_areas: %d bodies and as many scripts, seed %d" % (count, seed), flush=True)
    tally = Tally("compare_areas", must=MUST)
    for name, scripts in (("bodies", asked(count, seed)), ("scripts", written(count, seed)), ("large ones", large_ones(seed))):
        if differs(name, list(scripts), tally):
            return 1
    return 0 if tally.settled("no difference") else 1


def asked(count, seed):
    rng = random.Random(seed)
    return (asking(rng, body) for body in (*edges(), *bodies(count, seed)))


def written(count, seed):
    maker = AreaMaker(random.Random(seed))
    yield at_every_edge(maker)
    yield from (spelling(maker) if i % 2 else wild(maker) for i in range(count))


def large_ones(seed):
    rng = random.Random(seed)
    for _, body in large(seed):
        yield asking(rng, body)
    area = of_size(MOST_BODY, rng)
    for room in (MOST_BODY, MOST_BODY - 1):
        yield [("buffer", (room,)), *spelled(area), ("show", ()), ("take", ()), ("rings", ()), ("turn", ()), ("turn", ())]
    yield from (at_the_end(AreaMaker(rng), room) for room in (MOST_BODY, MOST_MESSAGE + 4))


def at_the_end(maker, room):
    """The last steps into a large buffer, on forged states: a ring closed with the most vertices, an area finished with the most rings; each step
    where a byte is missing; and there also with too few vertices or rings."""
    add, close, finish = (step_of(maker, name) for name in ("add_vertex", "close_ring", "finish"))
    place = room - AREA_KEPT - RING_KEPT - 24
    script = [("buffer", (room,))]
    for rings, vertices in ((1, 2), (2, 5), (MOST_COUNT, MOST_COUNT - 1)):
        script += [("forge", (2, place, rings, place - 5, vertices)), add, close, finish, ("show", ())]
    for stage, left, rings, vertices, step in ((2, 23, 1, 3, add), (2, 37, 1, 3, close), (1, 32, 1, 3, finish), (2, 37, 1, 2, close), (1, 32, 0, 0, finish)):
        script += [("forge", (stage, room - left, rings, room - left - 5, vertices)), step, ("show", ())]
    return script


def differs(name, scripts, tally):
    """Whether the program prints anything else for these scripts; the first difference is shown. What it answered is counted."""
    data = b"".join(map(packed, scripts))
    found = subprocess.run(RUN, input=data, stdout=subprocess.PIPE, check=True).stdout.decode().splitlines()
    second, at = Second(), 0
    for script in scripts:
        expected = named(script, second.lines(script))
        answers = found[at:at + len(expected)]
        if answers != expected:
            report(script, expected, answers)
            return True
        for line in answers:
            tally.add(line, other="fine")
        at += len(expected)
    if found[at:]:
        print("compare_areas: DIFFERENCE: %d lines too many after the %s" % (len(found[at:]), name))
    return bool(found[at:])


def report(script, expected, found):
    """The call that is answered otherwise, with those before it; a body is kept."""
    calls = [at for at, (name, _) in enumerate(script) if name not in SILENT]
    n = next(n for n, line in enumerate(expected) if n >= len(found) or found[n] != line)
    kept = ROOT / "target" / "difference.bin"
    kept.write_bytes(next((arguments[0] for name, arguments in script if name == "body"), b""))
    print("compare_areas: DIFFERENCE in call %d of a script; its body, if it has one, is kept in target/%s:" % (calls[n] + 1, kept.name))
    print("\n".join(line[:200] for line in text(script[:calls[n] + 1]).splitlines()[-30:]))
    print("second: %s; areas: %s" % (expected[n][:300], found[n][:300] if n < len(found) else "(end)"))


if __name__ == "__main__":
    sys.exit(main())
