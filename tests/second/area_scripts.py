"""Scripts of calls on geographies' bodies and of steps that write them, for area_calls.py: made up from a random source."""

import itertools

from area_calls import NUMBERS, Second, spelled
from area_writer import AREA_OPEN, CLOSED, HEAD, RING_HEAD, RING_OPEN, STEPS, State
from areas import encode
from wire import *

HUGE = 2**64 - 1
WRAPPED = 2**61  # 24 bytes for each of so many vertices are a multiple of 2^64


# -- Asking a body.

def asking(rng, body):
    """All that can be asked of a body, past its ends too; then its holes are turned twice. Of what is long some rings, vertices and bytes
    are asked, and of what is refused, some bytes."""
    second = Second()
    second.body(body)
    rings = second.area["rings"] if second.area else []
    script = [("body", (body,)), ("rings", ()), ("kept", ()), ("field_count", ())]
    for r in some(rng, len(rings)):
        vertices = len(rings[r]["vertices"])
        script += [("ring", (r,)), ("ring_kept", (r,)), *(("vertex", (r, v)) for v in (*some(rng, vertices), vertices, WRAPPED, HUGE))]
    for r in (len(rings), WRAPPED, HUGE):
        script += [("ring", (r,)), ("ring_kept", (r,)), ("vertex", (r, 0))]
    script += [("fields", window) for window in windows(rng, len(second.listed))]
    script += [("owner", (at,)) for at in (*some(rng, len(body), most=400 if second.area else 2), len(body), len(body) + 1, HUGE)]
    return script + [("turn", ()), ("rings", ()), ("turn", ())]


def some(rng, count, most=8):
    """The numbers below a count, if they are few; else some of them, with the first and the last."""
    return range(count) if count <= most else sorted({0, 1, count - 2, count - 1, *(rng.randrange(count) for _ in range(min(most, 20)))})


def windows(rng, count):
    """(first, size): the whole list, none of it, windows of one or a few entries with numbers to spare, and past the end. A long list is
    taken whole only once."""
    whole, few = NUMBERS * count, NUMBERS * rng.randint(1, 4)
    middle = rng.randrange(count) if count else 0
    long_ones = [(0, whole), (0, whole + rng.randint(1, 13)), (1, whole)]
    return long_ones[:3 if count < 10_000 else 1] + [
        (0, 0), (middle, 0), (0, NUMBERS - 1), (middle, NUMBERS), (middle, NUMBERS + 1), (middle, few), (middle, few + NUMBERS - 1),
        (max(count - 2, 0), few), (count, few), (count, 0), (count + 1, few), (HUGE, few)]


# -- Writing.

def spelling(maker):
    """The steps that write an area into a buffer that is long enough or a little too short, with steps that are refused among them; and the
    area read back."""
    area, rng, second = maker.area(), maker.rng, Second()
    script = [("buffer", (max(0, len(encode(area)) + rng.choice((-33, -9, -1, 0, 0, 0, 1, 50))),))]
    second.lines(script)
    for step in spelled(area):
        if rng.random() < 0.2:
            script.append(step_of(maker, rng.choice(refused_names(second.state))))
        script.append(step)
        second.line(*step)
    return script + [("show", ()), ("take", ()), ("rings", ()), ("fields", (0, 4 * NUMBERS)), ("turn", ()), ("turn", ())]


def refused_names(state):
    """The steps that are refused after those of `spelled`: out of order, or closing too early."""
    if state.stage == AREA_OPEN:
        return ("add_vertex", "close_ring") + (("finish",) if state.rings < FEWEST_RINGS else ())
    if state.stage == RING_OPEN:
        return ("open_ring", "finish") + (("close_ring",) if state.vertices < FEWEST_VERTICES else ())
    return "open_ring", "add_vertex", "close_ring", "finish"


def step_of(maker, name):
    arguments = {"begin": lambda: (maker.byte(), maker.byte()), "open_ring": lambda: (maker.byte(),), "add_vertex": maker.vertex,
                 "close_ring": lambda: (maker.kept(RING_KEPT),), "finish": lambda: (maker.kept(AREA_KEPT),)}
    return name, arguments[name]()


LIKELY = {CLOSED: ("begin",), AREA_OPEN: ("open_ring", "open_ring", "finish"), RING_OPEN: ("add_vertex",) * 5 + ("close_ring",) * 2}


def wild(maker, forging=0.5):
    """Likely and unlikely steps, half of the scripts with forged states among them; and what stands before the position read back."""
    rng, second = maker.rng, Second()
    script = [("buffer", (rng.choice((0, 6, 7, 11, 12, 13, 60, 150, 155, 156, 300, 300, 600, 600)),))]
    second.lines(script)
    forging = rng.random() < forging
    for _ in range(rng.randint(1, 25)):
        if forging and rng.random() < 0.25:
            call = forgery(rng, second.state, len(second.out))
        else:
            likely = LIKELY.get(second.state.stage) if rng.random() < 0.9 else None
            call = step_of(maker, rng.choice(likely or tuple(STEPS)))
        second.line(*call)
        script.append(call)
        if call[0] == "finish" and second.state.stage == CLOSED and rng.random() < 0.6:
            break
    script.append(("show", ()))
    if second.state.position <= len(second.out):
        script += [("take", ()), ("rings", ()), ("turn", ())]
    return script


def forgery(rng, state, size):
    """The state with one number, or two, forged: near what they are, near their limits, or far off."""
    far, counts = (2**63, HUGE - 4, HUGE), (MOST_COUNT - 1, MOST_COUNT, MOST_COUNT + 1, 2**32)
    near = {
        "stage": (0, 1, 1, 2, 2, 3, 255, 256, 257, 258, HUGE),
        "position": (0, HEAD - 1, HEAD, HEAD + RING_HEAD, *(size - room for room in (38, 33, 24, 5, 1, 0, -1)), *far),
        "rings": (0, 1, 2, *counts, *far),
        "ring_at": (0, HEAD - 1, HEAD, state.position - RING_HEAD, state.position - RING_HEAD + 1, size, *far),
        "vertices": (0, 2, 3, *counts, *far),
    }
    changes = {}
    for field in rng.sample(State._fields, rng.choice((1, 1, 2))):
        value = getattr(state, field)
        changes[field] = rng.choice((*near[field], value + 1, value - 1)) % 2**64
    return "forge", tuple(state._replace(**changes))


def at_every_edge(maker):
    """Each step on states whose numbers stand at both sides of what permits it: the stage, the ends of the buffer, the limits of the counts,
    the place of a ring."""
    size, counts = 160, (0, 1, 2, MOST_COUNT - 1, MOST_COUNT, MOST_COUNT + 1)
    positions = [HEAD - 1, HEAD, HEAD + RING_HEAD - 1, HEAD + RING_HEAD]
    positions += [size - room + more for room in (38, 33, 24, 5, 0) for more in (0, 1)] + [HUGE - 4, HUGE]
    areas = [(stage, position, rings, 0, 0) for stage in (0, AREA_OPEN, 3, 256 + AREA_OPEN) for position in positions for rings in counts]
    rings = [(RING_OPEN, position, rings, ring_at, vertices) for position in positions for rings in counts
             for ring_at in (HEAD - 1, HEAD, position - RING_HEAD, position - RING_HEAD + 1) for vertices in (2, 3, *counts[3:])]
    rings += [(stage, 100, 1, HEAD, 3) for stage in (3, 256 + RING_OPEN, HUGE)]
    script = [step for room in (0, HEAD - 1, HEAD) for step in (("buffer", (room,)), step_of(maker, "begin"))] + [("buffer", (size,))]
    for states, names in ((areas, ("open_ring", "finish", "add_vertex")), (rings, ("add_vertex", "close_ring", "finish"))):
        for state, name in itertools.product(states, names):
            script += [("forge", tuple(number % 2**64 for number in state)), step_of(maker, name)]
    return script
