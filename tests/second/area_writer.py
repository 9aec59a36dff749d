"""The second writer of a geography's body: its steps, in plain Python.

A step takes the state, the buffer (a bytearray) and its arguments. It writes and gives the new state, or raises No and changes nothing.
Nothing here reads the buffer back.
"""

import struct
from collections import namedtuple

from wire import *
from writer import No

# What is open: nothing, an area, a ring in it. The numbers are those of the state; any other one counts as CLOSED.
CLOSED, AREA_OPEN, RING_OPEN = range(3)

HEAD, RING_HEAD = 7, 5  # the bytes before the first ring, and before a ring's first vertex
HOLES_AT, COUNT_AT = 2, 3

# The stage, the position, the rings so far; of the open ring where it begins, and its vertices so far.
State = namedtuple("State", "stage position rings ring_at vertices")
NO_STATE = State(CLOSED, 0, 0, 0, 0)


def begin(state, buffer, edition, internal):
    """Whatever the state was."""
    put(buffer, 0, bytes([edition, internal]) + bytes(HEAD - 2))
    return State(AREA_OPEN, HEAD, 0, 0, 0)


def open_ring(state, buffer, mark):
    check_area(state, buffer)
    check_count(state.rings + 1, state)
    put(buffer, state.position, bytes([mark]) + bytes(RING_HEAD - 1))
    return State(RING_OPEN, state.position + RING_HEAD, state.rings + 1, state.position, 0)


def add_vertex(state, buffer, x, y, z):
    check_ring(state, buffer)
    check_count(state.vertices + 1, state)
    put(buffer, state.position, struct.pack(">3Q", x, y, z))
    return state._replace(position=state.position + 24, vertices=state.vertices + 1)


def close_ring(state, buffer, kept):
    check_ring(state, buffer)
    check_enough(state.vertices, FEWEST_VERTICES, state)
    put(buffer, state.position, kept)
    fill(buffer, state.ring_at + 1, state.vertices, 4)
    return State(AREA_OPEN, state.position + RING_KEPT, state.rings, 0, 0)


def finish(state, buffer, kept):
    check_area(state, buffer)
    check_enough(state.rings, FEWEST_RINGS, state)
    put(buffer, state.position, kept)
    fill(buffer, HOLES_AT, state.rings > 1, 1)
    fill(buffer, COUNT_AT, state.rings, 4)
    return State(CLOSED, state.position + AREA_KEPT, 0, 0, 0)


STEPS = {step.__name__: step for step in (begin, open_ring, add_vertex, close_ring, finish)}


# -- What the steps test.

def check_area(state, buffer):
    if not (state.stage == AREA_OPEN and HEAD <= state.position <= len(buffer) and state.rings <= MOST_COUNT):
        raise No(WRONG_STAGE, state.position)


def check_ring(state, buffer):
    """The open ring begins behind the area's head, and its own head ends by the position."""
    in_order = HEAD <= state.ring_at and state.ring_at + RING_HEAD <= state.position <= len(buffer)
    if not (state.stage == RING_OPEN and in_order and state.rings <= MOST_COUNT and state.vertices <= MOST_COUNT):
        raise No(WRONG_STAGE, state.position)


def check_enough(count, fewest, state):
    if count < fewest:
        raise No(BAD_GEOGRAPHY, state.position)


def check_count(count, state):
    if count > MOST_COUNT:
        raise No(LIMIT, state.position)


def put(buffer, at, out):
    if at + len(out) > len(buffer):
        raise No(OUTPUT_SHORT, at + len(out))
    buffer[at:at + len(out)] = out


def fill(buffer, at, n, size):
    buffer[at:at + size] = int(n).to_bytes(size, "big")
