#!/usr/bin/env python3
"""Runs tests/script.c, which takes the exported steps, and the second writer over the same scripts of steps: compare_writer.py N SEED

Half of the scripts spell a made-up record, into a buffer that is long enough or a little too short, and try what is refused by its own rule (flags,
names, values, torn texts) before what they spell; the others take wild steps, with wrong arguments, out of order and on forged states. Some spell a
reply with many columns. Half of the rows are written whole. Then come texts and values at the edges of their rules, in each step that takes one, and
beside other faults and limits; tables of many columns, opened and forged; and whole rows with all of that. What `script` answers must be what the
second writer does, line by line: after each step the whole state, all types and the buffer too.
"""

import pathlib
import random
import subprocess
import sys

import column_scripts
import limit_scripts
import row_scripts
import steps
import text_scripts
import value_scripts
from encoder import encode
from generate import Maker
from tally import Tally
from wire import *
from writer_test import wild

ROOT = pathlib.Path(__file__).resolve().parents[2]
RUN = [ROOT / "tools" / "c" / "kit", "run", ROOT / "target" / "tests" / "script"]
MOST_BUFFER = 8192
WIDE_ONES = 6

MUST = (NO_ROOM, LIMIT, LEFT_OVER, BAD_VERSION, BAD_TYPE, OUTPUT_SHORT, PAST_END, WRONG_STAGE, BAD_TEXT, *CAUSES)

# An answer of the C interface has so many bits for a place. Only a forged position needs more.
PLACES = 2**56


def main():
    count, seed = int(sys.argv[1]), int(sys.argv[2])
    print("compare_writer: %d scripts, seed %d" % (count, seed), flush=True)
    maker = Maker(random.Random(seed))
    scripts = [spelling(maker) if i % 2 else wild(maker) for i in range(count)]
    scripts += [spelling_wide(maker) for _ in range(WIDE_ONES)]
    scripts += [script for script, _ in (*text_scripts.by_turns(step=5), *value_scripts.by_turns(), *column_scripts.by_turns())]
    scripts += [script for _, script in row_scripts.by_turns(step=5)]
    scripts += [script for script, _ in (*text_scripts.in_order(), *value_scripts.in_order(), *limit_scripts.in_order(), *column_scripts.in_order(),
                                         *row_scripts.in_order())]
    data = b"".join(steps.packed(script) for script in scripts)
    found = subprocess.run(RUN, input=data, stdout=subprocess.PIPE, check=True).stdout.decode().splitlines()
    tally, at = Tally("compare_writer", must=MUST), 0
    for number, script in enumerate(scripts):
        expected = [told(line) for line in steps.lines(script)]
        answers = found[at:at + len(expected)]
        if answers != expected:
            return report(number, script, expected, answers)
        for line in answers:
            if " fine" in line or " refused " in line:  # not what a step left, nor what a buffer holds
                tally.add(line, other="fine")
        at += len(expected)
    if found[at:]:
        print("compare_writer: DIFFERENCE: %d lines too many" % len(found[at:]))
        return 1
    return 0 if tally.settled("no difference") else 1


def told(line):
    """A line as the C interface answers it."""
    call, is_refusal, rest = line.partition("refused ")
    if not is_refusal:
        return line
    number, place = map(int, rest.split())
    return call + refused(number, place % PLACES)


def spelling(maker):
    while True:
        kind = maker.rng.choice(KINDS)
        record = maker.record(kind)
        if len(encode(kind, record)) < MOST_BUFFER - 50:
            return spelled(maker, kind, record)


def spelling_wide(maker):
    return spelled(maker, REPLY, maker.wide_record())


def spelled(maker, kind, record):
    room = max(0, len(encode(kind, record)) + maker.rng.choice((-9, -1, 0, 0, 0, 1, 50)))
    spelled_steps = steps.spelled(kind, record, row=lambda values: spelled_row(maker, values))
    script = [tried for step in spelled_steps for tried in (*refused_before(maker, step), step)]
    return [("buffer", (room,)), *script, ("show", ())]


def spelled_row(maker, values):
    """Cell by cell; or whole, and before that often with something that is refused."""
    if maker.rng.random() < 0.5:
        return steps.cell_by_cell(values)
    tried = [row_scripts.spoiled(maker, values)] if maker.rng.random() < 0.5 else []
    return [*tried, row_scripts.scattered(maker.rng, values)]


def refused_before(maker, step):
    """Before what has a rule of its own, often the same step with what is refused, and so changes nothing; before a text often the same step with
    that torn, which is refused unless it is left out."""
    tried = value_scripts.spoiled(maker, step), text_scripts.torn(maker, step)
    return [step for step in tried if step and maker.rng.random() < 0.5]


def report(number, script, expected, found):
    print("compare_writer: DIFFERENCE in script %d:" % number)
    print("\n".join(line[:400] for line in steps.text(script).splitlines()))
    for i, line in enumerate(expected):
        if i >= len(found) or found[i] != line:
            print("answer %d: second writer: %s; script: %s" % (i + 1, line[:200], found[i][:200] if i < len(found) else "(end)"))
            break
    return 1


if __name__ == "__main__":
    sys.exit(main())
