#!/usr/bin/env python3
"""How often the proved programs gave which refusal: counted by number, and by the function of include/chaloenpik.h where that is known.

A comparison adds each line that a program printed, and settles the tally at its end. That fails if a number was given that isn't one of
wire.REFUSALS, as 7 isn't any more; if one that the comparison has to reach wasn't given; or if a function gave one that docs/NUMBERS.md doesn't say
for it. What was counted by function is kept in target/refusals.

    tally.py [--all]    holds docs/NUMBERS.md against the numbers and functions that there are, and says which of its refusals no comparison saw;
                        with --all it fails if there is one
"""

import pathlib
import re
import sys
from collections import Counter

from wire import REFUSALS

ROOT = pathlib.Path(__file__).resolve().parents[2]
NUMBERS = ROOT / "docs" / "NUMBERS.md"
HEADER = ROOT / "include" / "chaloenpik.h"
KEPT = ROOT / "target" / "refusals"

NUMBER_TABLE = ["No.", "Name", "Given exactly if", "Place", "Calls"]
GROUP_TABLE = ["Group", "Calls"]


class Tally:
    def __init__(self, name, must):
        self.name, self.must = name, must
        self.given, self.other = Counter(), Counter()  # (call, number) pairs, the call "" where it isn't known; and what was no refusal

    def add(self, line, other="accepted"):
        """A line as a program prints it: `refused NUMBER PLACE`, or what is no refusal; the name of the function before it, if it is known."""
        call, is_refusal, rest = line.partition("refused ")
        if is_refusal:
            self.given[call.rstrip(), int(rest.split(" ", 1)[0])] += 1
        else:
            self.other[other] += 1

    def numbers(self):
        numbers = Counter()
        for (_, number), count in self.given.items():
            numbers[number] += count
        return numbers

    def settled(self, so_far):
        """Prints what was found so far and the counts, and what is wrong with these. True if nothing is."""
        others = ", ".join("%s %d" % pair for pair in sorted(self.other.items()))
        numbers = ", ".join("%d: %d" % pair for pair in sorted(self.numbers().items()))
        print("%s: %s; %s; refused %s" % (self.name, so_far, others, numbers))
        faults = self.faults()
        for fault in faults:
            print("%s: FAULT: %s" % (self.name, fault))
        self.keep()
        return not faults

    def faults(self):
        numbers = self.numbers()
        faults = ["%d was given %d times, and is no refusal" % (number, numbers[number]) for number in sorted(numbers) if number not in REFUSALS]
        faults += ["%d was never given" % number for number in self.must if number not in numbers]
        calls = sorted(pair for pair in self.given if pair[0])
        if calls and NUMBERS.exists():
            said = said_by_call(NUMBERS.read_text())
            faults += ["%s gave %d, which %s doesn't say" % (*pair, NUMBERS.name) for pair in calls if pair[1] not in said.get(pair[0], ())]
        return faults

    def keep(self):
        lines = ["%s %d %d\n" % (*pair, count) for pair, count in sorted(self.given.items()) if pair[0]]
        if lines:
            KEPT.mkdir(parents=True, exist_ok=True)
            (KEPT / self.name).write_text("".join(lines))


# -- What docs/NUMBERS.md says.

def said_by_call(text):
    """The numbers that each function can give."""
    groups = {group: [unquoted(call) for call in calls.split(", ")] for group, calls in rows(text, GROUP_TABLE)}
    said = {call: set() for calls in groups.values() for call in calls}
    for number, *_, named in rows(text, NUMBER_TABLE):
        for group in named.split("; "):
            if group not in groups:
                raise ValueError("%s: refusal %s names the group %r, which there isn't" % (NUMBERS.name, number, group))
            for call in groups[group]:
                said[call].add(int(number))
    return said


def unquoted(call):
    if not re.fullmatch("`[a-z_]+`", call):
        raise ValueError("%s: %r is no function's name in backticks" % (NUMBERS.name, call))
    return call.strip("`")


def rows(text, header):
    """The rows of the table with that header."""
    lines = [cells(line) for line in text.splitlines()]
    if header not in lines:
        raise ValueError("%s: no table with the columns %s" % (NUMBERS.name, ", ".join(header)))
    for row in lines[lines.index(header) + 2:]:  # behind the header stands a line of dashes
        if not row:
            return
        if len(row) != len(header):
            raise ValueError("%s: a row has not %d cells: %s" % (NUMBERS.name, len(header), row))
        yield row


def cells(line):
    """The cells of a line of a table; none if it is no such line."""
    line = line.strip()
    return [cell.strip() for cell in line[1:-1].split("|")] if line.startswith("|") and line.endswith("|") else []


# -- From both sides.

def main():
    if not NUMBERS.exists():
        print("tally: there is no %s" % NUMBERS.relative_to(ROOT))
        return 0
    text = NUMBERS.read_text()
    said, faults = said_by_call(text), table_faults(text)
    for fault in faults:
        print("tally: FAULT: %s" % fault)
    pairs = {(call, number) for call, numbers in said.items() for number in numbers}
    unseen = sorted(pairs - seen())
    print("tally: %d of %d refusals of functions in %s were seen" % (len(pairs) - len(unseen), len(pairs), NUMBERS.name))
    for call in sorted({call for call, _ in unseen}):
        print("tally: not seen: %s %s" % (call, ", ".join(str(number) for other, number in unseen if other == call)))
    return 1 if faults or unseen and "--all" in sys.argv else 0


def table_faults(text):
    """Each refusal has its row and each exported function its group; no other number has a row, and no group has what isn't in the header."""
    numbers = [int(row[0]) for row in rows(text, NUMBER_TABLE)]
    header, grouped = HEADER.read_text(), set(said_by_call(text))
    exported, inline = (set(re.findall(r"^%s\w+ chaloenpik_(\w+)\(" % before, header, re.M)) for before in ("", "static inline "))
    return (["%d has no row" % number for number in sorted(set(REFUSALS) - set(numbers))]
            + ["%d has a row, and is no refusal" % number for number in sorted(set(numbers) - set(REFUSALS))]
            + ["%d has two rows" % number for number, count in sorted(Counter(numbers).items()) if count > 1]
            + ["%s is in no group" % call for call in sorted(exported - grouped)]
            + ["%s is in a group, and no function of %s" % (call, HEADER.name) for call in sorted(grouped - exported - inline)])


def seen():
    """The refusals of functions that the comparisons kept."""
    lines = [line.split() for path in sorted(KEPT.glob("*")) for line in path.read_text().splitlines()]
    return {(call, int(number)) for call, number, _ in lines}


if __name__ == "__main__":
    sys.exit(main())
