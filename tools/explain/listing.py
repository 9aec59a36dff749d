"""The field list of a message, from the proved library: by the listing program where the paper lets it take the message, else by the C interface's windows."""

import array
import itertools
import subprocess
import sys

from . import building, paper
from .building import Missing

NUMBERS = 6  # of an entry: offset, size, field number, three indices


class Untiled(Exception):
    """The fields that a program listed don't cover the message: something is broken, and its answer is not to be trusted."""


def listing(kind, message):
    """(None, numbers), six numbers for each field in wire order; or ((number, place), no numbers) for a refusal."""
    given = bytes([kind]) + message
    if len(message) <= paper.MOST_LISTED:
        refusal, numbers = from_text(run(building.list_program(), given).decode("ascii"))
    else:
        refusal, numbers = from_numbers(run(building.fields_program(), given))
    if refusal is None:
        check_tiling(numbers, len(message))
    return refusal, numbers


def run(program, given):
    try:
        return subprocess.run([str(program)], input=given, stdout=subprocess.PIPE, check=True).stdout
    except (OSError, subprocess.CalledProcessError) as problem:
        raise Missing("%s didn't run: %s" % (program.relative_to(building.ROOT), problem)) from problem


def from_text(text):
    """What the listing program prints, taken apart."""
    if text.startswith("refused "):
        number, place = text.split()[1:]
        return (int(number), int(place)), array.array("I")
    return None, array.array("I", map(int, text.split()))


def from_numbers(raw):
    """What fields.c writes, taken apart: the answer, 8 bytes, and the numbers, 4 bytes each, lowest byte first."""
    answer = int.from_bytes(raw[:8], "little")
    if answer & 255:
        return (answer & 255, answer >> 8), array.array("I")
    numbers = array.array("I")
    numbers.frombytes(raw[8:])
    if sys.byteorder == "big":
        numbers.byteswap()
    return None, numbers


def check_tiling(numbers, length):
    """Whether the fields stand side by side from the first byte to the last, none of them empty. The library is proved to list them so; what stands between it
    and this program isn't."""
    sizes = numbers[1::NUMBERS]
    ends = array.array("I", itertools.accumulate(sizes))
    if 0 in sizes or numbers[0::NUMBERS] != array.array("I", [0]) + ends[:-1] or ends[-1] != length:
        raise Untiled("the fields that were listed don't cover the message from its first byte to its last: don't trust this program's answers")
