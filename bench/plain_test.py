"""Holds the plain C reader and writer against the second reader, so that the bench compares with a correct program.

Run: bench/run test [COUNT [SEED]]
"""

import pathlib
import subprocess
import sys

sys.dont_write_bytecode = True
ROOT = pathlib.Path(__file__).resolve().parents[1]
sys.path.insert(0, str(ROOT / "tests" / "second"))

import areas
import cards
import generate_columns
import generate_texts
import generate_values
from encoder import encode
from frames import frame
from generate import messages
from generate_areas import bodies, edges
from listing import listing
from reader import Refused, read
from tally import Tally
from wire import *

CARD_FRAME = 100  # stands where a message has its kind


def main(count=4000, seed=1):
    """What is accepted is written anew too, areas are turned, and cards are asked how they fit."""
    replies = [message for kind, message in messages(count, seed) if kind == REPLY]
    edged = (*generate_texts.messages(), *generate_values.messages(), *generate_columns.messages())
    replies += [message for kind, message, _ in edged if kind == REPLY]
    inside = [*edges(), *bodies(count, seed)]
    fine = [compared("replies", REPLY, replies, listing_of_reply, must=OF_READING),
            compared("areas", GEOGRAPHY, inside, listing_and_turned, must=(NO_ROOM, BAD_SIGN, LEFT_OVER, BAD_GEOGRAPHY)),
            compared("cards", CARD_FRAME, list(asked_cards()), fit_of_card, must=(PAST_END, BROKEN_CARD))]
    return 0 if all(fine) else 1


def listing_of_reply(message):
    return listing(bytes([REPLY]) + message)


def listing_and_turned(body):
    """The field list of an area, and its bytes with the holes turned."""
    try:
        area, fields = areas.read(body)
    except Refused as no:
        return refused(no.number, no.place) + "\n"
    return "".join("%d %d %d %d %d %d\n" % field for field in fields) + areas.encode(areas.turned(area)).hex() + "\n"


def asked_cards():
    """Each card behind its size, and then the reply that it is asked in: those whose columns have moved; and those at the edges of their form, where there is
    no table."""
    for tables, some in (*(([table], some) for table, some in cards.moved()), ([], cards.edges())):
        message = encode(REPLY, generate_values.reply(0, *tables))
        yield from (bytes([len(card)]) + card + message for card in some)


def fit_of_card(given):
    card, message = given[1:1 + given[0]], given[1 + given[0]:]
    wrong, tables = cards.broken_at(card), read(REPLY, message)[0]["tables"]
    if wrong is not None or not tables:
        return refused(*(PAST_END, 0) if wrong is None else (BROKEN_CARD, wrong)) + "\n"
    reason, now = cards.fit(tables[0], card) or (0, None)
    return "%d %d %d\n" % (reason, now is not None, now or 0)


def compared(what, kind, given, wanted_for, must):
    """Whether plain C answers everything that is given as the second reader does, and gives no refusal that there isn't. The first difference ends the
    test."""
    frames = b"".join(frame(kind, one) for one in given)
    command = [str(ROOT / "tools" / "c" / "kit"), "run", str(ROOT / "target" / "bench" / "plain_sweep")]
    done = subprocess.run(command, input=frames, stdout=subprocess.PIPE, check=True)
    answers = done.stdout.decode("ascii").split(".\n")[:-1]
    if len(answers) != len(given):
        sys.exit("plain C answered %d of %d" % (len(answers), len(given)))
    for number, (one, answer) in enumerate(zip(given, answers)):
        wanted = wanted_for(one)
        if answer != wanted:
            sys.exit("number %d of kind %d differs: %s\nplain C:\n%ssecond reader:\n%s" % (number, kind, one.hex(), answer, wanted))
    tally = Tally("plain C, %s" % what, must)
    for answer in answers:
        tally.add(answer)
    return tally.settled("no difference")


if __name__ == "__main__":
    sys.exit(main(*map(int, sys.argv[1:])))
