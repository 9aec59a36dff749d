"""The answers to what is asked. Exit status: 0 answered, 1 refused or not there, 2 the command can't be carried out."""

import os
import sys
import traceback

from . import areas, cards, cells, geojson, lines, page, paper, records, second, values
from .building import Missing, say
from .command import USAGE, Options, Usage
from .fields import Explained
from .listing import Untiled, listing
from .refusals import Refusal
from .sources import Sources

ANSWERED, REFUSED, FAILED = 0, 1, 2


class Failed(Exception):
    """The command can't be carried out, for a reason that people can do something about."""


def main(words):
    try:
        return answer(words)
    except Usage as problem:
        say("%s\n%s" % (problem, USAGE.split("\n\n")[0]))
    except OSError as problem:
        where = ": " + shown_file(problem.filename) if problem.filename is not None else ""
        say("%s%s" % (problem.strerror or problem, where))
    except (Failed, Missing, Untiled, cards.Unequal) as problem:
        say(str(problem))
    except MemoryError:
        say("there isn't enough memory")
    except KeyboardInterrupt:
        say("stopped")
    except Exception as problem:  # people who ask for bytes are helped by a sentence, not by a trace of this program
        at = traceback.extract_tb(problem.__traceback__)[-1]
        say("an error of this program, please report it: %s: %s (%s, line %d)" % (type(problem).__name__, problem, os.path.basename(at.filename), at.lineno))
    forget_output()
    return FAILED


def answer(words):
    options = Options(words)
    if options.help:
        put([USAGE])
        return ANSWERED
    message = read_message(options.file)
    question = Question(options, message, None if options.card is None else read_card(options.card))
    if options.html is not None:
        question.write_page()
    if options.geojson is not None:
        question.write_geojson()
    put(question.answer())
    return question.status


class Question:
    """What is asked of a message, and what the library says of it."""

    def __init__(self, options, message, card=None):
        self.options, self.message = options, message
        self.kind, self.guessed = options.kind, options.kind is None
        self.refused = self.explained = None
        self.status, self.written = ANSWERED, []
        found = {kind: listing(kind, message) for kind in ([self.kind] if self.kind else paper.KINDS)}
        accepting = [kind for kind, (refusal, _) in found.items() if refusal is None]
        if self.guessed:
            self.kind = guess(found, accepting)
        refusal, numbers = found[self.kind]
        if refusal:
            self.status = REFUSED
            self.refused = Refusal(self.kind, message, refusal, others_accepting(self.kind, message))
        else:
            self.explained = Explained(message, numbers)
        self.inside = areas.Inside(self.explained) if options.inside and self.explained else areas.Opaque()
        self.card = None if card is None or self.refused else self.opened(card)

    def opened(self, card):
        self.check_response("--card")
        told = cards.Card(self.explained, self.options.table or 0, card)
        self.status = ANSWERED if told.number is None else REFUSED
        return told

    def check_response(self, option):
        if self.kind != paper.RESPONSE:
            raise Failed("%s takes the tables of an invocation response, kind %d, and this is kind %d" % (option, paper.RESPONSE, self.kind))

    def answer(self):
        """The lines of the answer, and at the end what it was made from."""
        sources = Sources(self.message, self.card and self.card.raw)
        looked_into = self.options.inside and not self.refused
        if self.options.json:
            yield from self.json_lines()
            inside = {"inside": {**self.inside.counts(), "note": " ".join(areas.NOTE.split())}} if looked_into else {}
            yield records.last_record(kind=self.kind, guessed=self.guessed, fields=len(self.explained or ()), **inside, **sources.record())
            return
        if self.guessed:
            yield "kind %d, %s: no other kind accepts these bytes" % (self.kind, paper.KINDS[self.kind])
        yield from self.text_lines()
        if looked_into:
            yield from ["", *areas.NOTE.splitlines()]
        yield ""
        yield from sources.lines()

    def text_lines(self):
        if self.refused:
            return lines.refusal_lines(self.refused)
        if self.card:
            return lines.card_lines(self.card)
        if self.options.byte is not None:
            return self.one_byte(lambda: lines.byte_lines(self.explained, self.options.byte, self.inside))
        if self.options.cell is not None:
            return self.one_cell(lines.cell_lines)
        return self.written if self.written and not self.options.inside else self.all_fields()

    def all_fields(self):
        yield from lines.field_lines(self.inside.among(self.explained))
        yield ""
        yield lines.tiling_line(self.explained)
        if self.options.inside:
            yield self.inside.line()

    def json_lines(self):
        if self.refused:
            return records.refusal_records(self.refused)
        if self.card:
            return records.card_records(self.card)
        if self.options.byte is not None:
            return self.one_byte(lambda: records.field_records(self.inside.owners(self.explained.owner(self.options.byte), self.options.byte)))
        if self.options.cell is not None:
            return self.one_cell(records.cell_records)
        return records.field_records(self.inside.among(self.explained))

    def one_byte(self, told):
        if self.options.byte < len(self.message):
            return told()
        return self.not_there("there is no byte %d: the message has %d bytes" % (self.options.byte, len(self.message)))

    def one_cell(self, told):
        try:
            return told(cells.Chosen(self.explained, self.options), self.inside)
        except cells.NotThere as problem:
            return self.not_there(str(problem))

    def not_there(self, text):
        self.status = REFUSED
        return [records.last_record(not_there=text) if self.options.json else text]

    def check_out(self, out):
        check_other_file(self.options.file, out, "message")
        if self.options.card is not None:
            check_other_file(self.options.card, out, "card")

    def write_page(self):
        out = self.options.html
        self.check_out(out)
        known = self.explained or self.refused.explained
        refusal = (self.refused.number, self.refused.place) if self.refused else None
        words = self.refused.words if self.refused else ()
        name = "standard input" if self.options.file == "-" else shown_file(os.path.basename(self.options.file))
        text = page.page(self.kind, name, self.message, known.numbers, refusal, words, Sources(self.message).lines())
        write_file(out, text.encode("utf-8", errors="backslashreplace"))
        self.written.append("%s shows %s" % (shown_file(out), values.count_of(len(known), "field")))

    def write_geojson(self):
        """The areas of a response. One that is refused has none that could be trusted."""
        out = self.options.geojson
        self.check_out(out)
        if self.refused:
            say("%s isn't written: the message is refused" % shown_file(out))
            return
        self.check_response("--geojson")
        collection = geojson.Collection(self.explained)
        write_file(out, collection.text(Sources(self.message)).encode("ascii"))
        counts = values.count_of(len(collection.features), "feature"), collection.drawn()
        self.written += ["%s has %s, %d of them with a polygon" % (shown_file(out), *counts), *geojson.NOTE.splitlines()]


def guess(found, accepting):
    if len(accepting) == 1:
        return accepting[0]
    if accepting:
        raise Failed("the kinds %s accept these bytes: say which is meant" % " and ".join(map(str, accepting)))
    told = "; ".join("%d %s: refused %d at %d" % (kind, paper.KINDS[kind], *refusal) for kind, (refusal, _) in found.items())
    raise Failed("no kind accepts these bytes: say which is meant, and why it is refused will be explained (%s)" % told)


def others_accepting(kind, message):
    return [other for other in paper.KINDS if other != kind and listing(other, message)[0] is None]


# -- Files

def read_message(name):
    """The bytes of a file, which may be no longer than a message."""
    message = read_file(name, paper.MOST_BYTES)
    if len(message) > paper.MOST_BYTES:
        first = 4 + values.signed(message[:4])
        hint = "; its first 4 bytes say that a message of %d bytes stands in front: `head -c %d` cuts it out" % (first, first) if 4 < first <= paper.MOST_BYTES else ""
        raise Failed("%s is longer than a message can be, which has at most %d bytes%s" % (shown_file(name), paper.MOST_BYTES, hint))
    return message


def read_card(name):
    """The bytes of a file, whatever they are: that it is too long is told as what breaks a card's form."""
    return read_file(name, second.cards().MOST_SIZE)


def read_file(name, most):
    """The bytes of a file, of one that is longer than the most so many that this is seen."""
    if name == "-" and sys.stdin is None:
        raise Failed("there is no standard input")
    with open(0 if name == "-" else name, "rb", closefd=name != "-") as file:
        return file.read(most + 1)


def check_other_file(name, out, what):
    """What is written never takes the place of the message that it shows, or of a card."""
    try:
        given = os.fstat(0) if name == "-" else os.stat(name)
        if os.path.samestat(given, os.stat(out)):
            raise Failed("%s is the %s itself: what is written needs another name" % (shown_file(out), what))
    except FileNotFoundError:
        pass


def write_file(name, data):
    """Writes a file beside its place and then moves it there, so that a full disk leaves what was there."""
    if os.path.exists(name) and not os.path.isfile(name):
        with open(name, "wb") as file:
            file.write(data)
        return
    place = os.path.realpath(name)
    part = "%s.%d.part" % (place, os.getpid())
    try:
        with open(part, "xb") as file:
            file.write(data)
        os.replace(part, place)
    except BaseException:
        if os.path.exists(part):
            os.remove(part)
        raise


def shown_file(name):
    """A file's name, in quotes and with escapes if it is an odd one."""
    raw = os.fsencode(name)
    return raw.decode() if raw.isascii() and raw.decode().isprintable() and b" " not in raw and raw else values.quoted(raw)


# -- Output

def put(text_lines):
    sys.stdout.reconfigure(encoding="utf-8", errors="backslashreplace")
    try:
        for text in text_lines:
            print(text)
        sys.stdout.flush()
    except BrokenPipeError:  # the reader of a pipe has seen enough
        forget_output()


def forget_output():
    """Lets nothing be written when Python ends: what couldn't be written now can't be then."""
    try:
        os.dup2(os.open(os.devnull, os.O_WRONLY), 1)
    except OSError:
        pass
