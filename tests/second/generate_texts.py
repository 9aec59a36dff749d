"""Text at the edges of its rule, and messages that hold it.

    CHARACTERS, TORN        sequences: characters at the edges of each size, and what is none
    texts()             ->  (text, place) pairs: each of these behind 0 to 40 bytes of other text; the place of what is none, or None
    held(step)          ->  (kind, record, verdict) triples: each text in each field that is text, or each step-th of these
    messages(step)      ->  (kind, message, verdict) triples: the same; texts whose lengths cut their last characters; and all that is torn
                            where any bytes are right, and in columns' names

What follows a text in its message would mostly complete what its end cuts: bytes from 128 to 191.
"""

import itertools

from encoder import encode
from wire import *

CHARACTERS = [chr(number).encode() for number in (
    0, 0x7F, 0x80, 0x7FF, 0x800, 0xFFF, 0x1000, 0xCFFF, 0xD000, 0xD7FF, 0xE000, 0xFEFF, 0xFFFE, 0xFFFF,
    0x10000, 0x3FFFF, 0x40000, 0xFFFFF, 0x100000, 0x10FFFF)]
LONGER = [character for character in CHARACTERS if len(character) > 1]


def sequences(text):
    return [bytes.fromhex(word) for word in text.split()]


NEVER = sequences("c0 c1 f5 f6 f7 f8 f9 fa fb fc fd fe ff")
STRAY = sequences("80 8f 90 9f a0 bf")
OVERLONG = sequences("c080 c0af c1bf e08080 e09fbf f0808080 f08fbfbf f880808080 fc8080808080")
NO_CHARACTER = sequences("eda080 edafbf edb080 edbfbf eda0bdedb880 f4908080 f4bfbfbf f5808080 f7bfbfbf f888808080 fc8480808080")
CUT = [character[:size] for character in LONGER for size in range(1, len(character))]
WRONG_TAIL = [character[:at] + bytes([tail]) + character[at + 1:] for character in sequences("c280 e18080 f1808080")
              for at in range(1, len(character)) for tail in (0, 0x7F, 0xC0, 0xFF)]
TORN = sorted({*NEVER, *STRAY, *OVERLONG, *NO_CHARACTER, *CUT, *WRONG_TAIL})

# How many bytes stand before and behind a sequence, and of which characters: code that looks at 8, 16 or 32 bytes at once meets it everywhere
# in these, among ASCII or not. No two of these numbers have a divisor in common, so that all of them meet by turns.
BEFORE, BEHIND = range(41), (0, 0, 1, 2, 3, 9, 33)
FILLERS = (b"x", b"x", "é".encode(), "€".encode(), "😀".encode())


def texts():
    for number, (sequence, size) in enumerate(itertools.product(CHARACTERS + TORN, BEFORE)):
        filler = FILLERS[number % len(FILLERS)]
        text = filled(size, filler) + sequence + filled(BEHIND[number % len(BEHIND)], filler)
        yield text, size if sequence in TORN else None


def filled(size, character):
    """So many bytes of text: of that character, and at last of ASCII."""
    return character * (size // len(character)) + b"." * (size % len(character))


# -- Messages.

def login(service, user, byte):
    return {"version": 0, "service": service, "user": user, "hash": byte * 20}


def login_reply(build):
    return {"version": 0, "result": 0, "host": 0, "connection": 0, "start": 0, "leader": bytes(4), "build": build}


def call(procedure, byte, *parameters):
    """The type of the last parameter is a byte that would complete a text before it."""
    return {"version": 0, "procedure": procedure, "client_data": byte * 8, "parameters": [*parameters, (ARRAY, (TINYINT, b""))]}


def reply(flags, body, byte, *tables):
    return {"version": 0, "client_data": bytes(8), "flags": flags, "status": 1, "status_string": body, "application": number(byte),
            "application_string": body, "round_trip": number(byte * 4), "exception": body, "tables": list(tables)}


def table(wire_type, it, byte, name=b""):
    return {"status": 0, "types": [wire_type] + [TINYINT] * 3, "names": [name] + [b""] * 3, "rows": [[it] + [number(byte)] * 3]}


def number(block):
    return int.from_bytes(block, "big", signed=True)


# What holds a text: the kind, where the text begins in the message, and the record for a text and a byte that is to follow it. In order: the
# service, the user, the build, the procedure, a parameter, an element, the two strings of a reply, a cell.
TEXTS = (
    (LOGIN, 9, lambda text, byte: login(text, b"u", byte)),
    (LOGIN, 14, lambda text, byte: login(b"s", text, byte)),
    (LOGIN_REPLY, 34, lambda text, byte: login_reply(text)),
    (INVOCATION, 9, lambda text, byte: call(text, byte)),
    (INVOCATION, 24, lambda text, byte: call(b"", byte, (STRING, text))),
    (INVOCATION, 32, lambda text, byte: call(b"", byte, (ARRAY, (STRING, [b"e", text])))),
    (REPLY, 19, lambda text, byte: reply(FLAG_STATUS_STRING, text, byte)),
    (REPLY, 20, lambda text, byte: reply(FLAG_APPLICATION_STRING, text, byte)),
    (REPLY, 65, lambda text, byte: reply(0, text, byte, table(STRING, text, byte))),
)

# What holds any bytes.
BYTES = (
    (INVOCATION, lambda body, byte: call(b"", byte, (ARRAY, (TINYINT, body)))),
    (REPLY, lambda body, byte: reply(FLAG_EXCEPTION, body, byte)),
    (INVOCATION, lambda body, byte: call(b"", byte, (VARBINARY, body), (ARRAY, (VARBINARY, [body])))),
    (INVOCATION, lambda body, byte: call(b"", byte, (GEOGRAPHY, body), (ARRAY, (GEOGRAPHY, [body])))),
    (REPLY, lambda body, byte: reply(0, body, byte, table(VARBINARY, body, byte), table(GEOGRAPHY, body, byte))),
)
NAME_AT = 41  # where the first name begins in a message of `table`


def held(step=1):
    pairs = enumerate(itertools.product(texts(), TEXTS))
    for at, ((text, place), (kind, start, record)) in itertools.islice(pairs, 0, None, step):
        yield kind, record(text, ending(at)), "accepted" if place is None else (BAD_TEXT, start + place)


def messages(step=1):
    for kind, record, verdict in held(step):
        yield kind, encode(kind, record), verdict
    yield from shortened()
    yield from untouched()


def ending(at):
    """A byte that ends a sequence, by turns the smallest and the largest: each torn beginning of a character goes on with one of them."""
    return (b"\x80", b"\xbf")[at % 2]


def shortened():
    """The length of a text cuts its last character, which stands whole in the message."""
    for character, size, (kind, start, record) in itertools.product(LONGER, (0, 5, 31), TEXTS):
        message = encode(kind, record(filled(size, b"x") + character, b"\0"))
        for length in range(size + 1, size + len(character)):
            yield kind, message[:start - 4] + length.to_bytes(4, "big") + message[start:], (BAD_TEXT, start + size)


def untouched():
    """What is torn is right where bytes are; in a name it is refused for its first byte above 127."""
    for at, sequence in enumerate(TORN):
        for kind, record in BYTES:
            yield kind, encode(kind, record(sequence + filled(at % 9, b"x"), ending(at))), "accepted"
        yield REPLY, encode(REPLY, reply(0, b"", b"\0", table(STRING, b"", b"\0", b"name" + sequence))), (BAD_NAME, NAME_AT + 4)
