"""The second reader (tests/second), which was written from the paper by itself and is held against the library by tests/compare. It is asked about what the library
refuses, and of which the library tells the number and the place alone, and about what shortcut cards say; and it is followed only if it refuses the same for the same
fault."""

import importlib
import sys

from .building import ROOT


def of_message(kind, message):
    """Its refusal of a message, if it refuses, and the fields that it read."""
    return asked("reader", kind, message)


def of_body(body):
    """Of the body of a geography."""
    return asked("areas", body)


def cards():
    """Its shortcut cards: the forms of both kinds, and where a card breaks its own."""
    return module("cards")


def asked(name, *given):
    refused = module("reader").Refused
    try:
        return None, module(name).read(*given)[1]
    except refused as no:
        return no, no.fields


def module(name):
    folder = str(ROOT / "tests" / "second")
    if folder not in sys.path:
        sys.path.append(folder)
    return importlib.import_module(name)


def same(no, refusal):
    """Its refusal, if it is the library's."""
    return no if no and (no.number, no.place) == refusal else None
