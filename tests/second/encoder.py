"""The second encoder: the bytes of a record, as paper 01 lays them out. It checks nothing; the generator uses that."""

import struct

from wire import *


def encode(kind, record):
    body = number(record["version"], 1) + {
        LOGIN: login, LOGIN_REPLY: login_reply, INVOCATION: invocation, REPLY: reply
    }[kind](record)
    return number(len(body), 4) + body


def login(record):
    start = number(record["hash_version"], 1) if record["version"] == 1 else b""
    return start + counted(record["service"]) + counted(record["user"]) + record["hash"]


def login_reply(record):
    out = number(record["result"], 1)
    if record["result"] == 0:
        out += number(record["host"], 4) + number(record["connection"], 8) + number(record["start"], 8)
        out += record["leader"] + counted(record["build"])
    return out


def invocation(record):
    out = counted(record["procedure"]) + record["client_data"] + number(len(record["parameters"]), 2)
    return out + b"".join(parameter(wire_type, it) for wire_type, it in record["parameters"])


def parameter(wire_type, it):
    out = number(wire_type, 1)
    if wire_type == NULL:
        return out
    if wire_type != ARRAY:
        return out + value(wire_type, it)
    element_type, elements = it
    out += number(element_type, 1)
    if element_type == TINYINT:
        return out + counted(elements)
    return out + number(len(elements), 2) + b"".join(value(element_type, element) for element in elements)


def reply(record):
    flags = record["flags"]
    out = record["client_data"] + bytes([flags]) + number(record["status"], 1)
    if flags & FLAG_STATUS_STRING:
        out += counted(record["status_string"])
    out += number(record["application"], 1)
    if flags & FLAG_APPLICATION_STRING:
        out += counted(record["application_string"])
    out += number(record["round_trip"], 4)
    if flags & FLAG_EXCEPTION:
        out += counted(record["exception"])
    return out + number(len(record["tables"]), 2) + b"".join(table(it) for it in record["tables"])


def table(it):
    metadata = number(it["status"], 1) + number(len(it["types"]), 2)
    metadata += b"".join(number(wire_type, 1) for wire_type in it["types"])
    metadata += b"".join(counted(name) for name in it["names"])
    rows = b"".join(counted(b"".join(map(value, it["types"], row))) for row in it["rows"])
    return counted(counted(metadata) + number(len(it["rows"]), 4) + rows)


def number(n, size):
    return n.to_bytes(size, "big", signed=True)


def counted(body):
    """A length and its body; None is null."""
    return number(-1, 4) if body is None else number(len(body), 4) + body


def value(wire_type, it):
    if wire_type in INTEGER_SIZES:
        return number(it, INTEGER_SIZES[wire_type])
    if wire_type == FLOAT:
        return it.to_bytes(8, "big")
    if wire_type == DECIMAL:
        return number(it, 16)
    if wire_type == POINT:
        return struct.pack(">dd", *(NULL_POINT if it is None else it))
    return counted(it)
