"""The answers as lines of JSON: one for each field, and a last one that says what they were made from."""

import json

from . import areas, cells


def field_records(fields, **more):
    """A field inside an area says so by the offset of the body that it stands in."""
    for field in fields:
        record = {"offset": field.offset, "size": field.size, "field": field.number, "indices": list(field.indices), "name": field.name,
                  "where": field.where, "value": field.value, "bytes": field.raw.hex(), **({} if field.inside is None else {"inside": field.inside}), **more}
        yield json.dumps(record)


def cell_records(chosen, inside=areas.Opaque()):
    cell = chosen.cell
    told = {"table": cell.table, "row": cell.row, "column": cell.column, "value": inside.value(cell), "raw": cell.raw_number(), "notes": chosen.notes}
    yield json.dumps({"cell": told})
    for group, fields in cell.groups().items():
        yield from field_records(inside.among(fields) if group == cells.VALUE else fields, group=group)


def refusal_records(refused):
    yield json.dumps({"refused": refused.number, "place": refused.place, "words": refused.words})
    yield from field_records(refused.explained, group="before")


def card_records(card):
    """What the card says if that can be told; the column that it opens, or of one that doesn't fit the reason's number and where its name and type stand now."""
    told = {"table": card.table}
    if card.said:
        told.update(kind=card.said.kind, position=card.said.position, type=card.said.wire_type, name=card.said.name.decode("ascii"))
    if card.number is None:
        told.update(opens=card.answer.column)
    if card.answer.reason is not None:
        told.update(reason=card.answer.reason, now=card.answer.now)
    refused = {} if card.number is None else {"refused": card.number, "place": card.place}
    yield json.dumps({**refused, "card": told, "words": card.words})
    for group, fields in card.groups.items():
        yield from field_records(fields, group=group)


def last_record(**told):
    return json.dumps(told)
