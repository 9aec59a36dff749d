"""Explains a message's bytes to people.

Where each field stands comes from the proved library (listing.py); nothing here reads the wire. The other modules only put words to it, outside the proof:

    command.py   the words of the command line
    building.py  the programs that list fields, proved and built when they aren't there or the crates have changed
    listing.py   the field list of a message, or its refusal, by these programs
    paper.py     names of fields, types, refusals
    values.py    the bytes of one value, as plain text
    fields.py    a listed field with its name, its place (table, row, column) and its value
    cells.py     one cell: which one is meant, and the bytes that are it, name it and fix its place
    cards.py     a shortcut card over a table: what it says, whether it fits, and if not why
    areas.py     geographies looked into: the fields inside a body that is an area, and where its vertices are
    geojson.py   the areas of a response as GeoJSON
    refusals.py  why a message is refused, in words
    rules.py     which rule a value, the flag byte, a column's name or the body of a geography breaks
    texts.py     what is wrong with a text that isn't UTF-8
    second.py    the second reader (tests/second), whose the fields before the place of a refusal and the parts of a card are
    sources.py   what an answer was made from: the file, the project's commit, the kit
    lines.py     the answers as lines of text
    records.py   the answers as lines of JSON
    page.py      the answer as one page for a browser: page.html is its frame, page.css its style, fields.js and values.js put the same words to fields,
                 rows.js draws what is visible of a long list, draw.js the bytes and fields, page.js answers pointer and keys
    main.py      the answers to what is asked
"""
