#!/usr/bin/env python3
"""Spells the repository's own definitions and lemmas as the library spells its own: words in snake case, types and modules in camel case.

usage: tools/turn_names.py [FOLDER]     (default: the repository that holds this script)

Run once, on the tree that /opt/rattle/port/port.py left. It takes the names that the files of specs/ and proofs/ declare, and turns each, wherever it stands in
crates/ and in the pages: `readMessage` is `read_message`, `fields-tile` is `fields_tile`. A dash stays behind a name of a list's function and behind a type. Names of
Rust's items and text in quotes stay.
"""
import os
import re
import sys

NAME = r'[^\s(){}.;,@"«»]+'
TOKEN = re.compile(r'"(?:[^"\\\n]|\\.)*"|' + NAME)
DECLARED = re.compile(r"(?m)^( *)(?:(?:abbrev|unfoldable|pub|data|record) +)*(%s)((?: +\{[^{}\n]*\})*) :(?= )" % NAME)
OF_LISTS = {"length", "take", "drop", "map", "replicate", "reverse", "append"}

# Names that the rule would bring together with another, or with a field of the code.
BY_HAND = {
    "typeAt": "column_type_at",
    "ringAt": "ring_state",
    "areaAt": "area_state",
    "loginRequest-of": "the_login_request",
    "loginResponse-of": "the_login_response",
    "invocation-of": "the_invocation",
    "response-of": "the_response",
    "of-card": "with_card",
    "type-at": "type_at",
}
# Lemmas that would have their function's name.
LEMMAS = set(
    "second-of-three second-of-four written-request cell-answer in-front begin-bytes type-place verdict-no byte-in kind-layout ring-bytes card-size first-from holes-of null-cell"
    " rest-size holes-byte told-shown hash-part of-value cell-bytes name-place column-type after-count at-once at_stage body_bytes stands_at".split()
)
# Variables that have no declaration.
VARIABLES = "lengthField bodyField headFormat responseFormat requestFormat entriesWith statusNull appNull tableLength valueFormat replyHead".split()


def files(top, *kinds):
    for folder, dirs, names in os.walk(top):
        dirs[:] = sorted(d for d in dirs if d not in ("out", ".git", "target", "node_modules"))
        for name in sorted(names):
            if name.endswith(kinds):
                yield os.path.join(folder, name)


def text_of(path):
    with open(path, encoding="utf-8") as file:
        return file.read()


def snake(part):
    return re.sub(r"(?<=[a-z0-9])([A-Z])", lambda m: "_" + m[1].lower(), part)


def turned(name):
    # A type keeps its capitals, also where it begins a lemma's name.
    parts = [part if part[:1].isupper() else snake(part) for part in name.split("-")]
    out = parts[0]
    for before, part in zip(parts, parts[1:]):
        out += ("-" if before in OF_LISTS or before[:1].isupper() else "_") + part
    return out


def of_function(path):
    """Whether a file is the proof of one function: what it declares goes by the names that Rattle makes."""
    return bool(re.search(r"/proofs/[^/]+/.*\.antt$", path))


def table_of(top):
    declared, fields = set(), set()
    for path in files(os.path.join(top, "crates"), ".antt"):
        if of_function(path):
            continue
        for indent, name, _ in DECLARED.findall(text_of(path)):
            declared.add(name)
            if indent:
                fields.add(name)
    table = {name: turned(name) for name in declared if re.match("[A-Za-z]", name)}
    table.update({name: turned(name) for name in VARIABLES})
    table.update({name: turned(name) + "_lem" for name in LEMMAS})
    table.update(BY_HAND)
    return {old: new for old, new in table.items() if old != new}, fields | {"type-at"}


USE = re.compile(r"(?m)^ *(?:pub |ghost )?use ([^\s;{]+?)\.?(?:\{([^}]*)\})?(?: as [^\s;]+)?;?$")


def of_library(text, crates):
    """The names that a file brings in from a library: they keep their spelling there."""
    names = set()
    for path, items in USE.findall(text):
        steps = path.split(".")
        if not (steps[0] == "Rattle" and steps[1] in crates):
            names.update(re.findall(NAME, items) if items else steps[-1:])
    return names


def turn_text(text, table, fields, made):
    """Turns each word of the table. With made, a word behind a dot stays, unless a record of ours has such a field: there Rattle's own names stand."""

    def word(found):
        name = found[0]
        if name not in table or name[0] == '"':
            return name
        if made and text[found.start() - 1 : found.start()] == "." and name not in fields:
            line = text[text.rfind("\n", 0, found.start()) + 1 : found.start()]
            if not re.search(r"Rattle\.[^\s]*$", line):
                return name
        return table[name]

    return TOKEN.sub(word, text)


def turn_page(text, table):
    """Turns the words that stand between backticks."""

    def span(found):
        return re.sub(r"[^\s(){}.;,@`]+", lambda m: table.get(m[0], m[0]), found[0])

    return re.sub(r"`[^`\n]+`", span, text)


def main():
    top = sys.argv[1] if len(sys.argv) > 1 else os.path.join(os.path.dirname(os.path.abspath(__file__)), "..")
    table, fields = table_of(top)
    crates = set(os.listdir(os.path.join(top, "crates")))
    for path in files(os.path.join(top, "crates"), ".antt", ".rt"):
        text = text_of(path)
        if path.endswith("query/proofs/Walks.antt"):
            # A variable that would hide a function.
            text = re.sub(r"\brow_at\b", "row_start", text)
        theirs = of_library(text, crates)
        new = turn_text(text, {old: new for old, new in table.items() if old not in theirs}, fields, of_function(path))
        if new != text:
            with open(path, "w", encoding="utf-8") as file:
                file.write(new)
    for path in files(top, ".md"):
        text = text_of(path)
        new = turn_page(text, table)
        if new != text:
            with open(path, "w", encoding="utf-8") as file:
                file.write(new)
    print(f"{len(table)} names")


main()
