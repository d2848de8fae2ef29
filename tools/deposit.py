#!/usr/bin/env python3
"""deposit.py DESCRIPTION DEPOSIT: writes the deposit that a text describes.

A line of the text is a record, in the deposit's order; '#' starts a comment, and words are quoted as in a shell:
    order little|big
    section NAME [text] [WORD=VALUE ..]             index, address, size, data
    symbol NAME [text|data] [defined] [WORD=VALUE ..]   index, section, address, size
    relocation SECTION OFFSET SYMBOL|- SIZE
Unless stated, indexes go up by 1 from 1, addresses and sizes are 0, and a section's size is that of its data. `section=` names a section by its
name, or by #INDEX; a relocation's SECTION and SYMBOL likewise, and '-' is none. Data are hex digits, or one of
    string:TEXT     its bytes and a closing zero
    words:1,2,3     32-bit numbers"""
import shlex
import struct
import sys

import records


def data_of(text):
    kind, cut, rest = text.partition(":")
    if kind == "string":
        return rest.encode("latin-1") + b"\0"
    if kind == "words":
        return b"".join(struct.pack("<I", int(word, 0)) for word in rest.split(","))
    return bytes.fromhex(text.replace("_", ""))


def index_of(table, name):
    if name == "-":
        return records.NONE
    if name.startswith("#"):
        return int(name[1:], 0)
    return next(record["index"] for record in table if record["name"] == name)


def record_of(table, words):
    record = {"name": words[1], "index": table[-1]["index"] + 1 if table else 1, "marks": set()}
    for word in words[2:]:
        key, cut, value = word.partition("=")
        if cut:
            record[key] = value
        else:
            record["marks"].add(key)
    record["index"] = int(str(record["index"]), 0)
    table.append(record)


def read(lines):
    """The byte order, the sections, the symbols and the relocations of a description."""
    order, sections, symbols, relocations = 0, [], [], []
    for line in lines:
        words = shlex.split(line, comments=True)
        if not words:
            continue
        if words[0] == "order":
            order = ["little", "big"].index(words[1])
        elif words[0] == "section":
            record_of(sections, words)
        elif words[0] == "symbol":
            record_of(symbols, words)
        elif words[0] == "relocation":
            relocations.append(words[1:])
        else:
            raise ValueError("no such record: " + words[0])
    return order, sections, symbols, relocations


def number_of(record, key, default):
    return int(record.get(key, str(default)), 0)


def sections_of(sections, symbols, relocations):
    for section in sections:
        own = [entry for entry in relocations if index_of(sections, entry[0]) == section["index"]]
        data = data_of(section.get("data", ""))
        yield records.Section(
            section["index"],
            int("text" in section["marks"]),
            section["name"].encode("latin-1"),
            number_of(section, "address", 0),
            number_of(section, "size", len(data)),
            data,
            [records.Relocation(int(offset, 0), index_of(symbols, symbol), int(size, 0)) for _, offset, symbol, size in own],
        )


def symbols_of(sections, symbols):
    for symbol in symbols:
        yield records.Symbol(
            symbol["index"],
            index_of(sections, symbol.get("section", "-")),
            symbol["name"].encode("latin-1"),
            number_of(symbol, "address", 0),
            number_of(symbol, "size", 0),
            1 if "text" in symbol["marks"] else 2 if "data" in symbol["marks"] else 0,
            int("defined" in symbol["marks"]),
        )


def deposit_of(order, sections, symbols, relocations):
    return records.deposit_of(order, list(sections_of(sections, symbols, relocations)), list(symbols_of(sections, symbols)))


def main():
    if len(sys.argv) != 3:
        sys.exit(__doc__)
    with open(sys.argv[1], encoding="latin-1") as description:
        written = deposit_of(*read(description))
    with open(sys.argv[2], "wb") as deposit:
        deposit.write(written)


main()
