"""Records, and the deposit that holds them: document 01's stream in blocks."""
import struct
from collections import namedtuple
from operator import mul

NONE = 0xFFFFFFFF  # no section, no symbol
BLOCK = 512
STREAM = 508  # bytes of the stream in a block; its check follows

# A section's relocations lie behind those of the sections before it; names and data are bytes.
Section = namedtuple("Section", "index mark name address size data relocations")
Symbol = namedtuple("Symbol", "index section name address size kind definition")
Relocation = namedtuple("Relocation", "offset symbol size")

HEAD = struct.Struct("<6I8x")
SECTION = struct.Struct("<4I2Q4I")
SYMBOL = struct.Struct("<4I2Q2B6x")
RELOCATION = struct.Struct("<QIB3x")


def stream_of(order, sections, symbols):
    section_table, symbol_table, relocation_table, names, data = (bytearray() for _ in range(5))
    count = 0
    for x in sections:
        section_table += SECTION.pack(
            x.index, x.mark, len(names), len(x.name), x.address, x.size, len(data), len(x.data), count, len(x.relocations)
        )
        names += x.name
        data += x.data
        for r in x.relocations:
            relocation_table += RELOCATION.pack(*r)
        count += len(x.relocations)
    for y in symbols:
        symbol_table += SYMBOL.pack(y.index, y.section, len(names), len(y.name), y.address, y.size, y.kind, y.definition)
        names += y.name
    head = HEAD.pack(order, len(sections), len(symbols), count, len(names), len(data))
    return head + section_table + symbol_table + relocation_table + names + data


def deposit_of(order, sections, symbols):
    stream = stream_of(order, sections, symbols)
    out = bytearray()
    for number, at in enumerate(range(0, len(stream), STREAM), 1):
        block = stream[at : at + STREAM].ljust(STREAM, b"\0")
        out += block + struct.pack("<I", sum(map(mul, block, range(1, STREAM + 1))) + number)
    return bytes(out)
