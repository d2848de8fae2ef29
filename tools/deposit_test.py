#!/usr/bin/env python3
"""Tests of ./deposit and what it uses. Run:  python3 tools/deposit_test.py

Objects are made in memory, in both byte orders; tools/model.py, which shares no code with the writer, reads their deposits back."""
import os
import pty
import struct
import subprocess
import sys
import tempfile
import unittest

import elf
import model
import records

TOP = os.path.dirname(os.path.dirname(os.path.abspath(__file__)))
PROGBITS, SYMTAB, STRTAB, RELA, NOTE, NOBITS, REL, CREL = 1, 2, 3, 4, 7, 8, 9, 0x40000014
WRITE, ALLOC, EXECINSTR = 1, 2, 4
CODE = ALLOC | EXECINSTR
NOTYPE, OBJECT, FUNC, SECTION, FILE, COMMON, IFUNC = 0, 1, 2, 3, 4, 5, 10
NONE = 0xFFFFFFFF
EXIT = bytes.fromhex("9500000000000000")
STRINGS, SYMBOLS = 1, 2  # the numbers of the object's own tables


class Object:
    """An ELF object in the making. Its strings are section 1, its symbols section 2, unless it shall have none."""

    def __init__(self, order=0, symbol_table=True):
        self.order = order
        self.strings = bytearray(b"\0")
        self.symbols = [self.pack("IBBHQQ", 0, 0, 0, 0, 0, 0)]
        self.headers = []
        self.section(".strtab", type=STRTAB)
        if symbol_table:
            self.section(".symtab", type=SYMTAB, link=STRINGS, entry=24)

    def pack(self, fields, *values):
        return struct.pack("<>"[self.order] + fields, *values)

    def string(self, text):
        self.strings += text.encode("latin-1") + b"\0"
        return len(self.strings) - len(text) - 1

    def section(self, text, data=b"", **fields):
        """Its number. Fields of the header that aren't given are 0, or what the data say."""
        self.headers.append({"data": data, "name": self.string(text), "type": PROGBITS, **fields})
        return len(self.headers)

    def symbol(self, text, section=0, type=FUNC, address=0, size=8, **fields):
        name = fields.get("name", self.string(text))
        self.symbols.append(self.pack("IBBHQQ", name, 0x10 | type, 0, section, address, size))
        return len(self.symbols) - 1

    def relocations(self, target, entries, type=REL, **fields):
        """A table of (offset, symbol, relocation type)."""
        layout, rest = ("QQ", ()) if type == REL else ("QQq", (-8,))
        data = b"".join(self.pack(layout, offset, symbol << 32 | kind, *rest) for offset, symbol, kind in entries)
        entry = struct.calcsize("<" + layout)
        return self.section(".rel", data, **{"type": type, "link": SYMBOLS, "info": target, "entry": entry, **fields})

    def build(self, **fields):
        """The file, with what is given in its header."""
        for header in self.headers:
            if header["type"] == STRTAB and not header["data"]:
                header["data"] = bytes(self.strings)
            if header["type"] == SYMTAB and not header["data"]:
                header["data"] = b"".join(self.symbols)
        body, table = bytearray(), bytes(64)
        for header in self.headers:
            body += bytes(-len(body) % 8)
            values = {"flags": 0, "address": 0, "offset": 64 + len(body), "size": len(header["data"]), "link": 0, "info": 0, "entry": 0, **header}
            table += self.pack("IIQQQQIIQQ", *(values[key] for key in "name type flags address offset size link info".split()), 8, values["entry"])
            body += header["data"]
        body += bytes(-len(body) % 8)
        values = {"ident": b"\x7fELF" + bytes([2, self.order + 1, 1]), "type": 1, "machine": 247, "shoff": 64 + len(body), "shentsize": 64}
        values.update({"shnum": len(self.headers) + 1, "shstrndx": STRINGS, **fields})
        ident, type, machine, *rest = (values[key] for key in "ident type machine shoff shentsize shnum shstrndx".split())
        return self.pack("16sHHIQQQIHHHHHH", ident, type, machine, 1, 0, 0, rest[0], 0, 64, 0, 0, *rest[1:]) + body + table


def read_back(file, btf=True):
    return model.object_of(model.stream_of(records.deposit_of(*elf.records_of(file, btf))))


def in_both_orders(test):
    def run(self):
        for order in (0, 1):
            with self.subTest(order=order):
                test(self, order)

    return run


class Records(unittest.TestCase):
    @in_both_orders
    def test_document_01s_example(self, order):
        o = Object(order)
        text = o.section(".text", EXIT * 2, flags=CODE)
        xdp = o.section("xdp", EXIT, flags=CODE)
        bss = o.section(".bss", type=NOBITS, flags=WRITE | ALLOC, size=4)
        o.symbol("helper", text, size=16)
        o.symbol("pass", xdp)
        c = model.Catalogue(read_back(o.build()))
        self.assertEqual((c.order, c.licence, c.version), (order, b"GPL", None))
        self.assertEqual(c.programs, {b"pass": ((6, 0, 0), xdp, 0)})
        self.assertEqual([(f.section, f.address, f.name, f.code) for f in c.functions.values()], [(text, 0, b"helper", EXIT * 2), (xdp, 0, b"pass", EXIT)])
        self.assertEqual(c.maps, {b".bss": (bss, 6, 0, (2, 4, 4, 1, 0, 0, 0), bytes(4))})

    @in_both_orders
    def test_every_section_has_its_record(self, order):
        o = Object(order)
        o.section("xdp", EXIT, flags=CODE, address=0x1122334455667788)
        o.section(".bss", type=NOBITS, size=300, offset=2**63)
        o.section("", b"", offset=2**64 - 1)
        sections = read_back(o.build()).sections
        self.assertEqual([x.index for x in sections], [1, 2, 3, 4, 5])
        self.assertEqual(sections[0], (1, 0, b".strtab", 0, len(o.strings), bytes(o.strings), []))
        self.assertEqual(sections[1], (2, 0, b".symtab", 0, 24, bytes(24), []))
        self.assertEqual(sections[2], (3, 1, b"xdp", 0x1122334455667788, 8, EXIT, []))
        self.assertEqual(sections[3], (4, 0, b".bss", 0, 300, b"", []))
        self.assertEqual(sections[4], (5, 0, b"", 0, 0, b"", []))

    @in_both_orders
    def test_text_mark(self, order):
        o = Object(order)
        cases = {(PROGBITS, CODE): 1, (PROGBITS, CODE | WRITE): 1, (PROGBITS, ALLOC): 0, (PROGBITS, EXECINSTR): 0, (NOTE, CODE): 0, (NOBITS, CODE): 0}
        for type, flags in cases:
            o.section("x", EXIT, type=type, flags=flags)
        self.assertEqual([x.mark for x in read_back(o.build()).sections[2:]], list(cases.values()))

    @in_both_orders
    def test_symbols(self, order):
        o = Object(order)
        # type, section: section, kind, definition
        cases = [
            ((FUNC, 1), (1, 1, 1)),
            ((OBJECT, 2), (2, 2, 1)),
            ((NOTYPE, 1), (1, 0, 0)),
            ((SECTION, 1), (1, 0, 0)),
            ((FILE, 0xFFF1), (NONE, 0, 0)),
            ((COMMON, 1), (1, 0, 0)),
            ((IFUNC, 1), (1, 0, 0)),
            ((FUNC, 0), (NONE, 1, 0)),
            ((OBJECT, 0xFFF2), (NONE, 2, 0)),
            ((FUNC, 0xFF00), (NONE, 1, 0)),
            ((FUNC, 0xFFFF), (NONE, 1, 0)),
            ((FUNC, 0xFEFF), (0xFEFF, 1, 1)),
        ]
        for k, ((type, section), _) in enumerate(cases):
            o.symbol("s%d" % k, section, type, address=2**64 - 1 - k, size=2**63 + k)
        expected = [
            (k + 1, section, b"s%d" % k, 2**64 - 1 - k, 2**63 + k, kind, definition) for k, (_, (section, kind, definition)) in enumerate(cases)
        ]
        self.assertEqual(read_back(o.build()).symbols, expected)

    @in_both_orders
    def test_names_may_share_bytes_and_be_empty(self, order):
        o = Object(order)
        at = o.string("barfoo")
        o.symbol("", name=at)
        o.symbol("", name=at + 3)
        o.symbol("", name=0)
        self.assertEqual([y.name for y in read_back(o.build()).symbols], [b"barfoo", b"foo", b""])

    @in_both_orders
    def test_relocations(self, order):
        o = Object(order)
        first = o.section("xdp", EXIT, flags=CODE)
        second = o.section("tc", EXIT, flags=CODE)
        o.relocations(second, [(2**64 - 8, 1, 1), (8, 2, 10)], RELA)
        o.relocations(first, [(0, 3, 0), (0, 0, 1), (16, 0xFFFFFFFE, 2), (24, 4, 0x0100000A), (32, 5, 3)])
        sections = read_back(o.build()).sections
        self.assertEqual(sections[first - 1].relocations, [(0, 3, 0), (0, NONE, 64), (16, 0xFFFFFFFE, 0), (24, 4, 0), (32, 5, 0)])
        self.assertEqual(sections[second - 1].relocations, [(2**64 - 8, 1, 64), (8, 2, 32)])
        self.assertEqual(sum(len(x.relocations) for x in sections), 7)

    @in_both_orders
    def test_several_tables_of_a_section_in_section_order(self, order):
        o = Object(order)
        o.relocations(4, [(0, 1, 1)], RELA)
        x = o.section("xdp", EXIT, flags=CODE)
        o.relocations(x, [(8, 2, 1)])
        o.relocations(x, [])
        o.relocations(x, [(0, 3, 10)], RELA)
        self.assertEqual(read_back(o.build()).sections[x - 1].relocations, [(0, 1, 64), (8, 2, 64), (0, 3, 32)])

    @in_both_orders
    def test_only_tables_linked_to_the_first_symbol_table(self, order):
        o = Object(order)
        x = o.section("xdp", EXIT, flags=CODE)
        other = o.section(".symtab2", o.pack("IBBHQQ", 1, 2, 0, x, 0, 8) * 2, type=SYMTAB, link=STRINGS, entry=24)
        o.relocations(x, [(0, 1, 1)], link=other)
        o.relocations(x, [(8, 1, 1)], link=0)
        o.relocations(0, [(16, 1, 1)])
        o.relocations(0, [(24, 1, 1)], CREL)
        o.symbol("mine", x)
        found = read_back(o.build())
        self.assertEqual([y.name for y in found.symbols], [b"mine"])
        self.assertEqual(found.sections[x - 1].relocations, [])

    @in_both_orders
    def test_without_symbol_table(self, order):
        o = Object(order, symbol_table=False)
        x = o.section("xdp", EXIT, flags=CODE)
        o.relocations(x, [(0, 1, 1)], link=0)
        found = read_back(o.build())
        self.assertEqual(found.symbols, [])
        self.assertEqual(found.sections[x - 1].relocations, [(0, 1, 64)])

    @in_both_orders
    def test_without_sections(self, order):
        found = read_back(Object(order).build(shoff=0, shnum=0, shstrndx=0, shentsize=0))
        self.assertEqual(found, (order, [], []))

    @in_both_orders
    def test_btf(self, order):
        o = Object(order)
        xdp = o.section("xdp", EXIT, flags=CODE)
        btf = o.section(".BTF", b"BTF")
        extension = o.section(".BTF.ext", b"ext")
        o.relocations(btf, [(0, 1, 4)], name=o.string(".rel.BTF"))
        o.relocations(extension, [(0, 0, 4)], RELA, name=o.string(".rela.BTF.ext"))
        near = o.section(".BTF2", b"near")
        own = o.relocations(xdp, [(0, 1, 10)])
        o.symbol("pass", xdp)
        file = o.build()
        answer, _ = model.load_object(read_back(file), [], b"", False, dict.fromkeys(model.TABLES, 0))
        self.assertEqual(answer[1], 3)
        found = read_back(file, btf=False)
        self.assertEqual([x.index for x in found.sections], [STRINGS, SYMBOLS, xdp, near, own])
        self.assertEqual([r for x in found.sections for r in x.relocations], [(0, 1, 32)])
        self.assertEqual(list(model.Catalogue(found).programs), [b"pass"])


def object_of_sections(count):
    o = Object()
    for _ in range(count - 2):
        o.headers.append({"data": b"", "name": 0, "type": PROGBITS})
    return o.build()


def object_of_symbols(count):
    o = Object()
    o.symbols += [o.pack("IBBHQQ", 0, 0, 0, 0, 0, 0)] * count
    return o.build()


def object_of_relocations(count):
    o = Object()
    x = o.section("xdp", EXIT, flags=CODE)
    o.relocations(x, [(0, 1, 1)] * (count - 1))
    o.relocations(x, [(8, 1, 1)])
    return o.build()


def object_of_size(size, type=NOBITS):
    o = Object()
    o.section(".bss", type=type, size=size)
    return o.build()


def object_of_name(length, of_symbol):
    o = Object()
    (o.symbol if of_symbol else o.section)("n" * length)
    return o.build()


def object_of_stream(length):
    """Its stream has this length."""
    o = Object()
    o.relocations(STRINGS, [(0, 1, 1)])
    o.symbol("s")
    o.section("d", b"")
    without = len(records.stream_of(*elf.records_of(o.build())))
    o.headers[-1]["data"] = bytes(length - without)
    return o.build()


class UnfitCase(unittest.TestCase):
    def unfit(self, file, reason):
        with self.assertRaises(elf.Unfit) as caught:
            elf.records_of(file)
        self.assertEqual(str(caught.exception), reason)


class Limits(UnfitCase):
    def test_sections(self):
        self.assertEqual(len(read_back(object_of_sections(4096)).sections), 4096)
        self.unfit(object_of_sections(4097), "4097 sections, more than 4096")

    def test_symbols(self):
        self.assertEqual(len(read_back(object_of_symbols(65536)).symbols), 65536)
        self.unfit(object_of_symbols(65537), "65537 symbols, more than 65536")

    def test_relocations(self):
        self.assertEqual(len(read_back(object_of_relocations(65536)).sections[2].relocations), 65536)
        self.unfit(object_of_relocations(65537), "65537 relocations, more than 65536")

    def test_section_size(self):
        self.assertEqual(read_back(object_of_size(16777216)).sections[2].size, 16777216)
        self.unfit(object_of_size(16777217), "section 3 ('.bss') has 16777217 bytes, more than 16777216")
        self.unfit(object_of_size(2**64 - 1, PROGBITS), "section 3 ('.bss') has 18446744073709551615 bytes, more than 16777216")

    def test_names(self):
        self.assertEqual(read_back(object_of_name(65535, False)).sections[2].name, b"n" * 65535)
        self.assertEqual(read_back(object_of_name(65535, True)).symbols[0].name, b"n" * 65535)
        self.unfit(object_of_name(65536, False), "the name of section 3 is longer than 65535 bytes")
        self.unfit(object_of_name(65536, True), "the name of symbol 1 is longer than 65535 bytes")

    def test_deposit_bytes(self):
        most = 16777216 // 512 * 508
        self.assertEqual(len(records.deposit_of(*elf.records_of(object_of_stream(most)))), 16777216)
        self.unfit(object_of_stream(most + 1), "its deposit is longer than 16777216 bytes")

    def test_shared_bytes_are_counted_before_they_are_copied(self):
        o = Object()
        name = o.string("n" * 65535)
        for _ in range(300):
            o.symbol("", name=name)
        self.unfit(o.build(), "its deposit is longer than 16777216 bytes")

    def test_file_bytes(self):
        file = Object().build()
        self.assertEqual(len(read_back(file + bytes(16777216 - len(file))).sections), 2)
        self.unfit(file + bytes(16777217 - len(file)), "longer than 16777216 bytes")


class Unfit(UnfitCase):
    @in_both_orders
    def test_file_header(self, order):
        for fields, reason in (
            ({"ident": b"\x7fELG\x02\x01\x01"}, "not an ELF file"),
            ({"ident": b"\x7fELF\x01\x01\x01"}, "a 32-bit ELF file, not a 64-bit one"),
            ({"ident": b"\x7fELF\x03\x01\x01"}, "of ELF class 3, not 2"),
            ({"ident": b"\x7fELF\x02\x00\x01"}, "of ELF byte order 0, neither 1 nor 2"),
            ({"ident": b"\x7fELF\x02\x03\x01"}, "of ELF byte order 3, neither 1 nor 2"),
            ({"ident": b"\x7fELF\x02\x01\x00"}, "of ELF version 0, not 1"),
            ({"type": 2}, "not a relocatable object: its ELF type is 2, not 1"),
            ({"machine": 62}, "not an object for BPF: its machine is 62, not 247"),
            ({"shentsize": 40}, "section headers have 40 bytes, not 64"),
            ({"shnum": 0}, "its number of sections is extended, which isn't read"),
            ({"shstrndx": 0xFFFF}, "its number of the section names is extended, which isn't read"),
            ({"shstrndx": 0}, "the file header names section 0 for its names, which is no string table"),
            ({"shstrndx": 2}, "the file header names section 2 for its names, which is no string table"),
            ({"shstrndx": 3}, "the file header names section 3 for its names, which is no string table"),
            ({"shnum": 4}, "the section header table reaches outside the file"),
            ({"shoff": 2**64 - 64}, "the section header table reaches outside the file"),
        ):
            with self.subTest(**fields):
                self.unfit(Object(order).build(**fields), reason)

    @in_both_orders
    def test_section_0_is_no_string_table(self, order):
        o = Object(order)
        file = bytearray(o.build(shstrndx=0))
        file[-64 * 3 : -64 * 2] = o.pack("IIQQQQIIQQ", 0, STRTAB, 0, 0, 0, 0, 0, 0, 0, 0)
        self.unfit(bytes(file), "the file header names section 0 for its names, which is no string table")

    @in_both_orders
    def test_cut_files(self, order):
        o = Object(order)
        o.section("xdp", EXIT, flags=CODE)
        file = o.build()
        self.unfit(b"", "not an ELF file")
        self.unfit(file[:4], "ends within its ELF header")
        self.unfit(file[:63], "ends within its ELF header")
        self.unfit(file[:64], "the section header table reaches outside the file")
        self.unfit(file[:-1], "the section header table reaches outside the file")

    def section_unfit(self, order, reason, *section, **fields):
        o = Object(order)
        o.section(*section, **fields)
        self.unfit(o.build(), reason)

    @in_both_orders
    def test_sections(self, order):
        for offset in (2**63, 2**64 - 1):
            self.section_unfit(order, "section 3 ('xdp') reaches outside the file", "xdp", EXIT, offset=offset)
        self.section_unfit(order, "section 3 ('xdp') reaches outside the file", "xdp", EXIT, size=10000)
        self.section_unfit(order, "the name of section 3 reaches outside its string table", "xdp", name=10000)
        self.section_unfit(order, "the name of section 3 reaches outside its string table", "xdp", name=len(Object().strings) + 4)
        self.section_unfit(order, "the name of section 3 has a byte above 127", "x\x80")

    @in_both_orders
    def test_unclosed_name(self, order):
        o = Object(order)
        o.symbol("open")
        o.headers[STRINGS - 1]["data"] = bytes(o.strings[:-1])
        self.unfit(o.build(), "the name of symbol 1 reaches outside its string table")

    @in_both_orders
    def test_symbol_names(self, order):
        o = Object(order)
        o.symbol("fine")
        o.symbol("na\xefve")
        self.unfit(o.build(), "the name of symbol 2 has a byte above 127")
        o = Object(order)
        o.symbol("", name=10000)
        self.unfit(o.build(), "the name of symbol 1 reaches outside its string table")

    def symbol_table_unfit(self, order, reason, **fields):
        o = Object(order, symbol_table=False)
        o.section(".symtab", bytes(24), **{"type": SYMTAB, "link": STRINGS, "entry": 24, **fields})
        self.unfit(o.build(), reason)

    @in_both_orders
    def test_symbol_table(self, order):
        self.symbol_table_unfit(order, "table 2 has entries of 16 bytes, not 24", entry=16)
        self.symbol_table_unfit(order, "table 2 has 25 bytes, which aren't whole entries of 24", size=25)
        self.symbol_table_unfit(order, "section 2 ('.symtab') reaches outside the file", size=24000)
        for link in (0, 2, 3, 2**32 - 1):
            self.symbol_table_unfit(order, f"symbol table 2 names section {link} for its names, which is no string table", link=link)

    @in_both_orders
    def test_string_table_outside_the_file(self, order):
        o = Object(order)
        names = o.section(".symbol_names", b"", type=STRTAB, offset=2**40, size=8)
        o.headers[SYMBOLS - 1]["link"] = names
        o.headers[names - 1]["data"] = b"unused"
        self.unfit(o.build(), f"section {names} ('.symbol_names') reaches outside the file")
        o = Object(order)
        o.headers[STRINGS - 1]["offset"] = 2**40
        self.unfit(o.build(), "string table 1 reaches outside the file")

    def relocation_table_unfit(self, order, reason, type=REL, **fields):
        o = Object(order)
        x = o.section("xdp", EXIT, flags=CODE)
        o.relocations(fields.pop("target", x), [(0, 1, 1)], type, **fields)
        self.unfit(o.build(), reason)

    @in_both_orders
    def test_relocation_tables(self, order):
        self.relocation_table_unfit(order, "table 4 has entries of 24 bytes, not 16", entry=24)
        self.relocation_table_unfit(order, "table 4 has entries of 16 bytes, not 24", RELA, entry=16)
        self.relocation_table_unfit(order, "table 4 has 17 bytes, which aren't whole entries of 16", size=17)
        self.relocation_table_unfit(order, "table 4 has 16 bytes, which aren't whole entries of 24", RELA, size=16)
        self.relocation_table_unfit(order, "table 4 reaches outside the file", offset=2**32)
        self.relocation_table_unfit(order, "relocation table 4 relocates section 5, which is no section that can be", target=5)
        self.relocation_table_unfit(order, "relocation table 4 relocates section 4, which is no section that can be", target=4)
        self.relocation_table_unfit(order, "relocation table 4 is compact, which isn't read", type=CREL)

    @in_both_orders
    def test_relocation_symbol_that_would_be_none(self, order):
        o = Object(order)
        o.relocations(o.section("xdp", EXIT, flags=CODE), [(0, NONE, 1)])
        self.unfit(o.build(), "a relocation of table 4 names symbol 4294967295, which means none in a deposit")


class Command(unittest.TestCase):
    def setUp(self):
        folder = tempfile.TemporaryDirectory()
        self.addCleanup(folder.cleanup)
        self.folder = folder.name
        o = Object()
        o.section("xdp", EXIT, flags=CODE)
        o.section(".BTF", b"BTF")
        self.file = o.build()
        self.path = self.write("meter.o", self.file)

    def write(self, name, data):
        path = os.path.join(self.folder, name)
        with open(path, "wb") as file:
            file.write(data)
        return path

    def run_it(self, *arguments, stdout=subprocess.PIPE):
        return subprocess.run([os.path.join(TOP, "deposit"), *arguments], stdout=stdout, stderr=subprocess.PIPE, timeout=60)

    def fails(self, text, *arguments, **more):
        run = self.run_it(*arguments, **more)
        self.assertEqual((run.returncode, run.stdout or b""), (1, b""))
        self.assertEqual(run.stderr.decode(), f"deposit: {text}\n")

    def test_to_standard_output_and_to_a_file(self):
        run = self.run_it(self.path)
        self.assertEqual((run.returncode, run.stderr), (0, b""))
        self.assertEqual(run.stdout, records.deposit_of(*elf.records_of(self.file)))
        out = os.path.join(self.folder, "meter.deposit")
        self.assertEqual(self.run_it("--no-btf", "-o", out, self.path).stdout, b"")
        with open(out, "rb") as deposit:
            self.assertEqual(deposit.read(), records.deposit_of(*elf.records_of(self.file, btf=False)))

    def test_usage(self):
        usage = "usage: ./deposit [--no-btf] [-o DEPOSIT] OBJECT"
        self.fails(f"the following arguments are required: OBJECT; {usage}")
        self.fails(f"unrecognized arguments: two.o; {usage}", self.path, "two.o")
        self.fails(f"unrecognized arguments: --btf; {usage}", "--btf", self.path)

    def test_files_that_are_not_there(self):
        self.fails("/nonexistent/meter.o: No such file or directory", "/nonexistent/meter.o")
        self.fails(f"{self.folder}: Is a directory", self.folder)
        self.fails("/nonexistent/meter.deposit: No such file or directory", "-o", "/nonexistent/meter.deposit", self.path)

    def test_an_unfit_object_leaves_no_file(self):
        path, out = self.write("text.o", b"text"), os.path.join(self.folder, "out")
        self.fails(f"{path}: not an ELF file", path)
        self.fails(f"{path}: not an ELF file", "-o", out, path)
        self.assertFalse(os.path.exists(out))

    def test_terminal(self):
        try:
            here, there = pty.openpty()
        except OSError:
            self.skipTest("needs a pseudo-terminal")
        self.addCleanup(os.close, here)
        self.addCleanup(os.close, there)
        self.fails("a deposit is not text, and standard output is a terminal; send it to a file by > or -o", self.path, stdout=there)

    @unittest.skipUnless(os.path.exists("/dev/full"), "needs /dev/full")
    def test_no_room(self):
        with open("/dev/full", "wb") as full:
            self.fails("standard output: No space left on device", self.path, stdout=full)


class Descriptions(unittest.TestCase):
    def test_samples_are_what_their_texts_describe(self):
        for name in ("example", "meter", "refused"):
            with self.subTest(name), tempfile.NamedTemporaryFile() as out:
                path = os.path.join(TOP, "samples", name)
                subprocess.run([sys.executable, os.path.join(TOP, "tools", "deposit.py"), path + ".txt", out.name], check=True)
                with open(path + ".deposit", "rb") as deposit:
                    self.assertEqual(out.read(), deposit.read())


if __name__ == "__main__":
    unittest.main()
