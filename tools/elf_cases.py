"""Cases of a load of ELF files, in both byte orders, for tools/replay_cases.py: docs/SPECIFICATION.md, S105 to S124; E1 to E35 of docs/DECISIONS.md.

A file is written from a description, and what a load must answer is tools/model.py's answer on the records of that description, or 25 or 26 as the
reading says: no file is read here. A case's name begins with the number that it must raise, 0 where it is accepted, and ends with the byte order.
Left out are the limits that need 16 MiB: those of the file's length, and of a section's size where it has data."""
import random
import struct
from collections import namedtuple

import model

NONE, TOP = model.NONE, model.TOP
OTHER, TEXT, DATA = 0, 1, 2  # a symbol's kind
TYPES = {OTHER: 0, TEXT: 2, DATA: 1}  # its type in a file
PROGBITS, SYMTAB, STRTAB, RELA, NOBITS, REL = 1, 2, 3, 4, 8, 9
ENTRY = {SYMTAB: 24, REL: 16, RELA: 24}
SIZES = {1: 64, 10: 32}  # of a relocation, by its type
ORDERS = ("little", "big")
EXIT = bytes.fromhex("9500000000000000")
CODE = bytes.fromhex("b700000001000000") + EXIT

FileCase = namedtuple("FileCase", "name file entries lent rewrite room answer held")


def call(helper, registers=0):
    return struct.pack("<BBhi", 0x85, registers, 0, helper)


# ---- a file


class Section:
    """A section: what its record says, and the fields of its header where these differ."""

    def __init__(self, index, name, kind, data, more):
        self.index, self.name, self.type, self.data = index, name.encode("latin-1"), kind, data
        self.flags = self.address = self.link = self.info = 0
        self.entry = ENTRY.get(kind, 0)
        self.align = 1
        self.name_at = self.offset = self.size = None  # sh_name, sh_offset, sh_size where they aren't those of the name and the data
        self.last = False  # the data stand behind the section header table
        self.held = None  # the data of the record, where they aren't these
        self.mark = 0
        self.relocations = []
        self.set(more)

    def set(self, more):
        for field, value in more.items():
            if field not in self.__dict__:
                raise SystemExit("no field " + field)
            setattr(self, field, value)


class Symbol:
    def __init__(self, index, name, section, address, size, kind, definition, more):
        self.index, self.name, self.section, self.address, self.size = index, name.encode("latin-1"), section, address, size
        self.kind = kind
        self.definition = int(kind != OTHER and section != NONE) if definition is None else definition
        self.info = TYPES[kind]  # st_info, st_other, st_shndx, st_name
        self.other = 0
        self.shndx = 0 if section == NONE else section
        self.name_at = None
        for field, value in more.items():
            setattr(self, field, value)


class File:
    """Sections from 1 on. `symtab` is the symbol table's section, `strings` and `names` are the string tables of symbols and sections."""

    def __init__(self, order):
        self.order = order
        self.sections, self.symbols = [], []
        self.symtab = self.strings = self.names = None
        self.header = {}  # e_ fields that are written otherwise
        self.first = {}  # fields of entry 0 of the section header table
        self.entry_0 = bytes(24)  # of the symbol table
        self.changes = {}  # bytes by their place in the file
        self.length = None  # where the file is cut
        self.tail = b""  # bytes at the end

    def section(self, name, kind=PROGBITS, data=b"", **more):
        x = Section(len(self.sections) + 1, name, kind, data, more)
        self.sections.append(x)
        return x

    def code(self, name, data, **more):
        """A section with the text mark."""
        return self.section(name, PROGBITS, data, **{"flags": 6, "mark": 1, **more})

    def nobits(self, name, size, **more):
        return self.section(name, NOBITS, b"", size=size, flags=3, **more)

    def tables(self, symtab="y", strings="s"):
        """The symbol table and its strings."""
        self.symtab = self.section(symtab, SYMTAB)
        self.strings = self.section(strings, STRTAB)
        self.symtab.link = self.strings.index

    def relocated(self, of, entries, kind=REL, name="r", used=True, **more):
        """A table of relocations (offset, symbol, type) of section `of`; its records stand where it is in use."""
        data = b"".join(self.relocation(kind, *entry) for entry in entries)
        x = self.section(name, kind, data, link=self.symtab.index if self.symtab else 0, info=of.index)
        x.set(more)
        if used:
            of.relocations += [model.Relocation(offset, symbol or NONE, SIZES.get(t, 0)) for offset, symbol, t in entries]
        return x

    def naming(self, name="n"):
        self.names = self.section(name, STRTAB)
        return self

    def symbol(self, name, section, address=0, size=8, kind=TEXT, definition=None, **more):
        index = section.index if isinstance(section, Section) else section
        y = Symbol(len(self.symbols) + 1, name, index, address, size, kind, definition, more)
        self.symbols.append(y)
        return y

    # -- the bytes

    def pack(self, form, *values):
        return struct.pack((">" if self.order else "<") + form, *values)

    def relocation(self, kind, offset, symbol, t):
        return self.pack("QQ", offset, symbol << 32 | t) + (b"\xfe" * 8 if kind == RELA else b"")

    def fill(self):
        """The data of the string tables, which begin with those that are given, and of the symbol table."""
        names = {}
        for table, owners in ((self.strings, self.symbols), (self.names, self.sections)):
            if table is None:
                continue
            data = names.get(table.index, table.data or b"\0")
            for one in owners:
                one.place = one.name_at
                if one.place is None and one.name:
                    if b"\0" + one.name + b"\0" not in data:
                        data += one.name + b"\0"
                    one.place = data.find(b"\0" + one.name + b"\0") + 1
                elif one.place is None:
                    one.place = data.find(b"\0")
            names[table.index] = data
        for index, data in names.items():
            self.sections[index - 1].data = data
        if self.symtab is not None and not self.symtab.data:
            rows = (self.pack("IBBHQQ", y.place, y.info, y.other, y.shndx, y.address, y.size) for y in self.symbols)
            self.symtab.data = self.entry_0 + b"".join(rows)

    def header_of(self, place, x):
        return self.pack(
            "IIQQQQIIQQ",
            x.place,
            x.type,
            x.flags,
            x.address,
            place if x.offset is None else x.offset,
            len(x.data) if x.size is None else x.size,
            x.link,
            x.info,
            x.align,
            x.entry,
        )

    def first_header(self):
        fields = "name type flags address offset size link info align entry".split()
        return self.pack("IIQQQQIIQQ", *(self.first.get(field, 0) for field in fields))

    def bytes(self):
        self.fill()
        places, front, back = {}, b"", b""
        for x in self.sections:
            if not x.last:
                places[x.index] = 64 + len(front)
                front += x.data
        shoff = 64 + len(front)
        end = shoff + 64 * (len(self.sections) + 1)
        for x in self.sections:
            if x.last:
                places[x.index] = end + len(back)
                back += x.data
        table = self.first_header() + b"".join(self.header_of(places[x.index], x) for x in self.sections)
        out = bytearray(self.file_header(shoff) + front + table + back + self.tail)
        for place, value in self.changes.items():
            out[place] = value
        return bytes(out[: self.length])

    def file_header(self, shoff):
        fields = dict(type=1, machine=247, version=1, entry=0, phoff=0, shoff=shoff, flags=0, ehsize=64, phentsize=0, phnum=0, shentsize=64)
        fields.update(shnum=len(self.sections) + 1, shstrndx=self.names.index if self.names else 0)
        fields.update(self.header)
        return b"\x7fELF\2" + bytes([self.order + 1, 1]) + bytes(9) + self.pack("HHIQQQIHHHHHH", *fields.values())

    # -- the records

    def object(self):
        self.fill()
        sections = []
        for x in self.sections:
            size = len(x.data) if x.size is None else x.size
            data = (b"" if x.type == NOBITS else x.data[:size]) if x.held is None else x.held
            sections.append(model.Section(x.index, x.mark, x.name, x.address, size, data, x.relocations))
        symbols = [model.Symbol(y.index, y.section, y.name, y.address, y.size, y.kind, y.definition) for y in self.symbols]
        return model.Object(self.order, sections, symbols)


def bare(order, **header):
    """A file of 64 bytes without sections."""
    f = File(order)
    f.header = {"shoff": 0, "shnum": 0, **header}
    f.length = 64
    return f


def small(order):
    """Code of one function, the symbol table, its strings, two relocation tables, the names: sections 1 to 6. The header table ends the file."""
    f = File(order)
    f.text = f.code(".text", EXIT)
    f.tables()
    f.rel = f.relocated(f.text, [(0, 1, 1)])
    f.rela = f.relocated(f.text, [(8, 1, 10)], RELA, "q")
    f.naming()
    f.symbol("a", f.text)
    return f


def sample(order):
    """One of everything that is accepted."""
    f = File(order)
    f.section("license", PROGBITS, b"Dual MIT/GPL\0", flags=3)
    f.section("version", PROGBITS, b"\1\2\3\4")
    text = f.code(".text", CODE + EXIT, align=8)
    first = f.code("xdp", call(113) + CODE, flags=0x206)
    second = f.code("kprobe/open", EXIT)
    maps = f.section("maps", PROGBITS, struct.pack("<7I", 1, 4, 8, 64, 0, 0, 1) + struct.pack("<5I", 2, 4, 4, 1, 0), flags=3)
    data = f.section(".data", PROGBITS, bytes(range(1, 17)), flags=3)
    rodata = f.section(".rodata", PROGBITS, b"constant", flags=2)
    bss = f.nobits(".bss", 12)
    f.tables(".symtab", ".strtab")
    f.relocated(text, [(8, 4, 10), (0, 2, 1)], REL, ".rel.text")
    f.relocated(first, [(0, 1, 2)], RELA, ".relaxdp")
    f.naming(".shstrtab")
    f.symbol("helper", text, 0, 16)
    f.symbol("leave", text, 16, 8, info=0x12)
    f.symbol("pass", first, 0, 24, info=0x12)
    f.symbol("open", second, 0, 8)
    f.symbol("counts", maps, 0, 28, DATA, info=0x11)
    f.symbol("short", maps, 28, 20, OTHER)
    f.symbol("rate", data, 4, 4, DATA)
    f.symbol("limit", rodata, 0, 8, DATA)
    f.symbol("state", bss, 8, 4, DATA)
    f.symbol("outside", NONE, 0, 4, DATA)
    return f


# ---- cases


class Cases:
    AMPLE = dict(sections=4096, programs=4096, functions=16384, maps=8192, relocations=8192, bytes=131072)
    SMALL = dict(sections=9, programs=15, functions=15, maps=28, relocations=9, bytes=41)

    def __init__(self):
        self.cases = []

    def add(self, name, f, number=None, patches=(), rewrite=0, room=None):
        """The number is 25 or 26, or that of the model, which must be this one if it is given; the case's name begins with it."""
        entries, lent = [], b""
        for what, data, mark in patches:
            entries += [len(lent), len(what), len(lent) + len(what), len(data), mark]
            lent += what + data
        file = f.bytes()
        if number in (25, 26):
            load = lambda room: refusal(number, room)
        else:
            load = lambda room: model.load_object(f.object(), entries, lent, rewrite, room)
        if room is None:
            answer = load(self.AMPLE)[0]
            room = self.SMALL
            if answer[0] == "accepted":
                room = {table: n * model.WIDTHS[table] + 3 for table, n in zip(model.TABLES, answer[4:])}
        answer, held = load(room)
        got = answer[1] if answer[0] == "refused" else 0
        if number is not None and got != number:
            raise SystemExit("file case %s: the model says %r" % (name, answer))
        name = "%d-%s%s-%s" % (got, "" if got > 24 else "file-", name, ORDERS[f.order])
        self.cases.append(FileCase(name, file, entries, lent, 2 + rewrite, room, answer, held))

    def both(self, number, name, make, **more):
        """In both byte orders; `make` gives the file of an order, `number` is one number or one for each order."""
        for order in (0, 1):
            self.add(name, make(order), number[order] if isinstance(number, tuple) else number, **more)

    def changed(self, number, name, change, base=small, **more):
        """A base file, changed."""

        def make(order):
            f = base(order)
            change(f)
            return f

        self.both(number, name, make, **more)


def refusal(number, room):
    return ("refused", number, 0, 0, 0), {table: [0] * room[table] for table in model.TABLES}


def changes_of(part, **fields):
    """A change that sets fields of a section of the small file."""
    return lambda f: getattr(f, part).set(fields)


def header_of(**fields):
    return lambda f: f.header.update(fields)


def unused(f, table):
    """What a table that isn't in use gave goes: the relocations of .text are those of the other one."""
    f.text.relocations = [r for r in f.text.relocations if r.size == (32 if table is f.rel else 64)]


def bytes_of(places):
    return lambda f: f.changes.update(places)


def cut(length, change=lambda f: None):
    def do(f):
        change(f)
        f.length = length

    return do


# ---- 25


def identification(c):
    for order in (0, 1):
        c.add("bare", bare(order), 0)
        c.add("small", small(order), 0)
    wrong = {0: (126, 0), 1: (101,), 2: (0,), 3: (255,), 4: (1, 3, 0), 5: (0, 3, 255), 6: (0, 2)}
    for place, values in wrong.items():
        for value in values:
            c.changed(25, "byte-%d-is-%d" % (place, value), bytes_of({place: value}), bare)
    c.changed((0, 25), "byte-5-is-1", bytes_of({5: 1}), bare)
    c.changed((25, 0), "byte-5-is-2", bytes_of({5: 2}), bare)
    c.changed(0, "bytes-7-to-15-free", bytes_of({place: 165 + place for place in range(7, 16)}))


def numbers_of_header(c):
    for field, values in (("type", (0, 2, 3, 256, 257, 513)), ("machine", (0, 246, 248, 503, 63232)), ("shentsize", (0, 40, 63, 65, 320, 16384))):
        for value in values:
            c.both(25, "%s-%d" % (field, value), lambda order: bare(order, **{field: value}))
        c.changed(25, "%s-%d-of-small" % (field, values[1]), header_of(**{field: values[1]}))
    c.changed(25, "shentsize-no-table", header_of(shoff=0, shentsize=0))
    c.changed(25, "shentsize-no-section", header_of(shnum=0, shentsize=65))

    def free(f):
        f.header.update(version=9, entry=TOP, phoff=TOP, flags=7, ehsize=1, phentsize=1, phnum=65535)
        f.text.align, f.symtab.align = TOP, 3

    c.changed(0, "free-fields", free)


def cut_headers(c):
    """'In the bytes present' (E1), and files under 64 bytes (E9)."""
    for n in range(8):
        c.changed(26, "of-%d" % n, cut(n), bare)
        if n > 0:
            c.changed(25, "of-%d-last-wrong" % n, cut(n, bytes_of({n - 1: 3})), bare)
        if n < 7:
            c.changed(26, "of-%d-next-wrong" % n, cut(n, bytes_of({n: 3})), bare)
    for n, field, value, number in (
        (16, "type", 514, 26),
        (17, "type", 1, 26),
        (17, "type", 2, (25, 26)),
        (17, "type", 257, (26, 25)),
        (17, "type", 512, 25),
        (18, "type", 257, 25),
        (18, "machine", 0, 26),
        (19, "machine", 247, 26),
        (19, "machine", 246, (25, 26)),
        (19, "machine", 503, (26, 25)),
        (20, "machine", 503, 25),
        (20, "machine", 247, 26),
        (58, "shentsize", 257, 26),
        (59, "shentsize", 64, 26),
        (59, "shentsize", 65, (25, 26)),
        (59, "shentsize", 320, (26, 25)),
        (60, "shentsize", 320, 25),
        (63, "shentsize", 65, 25),
        (63, "shnum", 0, 26),
        (63, "shstrndx", 1, 26),
    ):
        c.changed(number, "of-%d-%s-%d" % (n, field, value), cut(n, header_of(**{field: value})), bare)
    c.changed(26, "of-63-no-section", cut(63, header_of(shnum=0)))
    c.changed(26, "of-63-with-sections", cut(63))
    c.changed(26, "of-64-with-sections", cut(64))
    for name, field in (("no-table", "shoff"), ("no-section", "shnum")):

        def make(order):
            f = bare(order, shoff=64, shnum=1)
            f.header[field] = 0
            return f

        c.both(0, "of-64-" + name, make)


def entry_sizes(c):
    """Of the tables in use (E5)."""
    for part, right, values in (("symtab", 24, (0, 16, 23, 25, 6144)), ("rel", 16, (0, 15, 17, 24, 4096)), ("rela", 24, (0, 16, 23, 25))):
        for value in values + (right + 2**32, right << 56, right + 2**63):
            c.changed(25, "%s-entry-%d" % (part, value), changes_of(part, entry=value))

    def emptied(part):
        """The small file without the entries of a table."""

        def do(f):
            if part == "symtab":
                f.symtab.size, f.symbols, f.text.size, f.text.held = 0, [], 0, b""
            else:
                getattr(f, part).size = 0
                unused(f, getattr(f, part))

        return do

    for part in ("symtab", "rel", "rela"):
        c.changed(0, "%s-empty" % part, emptied(part))

        def wrong(f):
            emptied(part)(f)
            getattr(f, part).entry += 1

        c.changed(25, "%s-empty-entry" % part, wrong)

    def others(f):
        f.text.entry, f.strings.entry, f.names.entry = 9, 7, TOP

    c.changed(0, "other-entries-free", others)


def not_in_use(c):
    """Tables of section 0, linked elsewhere, of another type (E27, E28), second symbol tables (E24)."""
    for name, fields in (
        ("of-section-0", dict(info=0)),
        ("linked-to-strings", dict(link=3)),
        ("linked-to-strings-of-99", dict(link=3, info=99)),
        ("linked-to-0", dict(link=0)),
        ("linked-to-7", dict(link=7)),
        ("linked-to-33554432", dict(link=33554432)),
        ("linked-to-65538", dict(link=65538)),
        ("type-5", dict(type=5)),
        ("type-11", dict(type=11)),
        ("type-65545", dict(type=65545)),
        ("type-150994944", dict(type=150994944)),
    ):
        for part in ("rel", "rela"):

            def do(f):
                table = getattr(f, part)
                table.set({"entry": 7, **fields})
                unused(f, table)

            c.changed(0, "%s-%s" % (part, name), do)

    def first_is_code(f):
        f.text.set(dict(type=SYMTAB, mark=0))

    c.changed(25, "two-symbol-tables", first_is_code)

    def second(f):
        f.rela.set(dict(type=SYMTAB, entry=5, link=0, size=23))
        unused(f, f.rela)

    c.changed(0, "second-symbol-table-free", second)

    def linked_to_second(f):
        f.rela.set(dict(type=SYMTAB))
        f.rel.set(dict(link=5, entry=7, info=99))
        f.text.relocations = []

    c.changed(0, "linked-to-second-symbol-table", linked_to_second)

    def no_symbols(**fields):
        """Code without data, no symbol table; a REL table linked to 0, a RELA table linked to 2."""

        def do(f):
            f.symtab.type = 11
            f.symbols, f.text.size = [], 0
            f.rel.set({"link": 0, **fields})
            f.text.relocations = f.text.relocations[:1]

        return do

    c.changed(0, "no-symbol-table-linked-to-0", no_symbols())
    c.changed(25, "no-symbol-table-linked-to-0-entry", no_symbols(entry=7))
    c.changed(26, "no-symbol-table-linked-to-0-of-7", no_symbols(info=7))
    c.changed(26, "no-symbol-table-linked-to-0-of-99", no_symbols(info=99))
    c.changed(26, "no-symbol-table-linked-to-0-size", no_symbols(size=15))

    def of_nothing(f):
        no_symbols(info=0, entry=7)(f)
        f.text.relocations = []

    c.changed(0, "no-symbol-table-linked-to-0-of-0", of_nothing)


def cut_tables(c):
    """A section header table that the file's end cuts (E6). The symbol table is section 6, the last, and the tables are linked to it."""

    def base(order):
        f = File(order)
        f.text = f.code(".text", EXIT)
        f.strings = f.section("s", STRTAB)
        f.naming()
        f.rel = f.section("r", REL, f.relocation(REL, 0, 1, 1), link=6, info=1)
        f.rela = f.section("q", RELA, f.relocation(RELA, 8, 1, 10), link=6, info=1)
        f.symtab = f.section("y", SYMTAB, link=2)
        f.symbol("a", f.text)
        f.text.relocations = [model.Relocation(0, 1, 64), model.Relocation(8, 1, 32)]
        return f

    end = len(base(0).bytes())

    def short(by, **parts):
        def do(f):
            for part, fields in parts.items():
                getattr(f, part).set(fields)
            f.length = end - by

        return do

    c.changed(0, "symbols-last", short(0), base)
    for by in (1, 7, 8, 9, 16, 17, 63, 64, 65):
        c.changed(26, "cut-%d" % by, short(by), base)
    c.changed(25, "cut-1-entry", short(1, symtab=dict(entry=280)), base)
    c.changed((26, 25), "cut-1-entry-high", short(1, symtab=dict(entry=24 + 2**56)), base)
    c.changed((25, 26), "cut-1-entry-25", short(1, symtab=dict(entry=25)), base)
    c.changed(26, "cut-8-entry", short(8, symtab=dict(entry=25)), base)
    c.changed((25, 26), "cut-7-entry-25", short(7, symtab=dict(entry=25)), base)
    c.changed(26, "cut-7-entry-280", short(7, symtab=dict(entry=280)), base)
    c.changed((26, 25), "cut-7-entry-high", short(7, symtab=dict(entry=24 + 2**56)), base)
    # 48 bytes of the last header are present, then 47
    c.changed(25, "cut-16-rel-entry", short(16, rel=dict(entry=17)), base)
    c.changed(26, "cut-17-rel-entry", short(17, rel=dict(entry=17)), base)
    # with 47 no symbol table is seen, so a table linked to 0 is in use
    c.changed(26, "cut-16-linked-to-0", short(16, rel=dict(entry=17, link=0)), base)
    c.changed(25, "cut-17-linked-to-0", short(17, rel=dict(entry=17, link=0)), base)
    # a wrong entry size in front of the cut
    c.changed(25, "cut-behind-entry", lambda f: (f.symtab.set(dict(entry=23)), setattr(f, "length", 64 + end_of(f) + 64 * 4)))


def end_of(f):
    """The length of the data in front of the section header table."""
    f.fill()
    return sum(len(x.data) for x in f.sections if not x.last)


def orders_of_numbers(c):
    """All of 25 before all of 26, all of 26 before 3 (E8)."""
    c.changed(25, "machine-and-names", header_of(machine=62, shstrndx=0))
    c.changed(25, "entry-and-names", lambda f: (f.rel.set(dict(entry=17)), f.header.update(shstrndx=0)))
    c.changed(25, "entry-and-many-headers", lambda f: (f.rel.set(dict(entry=17)), f.header.update(shnum=65535)))
    c.changed(25, "entry-and-section-outside", lambda f: (f.rela.set(dict(entry=17)), f.text.set(dict(offset=TOP))))
    c.changed(25, "short-and-machine", cut(63, header_of(machine=62)), bare)

    def btf(order):
        f = File(order)
        f.x = f.nobits(".BTF", 9)
        return f.naming()

    c.both(3, "btf", btf)
    c.changed(25, "btf-and-machine", header_of(machine=0), btf)
    c.changed(26, "btf-and-names", header_of(shstrndx=0), btf)
    c.changed(26, "btf-and-size", changes_of("x", size=16777217), btf)
    c.changed(3, "btf-and-most", changes_of("x", size=16777216), btf)


# ---- 26


def header_table(c):
    small_length = len(small(0).bytes())
    c.changed(26, "table-one-byte-short", cut(small_length - 1))
    c.changed(26, "table-one-byte-on", lambda f: f.header.update(shoff=64 + end_of(f) + 1))
    c.changed(26, "one-header-more", header_of(shnum=8))
    c.changed(26, "one-header-more-short", lambda f: (f.header.update(shnum=8), setattr(f, "tail", bytes(63))))

    def more(f):
        f.section("", 0)
        f.names.data = b"\0.text\0y\0s\0r\0q\0n\0"

    c.changed(0, "one-header-more-present", more)
    c.changed(0, "tail-free", lambda f: setattr(f, "tail", b"\xff" * 9))
    c.changed(26, "most-headers", header_of(shnum=65535))
    c.changed(26, "headers-swapped", header_of(shnum=7 << 8))
    for value in (small_length, 2**32 + 64, 2**63, TOP, 2**64 - 64, 2**64 - 7 * 64):
        c.changed(26, "table-at-%d" % value, header_of(shoff=value))

    def nothing(**fields):
        def make(order):
            f = bare(order, **fields)
            return f

        return make

    c.both(0, "table-at-0", nothing(shoff=0, shnum=5, shstrndx=9))
    c.both(0, "table-at-0-most", nothing(shoff=0, shnum=65535, shstrndx=65535))
    c.both(0, "no-header-far", nothing(shoff=TOP, shnum=0, shstrndx=65535))
    c.both(0, "no-header-at-1", nothing(shoff=1, shnum=0, shstrndx=1))
    for link in (0, 1):
        c.changed(26, "one-header-names-%d" % link, header_of(shnum=1, shstrndx=link))
    c.changed(0, "entry-0-free", lambda f: f.first.update(name=NONE, type=2, flags=6, address=1, offset=TOP, size=TOP, link=2, info=1, entry=1))

    def in_front(order):
        """The section header table stands at 64, all data behind it."""
        f = small(order)
        for x in f.sections:
            x.last = True
        return f

    c.both(0, "table-in-front", in_front)


def sections_outside(c):
    for part in ("text", "symtab", "strings", "rel", "rela", "names"):
        c.changed(0, "%s-at-the-end" % part, changes_of(part, last=True))

        def past(f):
            getattr(f, part).last = True
            f.fill()
            getattr(f, part).offset = len(f.bytes()) - len(getattr(f, part).data) + 1

        c.changed(26, "%s-one-past" % part, past)
        c.changed(26, "%s-one-short" % part, lambda f: (getattr(f, part).set(dict(last=True)), setattr(f, "length", len(f.bytes()) - 1)))
        c.changed(26, "%s-far" % part, changes_of(part, offset=2**32 + 64))

    def plain(**fields):
        """The small file and a section of nothing else; its data, 4 bytes, end the file."""

        def do(f):
            f.x = f.section("x", PROGBITS, b"\1\2\3\4", last=True)
            f.x.set(fields)

        return do

    c.changed(0, "plain-at-the-end", plain())
    c.changed(26, "plain-longer", plain(size=5))
    c.changed(0, "type-0-at-the-end", plain(type=0))
    c.changed(26, "type-0-longer", plain(type=0, size=5))
    c.changed(0, "type-2-billion-at-the-end", plain(type=2**31))
    c.changed(26, "type-2-billion-longer", plain(type=2**31, size=5))
    for value in (0, 1, 2**40, 2**63, TOP):
        c.changed(0, "empty-at-%d" % value, plain(offset=value, size=0))
    for at, size in ((TOP, 1), (2**64 - 4, 4), (2**64 - 8, 9), (2**63, 4), (2**32, 4)):
        c.changed(26, "size-%d-at-%d" % (size, at), plain(offset=at, size=size))
    for size in (16777216, 16777217, 2**32, 2**32 + 4, 2**63, TOP):
        c.changed(26, "size-%d" % size, plain(size=size))
    for size, number in ((0, 0), (16777216, 0), (16777217, 26), (2**32, 26), (2**32 + 4, 26), (TOP, 26)):
        c.changed(number, "nobits-%d" % size, plain(type=8, size=size))
        c.changed(number, "nobits-%d-far" % size, plain(type=8, size=size, offset=TOP))
    c.changed(0, "whole-file", lambda f: (plain(offset=0)(f), f.x.set(dict(size=len(f.bytes())))))
    c.changed(26, "more-than-the-file", lambda f: (plain(offset=0)(f), f.x.set(dict(size=len(f.bytes()) + 1))))
    c.changed(26, "unused-rel-one-past", lambda f: (plain(type=9, size=5)(f), unused(f, f.rel)))
    c.changed(0, "unused-rel-at-the-end", plain(type=9, entry=1))

    def over_header(f):
        f.x = f.section(".data", PROGBITS, b"", offset=0, size=7)
        f.x.held = b"\x7fELF\2" + bytes([f.order + 1, 1])

    c.changed(0, "over-the-header", over_header)

    def overlapping(order):
        """Two data maps share bytes, at odd places."""
        f = small(order)
        f.section("x", PROGBITS, b"1234567", last=True)
        one, two = f.section(".data", PROGBITS), f.section(".data.b", PROGBITS)
        at = len(f.bytes()) - 7
        one.set(dict(offset=at, size=5, held=b"12345"))
        two.set(dict(offset=at + 2, size=5, held=b"34567"))
        return f

    c.both(0, "overlapping", overlapping)


def links(c):
    for value in (0, 1, 2, 4, 5, 7, 8, 1536, 0xFF00, 65535):
        c.changed(26, "names-are-%d" % value, header_of(shstrndx=value))
    c.changed(26, "names-are-entry-0", lambda f: (f.first.update(type=3, offset=64, size=1), f.header.update(shstrndx=0)))
    for kind in (0, 1, 2, 8, 11, 259, 3 << 24):
        if kind != 2:
            c.changed(26, "names-of-type-%d" % kind, changes_of("names", type=kind))
    for value in (0, 1, 2, 4, 7, 65539, 3 << 24, NONE):
        c.changed(26, "symbols-link-%d" % value, changes_of("symtab", link=value))
    for kind in (0, 1, 8, 11, 259):
        c.changed(26, "strings-of-type-%d" % kind, changes_of("strings", type=kind))

    def one_for_both(f):
        f.strings = f.names
        f.symtab.link = f.names.index
        f.sections[2].data = b"\0"

    c.changed(0, "one-string-table", one_for_both)

    def names_are_strings(f):
        f.header["shstrndx"] = 3
        f.names.data = b"?"
        f.names = f.strings

    c.changed(0, "one-string-table-first", names_are_strings)

    def no_symbol(link):
        def do(f):
            f.symbols, f.symtab.size, f.text.size, f.symtab.link = [], 0, 0, link

        return do

    c.changed(0, "no-symbol-link-3", no_symbol(3))
    c.changed(0, "no-symbol-link-6", no_symbol(6))
    c.changed(26, "no-symbol-link-0", no_symbol(0))
    c.changed(26, "no-symbol-link-1", no_symbol(1))

    def relocated(part, of):
        def do(f):
            unused(f, getattr(f, part))
            getattr(f, part).info = of
            if of in (2, 3, 6):
                f.sections[of - 1].relocations = [model.Relocation(0, 1, 64) if part == "rel" else model.Relocation(8, 1, 32)]

        return do

    for of in (2, 3, 6):
        c.changed(0, "rel-of-%d" % of, relocated("rel", of))
        c.changed(0, "rela-of-%d" % of, relocated("rela", of))
    for of in (4, 5, 7, 8, 65537, 2**24, NONE):
        c.changed(26, "rel-of-%d" % of, relocated("rel", of))
        c.changed(26, "rela-of-%d" % of, relocated("rela", of))
    c.changed(26, "rel-of-unused-rela", lambda f: (f.rela.set(dict(link=0)), f.rel.set(dict(info=5))))
    c.changed(26, "empty-rel-of-7", changes_of("rel", size=0, info=7))
    c.changed(26, "empty-rela-of-4", changes_of("rela", size=0, info=4))

    def of_nobits(f):
        x = f.nobits("b", 5)
        f.rel.info = x.index
        unused(f, f.rel)
        x.relocations = [model.Relocation(0, 1, 64)]

    c.changed(0, "rel-of-nobits", of_nobits)
    # the last section and one past it
    c.changed(26, "last-names-one-past", lambda f: f.header.update(shstrndx=len(f.sections) + 1))


def names(c):
    """The strings are 0 97 0; the names of the small file `.text y s r q n` each between zeros, 18 bytes."""

    def symbol(**fields):
        def do(f):
            for field, value in fields.items():
                setattr(f.symbols[0], field, value)

        return do

    c.changed(0, "symbol-name-at-0", symbol(name=b"", name_at=0))
    c.changed(0, "symbol-name-at-last", lambda f: (symbol(name=b"", name_at=2)(f), f.strings.set(dict(data=b"\0a\0"))))
    for at in (3, 4, 1 << 24, 2**31, NONE):
        c.changed(26, "symbol-name-at-%d" % at, lambda f: (symbol(name_at=at)(f), f.strings.set(dict(data=b"\0a\0"))))

    def strings(data, name, at=1):
        def do(f):
            f.strings.data = data
            f.symbols[0].name, f.symbols[0].name_at = name, at

        return do

    c.changed(26, "symbol-name-open", strings(b"\0ab", b"ab"))
    c.changed(26, "symbol-name-open-of-one", strings(b"a", b"a", 0))
    c.changed(26, "symbol-name-open-before-a-zero", lambda f: (strings(b"\0a\0", b"a")(f), f.strings.set(dict(size=2))))
    c.changed(0, "strings-open-behind", strings(b"\0a\0b", b"a"))
    c.changed(0, "strings-begin-otherwise", strings(b"\x80a\0", b"a"))
    c.changed(0, "strings-begin-with-name", strings(b"a\0", b"a", 0))
    c.changed(0, "strings-128-behind-name", strings(b"\0a\0\x80\0", b"a"))
    c.changed(0, "strings-of-one-zero", strings(b"\0", b"", 0))
    c.changed(26, "strings-of-nothing", lambda f: (strings(b"\0", b"", 0)(f), f.strings.set(dict(size=0))))
    for byte, number in ((1, 0), (127, 0), (128, 26), (255, 26)):
        c.changed(number, "symbol-name-byte-%d" % byte, strings(b"\0a" + bytes([byte]) + b"\0", b"a" + bytes([byte])))
        c.changed(number, "section-name-byte-%d" % byte, lambda f: f.symtab.set(dict(name=b"y" + bytes([byte]))))

    def no_symbol(f):
        f.symbols, f.symtab.size, f.text.size, f.strings.size = [], 24, 0, 0

    c.changed(0, "no-symbol-no-strings", no_symbol)
    c.changed(0, "symbol-0-free", lambda f: setattr(f, "entry_0", b"\xff" * 24))

    def unused_symbol(f, at):
        f.symbol("", NONE, 0, 0, OTHER, name_at=at)
        f.strings.data = b"\0a\0"

    c.changed(0, "unused-symbol-name", lambda f: unused_symbol(f, 2))
    c.changed(26, "unused-symbol-name-past", lambda f: unused_symbol(f, 3))

    def section(part, at, name=b""):
        def do(f):
            f.names.data = b"\0.text\0y\0s\0r\0q\0n\0"
            getattr(f, part).name, getattr(f, part).name_at = name, at

        return do

    for part in ("symtab", "strings", "rel", "rela", "names"):
        c.changed(0, "%s-name-at-16" % part, section(part, 16))
        c.changed(26, "%s-name-at-17" % part, section(part, 17))
    c.changed(0, "section-name-inside-another", section("symtab", 2, b"text"))
    for at in (18, 16 << 24, 2**31, NONE):
        c.changed(26, "section-name-at-%d" % at, section("symtab", at))
    c.changed(26, "section-names-open", lambda f: (section("symtab", 0)(f), f.names.set(dict(size=16))))
    c.changed(0, "section-names-open-behind", lambda f: f.names.set(dict(data=b"\0.text\0y\0s\0r\0q\0n\0zz")))
    c.changed(26, "section-names-empty", lambda f: f.names.set(dict(size=0)))

    def long_symbol(n):
        def do(f):
            f.symbols[0].name = b"n" * n

        return do

    def long_section(n):
        def do(f):
            f.rel.name = b"n" * n

        return do

    for n in (65535, 65536):
        c.changed(26 if n > 65535 else 0, "symbol-name-of-%d" % n, long_symbol(n))
        c.changed(26 if n > 65535 else 0, "section-name-of-%d" % n, long_section(n))

    def shared(f):
        f.strings.data = b"\0abcd\0"
        f.symbols[0].name, f.symbols[0].name_at = b"abcd", 1
        for at in (3, 1, 5, 4):
            f.symbol("abcd\0\0"[at - 1 :].split("\0")[0], NONE, 0, 0, OTHER, name_at=at)

    c.changed(0, "names-share-bytes", shared)


def whole_entries(c):
    def sized(part, size):
        def do(f):
            getattr(f, part).size = size

        return do

    for size in (1, 8, 16, 23, 25, 47, 49):
        c.changed(26, "symbols-of-%d" % size, sized("symtab", size))
    for size in (1, 8, 15, 17, 24, 31):
        c.changed(26, "rel-of-%d-bytes" % size, sized("rel", size))
    for size in (1, 8, 16, 23, 25, 32):
        c.changed(26, "rela-of-%d-bytes" % size, sized("rela", size))

    def entries(part, kind, n):
        def do(f):
            unused(f, getattr(f, part))
            rows = [(16 + 8 * k, 1 + k, 1) for k in range(n)]
            getattr(f, part).data = b"".join(f.relocation(kind, *row) for row in rows)
            f.text.relocations += [model.Relocation(at, y, 64) for at, y, _ in rows]

        return do

    for n in (2, 3):
        c.changed(0, "rel-of-%d-entries" % n, entries("rel", REL, n))
        c.changed(0, "rela-of-%d-entries" % n, entries("rela", RELA, n))

    def no_symbol(f):
        f.symbols, f.symtab.size, f.text.size = [], 24, 0

    c.changed(0, "symbols-of-24", no_symbol)


def most_records(c):
    """4,097 entries of the section header table fit (E14), 65,537 symbol entries (E25), 65,536 relocations in all (E30). The bytes of each are the
    same, so that a line is short: headers and symbols of zeros, relocations of ones."""

    def zeros(n):
        def make(order):
            f = File(order)
            f.naming()
            f.names.data = b"\0n\0"
            for _ in range(n - 2):
                f.section("", 0, name_at=0, align=0, offset=0)
            return f

        return make

    c.both(0, "headers-4097", zeros(4097))
    c.both(26, "headers-4098", zeros(4098))

    def symbols(n):
        def make(order):
            f = File(order)
            f.tables()
            f.symtab.data = bytes(24 * n)
            for _ in range(n - 1):
                f.symbol("", NONE, 0, 0, OTHER)
            return f.naming()

        return make

    c.both(0, "symbols-65537", symbols(65537))
    c.both(26, "symbols-65538", symbols(65538))

    def relocations(*tables):
        """Tables of so many entries each, REL and RELA by turns. An entry's offset, symbol and type are ones in all their bytes."""

        def make(order):
            f = File(order)
            text = f.code(".text", b"")
            f.tables()
            for k, n in enumerate(tables):
                kind = (REL, RELA)[k % 2]
                f.section("r%d" % k, kind, b"\1" * (ENTRY[kind] * n), link=f.symtab.index, info=text.index)
                text.relocations += [model.Relocation(0x0101010101010101, 0x01010101, 0)] * n
            return f.naming()

        return make

    for name, most, more in (("rel", (65536,), (65537,)), ("rela", (0, 65536), (0, 65537)), ("both", (65535, 1), (65535, 2)), ("three", (1, 1, 65534), (1, 1, 65535))):
        c.both(0, "relocations-%s-65536" % name, relocations(*most))
        c.both(26, "relocations-%s-65537" % name, relocations(*more))


# ---- what files state


def symbols_stated(c):
    """Kinds, sections and definitions of symbols (E26), told apart in .text: one that isn't a function's start leaves 12, 13 or 14."""

    def one(number, name, size=8, **fields):
        def make(order):
            f = File(order)
            f.text = f.code(".text", EXIT)
            f.tables()
            f.naming()
            y = f.symbol("a", f.text, 0, size)
            for field, value in fields.items():
                setattr(y, field, value)
            return f

        c.both(number, name, make)

    for info, kind in ((0, OTHER), (1, DATA), (2, TEXT), (3, OTHER), (4, OTHER), (10, OTHER), (0x11, DATA), (0x12, TEXT), (0x22, TEXT), (0xF2, TEXT), (0x20, OTHER), (255, OTHER)):
        one(0 if kind == TEXT else 12, "symbol-info-%d" % info, info=info, kind=kind, definition=int(kind != OTHER))
    for shndx in (0, 2, 256, 0xFEFF, 0xFF00, 0xFFF1, 0xFFF2, 0xFFFF):
        none = shndx == 0 or shndx >= 0xFF00
        one(12, "symbol-section-%d" % shndx, shndx=shndx, section=NONE if none else shndx, definition=int(not none))
    one(0, "symbol-visibility", other=255)
    one(12, "symbol-address-high", address=2**63)
    one(12, "symbol-address-2-to-32", address=2**32)
    one(13, "symbol-size-0", size=0)
    one(14, "symbol-size-high", size=2**63 + 8)
    one(14, "symbol-size-2-to-32", size=2**32 + 8)
    one(15, "symbol-size-4", size=4)


def relocations_stated(c):
    def base(order):
        f = File(order)
        f.text = f.code(".text", EXIT)
        f.x = f.code("xdp", CODE)
        f.tables()
        f.symbol("a", f.text)
        f.symbol("b", f.x, 0, 16)
        return f

    def with_tables(number, name, *tables):
        def make(order):
            f = base(order)
            for k, (of, kind, entries) in enumerate(tables):
                f.relocated(getattr(f, of), entries, kind, "r%d" % k)
            return f.naming()

        c.both(number, name, make)

    types = [(8 * k, 1, t) for k, t in enumerate((0, 1, 2, 3, 4, 9, 10, 11, 257, 266, 1 << 24, 10 << 24, NONE))]
    for kind, name in ((REL, "rel"), (RELA, "rela")):
        with_tables(0, name + "-types", ("text", kind, types))
        with_tables(0, name + "-symbols", ("text", kind, [(8 * k, y, 1) for k, y in enumerate((1, 2, 77, 2**31, 2**32 - 2))]))
        with_tables(0, name + "-offsets", ("text", kind, [(at, 1, 1) for at in (0, 3, 8, 2**31, 2**32, 2**63, TOP)]))
        with_tables(0, name + "-order", ("text", kind, [(at, at + 1, 10) for at in (24, 0, 16, 8)]))
        with_tables(4, name + "-symbol-0", ("text", kind, [(8, 1, 1), (0, 0, 1)]))
        with_tables(4, name + "-symbol-none", ("text", kind, [(0, NONE, 1)]))
        with_tables(4, name + "-symbol-0-of-program", ("x", kind, [(0, 0, 1)]))
        with_tables(0, name + "-last-stands", ("text", kind, [(8, 1, 1), (0, 2, 1), (8, 3, 10)]))
    with_tables(0, "several-tables", ("text", REL, [(8, 1, 1), (0, 2, 1)]), ("x", RELA, [(5, 5, 1)]), ("text", RELA, [(8, 3, 10)]), ("text", REL, [(1, 4, 1)]))
    with_tables(0, "several-tables-turned", ("text", REL, [(1, 4, 1)]), ("text", RELA, [(8, 3, 10)]), ("x", RELA, [(5, 5, 1)]), ("text", REL, [(8, 1, 1), (0, 2, 1)]))
    with_tables(0, "last-table-stands", ("text", RELA, [(8, 1, 1)]), ("text", REL, [(8, 2, 10)]), ("text", RELA, [(8, 3, 0)]))
    with_tables(4, "symbol-0-in-last-table", ("text", RELA, [(8, 1, 1)]), ("text", REL, [(8, 0, 10)]))
    with_tables(0, "empty-tables", ("text", RELA, []), ("x", REL, []), ("text", REL, [(0, 1, 1)]), ("text", REL, []))

    def in_front(order):
        """Relocation tables in front of what they name, and of the symbol table."""
        f = File(order)
        one = f.section("r", REL, link=4, info=3)
        two = f.section("q", RELA, link=4, info=3)
        f.text = f.code(".text", EXIT)
        f.tables()
        one.data, two.data = f.relocation(REL, 0, 1, 1), f.relocation(RELA, 8, 1, 10)
        f.text.relocations = [model.Relocation(0, 1, 64), model.Relocation(8, 1, 32)]
        f.symbol("a", f.text)
        return f.naming()

    c.both(0, "tables-in-front", in_front)

    def no_symbol_table(order):
        f = File(order)
        f.text = f.code(".text", b"")
        f.relocated(f.text, [(8, 5, 1), (16, 7, 10)])
        f.relocated(f.text, [(8, 6, 1)], RELA)
        return f.naming()

    c.both(0, "no-symbol-table", no_symbol_table)

    def no_symbol_table_0(order):
        f = File(order)
        f.text = f.code(".text", b"")
        f.relocated(f.text, [(8, 0, 1)])
        return f.naming()

    c.both(4, "no-symbol-table-symbol-0", no_symbol_table_0)

    def of_tables(order):
        """The symbol table, its strings and a section without data have relocations; what has no symbol is 4 there too."""
        f = base(order)
        f.b = f.nobits(".bss", 3)
        f.relocated(f.b, [(0, 1, 1)])
        f.relocated(f.symtab, [(0, 1, 1)], RELA)
        f.relocated(f.strings, [(0, 1, 1)])
        return f.naming()

    c.both(0, "relocated-tables", of_tables)
    c.changed(4, "relocated-strings-symbol-0", lambda f: f.relocated(f.strings, [(0, 0, 1)], RELA), of_tables)


def sections_stated(c):
    def marked(number, name, kind, flags, mark, **more):
        """A program section without symbols is 9; without the mark it is no program."""

        def make(order):
            f = File(order)
            f.section("xdp", kind, EXIT, flags=flags, mark=mark, **more)
            return f.naming()

        c.both(number, "mark-" + name, make)

    for flags in (6, 7, 0x16, 2**63 + 6, TOP):
        marked(9, "flags-%d" % flags, PROGBITS, flags, 1)
    for flags in (0, 2, 4, 1, 5, 3, 0x600, 6 << 56, 6 << 32, 12):
        marked(0, "flags-%d" % flags, PROGBITS, flags, 0)
    for kind in (0, 2**31, 7, 14, 257, 1 << 24, 65537):
        marked(0, "type-%d" % kind, kind, 6, 0)
    marked(0, "strings", STRTAB, 6, 0)

    def named(number, name, section, kind, data, **more):
        def make(order):
            f = File(order)
            f.section(section, kind, data, **more)
            return f.naming()

        c.both(number, name, make)

    named(3, "btf-of-strings", ".BTF", STRTAB, b"")
    named(0, "btf-ext", ".BTF.ext", PROGBITS, b"123")
    named(9, "strings-named-maps", "maps", STRTAB, b"\0")
    named(0, "strings-named-rodata", ".rodata.x", STRTAB, b"\0\5")
    named(0, "type-0-named-data", ".data", 0, b"\0\5")
    named(0, "nobits-named-data", ".data", NOBITS, b"", size=9)
    named(0, "nobits-named-text", ".text", NOBITS, b"", size=9)
    named(0, "bss-with-data", ".bss", PROGBITS, b"123")
    named(5, "nobits-named-license", "license", NOBITS, b"", size=4)
    named(0, "license", "license", PROGBITS, b"MIT\0")
    named(6, "license-open", "license", PROGBITS, b"MIT")
    named(7, "version-of-3", "version", PROGBITS, b"abc")
    named(0, "version", "version", PROGBITS, b"\1\2\3\4")
    named(0, "version-fe-last", "version", PROGBITS, b"\xff\xff\xff\xfe")
    named(0, "version-fe-first", "version", PROGBITS, b"\xfe\xff\xff\xff")
    named(8, "program-unknown", "xdp/", PROGBITS, EXIT, flags=6, mark=1)
    named(9, "program-without-symbol", "xdp", PROGBITS, EXIT, flags=6, mark=1)
    named(12, "text-without-symbol", ".text", PROGBITS, EXIT)
    named(17, "dot-maps", ".maps", PROGBITS, b"")
    named(0, "size-high-nobits", "x", NOBITS, b"", size=0x010203)

    def names_only(order):
        return File(order).naming(".rodata")

    c.both(0, "names-are-a-map", names_only)

    def tables_as_maps(order):
        """The file's own tables are data maps: what they hold is seen."""
        f = File(order)
        f.text = f.code(".text", EXIT)
        f.tables(".rodata.symbols", ".data.strings")
        f.relocated(f.text, [(0x0102030405060708, 9, 10)], RELA, ".data.rela")
        f.symbol("a", f.text)
        return f.naming(".rodata.names")

    c.both(0, "tables-as-maps", tables_as_maps)

    def addresses(order):
        f = File(order)
        one = f.code(".text", CODE, address=2**63 + 8)
        two = f.code("xdp", CODE, address=8)
        f.tables()
        f.symbol("a", one, 2**63 + 8, 16)
        f.symbol("b", two, 8, 8)
        return f.naming()

    c.both(0, "addresses", addresses)

    def outside(order):
        f = addresses(order)
        f.symbols[1].address = 0
        return f

    c.both(10, "program-in-front-of-address", outside)

    def maps(order, last=1, size=28):
        f = File(order)
        x = f.section("maps", PROGBITS, struct.pack("<7I", 1, 4, 0x01020304, 2, 3, 6, last) + struct.pack(">5I", 1, 4, 8, 2, 3))
        f.tables()
        f.symbol("m", x, 0, size, DATA, info=0x11)
        f.symbol("k", x, 28, 20, OTHER)
        return f.naming()

    c.both(0, "map-words", maps)
    c.both(16, "map-words-pinned-2", lambda order: maps(order, 2))
    c.both(16, "map-words-19", lambda order: maps(order, 1, 19))

    def unsorted(order):
        f = File(order)
        for name in ("xdp/cpumap", "b", "a", "B", "aa", "a", ""):
            f.section(name, PROGBITS, name.encode())
        return f.naming()

    c.both(0, "section-names-sorted", unsorted)


# ---- calls


def whole_loads(c):
    for order in (0, 1):
        c.add("sample", sample(order), 0)
        c.add("sample-rewriting", sample(order), 0, rewrite=1)
        c.add("small-rewriting", small(order), 0, rewrite=1)
    one = [(b"rate", b"WXYZ", 1)]
    c.both(0, "patched", sample, patches=one)
    c.both(0, "patched-all", sample, patches=one + [(b"limit", b"12345678", 0), (b"none", b"", 0), (b"state", b"abcd", 1)])
    c.both(0, "patched-and-rewriting", sample, patches=one, rewrite=1)
    c.both(20, "patch-unknown", sample, patches=one + [(b"none", b"", 1)])
    c.both(21, "patch-short", sample, patches=[(b"rate", b"XYZ", 1)])
    c.both(22, "patch-of-code", sample, patches=[(b"leave", bytes(8), 1)])
    c.both(22, "patch-outside", sample, patches=[(b"outside", bytes(4), 1)])
    c.both(23, "patch-of-legacy-map", sample, patches=[(b"counts", bytes(28), 1)])
    c.changed(19, "patch-twice", lambda f: f.symbol("rate", 7, 0, 4, DATA), sample, patches=one)
    c.changed(23, "patch-past-data", lambda f: setattr(f.symbols[6], "address", 13), sample, patches=one)
    c.changed(26, "patched-and-26", header_of(shstrndx=0), sample, patches=one, rewrite=1)
    c.changed(25, "patched-and-25", header_of(machine=0), sample, patches=one, rewrite=1)

    def calls(order):
        f = File(order)
        text = f.code(".text", call(112) + EXIT + call(114))
        first = f.code("xdp", call(113) + call(115) + call(113, 16) + call(111) + call(116) + EXIT)
        data = f.section(".data", PROGBITS, call(113))
        f.tables()
        f.relocated(first, [(8, 1, 10), (0, 2, 10)], RELA)
        f.symbol("f", text, 0, 16)
        f.symbol("g", text, 16, 8)
        f.symbol("p", first, 0, 48)
        f.symbol("q", first, 8, 16)
        f.symbol("v", data, 0, 8, DATA)
        return f.naming()

    for on in (0, 1):
        c.both(0, "calls-%d" % on, calls, rewrite=on)
        c.both(0, "calls-patched-%d" % on, calls, rewrite=on, patches=[(b"v", call(114), 1)])


def rooms(c):
    for order in (0, 1):
        answer = model.load_object(sample(order).object(), [], b"", 0, c.AMPLE)[0]
        exact = {table: n * model.WIDTHS[table] for table, n in zip(model.TABLES, answer[4:])}
        c.add("room-exact", sample(order), 0, room=exact)
        c.add("room-nothing", sample(order), 24, room={table: 0 for table in model.TABLES})
        for table in model.TABLES:
            c.add("room-%s-less" % table, sample(order), 24, room={**exact, table: exact[table] - 1})
            c.add("room-%s-more" % table, sample(order), 0, room={**exact, table: exact[table] + 9})
        for number, f in ((25, bare(order, machine=0)), (26, bare(order, shoff=65, shnum=1))):
            c.add("room-nothing", f, number, room={table: 0 for table in model.TABLES})
        for n in (2, 3):
            c.add("room-of-bare-%d" % n, bare(order), 0 if n > 2 else 24, room={table: n if table == "bytes" else 0 for table in model.TABLES})


# ---- mixed


def mixed(c, count):
    """Objects of parts drawn at random, most of them sound, with the tables among the sections in any order."""
    pick = random.Random(2)
    for number in range(count):
        f = mixed_file(pick, number % 2)
        patches = [mixed_patch(f, pick) for _ in range(pick.choice((0, 0, 0, 1, 2)))]
        c.add("mixed-%d" % number, f, patches=patches, rewrite=pick.randrange(2))


SECTION_NAMES = "license version maps maps .text .text .text2 .bss .data .rodata .rodata.a .data.x xdp kprobe/f tp/a/b cgroup/sock uprobe.s x .BTF.ext".split()
SYMBOL_NAMES = "a b c d e f g aa ab ba m n long_name_of_a_symbol long_name_of_b_symbol".split() + [""] + ["v%d" % k for k in range(9)]


def mixed_file(pick, order):
    f = File(order)
    parts = [pick.choice(SECTION_NAMES) for _ in range(pick.randrange(1, 6))]
    parts.insert(pick.randrange(len(parts) + 1), "symtab")
    parts.insert(pick.randrange(len(parts) + 1), "names")
    tables = []
    for part in parts:
        if part == "symtab":
            f.strings = f.section(pick.choice((".strtab", ".rodata.s")), STRTAB, last=pick.random() < 0.2)
            f.symtab = f.section(".symtab", SYMTAB, link=f.strings.index, last=pick.random() < 0.2)
        elif part == "names":
            f.naming(".shstrtab")
        else:
            mixed_section(f, part, pick)
    plain = list(f.sections)
    for _ in range(pick.randrange(4)):
        of = pick.choice([x for x in plain if x.mark] or plain)
        entries = [(8 * pick.randrange(6), pick.randrange(1, 9), pick.choice((1, 1, 10, 2, 0))) for _ in range(pick.randrange(4))]
        if entries and pick.random() < 0.03:
            entries[0] = (0, 0, 1)
        tables.append(f.relocated(of, entries, pick.choice((REL, RELA)), pick.choice((".rel", ".rela")) + of.name.decode()))
    for x in tables:
        x.last = pick.random() < 0.2
    if pick.random() < 0.2:
        f.symbol("outside", NONE, 0, 4, DATA, shndx=pick.choice((0, 0xFFF1, 0xFFFF)))
    mixed_order(f, pick)
    return f


def mixed_order(f, pick):
    """Another order of the symbols."""
    pick.shuffle(f.symbols)
    for k, y in enumerate(f.symbols, 1):
        y.index = k


def mixed_section(f, name, pick):
    rare = lambda chance: pick.random() < chance
    address = pick.choice((0, 0, 0, 8, 4096))
    info = lambda kind: TYPES[kind] + pick.choice((0, 16, 32))

    def symbol(x, at, size, kind):
        f.symbol(pick.choice(SYMBOL_NAMES), x, at, size, kind, info=info(kind), other=pick.choice((0, 2)))

    code = lambda n: b"".join(pick.choice((EXIT, call(pick.choice((1, 112, 113, 114, 115)), pick.choice((0, 0, 16))), CODE[:8])) for _ in range(n))
    if name == "license":
        f.section(name, PROGBITS, pick.choice((b"GPL\0", b"MIT\0", b"a\0")))
    elif name == "version":
        f.section(name, PROGBITS, pick.choice((b"\1\2\3\4", b"\xfe\xff\xff\xff", b"\xff\xff\xff\xfe", bytes(4))))
    elif name == "maps":
        n, step = pick.randrange(1, 4), pick.choice((20, 24, 28, 28, 36))
        x = f.section(name, PROGBITS, b"".join(struct.pack("<9I", *(pick.randrange(9) for _ in range(6)), pick.randrange(2), 7, 8)[:step] for _ in range(n)))
        for k in range(n):
            symbol(x, k * step, 19 if rare(0.02) else step, pick.choice((DATA, OTHER, DATA)))
    elif name.startswith(".text"):
        n = pick.randrange(0, 5)
        x = f.code(name, code(n), address=address)
        at = 0
        while at < n and not rare(0.02):
            size = pick.randrange(1, n - at + 1)
            symbol(x, address + 8 * at, 8 * size, TEXT)
            at += size
    elif name.startswith((".data", ".rodata", ".bss")):
        n = pick.randrange(0, 20)
        if name == ".bss" or rare(0.1):
            x = f.nobits(name, n, address=address)
        else:
            x = f.section(name, PROGBITS, bytes(pick.randrange(256) for _ in range(n)), address=address, last=rare(0.2), flags=3)
        for _ in range(pick.randrange(4)):
            at = pick.randrange(n + 1)
            symbol(x, at, pick.randrange(n - at + 1), DATA)
    elif name in ("x", ".BTF.ext"):
        f.section(name, pick.choice((PROGBITS, 7, 2**31 - 1)), b"xyz")
    else:
        n = pick.randrange(1, 5)
        address = pick.choice((0, 0, 0, 8)) if n > 1 else 0
        x = f.code(name, code(n), address=address, last=rare(0.2))
        for _ in range(pick.randrange(1, 4)):
            at = pick.randrange(address // 8, n)
            symbol(x, 8 * at, 8 * pick.randrange(0, n - at + 1) + (4 if rare(0.02) else 0), pick.choices((TEXT, DATA, OTHER), (8, 1, 1))[0])


def mixed_patch(f, pick):
    held = {x.index for x in f.sections if x.name.startswith((b".data", b".rodata", b".bss"))}
    named = [y.name for y in f.symbols]
    sound = [y for y in f.symbols if y.section in held and named.count(y.name) == 1]
    if not f.symbols or pick.random() < 0.1:
        return b"unknown", b"data", int(pick.random() < 0.2)
    y = pick.choice(sound if sound and pick.random() < 0.95 else f.symbols)
    return y.name, bytes(pick.randrange(1, 256) for _ in range(min(y.size, 64))), int(pick.random() < 0.7)


def all_cases():
    c = Cases()
    for group in (identification, numbers_of_header, cut_headers, entry_sizes, not_in_use, cut_tables, orders_of_numbers):
        group(c)
    for group in (header_table, sections_outside, links, names, whole_entries, most_records):
        group(c)
    for group in (symbols_stated, relocations_stated, sections_stated, whole_loads, rooms):
        group(c)
    mixed(c, 100)
    return c.cases
