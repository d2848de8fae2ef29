#!/usr/bin/env python3
"""replay_cases.py CRATE: writes CRATE/stdin, cases of a load one a line, and CRATE/stdout, what the program must print of each, by tools/model.py.
The cases of deposits stand here, those of ELF files in tools/elf_cases.py.

Run at the repository's top:  python3 tools/replay_cases.py crates/replay
A line of stdin: name, deposit or file, patch entries (numbers joined by commas), patch bytes, what is loaded (0 a deposit, 1 one with rewriting,
2 a file, 3 one with rewriting), and the six lent lengths of sections, programs, functions, maps, relocations, bytes. Bytes are hexadecimal; `xx(n)` is the byte xx and n more of it. `-` is nothing."""
import os
import random
import struct
import sys

import elf_cases
import model

NONE, TOP = model.NONE, model.TOP
TEXT, DATA, OTHER = 1, 2, 0
EXIT = bytes.fromhex("9500000000000000")
CODE = bytes.fromhex("b700000001000000") + EXIT


def call(helper, registers=0, offset=0, opcode=0x85):
    return struct.pack("<BBhi", opcode, registers, offset, helper)


class Deposit:
    """Sections and symbols in the order of their records; an index that isn't given is the next one."""

    def __init__(self, order=0):
        self.order = order
        self.sections, self.symbols, self.relocations = [], [], []
        self.names, self.data = bytearray(), bytearray()
        self.changes = []  # (place in the stream, bytes), before the checks are made

    def name(self, text):
        text = text.encode("latin-1")
        at = self.names.find(text)
        if at < 0:
            at = len(self.names)
            self.names += text
        return at, len(text)

    def section(self, name, data=b"", mark=0, address=0, size=None, relocations=(), index=None):
        """Its index."""
        if index is None:
            index = self.sections[-1][0] + 1 if self.sections else 1
        first = len(self.relocations)
        self.relocations += relocations
        record = [index, mark, *self.name(name), address, len(data) if size is None else size, len(self.data), len(data), first, len(relocations)]
        self.data += data
        self.sections.append(record)
        return index

    def symbol(self, name, section, address=0, size=8, kind=TEXT, definition=1, index=None):
        if index is None:
            index = self.symbols[-1][0] + 1 if self.symbols else 1
        self.symbols.append([index, section, *self.name(name), address, size, kind, definition])
        return index

    def program(self, name, section="xdp", data=CODE, **more):
        """A program section with one program, which is all of it."""
        x = self.section(section, data, mark=1, **more)
        self.symbol(name, x, more.get("address", 0), len(data) - more.get("address", 0))
        return x

    def change(self, place, data):
        self.changes.append((place, data))
        return self

    # places of records in the stream
    def section_at(self, k):
        return 32 + 48 * k

    def symbol_at(self, k):
        return 32 + 48 * len(self.sections) + 40 * k

    def relocation_at(self, k):
        return self.symbol_at(len(self.symbols)) + 16 * k

    def names_at(self):
        return self.relocation_at(len(self.relocations))

    def stream(self):
        out = struct.pack("<6IQ", self.order, len(self.sections), len(self.symbols), len(self.relocations), len(self.names), len(self.data), 0)
        out += b"".join(struct.pack("<4I2Q4I", *x) for x in self.sections)
        out += b"".join(struct.pack("<4I2Q2B6x", *y) for y in self.symbols)
        out += b"".join(struct.pack("<QIB3x", *r) for r in self.relocations)
        out = bytearray(out + self.names + self.data)
        for place, data in self.changes:
            out[place : place + len(data)] = data
        return bytes(out)

    def bytes(self):
        return blocks(self.stream())


def blocks(stream):
    """A stream in blocks with their checks, at least one."""
    stream += bytes(-len(stream) % model.STREAM if stream else model.STREAM)
    out = b""
    for k in range(0, len(stream), model.STREAM):
        block = stream[k : k + model.STREAM]
        out += block + struct.pack("<I", model.check_of(block, k // model.STREAM + 1))
    return out


def put(data, place, new):
    return data[:place] + new + data[place + len(new) :]


def u32(x):
    return struct.pack("<I", x)


def u64(x):
    return struct.pack("<Q", x)


class Cases:
    AMPLE = dict(sections=4096, programs=4096, functions=16384, maps=8192, relocations=8192, bytes=131072)
    SMALL = dict(sections=9, programs=15, functions=15, maps=28, relocations=9, bytes=41)

    def __init__(self):
        self.cases = []

    def add(self, name, deposit, patches=(), rewrite=0, room=None, entries=None, lent=None):
        """`patches`: (name, data, mark) each; or `entries` and `lent` as they are lent. Unless given, the room is 3 elements more than is needed."""
        deposit = deposit if isinstance(deposit, bytes) else deposit.bytes()
        if entries is None:
            entries, lent = [], b""
            for what, data, mark in patches:
                entries += [len(lent), len(what), len(lent) + len(what), len(data), mark]
                lent += what + data
        if room is None:
            answer, _ = model.load(deposit, entries, lent, rewrite, self.AMPLE)
            if answer[0] == "accepted":
                room = {table: n * model.WIDTHS[table] + 3 for table, n in zip(model.TABLES, answer[4:])}
            else:
                room = self.SMALL
        name = name.replace(" ", "_").replace("\x7f", "_")
        self.cases.append((name, deposit, entries, lent or b"", rewrite, room))

    def expect(self, number, name, deposit, **more):
        """A case that must raise this number, or none where it is 0."""
        self.add("%d-%s" % (number, name), deposit, **more)
        got = model.load(*self.cases[-1][1:])[0]
        if (got[1] if got[0] == "refused" else 0) != number:
            raise SystemExit("case %s: the model says %r" % (self.cases[-1][0], got))


def sample(order=0):
    """One of everything that is accepted."""
    d = Deposit(order)
    d.section("license", b"Dual MIT/GPL\0")
    d.section("version", b"\x01\x02\x03\x04")
    text = d.section(".text", CODE + EXIT, relocations=[(8, 4, 32), (0, 2, 64)])
    first = d.section("xdp", call(113) + CODE, mark=1, relocations=[(0, 1, 0)])
    second = d.section("kprobe/open", EXIT, mark=1)
    maps = d.section("maps", struct.pack("<7I", 1, 4, 8, 64, 0, 0, 1) + struct.pack("<5I", 2, 4, 4, 1, 0))
    data = d.section(".data", bytes(range(1, 17)))
    rodata = d.section(".rodata", b"constant")
    bss = d.section(".bss", size=12)
    d.section(".strtab", b"other")
    d.symbol("helper", text, 0, 16)
    d.symbol("leave", text, 16, 8)
    d.symbol("pass", first, 0, 24)
    d.symbol("open", second, 0, 8)
    d.symbol("counts", maps, 0, 28, DATA)
    d.symbol("short", maps, 28, 20, OTHER)
    d.symbol("rate", data, 4, 4, DATA)
    d.symbol("limit", rodata, 0, 8, DATA)
    d.symbol("state", bss, 8, 4, DATA)
    d.symbol("outside", NONE, 0, 4, DATA)
    return d


# ---- 1 to 3


def blocks_and_checks(c):
    good = sample().bytes()
    short = Deposit().bytes()
    c.expect(1, "empty", b"")
    for n in (1, 511, 513, 1023, len(good) - 1, len(good) + 1):
        c.expect(1, "length-%d" % n, (good + bytes(512))[:n])
    c.expect(1, "zeros", bytes(512))
    c.expect(0, "nothing", short)
    c.expect(0, "nothing-big", Deposit(1))
    c.expect(1, "check-low", put(short, 508, b"\2"))
    c.expect(1, "check-high", put(short, 511, b"\1"))
    c.expect(1, "first-block", put(good, 3, b"\1"))
    c.expect(1, "last-block", put(good, len(good) - 10, b"\1"))
    c.expect(1, "swapped-blocks", good[512:1024] + good[:512] + good[1024:])
    c.expect(1, "block-twice", good[:512] + good[:512] + good[1024:])
    c.expect(1, "before-2", put(put(good, 0, b"\2"), 600, b"\xff"))
    c.expect(1, "two-bytes-change-places", put(good, 32, good[33:34] + good[32:33]))


def rules(c):
    def changed(name, place, data, number=2, base=sample):
        d = base()
        c.expect(number, name, d.change(place(d) if callable(place) else place, data))

    for v in (2, 256, NONE):
        changed("order-%d" % v, 0, u32(v))
    for k in range(8):
        changed("head-reserved-%d" % k, 24 + k, b"\1")
    for k, most in enumerate((4097, 65537, 65537)):
        changed("count-%d-of-%d" % (k, most), 4 + 4 * k, u32(most))
        changed("count-%d-of-all" % k, 4 + 4 * k, u32(NONE))
    for k in range(5):
        for less in (1, -1):
            d = sample()
            now = struct.unpack_from("<I", d.stream(), 4 + 4 * k)[0]
            if k < 3:
                c.expect(2, "count-%d-%s" % (k, "less" if less == 1 else "more"), d.change(4 + 4 * k, u32(now - less)))
    changed("names-of-all", 16, u32(NONE))
    changed("data-of-all", 20, u32(NONE))
    good = sample().stream()
    c.expect(2, "block-missing", blocks(good[: len(good) // 508 * 508]))
    c.expect(2, "block-further", blocks(good + bytes(-len(good) % 508) + bytes(508)))
    c.expect(2, "block-further-of-nothing", blocks(bytes(1016)))
    c.expect(2, "padding-first", blocks(good + b"\1"))
    c.expect(2, "padding-last", blocks(good + bytes(-len(good) % 508 - 1) + b"\1"))
    full = Deposit()
    full.section("x", bytes(508 - 32 - 48 - 1))
    c.expect(0, "block-full", full)
    full.section("x", bytes(508 - 48))
    c.expect(0, "two-blocks-full", full)

    x = lambda k, at: lambda d: d.section_at(k) + at
    y = lambda k, at: lambda d: d.symbol_at(k) + at
    r = lambda k, at: lambda d: d.relocation_at(k) + at
    for v in (2, 3, 256, NONE):
        changed("mark-%d" % v, x(0, 4), u32(v))
    names, data, relocations = len(sample().names), len(sample().data), len(sample().relocations)
    for what, at, have in (("name", 8, names), ("data", 32, data), ("relocations", 40, relocations)):
        changed("section-%s-past" % what, x(9, at), u32(have) + u32(1))
        changed("section-%s-longer" % what, x(9, at), u32(have - 1) + u32(2))
        changed("section-%s-empty-at-end" % what, x(9, at), u32(have) + u32(0), 0)
        changed("section-%s-empty-past" % what, x(9, at), u32(have + 1) + u32(0))
        changed("section-%s-wraps" % what, x(9, at), u32(NONE) + u32(1))
        changed("section-%s-wraps-far" % what, x(9, at), u32(NONE) + u32(NONE))
        changed("section-%s-empty-far" % what, x(9, at), u32(NONE) + u32(0))
    changed("symbol-name-past", y(9, 8), u32(names) + u32(1))
    changed("symbol-name-empty-at-end", y(9, 8), u32(names) + u32(0), 0)
    changed("symbol-name-empty-past", y(9, 8), u32(names + 1) + u32(0))
    changed("symbol-name-wraps", y(9, 8), u32(NONE) + u32(2))
    for what, place in (("section", x), ("symbol", y)):
        changed("%s-index-0" % what, place(0, 0), u32(0))
        changed("%s-index-equal" % what, place(4, 0), u32(4))
        changed("%s-index-falls" % what, place(4, 0), u32(1))
        changed("%s-index-gap" % what, place(9, 0), u32(700), 0)
        changed("%s-index-last" % what, place(9, 0), u32(NONE), 0)
        changed("%s-index-last-not-last" % what, place(4, 0), u32(NONE))
    changed("section-index-of-data-moves", x(9, 0), u32(0x80000000), 0)
    changed("symbol-section-0", y(9, 4), u32(0))
    changed("symbol-section-absent", y(9, 4), u32(5000), 0)
    for v in (3, 4, 255):
        changed("symbol-kind-%d" % v, y(9, 32), bytes([v]))
    for v in (2, 255):
        changed("symbol-definition-%d" % v, y(9, 33), bytes([v]))
    for k in range(6):
        changed("symbol-reserved-%d" % k, y(k, 34 + k), b"\x80")
    changed("relocation-symbol-0", r(1, 8), u32(0))
    changed("relocation-symbol-absent", r(1, 8), u32(5000), 0)
    changed("relocation-size-255", r(1, 12), b"\xff", 0)
    for k in range(3):
        changed("relocation-reserved-%d" % k, r(k, 13 + k), b"\1")
    changed("section-size-most", x(9, 24), u64(16777216), 0)
    changed("section-size-above", x(9, 24), u64(16777217))
    changed("section-size-far", x(9, 24), u64(TOP))
    changed("section-address-far", x(9, 16), u64(TOP), 0)
    for v in (0, 128, 255):
        changed("section-name-byte-%d" % v, lambda d: d.names_at() + 2, bytes([v]))
        changed("symbol-name-byte-%d" % v, lambda d: d.names_at() + len(d.names) - 1, bytes([v]))
    for v in (1, 127):
        changed("symbol-name-byte-%d" % v, lambda d: d.names_at() + len(d.names) - 1, bytes([v]), 0)
    d = sample()
    d.names += b"\0\x80\xff"
    c.expect(0, "names-nobody-has", d)
    for n in (65535, 65536):
        d = Deposit()
        d.section("a" * n, b"")
        c.expect(0 if n == 65535 else 2, "name-of-%d" % n, d)
        d = Deposit()
        d.symbol("a" * n, NONE)
        c.expect(0 if n == 65535 else 2, "symbol-name-of-%d" % n, d)


def btf(c):
    for name, number in ((".BTF", 3), (".BTF.ext", 0), (".BTFx", 0), (".BT", 0), ("BTF", 0), (".BTF.ex", 0), (".BTF.extx", 0), (".btf", 0)):
        d = sample()
        d.section(name, b"\1\2")
        c.expect(number, "section-%s" % name, d)
    d = Deposit()
    d.section(".BTF", mark=1, data=CODE)
    c.expect(3, "marked", d)
    d = Deposit()
    d.section(".BTF")
    d.section(".BTF")
    c.expect(3, "twice", d)
    d = Deposit()
    d.section("license", b"", relocations=[(0, NONE, 0)])
    d.section("foo", CODE, mark=1)
    d.section(".BTF")
    c.expect(3, "before-4-and-5", d)
    d.change(4, u32(5000))
    c.expect(2, "before-3", d)
    for mark in (0, 1):
        d = Deposit()
        d.section(".BTF.ext", CODE, mark=mark, relocations=[(0, NONE, 0)])
        d.section(".BTF.ext", CODE, mark=mark, relocations=[(0, NONE, 0)])
        d.section("x", b"data")
        c.expect(0, "ext-without-target-%d" % mark, d)
    d = Deposit()
    d.section(".BTF.extra", CODE, mark=1)
    c.expect(8, "ext-longer-marked", d)


# ---- 4 to 7


def no_target(c):
    none = [(0, NONE, 64)]
    good = [(0, 1, 64), (8, 2, 32)]
    for name in ("license", "license2", "version", "version2", "maps", ".maps", ".text", ".bss", ".data", ".rodata", "xdp", "foo", "other", ""):
        for what, relocations in (("only", none), ("last", good + none), ("first", none + good)):
            d = Deposit()
            d.section("first", b"1")
            d.section(name, EXIT, mark=int(name in ("xdp", "foo")), relocations=relocations)
            d.symbol("f", 2)
            c.expect(4, "%s-%s" % (what, name), d)
    d = Deposit()
    d.section("license", b"a\0", relocations=good)
    d.section("license", b"", relocations=none)
    d.section("version", b"1234", relocations=good)
    c.expect(4, "second-licence", d)
    d = Deposit()
    d.section("a", relocations=good)
    d.relocations += none
    c.expect(0, "nobody-has-it", d)
    d.sections[0][8:10] = [2, 1]
    c.expect(4, "has-it", d)
    d.sections[0][8:10] = [1, 2]
    c.expect(4, "shares-it", d)
    d.sections[0][8:10] = [0, 3]
    c.expect(4, "has-all", d)
    d.sections[0][8:10] = [0, 2]
    c.expect(0, "has-those-before", d)
    # order: the licence, the version, then the sections
    d = Deposit()
    d.section("foo", CODE, mark=1, relocations=none)
    d.section("version", b"123", relocations=none)
    d.section("license", b"x", relocations=none)
    c.expect(4, "licence-first", d)
    d.sections[2][9] = 0
    c.expect(5, "licence-then", d)
    d.sections[2][9] = 1
    d = Deposit()
    d.section("foo", CODE, mark=1, relocations=none)
    d.section("version", b"123", relocations=none)
    d.section("license", b"x\0")
    c.expect(4, "version-next", d)
    d.sections[1][9] = 0
    c.expect(7, "version-then", d)
    d = Deposit()
    d.section("foo", CODE, mark=1)
    d.section("a", relocations=none)
    c.expect(8, "sections-by-index", d)
    d = Deposit()
    d.section("a", relocations=none)
    d.section("foo", CODE, mark=1)
    c.expect(4, "sections-by-index", d)


def licences(c):
    table = (
        (b"", 5),
        (b"\0", 5),
        (b"a", 5),
        (b"\0\0", 5),
        (b"\0a", 5),
        (b"a\0b", 5),
        (b"a\0\0", 5),
        (b"GPL\0MIT\0", 5),
        (b"\0GPL\0", 5),
        (b"GP", 6),
        (b"GPL", 6),
        (b"x" * 40, 6),
        (b"G\0", 0),
        (b"GPL\0", 0),
        (b"\x80\xff\x01\0", 0),
        (b"Dual BSD/GPL\0", 0),
        (b"l" * 200 + b"\0", 0),
    )
    for k, (data, number) in enumerate(table):
        d = Deposit()
        d.section("other", b"o")
        d.section("license", data)
        c.expect(number, "licence-%d" % k, d)
    for name, number in (("license2", 0), ("licens", 0), ("License", 0), ("license/", 0), (" license", 0)):
        d = Deposit()
        d.section(name, b"x")
        c.expect(number, "named-%s" % name, d)
    d = Deposit()
    d.section("license2", b"")
    d.section("license", b"first\0")
    d.section("license", b"")
    c.expect(0, "licence-first-of-two", d)
    d = Deposit()
    d.section("license", b"GPL\0", size=0)
    c.expect(0, "licence-of-size-0", d)
    d = Deposit()
    d.section("license", b"", size=4)
    c.expect(5, "licence-without-data", d)
    d = Deposit()
    d.section("license", EXIT[:1] + b"\0", mark=1)
    c.expect(0, "licence-marked", d)
    d = Deposit()
    d.section("license", b"a\0", index=NONE)
    c.expect(0, "licence-last-index", d)


def versions(c):
    for order in (0, 1):
        for data in (b"", b"1", b"123", b"12345", b"12345678"):
            d = Deposit(order)
            d.section("x")
            d.section("version", data)
            c.expect(7, "version-of-%d-%d" % (len(data), order), d)
        for data in ("feffffff", "fffffffe", "00000000", "ffffffff", "01020304", "fdffffff", "fffffffd"):
            d = Deposit(order)
            d.section("version2", b"")
            d.section("version", bytes.fromhex(data))
            d.section("version", b"")
            c.expect(0, "version-%s-%d" % (data, order), d)
    d = Deposit()
    d.section("version", b"123")
    d.section("license", b"GPL")
    c.expect(6, "before-7", d)
    d = Deposit()
    d.section("version", b"", size=4)
    c.expect(7, "version-without-data", d)


# ---- kinds, 8, 9


def kinds(c):
    names = """license2 licens version2 versio maps2 map .maps .maps2 .map .text2 .text.x .tex .bss2 .bss.x .bs .data2 .data.rel.ro .dat .rodata2
    .rodata.str1.1 .rodat rodata data text x .xdp .BTFx""".split()
    for name in names + [""]:
        for mark in (0, 1):
            for size in (0, 24):
                d = Deposit()
                x = d.section(name, struct.pack("<6I", 1, 2, 3, 4, 5, 6)[:size], mark=mark)
                d.symbol("f", x, 0, size)
                c.add("kind-%s-%d-%d" % (name, mark, size), d)


def variants(c):
    names = list(model.ALONE)
    names += [first if second is None else first + "/" + second for first, table in model.SECOND.items() for second in table]
    for name in names:
        d = Deposit()
        d.program("p", name)
        c.expect(0, "variant-%s" % name, d)
    d = Deposit()
    for k, name in enumerate(names):
        d.program("p%d" % k, name, EXIT)
    c.expect(0, "variants-all", d)
    for name in ("kprobe/a/b", "kprobe/", "kprobe//", "xdp/cpumap/x", "xdp/devmap/", "cgroup/sock/x", "sk_skb/stream_parser/f", "tp/x/y", "cgroup_skb/egress/z"):
        d = Deposit()
        d.program("p", name)
        c.expect(0, "cut-%s" % name, d)
    for name in """xdp/ xdp/x xdp//cpumap /xdp xdp.frags/ cgroup cgroup/ cgroup/x cgroup/skb2 sk_skb sk_skb/ sk_skb/x cgroup_skb cgroup_skb/
    cgroup_skb/x sk_reuseport/ sk_reuseport/x foo KPROBE kprobe2 kprob xdp.frag lsm.t fentry.multi iter.x tc /""".split() + ["", " xdp", "xdp ", "del\x7f"]:
        d = Deposit()
        d.section("first", b"1")
        d.program("p", name)
        c.expect(8, "unknown-%s" % name, d)
    d = Deposit()
    d.section("foo", CODE, mark=1)
    c.expect(8, "before-9", d)
    d = Deposit()
    d.section("foo", b"", mark=1)
    d.section("bar", CODE, mark=0)
    c.expect(0, "no-programs", d)
    d = Deposit()
    d.section("xdp", b"", mark=1, size=8)
    d.symbol("p", 1, 0, 0)
    c.expect(0, "program-section-without-data", d)
    d = Deposit()
    d.section("xdp", CODE, mark=1, size=0)
    d.symbol("p", 1, 0, 16)
    c.expect(0, "program-section-of-size-0", d)
    d = Deposit()
    d.section("xdp", CODE, mark=1, size=1)
    d.symbol("p", 1, 0, 16)
    c.expect(0, "program-section-of-more-data", d)


def no_symbols(c):
    for name, mark in (("xdp", 1), ("maps", 0), ("maps2", 1)):
        d = Deposit()
        d.section("other")
        d.section(name, bytes(24), mark=mark)
        c.expect(9, "no-symbol-%s" % name, d)
        d.symbol("f", 1, 0, 24)
        d.symbol("g", NONE, 0, 24)
        d.symbol("h", 700, 0, 24)
        c.expect(9, "no-symbol-there-%s" % name, d)
        d = Deposit()
        d.section(name, bytes(24), mark=mark, index=NONE)
        d.symbol("g", NONE, 0, 24)
        c.expect(9, "no-symbol-in-last-index-%s" % name, d)
    for kind, name in ((OTHER, "f"), (DATA, "f"), (TEXT, "")):
        d = Deposit()
        d.section("xdp", CODE, mark=1)
        d.symbol(name, 1, 100, 3, kind)
        c.expect(0, "no-program-among-%d" % kind, d)
    d = Deposit()
    d.section("maps", b"")
    c.expect(9, "no-symbol-empty-maps", d)
    for name in (".data", ".bss", ".rodata", ".text", "x"):
        d = Deposit()
        d.section(name, b"" if name == ".text" else bytes(8), index=NONE)
        c.expect(0, "last-index-%s" % name, d)
    d = Deposit()
    d.section(".text", EXIT, index=NONE)
    d.symbol("f", NONE)
    c.expect(12, "last-index-.text", d)


# ---- programs: 10, 15


def programs(c):
    def one(number, name, address, size, data=CODE, section_address=0, **more):
        d = Deposit()
        d.section("first", b"1")
        x = d.section("xdp", data, mark=1, address=section_address)
        d.symbol("zero", x, section_address, 0)
        d.symbol("p", x, address, size, **more)
        c.expect(number, name, d)

    one(0, "program-whole", 0, 16)
    one(0, "program-rest", 8, 8)
    one(0, "program-empty-at-end", 16, 0)
    one(10, "program-longer", 0, 24)
    one(10, "program-longer-by-1", 0, 17)
    one(10, "program-past", 16, 8)
    one(10, "program-empty-past", 17, 0)
    one(10, "program-far", TOP, 0)
    one(10, "program-wraps", TOP - 7, 8)
    one(10, "program-wraps-to-8", TOP - 7, 16)
    one(10, "program-size-far", 8, TOP)
    one(10, "program-size-wraps-to-7", 8, TOP - 8 + 1)
    one(10, "program-below", 0, 8, section_address=8)
    one(10, "program-below-by-1", 7, 8, section_address=8)
    one(0, "program-at-address", 8, 8, section_address=8)
    one(0, "program-above", 16, 0, section_address=8)
    one(15, "program-of-1", 0, 1)
    one(15, "program-of-12", 4, 12)
    one(0, "program-odd-place", 3, 8)
    one(0, "program-not-defined", 0, 16, definition=0)
    one(0, "program-other-kind", 40, 3, kind=DATA)
    one(10, "before-15", 0, 20)
    d = Deposit()
    d.section("xdp", CODE, mark=1, address=17)
    d.symbol("p", 1, 17, 0)
    c.expect(10, "program-section-address-past-data", d)
    d = Deposit()
    d.section("xdp", CODE, mark=1)
    d.symbol("p", 1, 0, 12)
    d.symbol("q", 1, 0, 24)
    c.expect(15, "symbols-by-index", d)
    d = Deposit()
    d.section("xdp", CODE, mark=1)
    d.symbol("p", 1, 0, 24)
    d.symbol("q", 1, 0, 12)
    c.expect(10, "symbols-by-index", d)
    d = Deposit()
    d.section("xdp", CODE, mark=1, index=5)
    d.section("tp", CODE, mark=1, index=9)
    d.symbol("q", 9, 0, 24, index=3)
    d.symbol("p", 5, 0, 12, index=8)
    c.expect(15, "sections-before-symbols", d)
    # names and places met again
    d = Deposit()
    d.section("xdp", CODE + CODE, mark=1)
    for name, address, size in (("a", 0, 16), ("b", 0, 8), ("c", 16, 8), ("a", 8, 24), ("b", 0, 16)):
        d.symbol(name, 1, address, size)
    c.expect(0, "programs-of-one-place-and-name", d)
    d = Deposit()
    d.section("xdp", CODE, mark=1)
    d.section("kprobe", EXIT + CODE, mark=1)
    d.section("tp", call(1) + EXIT, mark=1)
    d.symbol("p", 3, 0, 16)
    d.symbol("p", 1, 0, 16)
    d.symbol("p", 2, 8, 16)
    d.symbol("q", 3, 8, 8)
    c.expect(0, "programs-of-one-name-in-sections", d)
    d = Deposit()
    for name in ("b", "a", "ab", "aa", "B", "\x7f", "a/b", "a.b", "abc", "ba"):
        d.program(name, "tp/" + name, EXIT)
    c.expect(0, "programs-by-name", d)
    d = Deposit()
    for section in ("xdp", "xdp", "tp", "xdp"):
        d.program("p" + str(len(d.symbols)), section)
    c.expect(0, "sections-of-one-name", d)


# ---- text: 11 to 15


def texts(c):
    def text(number, name, length, symbols, address=0, **more):
        d = Deposit()
        d.section("first", b"1")
        x = d.section(".text", (CODE * 8)[:length], address=address, **more)
        for n, at, size, kind, definition in symbols:
            d.symbol(n, x, at, size, kind, definition)
        c.expect(number, name, d)

    whole = lambda *places: [("f%d" % k, at, size, TEXT, 1) for k, (at, size) in enumerate(places)]
    text(0, "text-empty", 0, [])
    text(0, "text-one", 16, whole((0, 16)))
    text(0, "text-two", 16, whole((0, 8), (8, 8)))
    text(0, "text-two-reversed", 24, whole((16, 8), (0, 16)))
    text(0, "text-middle", 16, whole((0, 16), (8, 8)))
    text(0, "text-middle-odd", 16, whole((0, 16), (3, 0), (15, 100)))
    text(0, "text-past", 16, whole((0, 16), (16, 8), (900, 8)))
    text(0, "text-not-met-of-size-0", 16, whole((0, 16), (8, 0), (16, 0)))
    text(0, "text-unnamed", 8, [("", 0, 8, TEXT, 1)])
    text(0, "text-address", 16, whole((4096, 8), (4104, 8)), address=4096)
    text(0, "text-below", 16, whole((0, 8), (4088, 8), (4096, 16)), address=4096)
    text(0, "text-ends-at-top", 16, whole((TOP - 15, 8), (TOP - 7, 8)), address=TOP - 15)
    text(0, "text-passes-top", 16, whole((TOP, 16)), address=TOP)
    text(12, "text-next-passes-top", 16, whole((TOP, 8)), address=TOP)
    text(12, "text-next-passes-top-to-0", 16, whole((TOP - 7, 8), (0, 8)), address=TOP - 7)
    text(12, "text-none", 16, [])
    text(12, "text-8-alone", 16, whole((0, 8)))
    text(12, "text-gap", 24, whole((0, 8), (16, 8)))
    text(12, "text-late", 16, whole((8, 8)))
    text(12, "text-wrong-address", 16, whole((0, 16)), address=8)
    text(12, "text-data-symbol", 8, [("f", 0, 8, DATA, 1)])
    text(12, "text-other-symbol", 8, [("f", 0, 8, OTHER, 1)])
    text(12, "text-not-defined", 8, [("f", 0, 8, TEXT, 0)])
    text(13, "text-size-0", 16, whole((0, 0)))
    text(13, "text-size-0-next", 16, whole((0, 8), (8, 0)))
    text(13, "text-size-0-address", 16, whole((4096, 8), (4104, 0), (4105, 7)), address=4096)
    text(13, "text-size-0-not-a-multiple", 3, whole((0, 0)))
    text(13, "text-size-0-before-the-next-12", 24, whole((8, 0), (0, 8)))
    text(14, "text-24-of-16", 16, whole((0, 24)))
    text(14, "text-17-of-16", 16, whole((0, 17)))
    text(14, "text-next-longer", 16, whole((0, 8), (8, 16)))
    text(14, "text-size-far", 16, whole((0, 8), (8, TOP)))
    text(14, "text-size-wraps", 16, whole((0, 8), (8, TOP - 7)))
    text(15, "text-12", 16, whole((0, 12)))
    text(15, "text-12-last", 12, whole((0, 12)))
    text(15, "text-4-next", 12, whole((0, 8), (8, 4)))
    text(15, "text-1", 1, whole((0, 1)))
    text(11, "text-same", 16, whole((0, 16), (0, 16)))
    text(11, "text-same-empty", 0, whole((0, 0), (0, 0)))
    text(11, "text-same-past", 8, whole((0, 8), (900, 8), (900, 0)))
    text(11, "text-same-first-to-repeat", 16, whole((0, 16), (8, 1), (5, 1), (5, 2), (8, 1), (0, 1)))
    text(11, "text-same-before-12", 16, whole((5, 8), (5, 8)))
    text(11, "text-same-thrice", 16, whole((0, 16), (3, 1), (3, 1), (3, 1)))
    text(0, "text-same-not-defined", 16, whole((0, 16)) + [("g", 0, 16, TEXT, 0)])
    text(0, "text-same-data", 16, whole((0, 16)) + [("g", 0, 16, DATA, 1)])
    text(0, "text-size-0-field", 16, whole((0, 16)), size=0)
    text(0, "text-without-data", 0, [], size=16)
    text(0, "text-marked", 16, whole((0, 16)), mark=1)
    d = Deposit()
    for k in range(4):
        x = d.section(".text%d" % k, CODE, address=8 * k)
        d.symbol("f", x, 8 * k, 8)
        d.symbol("g", x, 8 * k + 8, 8)
    c.expect(0, "texts", d)
    d.symbols[5][4] = 0
    c.expect(12, "texts-third", d)
    d.symbols[7][4] = d.symbols[6][4]
    c.expect(12, "texts-third-before-fourth", d)
    d = Deposit()
    d.section(".text", CODE)
    d.section(".text", EXIT)
    d.symbol("f", 1, 0, 16)
    d.symbol("f", 2, 0, 8)
    c.expect(0, "texts-of-one-name", d)
    d = Deposit()
    d.section(".text", EXIT * 30)
    for k in reversed(range(30)):
        d.symbol("f%d" % k, 1, 8 * k, 8)
    c.expect(0, "text-of-30", d)


# ---- maps: 10, 16, 17


def maps(c):
    words = struct.pack("<7I", 0x01020304, 0x11121314, 0x21222324, 0x31323334, 0x41424344, 0x51525354, 1) + b"\xff" * 12

    def one(number, name, place, size, data=words, order=0, length=None, **more):
        d = Deposit(order)
        d.section("first", b"1")
        x = d.section("maps", data, size=length, **more)
        d.symbol("m", x, place, size, DATA)
        c.expect(number, name, d)

    for n in (20, 21, 24, 25, 26, 27, 28, 29, 40):
        for order in (0, 1):
            one(0, "map-of-%d-%d" % (n, order), 0, n, order=order)
    for n in (0, 1, 19):
        one(16, "map-of-%d" % n, 0, n)
    one(0, "map-place", 3, 20)
    one(0, "map-at-end", 20, 20, data=bytes(40))
    one(16, "map-pinning-of-ff", 12, 28)
    one(10, "map-longer", 0, 41)
    one(10, "map-past", 21, 20)
    one(10, "map-far", TOP, 20)
    one(10, "map-wraps", TOP - 19, 20)
    one(10, "map-size-far", 1, TOP)
    one(10, "map-short-past", 40, 1)
    one(16, "map-short-at-end", 40, 0)
    one(10, "map-short-behind-end", 41, 0)
    one(0, "map-section-address", 0, 28, address=100)
    one(0, "map-section-marked", 0, 28, mark=1)
    one(10, "map-section-without-data", 0, 28, data=b"", length=40)
    for pinning, number in ((0, 0), (1, 0), (2, 16), (3, 16), (256, 16), (0x01000000, 16), (0x01000001, 16), (NONE, 16)):
        one(number, "map-pinning-%d" % pinning, 0, 28, data=words[:24] + u32(pinning))
    one(16, "map-of-25-pinning-2", 0, 25, data=words[:24] + b"\2\0\0\0")
    one(0, "map-of-25-pinning-2-cut", 0, 24, data=words[:24] + b"\2\0\0\0")
    one(0, "map-of-27-pinning-cut", 0, 27, data=words[:24] + b"\1\0\0\1")
    one(16, "map-of-27-pinning", 0, 27, data=words[:24] + b"\1\0\1\0")
    for kind in (OTHER, TEXT, DATA):
        for definition in (0, 1):
            d = Deposit()
            d.section("maps", words)
            d.symbol("", 1, 0, 20, kind, definition)
            d.symbol("n", 1, 4, 20, kind, definition)
            c.expect(0, "map-symbols-%d-%d" % (kind, definition), d)
    d = Deposit()
    d.section("maps", words)
    d.symbol("m", 1, 0, 20)
    d.symbol("m", 1, 0, 28)
    d.symbol("n", 1, 4, 20)
    d.symbol("m", 1, 4, 20)
    c.expect(0, "maps-of-one-name", d)
    d = Deposit()
    d.section(".data", b"first")
    d.section("maps", words)
    d.section(".data", b"then")
    d.section("maps/2", words)
    d.section(".bss", b"")
    d.symbol(".data", 2, 0, 20)
    d.symbol(".bss", 2, 4, 20)
    d.symbol("m", 2, 0, 20)
    d.symbol("m", 4, 4, 20)
    d.symbol(".rodata", 4, 0, 21)
    c.expect(0, "maps-replaced", d)
    d = Deposit()
    d.section(".rodata", b"constant")
    d.section("maps", words)
    d.symbol(".rodata", 2, 0, 20)
    c.expect(0, "data-map-replaced", d)
    for name in (".maps", ".maps2", ".maps.x"):
        d = sample()
        d.section(name, words)
        d.symbol("m", 11, 0, 28)
        c.expect(17, "section-%s" % name, d)
    d = Deposit()
    d.section(".maps")
    c.expect(17, "empty", d)
    d = Deposit()
    d.section(".maps")
    d.section("foo", CODE, mark=1)
    c.expect(17, "before-section-2", d)
    d = Deposit()
    d.section("foo", CODE, mark=1)
    d.section(".maps")
    c.expect(8, "before-section-2", d)
    d = Deposit()
    d.section("maps", words)
    d.symbol("a", 1, 0, 19)
    d.symbol("b", 1, 0, 50)
    c.expect(16, "symbols-by-index", d)
    for name in (".data", ".rodata", ".bss", ".data.x", ".rodata.x", ".bss.x"):
        for data, size in ((b"", 0), (b"12345", 5), (b"", 9), (b"12345", 2), (b"12", 9), (b"123", 0)):
            d = Deposit()
            d.section(name, data, size=size)
            c.expect(0, "data-%s-%d-%d" % (name, len(data), size), d)
    d = Deposit()
    d.section(".bss", size=5000)
    d.section(".data", bytes(300) + b"\1" + bytes(300))
    c.expect(0, "data-of-zeros", d)
    d = Deposit()
    d.section(".data", b"", size=16777216)
    c.expect(0, "data-of-most", d)
    c.expect(24, "bss-of-most", bss_of(16777216))


def bss_of(size):
    d = Deposit()
    d.section(".bss", size=size)
    return d


# ---- relocations


def relocations(c):
    def program(name, listed, **more):
        d = Deposit()
        d.section("xdp", CODE, mark=1, relocations=listed)
        d.symbol("p", 1, 0, 16)
        c.expect(0, name, d, **more)

    program("relocations-none", [])
    program("relocations-falling", [(16, 1, 64), (8, 2, 32), (0, 3, 0), (12, 9, 255)])
    program("relocations-of-one-offset", [(8, 1, 64), (0, 2, 64), (8, 3, 32), (0, 4, 0), (8, 5, 1)])
    program("relocations-far", [(TOP, 1, 64), (0, NONE - 1, 64), (2**63, 5, 32), (2**32, 5, 32), (TOP - 1, 5, 32)])
    program("relocations-20", [(8 * (k * 7 % 20), k + 1, 64) for k in range(20)])
    d = Deposit()
    d.relocations += [(8 * k, k + 1, 32) for k in range(6)]
    for k, (name, first, count) in enumerate((("tp", 0, 6), (".text", 2, 4), ("xdp", 1, 3), (".data", 0, 6), ("maps", 0, 6), ("x", 0, 6), ("tp", 5, 1), ("xdp", 6, 0))):
        x = d.section(name, EXIT * 3, mark=int(name in ("tp", "xdp")))
        d.sections[-1][8:10] = [first, count]
        d.symbol("s%d" % k, x, 0, 24)
    c.expect(0, "relocations-shared", d)
    d = Deposit()
    d.section("license", b"a\0", relocations=[(0, 1, 64)])
    d.section("version", b"1234", relocations=[(0, 1, 64)])
    d.section(".text", b"", relocations=[(4, 7, 32)])
    d.section(".BTF.ext", b"", relocations=[(4, 7, 32)])
    c.expect(0, "relocations-kept-by-text", d)


# ---- orders, sharing


def orders(c):
    """Names that differ late, in length only or not at all, wherever they stand in blocks."""
    stems = ["a" * n for n in (1, 7, 8, 9, 15, 16, 17, 24)]
    names = stems + [stem[:-1] + last for stem in stems for last in "b\x01\x7f"] + [stem + "\x01" for stem in stems] + ["b" + "a" * 15, "ab" * 8, "ab" * 9]
    pick = random.Random(2)
    for start in (0, 1, 5, 250, 507):
        pick.shuffle(names)
        d = Deposit()
        d.names += b"?" * start
        for k, name in enumerate(names):
            d.section("tp/" + name, EXIT, mark=1)
            d.symbol(name, k + 1)
        c.expect(0, "names-of-programs-%d" % start, d)
        d = Deposit()
        d.names += b"?" * start
        x = d.section("maps", bytes(range(80)) + bytes(40))
        for k, name in enumerate(names + names[::3]):
            d.symbol(name, x, k, 20)
        c.expect(0, "names-of-maps-%d" % start, d)
    d = Deposit()
    listed = [(pick.choice((0, 1, 2**32, TOP, pick.randrange(2**64))) if k % 3 else 8 * pick.randrange(30), k + 1, k) for k in range(90)]
    for k in range(3):
        d.program("p%d" % k, "tp", relocations=listed[30 * k : 30 * k + 30])
    c.expect(0, "relocations-90", d)
    for k in range(3):
        d = Deposit()
        places = [8 * n for n in range(40)]
        pick.shuffle(places)
        for section in (".text", "tp", ".text.2"):
            d.section(section, make_code(pick, 40), mark=1)
        for n, at in enumerate(places):
            for x in (3, 1, 2):
                d.symbol("f%d_%d" % (n % 30, x), x, at, 8 if x != 2 else 8 * pick.randrange((320 - at) // 8 + 1), TEXT)
        c.expect(0, "functions-120-%d" % k, d, rewrite=k % 2)
    d = Deposit()
    shared = struct.pack("<7I", 1, 4, 8, 16, 0, 0, 0) + EXIT * 2 + b"GPL\0"
    d.data += shared
    for name, mark, at, length in (
        ("maps", 0, 0, 28),
        (".data", 0, 0, 48),
        (".rodata", 0, 12, 20),
        ("xdp", 1, 28, 16),
        (".text", 0, 36, 8),
        ("license", 0, 44, 4),
        ("version", 0, 28, 4),
        (".data2", 0, 47, 1),
    ):
        x = d.section(name, mark=mark, size=length)
        d.sections[-1][6:8] = [at, length]
        d.symbol("s%d" % x, x, 0, length if name != ".data" else 40)
    c.expect(0, "data-shared", d)
    c.expect(0, "data-shared-patched", d, patches=[(b"s2", b"Z" * 40, 1), (b"s3", b"Y" * 20, 1), (b"s8", b"X", 1)], rewrite=1)


# ---- patches: 18 to 23


def patches(c):
    def p(number, name, *listed, base=sample, **more):
        c.expect(number, name, base(), patches=listed, **more)

    p(0, "patch-data", (b"rate", b"WXYZ", 1))
    p(0, "patch-data-may", (b"rate", b"WXYZ", 0))
    p(0, "patch-rodata", (b"limit", b"12345678", 1))
    p(0, "patch-bss", (b"state", b"abcd", 1))
    p(0, "patch-bss-zeros", (b"state", bytes(4), 1))
    p(0, "patch-three", (b"state", b"abcd", 1), (b"rate", b"WXYZ", 0), (b"limit", b"12345678", 1))
    p(0, "patch-twice", (b"rate", b"WXYZ", 1), (b"rate", b"abcd", 1))
    p(0, "patch-unknown", (b"rat", b"WXYZ", 0), (b"rates", b"", 0), (b"", b"", 0), (b"\xff\0", b"", 0))
    p(0, "patch-unknown-then-known", (b"none", b"WXYZ", 0), (b"rate", b"WXYZ", 1))
    p(20, "patch-must", (b"none", b"WXYZ", 1))
    p(20, "patch-must-prefix", (b"rat", b"WXYZ", 1))
    p(20, "patch-must-longer", (b"rate\0", b"WXYZ", 1))
    p(20, "patch-must-empty", (b"", b"", 1))
    p(20, "patch-must-third", (b"rate", b"WXYZ", 1), (b"none", b"", 0), (b"none", b"", 1))
    p(21, "patch-short", (b"rate", b"WXY", 1))
    p(21, "patch-long", (b"rate", b"WXYZW", 0))
    p(21, "patch-nothing", (b"rate", b"", 0))
    p(21, "patch-second", (b"rate", b"WXYZ", 0), (b"limit", b"", 0))
    p(21, "patch-program-size", (b"pass", b"", 0))
    p(22, "patch-program", (b"pass", bytes(24), 1))
    p(22, "patch-text", (b"helper", bytes(16), 1))
    p(22, "patch-outside", (b"outside", bytes(4), 1))
    p(23, "patch-map-record", (b"counts", bytes(28), 1))
    p(18, "patch-mark-2", (b"rate", b"WXYZ", 2))
    p(18, "patch-mark-far", (b"rate", b"WXYZ", TOP))
    p(18, "patch-mark-2-unknown", (b"none", b"", 2))
    p(18, "patch-second-mark", (b"rate", b"WXYZ", 0), (b"rate", b"WXYZ", 3))
    p(20, "before-18-of-next", (b"none", b"", 1), (b"rate", b"WXYZ", 2))

    def lent(number, name, entries, data=b"rateWXYZ", base=sample):
        c.expect(number, name, base(), entries=entries, lent=data)

    lent(0, "lent-whole", [0, 4, 4, 4, 1])
    lent(0, "lent-shared", [0, 4, 0, 4, 1])
    lent(0, "lent-overlapping", [0, 4, 2, 4, 1])
    lent(0, "lent-empty-at-end", [8, 0, 8, 0, 0])
    for name, entries in (
        ("name-past", [5, 4, 0, 4, 0]),
        ("name-far", [TOP, 4, 0, 4, 0]),
        ("name-length-far", [4, TOP, 0, 4, 0]),
        ("name-wraps", [TOP, TOP, 0, 4, 0]),
        ("name-wraps-to-3", [TOP - 0, 4, 0, 4, 0]),
        ("name-empty-past", [9, 0, 0, 4, 0]),
        ("data-past", [0, 4, 5, 4, 0]),
        ("data-far", [0, 4, TOP, 4, 0]),
        ("data-length-far", [0, 4, 4, TOP, 0]),
        ("data-wraps-to-4", [0, 4, 8, TOP - 3, 0]),
        ("data-empty-past", [0, 4, 9, 0, 0]),
    ):
        lent(18, "lent-" + name, entries)
    for n in (1, 2, 3, 4, 6, 7, 8, 9, 11):
        lent(18, "lent-short-%d" % n, ([0, 4, 4, 4, 1] * 3)[:n])
    lent(18, "lent-short-of-zeros", [0, 0, 0, 0])
    lent(18, "lent-without-bytes", [0, 1, 0, 0, 0], b"")
    lent(0, "lent-nothing-without-bytes", [0, 0, 0, 0, 0], b"")
    lent(20, "lent-short-behind-20", [0, 3, 4, 4, 1, 0])
    c.expect(0, "lent-bytes-alone", sample(), entries=[], lent=b"rateWXYZ")
    # bearers
    for more in ((NONE, 0, 4), (8, 0, 4), (3, 0, 4), (7, 4, 4)):
        d = sample()
        d.symbol("rate", more[0], more[1], more[2], OTHER, 0)
        c.expect(19, "bearers-%d-%d" % more[:2], d, patches=[(b"rate", b"WXYZ", 0)])
    c.expect(19, "bearers-before-21", d, patches=[(b"rate", b"", 1)])
    c.expect(18, "bearers-behind-18", d, patches=[(b"rate", b"", 2)])
    c.expect(0, "bearers-of-another", d, patches=[(b"limit", b"abcdefgh", 1)])
    d = sample()
    d.symbol("", 7, 0, 4, DATA)
    c.expect(0, "unnamed-one", d, patches=[(b"", b"wxyz", 1)])
    d.symbol("", NONE, 0, 4, DATA)
    c.expect(19, "unnamed-two", d, patches=[(b"", b"wxyz", 0)])

    # places
    def place(number, name, address, size, section=".data", data=b"0123456789", section_address=0, section_size=None, kind=DATA, definition=1):
        d = Deposit()
        d.section("xdp", CODE, mark=1)
        d.symbol("p", 1, 0, 16)
        x = d.section(section, data, address=section_address, size=section_size)
        d.symbol("v", x, address, size, kind, definition)
        c.expect(number, "place-" + name, d, patches=[(b"v", (b"ABCDEFGHIJKLMNOP" * 2)[:size] if size < 99 else b"", 1)])

    place(0, "whole", 0, 10)
    place(0, "last", 9, 1)
    place(0, "empty-at-end", 10, 0)
    place(23, "empty-past", 11, 0)
    place(23, "longer", 0, 11)
    place(23, "past", 10, 1)
    place(23, "far", TOP, 1)
    place(23, "far-empty", TOP, 0)
    place(23, "wraps", TOP, 2)
    place(21, "size-far", 1, TOP)
    place(0, "section-address", 2, 4, section_address=2)
    place(0, "below-section-address", 0, 4, section_address=4096)
    place(23, "less-section-address", 4096, 4, section_address=4096)
    place(0, "text-kind", 0, 4, kind=TEXT)
    place(0, "other-kind", 0, 4, kind=OTHER, definition=0)
    place(0, "bss", 0, 4, section=".bss", data=b"", section_size=4)
    place(0, "bss-with-data", 8, 4, section=".bss", section_size=12)
    place(23, "bss-less-than-data", 6, 4, section=".bss", section_size=8)
    place(23, "data-without-data", 0, 4, data=b"", section_size=8)
    place(0, "data-more-than-size", 6, 4, section_size=2)
    place(22, "other-section", 0, 4, section="foo")
    place(22, "licence", 0, 2, section="license", data=b"a\0")
    place(0, "rodata", 3, 4, section=".rodata.str")
    place(22, "program", 0, 8, section="xdp", data=EXIT)
    for address, size, number in ((0, 20, 23), (0, 28, 23), (8, 20, 23)):
        d = Deposit()
        d.section("maps", bytes(28))
        d.symbol("m", 1, address, size)
        c.expect(number, "place-maps-%d-%d" % (address, size), d, patches=[(b"m", bytes(size), 1)])
    # a symbol whose map was replaced
    d = Deposit()
    d.section(".data", b"first")
    d.section(".data", b"later")
    d.symbol("a", 1, 0, 5)
    d.symbol("b", 2, 0, 5)
    c.expect(22, "place-replaced", d, patches=[(b"a", b"ABCDE", 1)])
    c.expect(0, "place-replacing", d, patches=[(b"b", b"ABCDE", 1)])
    d = Deposit()
    d.section("maps", bytes(28))
    d.section(".data", b"later")
    d.symbol(".data", 1, 0, 20)
    d.symbol("a", 2, 0, 5)
    c.expect(22, "place-replaced-legacy", d, patches=[(b".data", bytes(20), 1)])
    d = Deposit()
    d.section(".data", b"first")
    d.section("maps", bytes(28))
    d.symbol("a", 1, 0, 5)
    d.symbol(".data", 2, 0, 20)
    c.expect(22, "place-replaced-by-legacy", d, patches=[(b"a", b"ABCDE", 1)])
    d = Deposit()
    d.section(".data", b"0123", index=NONE)
    d.symbol("v", NONE, 0, 4)
    c.expect(22, "place-last-index", d, patches=[(b"v", b"ABCD", 1)])
    d = Deposit()
    d.section(".data", b"0123")
    d.symbol("v", 5, 0, 4)
    c.expect(22, "place-absent-section", d, patches=[(b"v", b"ABCD", 1)])
    # overlapping
    d = overlapping()
    for order in ((0, 1, 2, 3, 4), (2, 1, 0, 4, 3), (4, 3, 5, 2, 0, 1), (0, 0, 1, 0), (5, 5)):
        listed = [(b"v%d" % k, (b"%c" % (65 + n)) * d.symbols[k][5], 1) for n, k in enumerate(order)]
        c.expect(0, "overlapping-%s" % "".join(map(str, order)), d, patches=listed)
    c.expect(23, "overlapping-longer", overlapping(20), patches=[(b"v0", b"A" * 20, 1)])
    many = [(b"v%d" % (k % 6), bytes([65 + k]) * d.symbols[k % 6][5], k % 2) for k in range(24)]
    c.expect(0, "overlapping-24", d, patches=many)
    c.expect(20, "entry-25", d, patches=many + [(b"w", b"", 1)])
    for number, damage in ((8, lambda d: d.section("foo", CODE, mark=1)), (5, lambda d: d.section("license", b"", index=77))):
        d = Deposit()
        d.section(".data", b"0123")
        damage(d)
        c.expect(number, "before-patches", d, patches=[(b"v", b"", 2)])


def overlapping(first=6):
    d = Deposit()
    d.section(".data", b"0123456789")
    d.section(".bss", size=10)
    for k, (x, at, size) in enumerate(((1, 0, first), (1, 4, 4), (1, 2, 8), (2, 0, 10), (2, 5, 3), (1, 4, 0))):
        d.symbol("v%d" % k, x, at, size, DATA)
    return d


# ---- rewriting


def rewriting(c):
    helpers = (0, 1, 4, 45, 111, 112, 113, 114, 115, 116, -1, 112 - 2**31, 0x7171, 0x71000000, 4 + 65536)
    d = Deposit()
    x = d.section("kprobe", b"".join(call(h) for h in helpers), mark=1)
    d.symbol("p", x, 0, 8 * len(helpers))
    for on in (0, 1):
        c.expect(0, "helpers-%d" % on, d, rewrite=on)
    for h in (112, 113, 114, 115):
        d = Deposit()
        registers = [0, 1, 2, 8, 0x0F, 0x10, 0x20, 0x80, 0xF0, 0xFF]
        opcodes = [0x85, 0x84, 0x86, 0x8D, 0x95, 0x05, 0xC5, 0x45, 0x00, 0x18]
        offsets = [0, 1, -1, 0x7FFF, -0x8000, 256]
        code = b"".join(call(h, r) for r in registers) + b"".join(call(h, opcode=o) for o in opcodes) + b"".join(call(h, offset=o) for o in offsets)
        x = d.section("kprobe", code, mark=1)
        d.symbol("p", x, 0, len(code))
        for on in (0, 1):
            c.expect(0, "registers-%d-%d" % (h, on), d, rewrite=on)
    d = Deposit()
    x = d.section("kprobe", b"".join(call(113, r) for r in range(256)), mark=1)
    d.symbol("p", x, 0, 2048)
    c.expect(0, "every-register-byte", d, rewrite=1)
    d = Deposit()
    x = d.section("kprobe", b"".join(call(113, opcode=o) for o in range(256)), mark=1)
    d.symbol("p", x, 0, 2048)
    c.expect(0, "every-opcode", d, rewrite=1)
    # both slots of a wide instruction; text and programs; overlapping functions; odd places; data that looks like a call
    wide = call(113, opcode=0x18) + call(113)
    for on in (0, 1):
        d = Deposit(on)
        d.section(".text", call(112) + EXIT + call(114))
        d.section("xdp", wide + call(115) + EXIT, mark=1)
        d.section(".data", call(113))
        d.section("maps", call(113) * 3)
        d.symbol("f", 1, 0, 16)
        d.symbol("g", 1, 16, 8)
        d.symbol("p", 2, 0, 32)
        d.symbol("q", 2, 8, 16)
        d.symbol("r", 2, 12, 16)
        d.symbol("m", 4, 0, 24)
        d.symbol("v", 3, 0, 8, DATA)
        c.expect(0, "slots-%d" % on, d, rewrite=on)
        c.expect(0, "slots-and-patch-%d" % on, d, rewrite=on, patches=[(b"v", call(114), 1)])
        c.expect(0, "sample-%d" % on, sample(on), rewrite=on)
    c.expect(20, "rewriting-and-20", sample(), rewrite=1, patches=[(b"none", b"", 1)])


# ---- the lent room: 24


def rooms(c):
    for order in (0, 1):
        d = sample(order).bytes()
        exact = {table: n * model.WIDTHS[table] for table, n in zip(model.TABLES, model.load(d, [], b"", 0, c.AMPLE)[0][4:])}
        c.expect(0, "room-exact-%d" % order, d, room=exact)
        c.expect(24, "room-nothing-%d" % order, d, room={table: 0 for table in model.TABLES})
        for table in model.TABLES:
            for less in (1, 2, exact[table]):
                c.expect(24, "room-%s-less-%d-%d" % (table, less, order), d, room={**exact, table: exact[table] - less})
            for more in sorted({1, model.WIDTHS[table], 50}):
                c.expect(0, "room-%s-more-%d-%d" % (table, more, order), d, room={**exact, table: exact[table] + more})
            c.expect(0, "room-%s-only-%d" % (table, order), d, room={t: exact[t] if t == table else exact[t] * 2 + 5 for t in model.TABLES})
    none = Deposit().bytes()
    for n in (0, 1, 2, 3, 4):
        c.expect(0 if n > 2 else 24, "room-of-nothing-%d" % n, none, room={table: n if table == "bytes" else 0 for table in model.TABLES})
    c.expect(23, "room-behind-23", sample(), patches=[(b"counts", bytes(28), 1)], room={table: 0 for table in model.TABLES})
    c.expect(1, "room-behind-1", b"", room={table: 0 for table in model.TABLES})
    c.expect(24, "room-with-patch", sample(), patches=[(b"rate", b"WXYZ", 1)], rewrite=1, room=c.SMALL)
    for size in (2000, 100000):
        answer = model.load(bss_of(size).bytes(), [], b"", 0, c.AMPLE)[0]
        exact = {table: n * model.WIDTHS[table] for table, n in zip(model.TABLES, answer[4:])}
        c.expect(0, "room-bss-%d" % size, bss_of(size), room=exact)
        c.expect(24, "room-bss-%d" % size, bss_of(size), room={**exact, "bytes": exact["bytes"] - 1})
    # many functions: what is lent decides alone
    d = Deposit()
    d.section(".text", EXIT * 2049)
    for k in range(2049):
        d.symbol("", 1, 8 * k, 8)
    for lent in (7 * 2300, 7 * 2049 - 1):
        c.expect(0 if lent >= 7 * 2049 else 24, "functions-2049", d, room={**c.SMALL, "functions": lent, "bytes": 20000})


# ---- mixed


def mixed(c, count):
    """Objects of parts drawn at random, most of them sound; patches and rooms too."""
    pick = random.Random(1)
    section_names = """license version maps maps .text .text .text2 .bss .data .data .rodata .rodata .data.x xdp xdp kprobe kprobe/f tp/a/b
    cgroup/sock uprobe.multi.s sk_skb/stream_verdict x .BTF.ext license2 foo .maps""".split()
    weights = [2, 2] + [4] * 21 + [1, 1, 1]
    names = """a b c d e f g aa ab ba .data .bss .rodata m n long_name_of_a_symbol long_name_of_a_symbo long_name_of_b_symbol""".split() + [""]
    names += ["v%d" % k for k in range(12)]
    for number in range(count):
        d = Deposit(pick.randrange(2))
        index = 0
        for _ in range(pick.randrange(20, 40) if number % 25 == 0 else pick.randrange(1, 9)):
            section = pick.choices(section_names, weights[: len(section_names)])[0]
            index += 1 if pick.random() < 0.95 else pick.randrange(1, 90)
            make_section(d, pick, section, index, names)
        shuffle_symbols(d, pick)
        if pick.random() < 0.06:
            damage(d, pick)
        listed = []
        for _ in range(pick.choice((0, 0, 0, 1, 2, 3))):
            listed.append(make_patch(d, pick))
        deposit = d.bytes()
        room = None
        if pick.random() < 0.1:
            answer = model.load(deposit, [], b"", 0, c.AMPLE)[0]
            if answer[0] == "accepted":
                room = {t: max(0, n * model.WIDTHS[t] + pick.choice((-1, 0, 0, 0, 1, 30))) for t, n in zip(model.TABLES, answer[4:])}
        c.add("mixed-%d" % number, deposit, patches=listed, rewrite=pick.randrange(2), room=room)


def make_code(pick, n):
    return b"".join(pick.choice((EXIT, call(pick.choice((1, 112, 113, 114, 115)), pick.choice((0, 0, 0, 16))), CODE[:8])) for _ in range(n))


def make_section(d, pick, section, index, names):
    rare = lambda chance: pick.random() < chance
    relocations = [(8 * pick.randrange(6), NONE if rare(0.01) else pick.randrange(1, 9), pick.choice((64, 32, 0))) for _ in range(pick.choice((0, 0, 1, 2, 5)))]
    address = pick.choice((0, 0, 0, 8, 4096))
    if section == "license":
        d.section(section, pick.choice((b"GPL\0", b"MIT\0", b"a\0", b"abc" if rare(0.1) else b"\xff\0")), index=index, relocations=relocations)
    elif section == "version":
        d.section(section, pick.choice((b"\1\2\3\4", b"\xfe\xff\xff\xff", b"\xff\xff\xff\xfe", b"1" if rare(0.1) else bytes(4))), index=index, relocations=relocations)
    elif section == "maps":
        n = pick.randrange(1, 4)
        step = pick.choice((20, 24, 28, 28, 36))
        record = lambda: struct.pack("<9I", *(pick.randrange(9) for _ in range(6)), pick.choice((0, 1, 1, 2 if rare(0.1) else 0)), 7, 8)[:step]
        d.section(section, b"".join(record() for _ in range(n)), index=index, relocations=relocations)
        for k in range(n):
            d.symbol(pick.choice(names), index, k * step, 19 if rare(0.02) else step, pick.randrange(3), 1)
    elif section.startswith(".text"):
        n = pick.randrange(0, 6)
        d.section(section, make_code(pick, n), index=index, address=address, relocations=relocations, mark=pick.randrange(2))
        at = 0
        while at < n and not rare(0.02):
            size = pick.randrange(1, n - at + 1)
            d.symbol(pick.choice(names), index, address + 8 * at, 8 * size - (4 if rare(0.01) else 0))
            if size > 1 and rare(0.3):
                d.symbol(pick.choice(names), index, address + 8 * at + 8, 8, pick.choice((OTHER, TEXT, DATA)))
            at += size
    elif section.startswith((".data", ".rodata", ".bss")):
        n = pick.randrange(0, 20)
        full = not section.startswith(".bss") and not rare(0.2)
        d.section(section, bytes(pick.randrange(256) for _ in range(n)) if full else b"", size=n, index=index, address=address, relocations=relocations)
        for _ in range(pick.randrange(4)):
            at = pick.randrange(n + 1)
            d.symbol(pick.choice(names), index, at, pick.randrange(n - at + 2 if rare(0.1) else n - at + 1), DATA)
    elif section in ("license2", "x", ".BTF.ext", ".maps"):
        d.section(section, b"xyz", index=index, relocations=relocations)
    else:
        n = pick.randrange(1, 6)
        address = pick.choice((0, 0, 0, 0, 8)) if n > 1 else 0
        d.section(section, make_code(pick, n), mark=1, index=index, address=address, relocations=relocations)
        for _ in range(0 if rare(0.02) else pick.randrange(1, 4)):
            at = pick.randrange(address // 8, n)
            size = 8 * pick.randrange(0, n - at + 1) + pick.choices((0, 4, 8), (50, 1, 1))[0]
            d.symbol(pick.choice(names), index, 8 * at, size, pick.choices((TEXT, DATA, OTHER), (8, 1, 1))[0])


def shuffle_symbols(d, pick):
    """Another order of the symbols; now and then one without a section, or a gap in the indexes."""
    if pick.random() < 0.2:
        d.symbol("outside", NONE, 0, 4, DATA)
    pick.shuffle(d.symbols)
    index = 0
    for y in d.symbols:
        index += 1 if pick.random() < 0.97 else pick.randrange(1, 50)
        y[0] = index


def damage(d, pick):
    stream = d.stream()
    place = pick.randrange(min(len(stream), d.names_at()))
    d.change(place, bytes([pick.choice((0, 1, 2, 0x80, 0xFF, stream[place] ^ 1))]))


def make_patch(d, pick):
    if not d.symbols or pick.random() < 0.1:
        return b"unknown", b"data", int(pick.random() < 0.2)
    kept = {x[0]: bytes(d.names[x[2] : x[2] + x[3]]).startswith((b".data", b".rodata", b".bss")) for x in d.sections}
    named = [bytes(d.names[y[2] : y[2] + y[3]]) for y in d.symbols]
    sound = [y for y, name in zip(d.symbols, named) if kept.get(y[1]) and named.count(name) == 1]
    y = pick.choice(sound if sound and pick.random() < 0.9 else d.symbols)
    name = bytes(d.names[y[2] : y[2] + y[3]])
    size = min(y[5], 64) + (1 if pick.random() < 0.05 else 0)
    return name, bytes(pick.randrange(1, 256) for _ in range(size)), int(pick.random() < 0.7)


def all_cases():
    c = Cases()
    for group in (blocks_and_checks, rules, btf, no_target, licences, versions, kinds, variants, no_symbols, programs, texts, maps, relocations):
        group(c)
    for group in (orders, patches, rewriting, rooms):
        group(c)
    mixed(c, 500)
    return c.cases


# ---- the files


def runs(values):
    """Each value with how many more of it follow."""
    out = []
    for v in values:
        if out and out[-1][0] == v:
            out[-1][1] += 1
        else:
            out.append([v, 0])
    return out


def packed(values, form):
    return [form % v + ("(%d)" % more if more else "") for v, more in runs(values)]


def hexadecimal(data):
    return "".join(packed(data, "%02x")) or "-"


def line_of(name, deposit, entries, lent, rewrite, room):
    fields = [name, hexadecimal(deposit), ",".join(map(str, entries)) or "-", hexadecimal(lent), str(rewrite)]
    return " ".join(fields + [str(room[table]) for table in model.TABLES]) + "\n"


def printed(name, deposit, entries, lent, rewrite, room):
    return told(name, *model.load(deposit, entries, lent, rewrite, room))


def told(name, answer, held):
    words = ["any" if x is None else str(x) for x in answer]
    out = name + " " + " ".join(words) + "\n"
    if not any(any(values) for values in held.values()):
        return out + "zeros\n"
    for table in model.TABLES[:-1]:
        out += " ".join([table] + packed(held[table], "%d")) + "\n"
    return out + "bytes " + "".join(packed(held["bytes"], "%02x")) + "\n"


def file_texts(case):
    """The name of a file's case, its line, and what is printed of it."""
    return case.name, line_of(*case[:6]), told(case.name, case.answer, case.held)


def crate_part(path):
    """The lines that differential/record put at the end of a file, if it is there."""
    if not os.path.exists(path):
        return []
    with open(path, encoding="ascii") as f:
        lines = f.readlines()
    first = next((k for k, line in enumerate(lines) if line.startswith("crate-")), len(lines))
    return lines[first:]


def main():
    if len(sys.argv) != 2:
        print(__doc__)
        return 2
    cases = [(case[0], line_of(*case), printed(*case)) for case in all_cases()]
    cases += [file_texts(case) for case in elf_cases.all_cases()]
    named = [case[0] for case in cases]
    if len(set(named)) != len(named):
        raise SystemExit("one name twice: %r" % sorted(x for x in set(named) if named.count(x) > 1))
    for file, part in (("stdin", 1), ("stdout", 2)):
        path = os.path.join(sys.argv[1], file)
        recorded = crate_part(path)
        with open(path, "w", encoding="ascii", newline="\n") as f:
            f.writelines(case[part] for case in cases)
            f.writelines(recorded)
    print("%d cases" % len(cases))
    return 0


if __name__ == "__main__":
    sys.exit(main())
