"""What a load answers, by document 01 and its readings (docs/DECISIONS.md, R1 to R33); the rows are those of docs/CATALOGUE.md.

load(deposit, entries, patches, rewrite, room) gives the answer and what each lent element holds at the end. `entries` is the patch list as it is
lent, numbers over the bytes `patches`; `room` has the six lent lengths, that of the function table in numbers too, seven a row.
load_object is the load from 3 on, of an object. An answer is ('accepted', byte order, version or None for any, licence length, and the counts of
sections, programs, functions, maps, relocations, bytes) or ('refused', number, section, symbol, entry)."""
import struct
from collections import namedtuple

TABLES = ("sections", "programs", "functions", "maps", "relocations", "bytes")
WIDTHS = {"sections": 4, "programs": 7, "functions": 7, "maps": 27, "relocations": 4, "bytes": 1}
NONE = 0xFFFFFFFF
TOP = 2**64 - 1
MOST_BYTES = 16777216
MOST_SECTIONS = 4096
MOST_RECORDS = 65536
MOST_NAME = 65535
BLOCK, STREAM = 512, 508

Section = namedtuple("Section", "index mark name address size data relocations")
Symbol = namedtuple("Symbol", "index section name address size kind definition")
Relocation = namedtuple("Relocation", "offset symbol size")
Object = namedtuple("Object", "order sections symbols")
Function = namedtuple("Function", "section address offset name code")
Map = namedtuple("Map", "section kind symbol words own")


class Refused(Exception):
    def __init__(self, number, section=0, symbol=0, entry=0):
        super().__init__(number)
        self.answer = ("refused", number, section, symbol, entry)


def need(condition, number, section=0, symbol=0, entry=0):
    if not condition:
        raise Refused(number, section, symbol, entry)


# ---- the deposit: 1 to 3


def check_of(block, number):
    return sum(k * b for k, b in enumerate(block[:STREAM], 1)) + number


def stream_of(deposit):
    need(0 < len(deposit) <= MOST_BYTES and len(deposit) % BLOCK == 0, 1)
    blocks = [deposit[i : i + BLOCK] for i in range(0, len(deposit), BLOCK)]
    for number, block in enumerate(blocks, 1):
        need(struct.unpack("<I", block[STREAM:])[0] == check_of(block, number), 1)
    return b"".join(block[:STREAM] for block in blocks)


def rises(indexes):
    return all(a < b for a, b in zip([0] + indexes, indexes))


def object_of(stream):
    order, s, y, r, n, d, reserved = struct.unpack("<6IQ", stream[:32])
    need(order < 2 and reserved == 0, 2)
    need(s <= MOST_SECTIONS and y <= MOST_RECORDS and r <= MOST_RECORDS, 2)
    symbols_at = 32 + 48 * s
    relocations_at = symbols_at + 40 * y
    names_at = relocations_at + 16 * r
    data_at = names_at + n
    end = data_at + d
    need(len(stream) == -(-end // STREAM) * STREAM and not any(stream[end:]), 2)
    names, data = stream[names_at:data_at], stream[data_at:end]

    def part(table, at, length):
        need(at + length <= len(table), 2)
        return table[at : at + length]

    def name_of(at, length):
        name = part(names, at, length)
        need(length <= MOST_NAME and all(1 <= c <= 127 for c in name), 2)
        return bytes(name)

    relocations = []
    for k in range(r):
        offset, symbol, size, z0, z1, z2 = struct.unpack_from("<QI4B", stream, relocations_at + 16 * k)
        need(symbol != 0 and z0 == z1 == z2 == 0, 2)
        relocations.append(Relocation(offset, symbol, size))
    sections = []
    for k in range(s):
        index, mark, at, length, address, size, data_from, data_length, first, count = struct.unpack_from("<4I2Q4I", stream, 32 + 48 * k)
        need(mark < 2 and size <= MOST_BYTES, 2)
        mine = part(relocations, first, count)
        sections.append(Section(index, mark, name_of(at, length), address, size, part(data, data_from, data_length), mine))
    symbols = []
    for k in range(y):
        index, section, at, length, address, size, kind, definition = struct.unpack_from("<4I2Q2B", stream, symbols_at + 40 * k)
        need(section != 0 and kind < 3 and definition < 2 and not any(stream[symbols_at + 40 * k + 34 : symbols_at + 40 * k + 40]), 2)
        symbols.append(Symbol(index, section, name_of(at, length), address, size, kind, definition))
    need(rises([x.index for x in sections]) and rises([x.index for x in symbols]), 2)
    return Object(order, sections, symbols)


# ---- names

PREFIXES = (b"license", b"version", b"maps", b".maps", b".text", b".bss", b".data", b".rodata")
KIND_NUMBERS = {b"maps": 1, b".data": 4, b".rodata": 5, b".bss": 6}


def kind_of(section):
    """A prefix, or b'program', or b''."""
    for prefix in PREFIXES:
        if section.name.startswith(prefix):
            return prefix
    return b"program" if section.mark == 1 and section.size > 0 else b""


def plain(number, *names):
    return {name: (number, 0, 0) for name in names}


def sleepable(number, name):
    return {name: (number, 0, 0), name + ".s": (number, 1, 0)}


def probe(number, name):
    return {name: (number, 0, 0), name + ".s": (number, 1, 0), name + ".multi": (number, 0, 1), name + ".multi.s": (number, 1, 1)}


# the first piece alone decides
ALONE = {
    **plain(0, "kretprobe"),
    **plain(1, "kprobe"),
    **probe(2, "uprobe"),
    **probe(3, "uretprobe"),
    **plain(4, "tracepoint", "tp"),
    **plain(5, "socket"),
    **plain(7, "sk_msg"),
    **plain(9, "sockops"),
    **plain(10, "classifier"),
    **plain(15, "lirc_mode2"),
    **plain(16, "perf_event"),
    **plain(17, "raw_tp", "raw_tracepoint"),
    **sleepable(18, "lsm"),
    **plain(19, "lsm_cgroup"),
    **plain(20, "tp_btf"),
    **sleepable(21, "fentry"),
    **sleepable(22, "fexit"),
    **plain(23, "flow_dissector"),
    **plain(24, "freplace"),
    **plain(25, "sk_lookup"),
    **sleepable(29, "iter"),
}
# the second piece is read too; None: there is none
SECOND = {
    "xdp": {None: (6, 0, 0), "cpumap": (6, 0, 1), "devmap": (6, 0, 2)},
    "xdp.frags": {None: (6, 1, 0), "cpumap": (6, 1, 1), "devmap": (6, 1, 2)},
    "sk_skb": {"stream_parser": (8, 0, 0), "stream_verdict": (8, 1, 0)},
    "cgroup_skb": {"ingress": (11, 1, 0), "egress": (11, 2, 0)},
    "sk_reuseport": {None: (26, 0, 0), "migrate": (26, 1, 0)},
    "cgroup": {
        "skb": (11, 0, 0),
        "sysctl": (13, 0, 0),
        "dev": (28, 0, 0),
        "getsockopt": (14, 0, 0),
        "setsockopt": (14, 1, 0),
        "post_bind4": (27, 0, 0),
        "post_bind6": (27, 1, 0),
        "sock_create": (27, 2, 0),
        "sock": (27, 2, 0),
        "sock_release": (27, 3, 0),
        **{
            name: (12, k, 0)
            for k, name in enumerate(
                """bind4 bind6 connect4 connect6 getpeername4 getpeername6 getsockname4 getsockname6 sendmsg4 sendmsg6 recvmsg4
                recvmsg6""".split()
            )
        },
    },
}


def program_section(name):
    """A program's variant and two values, or None where the name is unknown."""
    pieces = name.decode("ascii").split("/")
    if pieces[0] in ALONE:
        return ALONE[pieces[0]]
    return SECOND.get(pieces[0], {}).get(pieces[1] if len(pieces) > 1 else None)


# ---- the sections: 4 to 17


def targets(section):
    need(all(r.symbol != NONE for r in section.relocations), 4, section.index)


def licence_of(sections):
    for x in sections:
        if x.name == b"license":
            targets(x)
            need(len(x.data) >= 2 and 0 not in x.data[:-1], 5, x.index)
            need(x.data[-1] == 0, 6, x.index)
            return x.data[:-1]
    return b"GPL"


def version_of(sections, order):
    for x in sections:
        if x.name == b"version":
            targets(x)
            need(len(x.data) == 4, 7, x.index)
            version = int.from_bytes(x.data, "big" if order == 1 else "little")
            return None if version == 0xFFFFFFFE else version
    return None


class Catalogue:
    def __init__(self, o):
        self.order = o.order
        self.licence = licence_of(o.sections)
        self.version = version_of(o.sections, o.order)
        self.sections, self.programs, self.functions, self.maps, self.relocations = {}, {}, {}, {}, {}
        for x in o.sections:
            if x.name != b".BTF.ext":
                self.take(x, [y for y in o.symbols if y.section == x.index and y.section != NONE])

    def take(self, x, symbols):
        kind = kind_of(x)
        targets(x)
        self.sections[x.name] = (x.index, x.size)
        if kind == b"program":
            self.take_programs(x, symbols)
        elif kind == b"maps":
            self.take_maps(x, symbols)
        elif kind == b".text":
            self.take_text(x, symbols)
        elif kind == b".maps":
            raise Refused(17, x.index)
        elif kind in KIND_NUMBERS:
            own = bytes(x.size) if kind == b".bss" else x.data
            self.maps[x.name] = Map(x.index, KIND_NUMBERS[kind], 0, (2, 4, x.size, 1, 128 if kind == b".rodata" else 0, 0, 0), own)
        if kind in (b"program", b".text"):
            for r in x.relocations:
                self.relocations[x.index, r.offset] = r

    def take_programs(self, x, symbols):
        variant = program_section(x.name)
        need(variant is not None, 8, x.index)
        need(symbols, 9, x.index)
        for y in symbols:
            if y.kind == 1 and y.name:
                need(x.address <= y.address and y.address + y.size <= len(x.data), 10, x.index, y.index)
                need(y.size % 8 == 0, 15, x.index, y.index)
                self.programs[y.name] = (variant, x.index, y.address)
                self.add_function(x, y, y.address)

    def take_maps(self, x, symbols):
        need(symbols, 9, x.index)
        for y in symbols:
            need(y.address + y.size <= len(x.data), 10, x.index, y.index)
            need(y.size >= 20, 16, x.index, y.index)
            record = x.data[y.address : y.address + min(y.size, 28)]
            words = struct.unpack("<7I", record + bytes(28 - len(record)))
            need(words[6] < 2, 16, x.index, y.index)
            self.maps[y.name] = Map(x.index, KIND_NUMBERS[b"maps"], y.index, words, b"")

    def take_text(self, x, symbols):
        at = {}
        for y in symbols:
            if y.kind == 1 and y.definition == 1:
                need(y.address not in at, 11, x.index, y.index)
                at[y.address] = y
        offset = 0
        while offset < len(x.data):
            need(x.address + offset in at, 12, x.index)
            y = at[x.address + offset]
            need(y.size > 0, 13, x.index, y.index)
            need(offset + y.size <= len(x.data), 14, x.index, y.index)
            need(y.size % 8 == 0, 15, x.index, y.index)
            self.add_function(x, y, offset)
            offset += y.size

    def add_function(self, x, y, offset):
        self.functions[x.index, y.address] = Function(x.index, y.address, offset, y.name, x.data[offset : offset + y.size])


# ---- patches and rewriting: 18 to 23


def patch(catalogue, symbols, entries, lent):
    for k in range(-(-len(entries) // 5)):
        entry = k + 1
        numbers = entries[5 * k : 5 * k + 5]
        need(len(numbers) == 5, 18, entry=entry)
        name_at, name_length, data_at, data_length, mark = numbers
        need(name_at + name_length <= len(lent) and data_at + data_length <= len(lent) and mark < 2, 18, entry=entry)
        name, data = lent[name_at : name_at + name_length], lent[data_at : data_at + data_length]
        bearers = [y for y in symbols if y.name == name]
        need(len(bearers) < 2, 19, entry=entry)
        need(bearers or mark == 0, 20, entry=entry)
        if not bearers:
            continue
        [y] = bearers
        need(len(data) == y.size, 21, entry=entry)
        found = [key for key, m in catalogue.maps.items() if m.section == y.section and y.section != NONE]
        need(found, 22, entry=entry)
        m = catalogue.maps[found[0]]
        need(y.address + y.size <= len(m.own), 23, entry=entry)
        catalogue.maps[found[0]] = m._replace(own=m.own[: y.address] + data + m.own[y.address + y.size :])


HELPERS = {112: 4, 113: 4, 114: 45, 115: 45}


def rewritten(code):
    out = bytearray(code)
    for at in range(0, len(code), 8):
        immediate = struct.unpack_from("<i", code, at + 4)[0]
        if code[at] == 0x85 and code[at + 1] == 0 and immediate in HELPERS:
            struct.pack_into("<i", out, at + 4, HELPERS[immediate])
    return bytes(out)


# ---- the lent rows


def image(c):
    """Each table's numbers, and the bytes."""
    sections = sorted(c.sections.items())
    programs = sorted(c.programs.items())
    functions = [f for _, f in sorted(c.functions.items())]
    maps = sorted(c.maps.items())
    out = bytearray(c.licence)

    def places(pieces):
        at = []
        for piece in pieces:
            at.append((len(out), len(piece)))
            out.extend(piece)
        return at

    rows = {}
    rows["sections"] = [[*at, *x] for at, (_, x) in zip(places(name for name, _ in sections), sections)]
    rows["programs"] = [[*at, *variant, x, a] for at, (_, (variant, x, a)) in zip(places(name for name, _ in programs), programs)]
    names = places(f.name for f in functions)
    code = places(f.code for f in functions)
    rows["functions"] = [[f.section, f.address, f.offset, *n, *k] for f, n, k in zip(functions, names, code)]
    names = places(name for name, _ in maps)
    own = places(m.own for _, m in maps)
    rows["maps"] = [[*n, m.section, m.kind, m.symbol, *k, *m.words] + [0] * 13 for (_, m), n, k in zip(maps, names, own)]
    rows["relocations"] = [[x, offset, r.size, r.symbol] for (x, offset), r in sorted(c.relocations.items())]
    rows["bytes"] = [[b] for b in out]
    return rows


def loaded(o, entries, patches, rewrite, room):
    need(all(x.name != b".BTF" for x in o.sections), 3)
    c = Catalogue(o)
    patch(c, o.symbols, entries, patches)
    if rewrite:
        c.functions = {key: f._replace(code=rewritten(f.code)) for key, f in c.functions.items()}
    rows = image(c)
    for table in TABLES:
        need(len(rows[table]) * WIDTHS[table] <= room[table], 24)
    return ("accepted", c.order, c.version, len(c.licence), *(len(rows[table]) for table in TABLES)), rows


def outcome(read, entries, patches, rewrite, room):
    try:
        answer, rows = loaded(read(), entries, patches, rewrite, room)
    except Refused as refused:
        answer, rows = refused.answer, {table: [] for table in TABLES}
    numbers = {table: [x for row in rows[table] for x in row] for table in TABLES}
    return answer, {table: numbers[table] + [0] * (room[table] - len(numbers[table])) for table in TABLES}


def load(deposit, entries, patches, rewrite, room):
    """The answer, and what each lent slice holds: a list of numbers for each name of TABLES."""
    return outcome(lambda: object_of(stream_of(deposit)), entries, patches, rewrite, room)


def load_object(o, entries, patches, rewrite, room):
    """The same of an object, from 3 on."""
    return outcome(lambda: o, entries, patches, rewrite, room)
