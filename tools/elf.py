"""The records of a 64-bit ELF relocatable object for BPF, of either byte order, as the crate aya-obj reads it through the crate object 0.37.3.

Used are the section headers, the first symbol table, and the REL and RELA tables linked to it that relocate a section. Every section is a record,
the file's own tables too. Extended numbering isn't followed, and symbol types from 5 on are of no kind.
The crate is laxer on the file's type, machine and entry sizes, and passes over relocation tables that aren't whole entries; such a file is unfit
here. It is stricter on tables that aren't aligned to 8, which are read here."""
import struct
from collections import namedtuple

from records import BLOCK, HEAD, NONE, RELOCATION, SECTION, STREAM, SYMBOL, Relocation, Section, Symbol

RELOCATABLE, BPF = 1, 247
PROGBITS, SYMTAB, STRTAB, RELA, NOBITS, REL, CREL = 1, 2, 3, 4, 8, 9, 0x40000014
ALLOC_AND_EXECINSTR = 6
RESERVED = 0xFF00  # the first reserved section number
EXTENDED = 0xFFFF
KINDS = {2: 1, 1: 2}  # of a symbol, by its type: function, object
RELOCATION_SIZES = {1: 64, 10: 32}  # by relocation type

# document 01's limits
MOST_BYTES = 16777216
MOST_SECTIONS = 4096
MOST_RECORDS = 65536
MOST_NAME = 65535

FILE_HEADER = "16sHHIQQQIHHHHHH"
SECTION_HEADER = "IIQQQQIIQQ"
SYMBOL_ENTRY = "IBBHQQ"
RELOCATION_ENTRIES = {REL: "QQ", RELA: "QQq"}

FileHeader = namedtuple("FileHeader", "ident type machine version entry phoff shoff flags ehsize phentsize phnum shentsize shnum shstrndx")
Header = namedtuple("Header", "name type flags address offset size link info align entry_size")

BTF = {b".BTF", b".BTF.ext"}
BTF_AND_ITS_RELOCATIONS = BTF | {kind + name for kind in (b".rel", b".rela") for name in BTF}


class Unfit(Exception):
    """Why a file has no deposit."""


def need(condition, reason):
    if not condition:
        raise Unfit(reason)


def order_of(file):
    """0 little, 1 big."""
    need(file[:4] == b"\x7fELF", "not an ELF file")
    need(len(file) >= struct.calcsize("<" + FILE_HEADER), "ends within its ELF header")
    need(file[4] == 2, "a 32-bit ELF file, not a 64-bit one" if file[4] == 1 else f"of ELF class {file[4]}, not 2")
    need(file[5] in (1, 2), f"of ELF byte order {file[5]}, neither 1 nor 2")
    need(file[6] == 1, f"of ELF version {file[6]}, not 1")
    return file[5] - 1


class Elf:
    def __init__(self, file):
        need(len(file) <= MOST_BYTES, f"longer than {MOST_BYTES} bytes")
        self.file = file
        self.order = order_of(file)
        self.length = HEAD.size  # of the stream so far
        self.header = header = FileHeader(*self.layout(FILE_HEADER).unpack_from(file))
        need(header.type == RELOCATABLE, f"not a relocatable object: its ELF type is {header.type}, not {RELOCATABLE}")
        need(header.machine == BPF, f"not an object for BPF: its machine is {header.machine}, not {BPF}")
        self.headers = self.section_headers()
        self.names = self.strings(header.shstrndx, "the file header") if self.headers else b""
        self.numbered = list(enumerate(self.headers))[1:]
        self.symbol_table = next((index for index, x in self.numbered if x.type == SYMTAB), 0)
        self.relocation_tables = self.tables_by_target()

    def layout(self, fields):
        return struct.Struct("<>"[self.order] + fields)

    def part(self, at, length, what):
        need(length == 0 or at + length <= len(self.file), f"{what} reaches outside the file")
        return self.file[at : at + length]

    def section_headers(self):
        """By section number; the first is no section."""
        header, layout = self.header, self.layout(SECTION_HEADER)
        if header.shoff == 0:
            return []
        need(header.shentsize == layout.size, f"section headers have {header.shentsize} bytes, not {layout.size}")
        need(header.shnum > 0, "its number of sections is extended, which isn't read")
        need(header.shstrndx != EXTENDED, "its number of the section names is extended, which isn't read")
        table = self.part(header.shoff, header.shnum * layout.size, "the section header table")
        return [Header(*fields) for fields in layout.iter_unpack(table)]

    def strings(self, index, what):
        fits = 0 < index < len(self.headers) and self.headers[index].type == STRTAB
        need(fits, f"{what} names section {index} for its names, which is no string table")
        return self.part(self.headers[index].offset, self.headers[index].size, f"string table {index}")

    def entries(self, index, fields):
        """The entries of a symbol or relocation table."""
        x, layout, what = self.headers[index], self.layout(fields), f"table {index}"
        need(x.entry_size == layout.size, f"{what} has entries of {x.entry_size} bytes, not {layout.size}")
        need(x.size % layout.size == 0, f"{what} has {x.size} bytes, which aren't whole entries of {layout.size}")
        return layout.iter_unpack(self.part(x.offset, x.size, what))

    def tables_by_target(self):
        """The relocation tables in use by the section that they relocate, each list in section order."""
        tables = {}
        for index, x in self.numbered:
            # without a symbol table the crate takes the tables that are linked to none
            if x.type in (REL, RELA, CREL) and x.link == self.symbol_table and x.info != 0:
                need(x.type != CREL, f"relocation table {index} is compact, which isn't read")
                fits = x.info < len(self.headers) and self.headers[x.info].type not in (REL, RELA, CREL)
                need(fits, f"relocation table {index} relocates section {x.info}, which is no section that can be")
                tables.setdefault(x.info, []).append(index)
        return tables

    def take(self, length):
        """Counts what the deposit will hold, before it is copied."""
        self.length += length
        need(self.length <= MOST_BYTES // BLOCK * STREAM, f"its deposit is longer than {MOST_BYTES} bytes")

    def name_of(self, strings, at, what):
        end = strings.find(b"\0", at)
        need(end >= 0, f"the name of {what} reaches outside its string table")
        need(end - at <= MOST_NAME, f"the name of {what} is longer than {MOST_NAME} bytes")
        name = strings[at:end]
        need(name.isascii(), f"the name of {what} has a byte above 127")
        return name

    def data_of(self, x, what):
        need(x.size <= MOST_BYTES, f"{what} has {x.size} bytes, more than {MOST_BYTES}")
        if x.type == NOBITS:
            return b""
        self.take(x.size)
        return self.part(x.offset, x.size, what)

    def relocations(self, index):
        for table in self.relocation_tables.get(index, []):
            for offset, info, *_ in self.entries(table, RELOCATION_ENTRIES[self.headers[table].type]):
                symbol, kind = info >> 32, info & 0xFFFFFFFF
                need(symbol != NONE, f"a relocation of table {table} names symbol {symbol}, which means none in a deposit")
                self.take(RELOCATION.size)
                yield Relocation(offset, symbol or NONE, RELOCATION_SIZES.get(kind, 0))

    def section_name(self, index):
        return self.name_of(self.names, self.headers[index].name, f"section {index}")

    def sections(self, left_out):
        for index, x in self.numbered:
            name = self.section_name(index)
            if name not in left_out:
                self.take(SECTION.size + len(name))
                mark = x.type == PROGBITS and x.flags & ALLOC_AND_EXECINSTR == ALLOC_AND_EXECINSTR
                data = self.data_of(x, f"section {index} ({name.decode()!r})")
                yield Section(index, int(mark), name, x.address, x.size, data, list(self.relocations(index)))

    def symbols(self):
        if self.symbol_table == 0:
            return
        strings = self.strings(self.headers[self.symbol_table].link, f"symbol table {self.symbol_table}")
        for index, entry in enumerate(self.entries(self.symbol_table, SYMBOL_ENTRY)):
            at, info, _, section, address, size = entry
            if index > 0:
                name = self.name_of(strings, at, f"symbol {index}")
                self.take(SYMBOL.size + len(name))
                kind, placed = KINDS.get(info & 15, 0), 0 < section < RESERVED
                yield Symbol(index, section if placed else NONE, name, address, size, kind, int(kind != 0 and placed))


def records_of(file, btf=True):
    """The byte order, the sections and the symbols; without BTF where that is asked."""
    elf = Elf(file)
    sections = list(elf.sections(() if btf else BTF_AND_ITS_RELOCATIONS))
    symbols = list(elf.symbols())
    for count, most, what in (
        (len(sections), MOST_SECTIONS, "sections"),
        (len(symbols), MOST_RECORDS, "symbols"),
        (sum(len(x.relocations) for x in sections), MOST_RECORDS, "relocations"),
    ):
        need(count <= most, f"{count} {what}, more than {most}")
    return elf.order, sections, symbols
