//! The 64-bit ELF relocatable that states records: their sections keep their indexes, the file's own tables come last.
use std::collections::HashMap;

use crate::case::{Extent, NONE, Records, SectionRecord, SymbolRecord};
use crate::rules::piece;

const HEAD: u64 = 64;
const SECTION_HEADER: u16 = 64;
const PROGBITS: u32 = 1;
const SYMTAB: u32 = 2;
const STRTAB: u32 = 3;
const NOBITS: u32 = 8;
const REL: u32 = 9;
const ALLOC: u64 = 2;
const EXECINSTR: u64 = 4;
const INFO_LINK: u64 = 0x40;
const GLOBAL: u8 = 1 << 4;
/// The section of symbols whose section isn't in the table: above every section of a file and below the reserved numbers.
const ABSENT: u16 = 0xFEFF;

/// The records must be in the domain of comparison.
pub fn write(records: &Records) -> Vec<u8> {
    let mut out = Out {
        bytes: vec![0; HEAD as usize],
        big: records.order == 1,
    };
    out.bytes.extend(&records.data);
    let mut strings = Strings::new();
    let own_name = strings.own_name(records);
    let section_names: Vec<u32> = records
        .sections
        .iter()
        .map(|x| strings.place(records, x.name))
        .collect();
    let symbols = symbols(records, &mut strings, out.big);
    let strings_at = out.put(&strings.bytes);
    let symbols_at = out.put(&symbols);
    let relocations_at = out.put(&relocations(records, out.big));

    let mut headers = vec![Header::default()];
    headers.extend(
        records
            .sections
            .iter()
            .zip(section_names)
            .map(|(x, name)| section_header(x, name)),
    );
    let own = |kind, offset, size: usize| Header {
        name: own_name,
        kind,
        offset,
        size: size as u64,
        align: 8,
        ..Default::default()
    };
    let strings_index = headers.len() as u32;
    headers.push(own(STRTAB, strings_at, strings.bytes.len()));
    let mut symbols_index = 0;
    if !records.symbols.is_empty() {
        symbols_index = headers.len() as u32;
        headers.push(Header {
            link: strings_index,
            info: 1,
            entry: 24,
            ..own(SYMTAB, symbols_at, symbols.len())
        });
    }
    for section in records.sections.iter().filter(|x| x.relocations.length > 0) {
        let table = own(
            REL,
            relocations_at + 16 * u64::from(section.relocations.at),
            16 * section.relocations.length as usize,
        );
        headers.push(Header {
            flags: INFO_LINK,
            link: symbols_index,
            info: section.index,
            entry: 16,
            ..table
        });
    }
    let headers_at = out.align();
    for header in &headers {
        out.header(header);
    }
    let head = head(
        records.order == 1,
        headers_at,
        headers.len() as u16,
        strings_index as u16,
    );
    out.bytes[..head.len()].copy_from_slice(&head);
    out.bytes
}

/// Names, each closed by a zero.
struct Strings {
    bytes: Vec<u8>,
    places: HashMap<(u32, u32), u32>,
}

impl Strings {
    fn new() -> Strings {
        Strings {
            bytes: vec![0],
            places: HashMap::new(),
        }
    }

    fn place(&mut self, records: &Records, name: Extent) -> u32 {
        if name.length == 0 {
            return 0;
        }
        *self
            .places
            .entry((name.at, name.length))
            .or_insert_with(|| add(&mut self.bytes, piece(&records.names, name)))
    }

    /// All own tables have one name, which no section of the records has.
    fn own_name(&mut self, records: &Records) -> u32 {
        let mut name = b"~".to_vec();
        while records
            .sections
            .iter()
            .any(|x| piece(&records.names, x.name) == name)
        {
            name.push(b'~');
        }
        add(&mut self.bytes, &name)
    }
}

fn add(strings: &mut Vec<u8>, name: &[u8]) -> u32 {
    let at = strings.len() as u32;
    strings.extend(name);
    strings.push(0);
    at
}

/// The symbol table, its first entry empty; nothing where there is no symbol.
fn symbols(records: &Records, strings: &mut Strings, big: bool) -> Vec<u8> {
    if records.symbols.is_empty() {
        return Vec::new();
    }
    let mut out = Out {
        bytes: vec![0; 24],
        big,
    };
    for symbol in &records.symbols {
        out.u32(strings.place(records, symbol.name));
        out.bytes.extend([GLOBAL | symbol_type(symbol), 0]);
        out.u16(symbol_section(records, symbol));
        out.u64(symbol.address);
        out.u64(symbol.size);
    }
    out.bytes
}

fn symbol_type(symbol: &SymbolRecord) -> u8 {
    match symbol.kind {
        1 => 2, // STT_FUNC
        2 => 1, // STT_OBJECT
        _ => 0, // STT_NOTYPE
    }
}

fn symbol_section(records: &Records, symbol: &SymbolRecord) -> u16 {
    match symbol.section {
        NONE => 0,
        index if index as usize <= records.sections.len() => index as u16,
        _ => ABSENT,
    }
}

/// All relocation records, in their order; a section's table is a part of them.
fn relocations(records: &Records, big: bool) -> Vec<u8> {
    let mut out = Out {
        bytes: Vec::new(),
        big,
    };
    for relocation in &records.relocations {
        let symbol = if relocation.symbol == NONE {
            0
        } else {
            relocation.symbol
        };
        let kind = match relocation.size {
            64 => 1,
            32 => 10,
            _ => 2,
        };
        out.u64(relocation.offset);
        out.u64(u64::from(symbol) << 32 | kind);
    }
    out.bytes
}

fn section_header(section: &SectionRecord, name: u32) -> Header {
    let without_data = section.bytes.length == 0 && section.size > 0;
    Header {
        name,
        kind: if without_data { NOBITS } else { PROGBITS },
        flags: if section.mark == 1 {
            ALLOC | EXECINSTR
        } else {
            ALLOC
        },
        address: section.address,
        offset: HEAD + u64::from(section.bytes.at),
        size: section.size,
        align: 1,
        ..Default::default()
    }
}

/// The file's header.
pub fn head(big: bool, headers_at: u64, headers: u16, strings_index: u16) -> Vec<u8> {
    let mut out = Out {
        bytes: vec![0x7F, b'E', b'L', b'F', 2, if big { 2 } else { 1 }, 1],
        big,
    };
    out.bytes.resize(16, 0);
    out.u16(1); // relocatable
    out.u16(247); // BPF
    out.u32(1);
    out.u64(0);
    out.u64(0);
    out.u64(headers_at);
    out.u32(0);
    for n in [HEAD as u16, 0, 0, SECTION_HEADER, headers, strings_index] {
        out.u16(n);
    }
    out.bytes
}

/// A section's header.
#[derive(Default)]
pub struct Header {
    pub name: u32,
    pub kind: u32,
    pub flags: u64,
    pub address: u64,
    pub offset: u64,
    pub size: u64,
    pub link: u32,
    pub info: u32,
    pub align: u64,
    pub entry: u64,
}

/// Bytes with numbers in the object's byte order.
pub struct Out {
    pub bytes: Vec<u8>,
    pub big: bool,
}

impl Out {
    pub fn u16(&mut self, n: u16) {
        self.bytes.extend(if self.big {
            n.to_be_bytes()
        } else {
            n.to_le_bytes()
        });
    }

    pub fn u32(&mut self, n: u32) {
        self.bytes.extend(if self.big {
            n.to_be_bytes()
        } else {
            n.to_le_bytes()
        });
    }

    pub fn u64(&mut self, n: u64) {
        self.bytes.extend(if self.big {
            n.to_be_bytes()
        } else {
            n.to_le_bytes()
        });
    }

    /// Fills up to a multiple of 8 and says where that is.
    fn align(&mut self) -> u64 {
        self.bytes.resize(self.bytes.len().next_multiple_of(8), 0);
        self.bytes.len() as u64
    }

    fn put(&mut self, table: &[u8]) -> u64 {
        let at = self.align();
        self.bytes.extend(table);
        at
    }

    pub fn header(&mut self, header: &Header) {
        self.u32(header.name);
        self.u32(header.kind);
        for n in [header.flags, header.address, header.offset, header.size] {
            self.u64(n);
        }
        self.u32(header.link);
        self.u32(header.info);
        self.u64(header.align);
        self.u64(header.entry);
    }
}

#[cfg(test)]
mod tests {
    use super::*;
    use crate::sample::Sample;

    /// Little-endian fields of a file, by their widths.
    fn number(file: &[u8], at: usize, width: usize) -> u64 {
        (0..width)
            .rev()
            .fold(0, |sum, k| sum << 8 | u64::from(file[at + k]))
    }

    /// Name, type, flags, offset, size, link, info of a section.
    fn header(file: &[u8], index: usize) -> (Vec<u8>, u64, u64, usize, usize, u64, u64) {
        let at = number(file, 40, 8) as usize + 64 * index;
        let strings = number(file, 40, 8) as usize + 64 * number(file, 62, 2) as usize;
        let name = number(file, strings + 24, 8) as usize + number(file, at, 4) as usize;
        let end = name + file[name..].iter().position(|&b| b == 0).unwrap();
        let n = |offset, width| number(file, at + offset, width);
        (
            file[name..end].to_vec(),
            n(4, 4),
            n(8, 8),
            n(24, 8) as usize,
            n(32, 8) as usize,
            n(40, 4),
            n(44, 4),
        )
    }

    fn sample() -> Sample {
        let mut o = Sample::default();
        o.program("xdp", b"12345678")
            .relocation(8, 3)
            .relocation(0, NONE)
            .section("~", b"abc")
            .section(".bss", b"");
        o.records.sections[2].size = 40;
        o.records.relocations[1].size = 32;
        o.symbol("p", 1, 0, 8, 1)
            .symbol("dd", 2, 1, 2, 2)
            .symbol("n", NONE, 0, 0, 0)
            .symbol("", 7, 0, 0, 0);
        o
    }

    #[test]
    fn sections_and_own_tables() {
        let file = write(&sample().records);
        assert_eq!(&file[..8], b"\x7fELF\x02\x01\x01\0");
        assert_eq!(
            (
                number(&file, 16, 2),
                number(&file, 18, 2),
                number(&file, 60, 2)
            ),
            (1, 247, 7)
        );
        assert_eq!(header(&file, 1), (b"xdp".to_vec(), 1, 6, 64, 8, 0, 0));
        assert_eq!(header(&file, 2), (b"~".to_vec(), 1, 2, 72, 3, 0, 0));
        assert_eq!(header(&file, 3), (b".bss".to_vec(), 8, 2, 75, 40, 0, 0));
        assert_eq!(&file[64..75], b"12345678abc");
        let (name, kind, _, at, size, link, info) = header(&file, 5);
        assert_eq!(
            (name, kind, at % 8, size, link, info),
            (b"~~".to_vec(), 2, 0, 5 * 24, 4, 1)
        );
        let (name, kind, flags, at, size, link, info) = header(&file, 6);
        assert_eq!(
            (name, kind, flags, at % 8, size, link, info),
            (b"~~".to_vec(), 9, 0x40, 0, 32, 5, 1)
        );
        assert_eq!(
            [0, 8, 16, 24].map(|k| number(&file, at + k, 8)),
            [8, 3 << 32 | 1, 0, 10]
        );
    }

    #[test]
    fn symbol_types_and_sections() {
        let file = write(&sample().records);
        let (_, _, _, at, ..) = header(&file, 5);
        let symbol = |k: usize| {
            (
                number(&file, at + 24 * k + 4, 1),
                number(&file, at + 24 * k + 6, 2),
                number(&file, at + 24 * k + 8, 8),
            )
        };
        assert_eq!(
            [1, 2, 3, 4].map(symbol),
            [(0x12, 1, 0), (0x11, 2, 1), (0x10, 0, 0), (0x10, 0xFEFF, 0)]
        );
    }

    #[test]
    fn an_empty_section_is_no_nobits() {
        let file = write(&Sample::default().program("xdp", b"").records);
        assert_eq!(header(&file, 1), (b"xdp".to_vec(), 1, 6, 64, 0, 0, 0));
    }

    #[test]
    fn without_symbols_there_is_no_symbol_table() {
        let mut o = Sample::default();
        o.section(".data", b"x").relocation(0, 1);
        let file = write(&o.records);
        assert_eq!(number(&file, 60, 2), 4);
        let (_, kind, _, _, size, link, info) = header(&file, 3);
        assert_eq!((kind, size, link, info), (9, 16, 0, 1));
    }

    #[test]
    fn ranges_that_are_shared_stay_shared() {
        let mut o = sample();
        o.records.sections[1].bytes = Extent { at: 6, length: 3 };
        o.records.sections[1].relocations = Extent { at: 1, length: 1 };
        let file = write(&o.records);
        assert_eq!(header(&file, 2).3, 70);
        assert_eq!(header(&file, 7).3, header(&file, 6).3 + 16);
    }

    #[test]
    fn big_endian_fields() {
        let mut o = sample();
        o.records.order = 1;
        let file = write(&o.records);
        assert_eq!((file[5], &file[16..20]), (2, &[0, 1, 0, 247][..]));
        let at = u64::from_be_bytes(file[40..48].try_into().unwrap()) as usize;
        assert_eq!(file[at + 64 + 32..at + 64 + 40], 8u64.to_be_bytes());
    }
}
