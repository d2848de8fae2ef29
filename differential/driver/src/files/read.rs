//! What an ELF file comes to: 25, 26, or the records that it states. Written from paper 1 of document 02 and its readings E1 to E35
//! (docs/DECISIONS.md), apart from the definitions and the code: it is there to disagree.
use std::collections::HashMap;

use crate::case::{Extent, NONE, Records, RelocationRecord, SectionRecord, SymbolRecord};
use crate::rules::{MOST_BYTES, MOST_NAME, MOST_RECORDS, MOST_SECTIONS};

pub const HEAD: usize = 64;
pub const SECTION_HEADER: u64 = 64;
pub const SYMBOL: u64 = 24;
pub const PROGBITS: u32 = 1;
pub const SYMTAB: u32 = 2;
pub const STRTAB: u32 = 3;
pub const RELA: u32 = 4;
pub const NOBITS: u32 = 8;
pub const REL: u32 = 9;
/// Alloc and execinstr.
pub const TEXT_FLAGS: u64 = 6;
/// Section numbers of symbols from here on are reserved.
pub const RESERVED: u16 = 0xFF00;

/// The records, or the number that the file goes back with. Names and data are ranges of the file itself.
pub fn read(file: &[u8]) -> Result<Records, u32> {
    let file = File::of(file);
    if file.differs() {
        return Err(25);
    }
    file.records().ok_or(26)
}

/// The headers of a file, as far as it goes.
pub struct File<'a> {
    pub bytes: &'a [u8],
    pub big: bool,
    /// e_shoff, and e_shnum where that isn't 0.
    pub headers_at: u64,
    pub count: u64,
    /// e_shstrndx.
    names: u32,
    /// Sections 1 and on whose first 48 bytes are present (E6, E13).
    pub sections: Vec<Header>,
}

#[derive(Clone, Copy, Debug)]
pub struct Header {
    pub index: u32,
    /// Where it stands in the file.
    pub at: usize,
    pub name: u32,
    pub kind: u32,
    pub flags: u64,
    pub address: u64,
    pub offset: u64,
    pub size: u64,
    pub link: u32,
    pub info: u32,
}

impl Header {
    pub fn relocates(&self) -> bool {
        self.kind == REL || self.kind == RELA
    }

    /// Of a symbol or relocation table.
    pub fn entry_size(&self) -> u64 {
        if self.kind == REL { 16 } else { 24 }
    }

    fn entries(&self) -> u64 {
        self.size / self.entry_size()
    }

    fn whole(&self) -> bool {
        self.size % self.entry_size() == 0
    }

    /// What it has in the file (E16, E17).
    pub fn data(&self) -> Extent {
        match self.size {
            _ if self.kind == NOBITS => Extent::default(),
            0 => Extent::default(),
            size => Extent {
                at: self.offset as u32,
                length: size as u32,
            },
        }
    }
}

impl<'a> File<'a> {
    pub fn of(bytes: &'a [u8]) -> File<'a> {
        let mut file = File {
            bytes,
            big: bytes.get(5) == Some(&2),
            headers_at: 0,
            count: 0,
            names: 0,
            sections: Vec::new(),
        };
        if bytes.len() < HEAD {
            return file;
        }
        file.headers_at = file.number(40, 8);
        // E10, E11
        if file.headers_at != 0 {
            file.count = file.number(60, 2);
        }
        file.names = file.number(62, 2) as u32;
        file.sections = (1..file.count)
            .map_while(|index| file.header(index))
            .collect();
        file
    }

    /// A field that is present, in the file's byte order (E34).
    pub fn number(&self, at: usize, width: usize) -> u64 {
        let add = |sum: u64, byte: &u8| sum << 8 | u64::from(*byte);
        let bytes = self.bytes[at..at + width].iter();
        if self.big {
            bytes.fold(0, add)
        } else {
            bytes.rev().fold(0, add)
        }
    }

    fn header(&self, index: u64) -> Option<Header> {
        let at = self.headers_at.checked_add(SECTION_HEADER * index)?;
        let end = at.checked_add(48)?;
        if end > self.bytes.len() as u64 {
            return None;
        }
        let at = at as usize;
        Some(Header {
            index: index as u32,
            at,
            name: self.number(at, 4) as u32,
            kind: self.number(at + 4, 4) as u32,
            flags: self.number(at + 8, 8),
            address: self.number(at + 16, 8),
            offset: self.number(at + 24, 8),
            size: self.number(at + 32, 8),
            link: self.number(at + 40, 4) as u32,
            info: self.number(at + 44, 4) as u32,
        })
    }

    pub fn section(&self, index: u32) -> Option<&Header> {
        self.sections.get((index as usize).checked_sub(1)?)
    }

    /// The first symbol table (E24).
    pub fn symbols(&self) -> Option<&Header> {
        self.sections.iter().find(|x| x.kind == SYMTAB)
    }

    /// The relocation tables in use (E27).
    pub fn relocations(&self) -> impl Iterator<Item = &Header> {
        let symbols = self.symbols().map_or(0, |x| x.index);
        self.sections
            .iter()
            .filter(move |x| x.relocates() && x.link == symbols && x.info != 0)
    }

    /// Number 25.
    fn differs(&self) -> bool {
        let order = if self.big { 2 } else { 1 };
        self.differ(0, &[0x7F, b'E', b'L', b'F', 2, order, 1])
            || self.number_differs(16, 2, 1)
            || self.number_differs(18, 2, 247)
            || self.number_differs(58, 2, SECTION_HEADER)
            || self
                .symbols()
                .into_iter()
                .chain(self.relocations())
                .any(|x| self.number_differs(x.at + 56, 8, x.entry_size()))
    }

    /// Byte by byte; a byte past the end differs from nothing (E1).
    fn differ(&self, at: usize, expected: &[u8]) -> bool {
        let present = self.bytes.iter().skip(at);
        present.zip(expected).any(|(byte, other)| byte != other)
    }

    fn number_differs(&self, at: usize, width: usize, expected: u64) -> bool {
        if self.big {
            self.differ(at, &expected.to_be_bytes()[8 - width..])
        } else {
            self.differ(at, &expected.to_le_bytes()[..width])
        }
    }

    /// None is number 26.
    fn records(&self) -> Option<Records> {
        need(self.bytes.len() >= HEAD && self.bytes.len() <= MOST_BYTES)?;
        need(self.count == 0 || self.inside(self.headers_at, SECTION_HEADER * self.count))?;
        need(self.count <= 1 + MOST_SECTIONS as u64)?;
        need(self.sections.iter().all(|x| self.has_data_inside(x)))?;
        let mut records = Records {
            order: u32::from(self.big),
            names: self.bytes.to_vec(),
            data: self.bytes.to_vec(),
            ..Default::default()
        };
        if self.count > 0 {
            let names = self.strings(self.names)?;
            let tables = self.tables_by_target()?;
            for x in &self.sections {
                let section = self.section_record(x, &names, &tables, &mut records.relocations)?;
                records.sections.push(section);
            }
        }
        if let Some(table) = self.symbols() {
            records.symbols = self.symbol_records(table)?;
        }
        Some(records)
    }

    fn inside(&self, at: u64, length: u64) -> bool {
        at.checked_add(length)
            .is_some_and(|end| end <= self.bytes.len() as u64)
    }

    fn has_data_inside(&self, x: &Header) -> bool {
        let reaches = x.kind != NOBITS && x.size > 0;
        x.size <= MOST_BYTES as u64 && (!reaches || self.inside(x.offset, x.size))
    }

    /// A string table that a used link names (E20, E21).
    fn strings(&self, index: u32) -> Option<Strings> {
        let x = self.section(index)?;
        need(x.kind == STRTAB)?;
        Some(Strings::of(self.bytes, x.data()))
    }

    /// The tables in use by the section that they relocate, in section order (E29, E30, E33).
    fn tables_by_target(&self) -> Option<HashMap<u32, Vec<Header>>> {
        let mut out: HashMap<u32, Vec<Header>> = HashMap::new();
        let mut entries = 0;
        for table in self.relocations() {
            need(table.whole() && !self.section(table.info)?.relocates())?;
            entries += table.entries();
            out.entry(table.info).or_default().push(*table);
        }
        need(entries <= MOST_RECORDS as u64)?;
        Some(out)
    }

    fn section_record(
        &self,
        x: &Header,
        names: &Strings,
        tables: &HashMap<u32, Vec<Header>>,
        relocations: &mut Vec<RelocationRecord>,
    ) -> Option<SectionRecord> {
        let first = relocations.len() as u32;
        for table in tables.get(&x.index).into_iter().flatten() {
            let entries = (0..table.entries()).map(|k| self.relocation_record(table, k));
            relocations.extend(entries);
        }
        Some(SectionRecord {
            index: x.index,
            mark: u32::from(x.kind == PROGBITS && x.flags & TEXT_FLAGS == TEXT_FLAGS),
            name: names.name(x.name)?,
            address: x.address,
            size: x.size,
            bytes: x.data(),
            relocations: Extent {
                at: first,
                length: relocations.len() as u32 - first,
            },
        })
    }

    /// E31, E32.
    fn relocation_record(&self, table: &Header, k: u64) -> RelocationRecord {
        let at = (table.offset + table.entry_size() * k) as usize;
        let info = self.number(at + 8, 8);
        let symbol = (info >> 32) as u32;
        RelocationRecord {
            offset: self.number(at, 8),
            symbol: if symbol == 0 { NONE } else { symbol },
            size: match info as u32 {
                1 => 64,
                10 => 32,
                _ => 0,
            },
        }
    }

    fn symbol_records(&self, table: &Header) -> Option<Vec<SymbolRecord>> {
        let names = self.strings(table.link)?;
        need(table.whole() && table.entries() <= 1 + MOST_RECORDS as u64)?;
        (1..table.entries())
            .map(|k| self.symbol_record(table, &names, k))
            .collect()
    }

    /// E26.
    fn symbol_record(&self, table: &Header, names: &Strings, k: u64) -> Option<SymbolRecord> {
        let at = (table.offset + SYMBOL * k) as usize;
        let kind = match self.bytes[at + 4] & 15 {
            2 => 1,
            1 => 2,
            _ => 0,
        };
        let section = match self.number(at + 6, 2) as u16 {
            0 | RESERVED.. => NONE,
            number => number.into(),
        };
        Some(SymbolRecord {
            index: k as u32,
            section,
            name: names.name(self.number(at, 4) as u32)?,
            address: self.number(at + 8, 8),
            size: self.number(at + 16, 8),
            kind,
            definition: u8::from(kind != 0 && section != NONE),
        })
    }
}

fn need(condition: bool) -> Option<()> {
    condition.then_some(())
}

/// Where in the file a string table lies, and in it its zeros and its bytes above 127.
struct Strings {
    table: Extent,
    zeros: Vec<u32>,
    high: Vec<u32>,
}

impl Strings {
    fn of(file: &[u8], table: Extent) -> Strings {
        let at = table.at as usize;
        let bytes = &file[at..at + table.length as usize];
        let places = |fits: fn(u8) -> bool| {
            let all = bytes.iter().zip(0..).filter(|(byte, _)| fits(**byte));
            all.map(|(_, place)| place).collect()
        };
        Strings {
            table,
            zeros: places(|byte| byte == 0),
            high: places(|byte| byte > 127),
        }
    }

    /// E22, E23.
    fn name(&self, at: u32) -> Option<Extent> {
        let next = |places: &[u32]| places.get(places.partition_point(|p| *p < at)).copied();
        let end = next(&self.zeros)?;
        let length = end - at;
        need(length <= MOST_NAME && next(&self.high).is_none_or(|high| high > end))?;
        Some(Extent {
            at: self.table.at + at,
            length,
        })
    }
}

#[cfg(test)]
mod tests;
