//! Changes to a file's numbers, by their places.
use crate::rules::piece;

use super::read::{File, Header, SECTION_HEADER};

/// Where a number stands in its header, and its bytes.
#[derive(Clone, Copy, Debug, PartialEq, Eq)]
pub struct Field(pub usize, pub usize);

/// Of the file's header.
pub const TYPE: Field = Field(16, 2);
pub const MACHINE: Field = Field(18, 2);
pub const PHOFF: Field = Field(32, 8);
pub const SHOFF: Field = Field(40, 8);
pub const PHNUM: Field = Field(56, 2);
pub const SHENTSIZE: Field = Field(58, 2);
pub const SHNUM: Field = Field(60, 2);
pub const SHSTRNDX: Field = Field(62, 2);
/// Those that nobody looks at: version, entry, flags, ehsize, phentsize.
pub const FREE: [Field; 5] = [
    Field(20, 4),
    Field(24, 8),
    Field(48, 4),
    Field(52, 2),
    Field(54, 2),
];

/// Of a section's header.
pub const NAME: Field = Field(0, 4);
pub const KIND: Field = Field(4, 4);
pub const FLAGS: Field = Field(8, 8);
pub const ADDRESS: Field = Field(16, 8);
pub const OFFSET: Field = Field(24, 8);
pub const SIZE: Field = Field(32, 8);
pub const LINK: Field = Field(40, 4);
pub const INFO: Field = Field(44, 4);
pub const ALIGN: Field = Field(48, 8);
pub const ENTRY: Field = Field(56, 8);
pub const SECTION_FIELDS: [Field; 10] = [
    NAME, KIND, FLAGS, ADDRESS, OFFSET, SIZE, LINK, INFO, ALIGN, ENTRY,
];

/// A file whose numbers are changed, and its headers as they were.
pub struct Edit {
    pub bytes: Vec<u8>,
    pub big: bool,
    pub headers_at: usize,
    pub sections: Vec<Header>,
    pub symbols: Option<Header>,
    /// In use.
    pub relocations: Vec<Header>,
}

impl Edit {
    /// Of a file of 64 bytes or more.
    pub fn of(bytes: Vec<u8>) -> Edit {
        let file = File::of(&bytes);
        Edit {
            big: file.big,
            headers_at: file.headers_at as usize,
            sections: file.sections.clone(),
            symbols: file.symbols().copied(),
            relocations: file.relocations().copied().collect(),
            bytes,
        }
    }

    /// Sets the number of a header that begins at this place, as far as the file goes.
    pub fn set(&mut self, header: usize, Field(at, width): Field, value: u64) {
        let mut number = value.to_le_bytes()[..width].to_vec();
        if self.big {
            number.reverse();
        }
        for (k, byte) in number.into_iter().enumerate() {
            if let Some(place) = self.bytes.get_mut(header.saturating_add(at + k)) {
                *place = byte;
            }
        }
    }

    /// 0 where the file doesn't go so far.
    pub fn get(&self, header: usize, Field(at, width): Field) -> u64 {
        let at = header.saturating_add(at);
        let Some(number) = self.bytes.get(at..at.saturating_add(width)) else {
            return 0;
        };
        let add = |sum: u64, byte: &u8| sum << 8 | u64::from(*byte);
        if self.big {
            number.iter().fold(0, add)
        } else {
            number.iter().rev().fold(0, add)
        }
    }

    /// By its number, from 1.
    pub fn section(&self, number: u64) -> Option<Header> {
        let place = usize::try_from(number).ok()?.checked_sub(1)?;
        self.sections.get(place).copied()
    }

    /// The string table that the section names stand in.
    pub fn names(&self) -> Option<Header> {
        self.section(self.get(0, SHSTRNDX))
    }

    pub fn count(&self) -> u64 {
        self.get(0, SHNUM)
    }

    /// What a section is called; nothing where that stands in no string table.
    pub fn name(&self, x: &Header) -> &[u8] {
        let strings = self.names().map(|y| y.data()).unwrap_or_default();
        let rest = piece(&self.bytes, strings).get(x.name as usize..);
        rest.and_then(|rest| rest.split(|&b| b == 0).next())
            .unwrap_or_default()
    }

    /// Copies the section headers to the file's end, at a multiple of 8, so that nothing else reaches as far.
    pub fn headers_last(&mut self) {
        let length = SECTION_HEADER as usize * self.count() as usize;
        let Some(headers) = self.bytes.get(self.headers_at..self.headers_at + length) else {
            return;
        };
        let headers = headers.to_vec();
        let at = self.bytes.len().next_multiple_of(8);
        self.bytes.resize(at, 0);
        self.bytes.extend(headers);
        self.set(0, SHOFF, at as u64);
        *self = Edit::of(std::mem::take(&mut self.bytes));
    }
}

/// A copy in which the section `.BTF` lacks the first two bytes of its name, where there is one: neither the call nor the crate knows it then.
pub fn without_btf(file: &[u8]) -> Option<Vec<u8>> {
    let mut edit = Edit::of(file.to_vec());
    let sections = edit.sections.iter();
    let named: Vec<Header> = sections
        .filter(|x| edit.name(x) == b".BTF")
        .copied()
        .collect();
    for x in &named {
        edit.set(x.at, NAME, u64::from(x.name) + 2);
    }
    (!named.is_empty()).then_some(edit.bytes)
}
