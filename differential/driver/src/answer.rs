//! What a load says: the catalogue by its tables, and the same as docs/CATALOGUE.md lays it out in what is lent.
use crate::case::Refusal;

/// Rows are ordered by key, and no two share one.
#[derive(Clone, Debug, Default, PartialEq, Eq)]
pub struct Catalogue {
    /// 0 little, 1 big.
    pub order: u64,
    /// None is any.
    pub version: Option<u32>,
    pub license: Vec<u8>,
    pub sections: Vec<SectionRow>,
    pub programs: Vec<ProgramRow>,
    pub functions: Vec<FunctionRow>,
    pub maps: Vec<MapRow>,
    pub relocations: Vec<RelocationRow>,
}

#[derive(Clone, Debug, PartialEq, Eq)]
pub struct SectionRow {
    pub name: Vec<u8>,
    pub index: u64,
    pub size: u64,
}

#[derive(Clone, Debug, PartialEq, Eq)]
pub struct ProgramRow {
    pub name: Vec<u8>,
    /// Variant, first value, second value.
    pub variant: [u64; 3],
    pub section: u64,
    pub address: u64,
}

#[derive(Clone, Debug, PartialEq, Eq)]
pub struct FunctionRow {
    pub section: u64,
    pub address: u64,
    pub offset: u64,
    pub name: Vec<u8>,
    pub code: Vec<u8>,
}

#[derive(Clone, Debug, PartialEq, Eq)]
pub struct MapRow {
    pub name: Vec<u8>,
    pub section: u64,
    pub kind: u64,
    /// 0 is none.
    pub symbol: u64,
    pub words: [u32; 7],
    pub own: Vec<u8>,
}

#[derive(Clone, Debug, PartialEq, Eq)]
pub struct RelocationRow {
    pub section: u64,
    pub offset: u64,
    pub size: u64,
    pub symbol: u64,
}

/// The six lent lengths: sections, programs, functions (rows), maps, relocations (numbers) and bytes.
#[derive(Clone, Copy, Debug, Default, PartialEq, Eq)]
pub struct Room {
    pub sections: usize,
    pub programs: usize,
    pub functions: usize,
    pub maps: usize,
    pub relocations: usize,
    pub bytes: usize,
}

/// A row of the function table as the load call writes it.
#[repr(C)]
#[derive(Clone, Copy, Debug, Default, PartialEq, Eq)]
pub struct Function {
    pub section: u32,
    pub address: u64,
    pub offset: u64,
    pub name_at: u64,
    pub name_length: u64,
    pub code_at: u64,
    pub code_length: u64,
}

/// Everything lent, at the end of a call.
#[derive(Clone, Debug, Default, PartialEq, Eq)]
pub struct Lent {
    pub sections: Vec<u64>,
    pub programs: Vec<u64>,
    pub functions: Vec<Function>,
    pub maps: Vec<u64>,
    pub relocations: Vec<u64>,
    pub bytes: Vec<u8>,
}

#[derive(Clone, Copy, Debug, PartialEq, Eq)]
pub enum Answer {
    Accepted(Summary),
    Refused(Refusal),
}

#[derive(Clone, Copy, Debug, Default, PartialEq, Eq)]
pub struct Summary {
    pub order: u64,
    /// None is any.
    pub version: Option<u32>,
    pub license: u64,
    pub sections: u64,
    pub programs: u64,
    pub functions: u64,
    pub maps: u64,
    pub relocations: u64,
    pub bytes: u64,
}

/// The widths of the tables' rows, in numbers; the function table is lent by rows, the bytes by bytes.
const WIDTHS: [usize; 6] = [4, 7, 1, 27, 4, 1];

impl Room {
    /// By the six lengths.
    pub fn of(lengths: [usize; 6]) -> Room {
        let [sections, programs, functions, maps, relocations, bytes] = lengths;
        Room {
            sections,
            programs,
            functions,
            maps,
            relocations,
            bytes,
        }
    }
}

impl Summary {
    /// The lent lengths that the catalogue takes.
    pub fn taken(&self) -> [usize; 6] {
        let mut lengths = [0; 6];
        for (k, rows) in self.counts().into_iter().enumerate() {
            lengths[k] = rows as usize * WIDTHS[k];
        }
        lengths
    }

    /// The rows of each table, and the bytes.
    pub fn counts(&self) -> [u64; 6] {
        [
            self.sections,
            self.programs,
            self.functions,
            self.maps,
            self.relocations,
            self.bytes,
        ]
    }
}

/// The function table as numbers, seven a row.
pub fn flat(functions: &[Function]) -> Vec<u64> {
    let row = |f: &Function| {
        [
            f.section.into(),
            f.address,
            f.offset,
            f.name_at,
            f.name_length,
            f.code_at,
            f.code_length,
        ]
    };
    functions.iter().flat_map(row).collect()
}
