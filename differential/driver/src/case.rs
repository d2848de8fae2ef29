//! What one run takes: a deposit or an ELF file, with what it states; a patch list; rewriting; what is expected.

/// The number that stands for no section or no symbol.
pub const NONE: u32 = 0xFFFF_FFFF;

/// A range of the names or data (bytes) or of the relocations (records).
#[derive(Clone, Copy, Debug, Default, PartialEq, Eq)]
pub struct Extent {
    pub at: u32,
    pub length: u32,
}

#[derive(Clone, Debug, Default, PartialEq, Eq)]
pub struct SectionRecord {
    pub index: u32,
    pub mark: u32,
    pub name: Extent,
    pub address: u64,
    pub size: u64,
    pub bytes: Extent,
    pub relocations: Extent,
}

#[derive(Clone, Debug, Default, PartialEq, Eq)]
pub struct SymbolRecord {
    pub index: u32,
    pub section: u32,
    pub name: Extent,
    pub address: u64,
    pub size: u64,
    pub kind: u8,
    pub definition: u8,
}

#[derive(Clone, Debug, Default, PartialEq, Eq)]
pub struct RelocationRecord {
    pub offset: u64,
    pub symbol: u32,
    pub size: u8,
}

/// The tables of a deposit, as document 01 lays them out.
#[derive(Clone, Debug, Default, PartialEq, Eq)]
pub struct Records {
    pub order: u32,
    pub sections: Vec<SectionRecord>,
    pub symbols: Vec<SymbolRecord>,
    pub relocations: Vec<RelocationRecord>,
    pub names: Vec<u8>,
    pub data: Vec<u8>,
}

/// One entry of a patch list that lies inside its buffer.
#[derive(Clone, Debug, Default, PartialEq, Eq)]
pub struct Patch {
    pub name: Vec<u8>,
    pub data: Vec<u8>,
    pub must_exist: bool,
}

/// A refusal by document 01's number and the places that it names.
#[derive(Clone, Copy, Debug, PartialEq, Eq)]
pub struct Refusal {
    pub number: u32,
    pub section: u32,
    pub symbol: u32,
    pub entry: u64,
}

/// Who says what is right.
#[derive(Clone, Debug, PartialEq, Eq)]
pub enum Judge {
    /// The crate, run with `list` on `records` as an ELF file, or on the file: the case is in document 01's domain of comparison.
    Crate,
    /// The crate, given one entry of `list` after the other: on the whole list its hash order would show.
    CrateByEntry,
    /// The way the case was made.
    Known(Refusal),
    /// Nobody: only what needs no judge is held.
    None,
}

/// Which call takes the input.
#[derive(Clone, Copy, Debug, PartialEq, Eq)]
pub enum Form {
    Deposit,
    File,
}

#[derive(Clone, Debug)]
pub struct Case {
    /// What the case was made to reach, for the counts.
    pub aim: &'static str,
    pub form: Form,
    pub input: Vec<u8>,
    /// What a deposit was laid out from, or a file states; none where the bytes are damaged.
    pub records: Option<Records>,
    /// The patch list as it is lent: five numbers an entry over `patches`.
    pub entries: Vec<u64>,
    pub patches: Vec<u8>,
    /// The same list by entries, where each lies inside its buffer and its mark is 0 or 1.
    pub list: Option<Vec<Patch>>,
    pub rewrite: bool,
    pub judge: Judge,
}
