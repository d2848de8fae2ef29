//! What an ELF file names: its sections and symbols as the crate `object` reads them, to find what an error means.
use object::{
    ObjectSymbol as _, SectionKind, SymbolKind,
    read::{File, Object as _, ObjectSection as _},
};

#[derive(Debug, Default)]
pub struct Places {
    pub sections: Vec<Section>,
    pub symbols: Vec<Symbol>,
}

#[derive(Debug)]
pub struct Section {
    pub index: u32,
    pub name: String,
    /// Has a text mark and a size.
    pub code: bool,
}

#[derive(Debug)]
pub struct Symbol {
    pub index: u32,
    pub name: String,
    /// 0 is none.
    pub section: u32,
    pub address: u64,
    pub size: u64,
    pub defined_text: bool,
}

impl Places {
    /// Both in the order of their indexes; empty if it is no ELF file.
    pub fn of(elf: &[u8]) -> Self {
        let Ok(file) = File::parse(elf) else {
            return Self::default();
        };
        Self {
            sections: file
                .sections()
                .map(|s| Section {
                    index: s.index().0 as u32,
                    name: s.name().unwrap_or_default().to_owned(),
                    code: s.kind() == SectionKind::Text && s.size() > 0,
                })
                .collect(),
            symbols: file
                .symbols()
                .map(|s| Symbol {
                    index: s.index().0 as u32,
                    name: s.name().unwrap_or_default().to_owned(),
                    section: s.section().index().map_or(0, |i| i.0 as u32),
                    address: s.address(),
                    size: s.size(),
                    defined_text: s.is_definition() && s.kind() == SymbolKind::Text,
                })
                .collect(),
        }
    }
}

/// How many bytes the `.bss` sections have together.
pub fn bss_size(elf: &[u8]) -> u64 {
    let Ok(file) = File::parse(elf) else { return 0 };
    file.sections()
        .filter(|s| s.name().is_ok_and(|name| name.starts_with(".bss")))
        .fold(0, |sum, s| sum.saturating_add(s.size()))
}
