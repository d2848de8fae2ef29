//! Objects for tests, written record by record.
use crate::case::{Extent, Records, RelocationRecord, SectionRecord, SymbolRecord};

#[derive(Clone, Default)]
pub struct Sample {
    pub records: Records,
}

impl Sample {
    fn name(&mut self, name: &str) -> Extent {
        let at = self.records.names.len() as u32;
        self.records.names.extend(name.as_bytes());
        Extent {
            at,
            length: name.len() as u32,
        }
    }

    /// A further section, its size that of its data.
    pub fn section(&mut self, name: &str, data: &[u8]) -> &mut Sample {
        let name = self.name(name);
        let bytes = Extent {
            at: self.records.data.len() as u32,
            length: data.len() as u32,
        };
        self.records.data.extend(data);
        let index = self.records.sections.len() as u32 + 1;
        let relocations = Extent {
            at: self.records.relocations.len() as u32,
            length: 0,
        };
        self.records.sections.push(SectionRecord {
            index,
            name,
            size: data.len() as u64,
            bytes,
            relocations,
            ..Default::default()
        });
        self
    }

    pub fn program(&mut self, name: &str, data: &[u8]) -> &mut Sample {
        self.section(name, data)
            .records
            .sections
            .last_mut()
            .expect("one was pushed")
            .mark = 1;
        self
    }

    /// A further symbol, with a definition.
    pub fn symbol(
        &mut self,
        name: &str,
        section: u32,
        address: u64,
        size: u64,
        kind: u8,
    ) -> &mut Sample {
        let name = self.name(name);
        let index = self.records.symbols.len() as u32 + 1;
        self.records.symbols.push(SymbolRecord {
            index,
            section,
            name,
            address,
            size,
            kind,
            definition: 1,
        });
        self
    }

    /// A further relocation of the last section.
    pub fn relocation(&mut self, offset: u64, symbol: u32) -> &mut Sample {
        self.records.relocations.push(RelocationRecord {
            offset,
            symbol,
            size: 64,
        });
        self.records
            .sections
            .last_mut()
            .expect("a section is there")
            .relocations
            .length += 1;
        self
    }
}
