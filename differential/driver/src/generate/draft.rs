//! An object while it is put together, and its records.
use crate::case::{Extent, Records, RelocationRecord, SectionRecord, SymbolRecord};
use crate::deposit::{self, STREAM};
use crate::rng::Rng;
use crate::rules::piece;

#[derive(Clone, Default)]
pub struct Draft {
    pub order: u32,
    pub sections: Vec<Section>,
    pub symbols: Vec<Symbol>,
}

#[derive(Clone, Default)]
pub struct Section {
    pub name: Vec<u8>,
    pub mark: u32,
    pub address: u64,
    pub size: u64,
    pub data: Vec<u8>,
    pub relocations: Vec<RelocationRecord>,
}

#[derive(Clone, Default)]
pub struct Symbol {
    pub name: Vec<u8>,
    pub section: u32,
    pub address: u64,
    pub size: u64,
    pub kind: u8,
    pub definition: u8,
}

impl Draft {
    /// What records say whose indexes have no gaps.
    pub fn of(records: &Records) -> Draft {
        let sections = records.sections.iter().map(|x| {
            let first = x.relocations.at as usize;
            let relocations = first..first + x.relocations.length as usize;
            Section {
                name: piece(&records.names, x.name).to_vec(),
                mark: x.mark,
                address: x.address,
                size: x.size,
                data: piece(&records.data, x.bytes).to_vec(),
                relocations: records.relocations[relocations].to_vec(),
            }
        });
        let symbols = records.symbols.iter().map(|y| Symbol {
            name: piece(&records.names, y.name).to_vec(),
            section: y.section,
            address: y.address,
            size: y.size,
            kind: y.kind,
            definition: y.definition,
        });
        Draft {
            order: records.order,
            sections: sections.collect(),
            symbols: symbols.collect(),
        }
    }

    /// A further section, its size that of its data.
    pub fn section(&mut self, name: impl AsRef<[u8]>, data: Vec<u8>) -> &mut Section {
        self.sections.push(Section {
            name: name.as_ref().to_vec(),
            size: data.len() as u64,
            data,
            ..Default::default()
        });
        self.last()
    }

    pub fn last(&mut self) -> &mut Section {
        self.sections.last_mut().expect("a section is there")
    }

    /// The index of the last section.
    pub fn here(&self) -> u32 {
        self.sections.len() as u32
    }

    /// A further symbol of the last section, with a definition.
    pub fn symbol(
        &mut self,
        name: impl AsRef<[u8]>,
        address: u64,
        size: u64,
        kind: u8,
    ) -> &mut Symbol {
        let section = self.here();
        self.symbols.push(Symbol {
            name: name.as_ref().to_vec(),
            section,
            address,
            size,
            kind,
            definition: 1,
        });
        self.symbols.last_mut().expect("one was pushed")
    }

    /// The records, plain: nothing is shared, indexes rise by one.
    pub fn records(&self) -> Records {
        self.placed(&mut |table, piece| append(table, piece))
    }

    /// The records with tables as a writer might leave them: pieces that are shared, bytes that nobody has, a block that is full.
    pub fn packed(&self, rng: &mut Rng) -> Records {
        let mut records = self.placed(&mut |table, piece| pack(rng, table, piece));
        if rng.chance(1, 12) {
            let end = deposit::places(&records).end;
            records.data.resize(
                records.data.len() + end.next_multiple_of(STREAM) - end,
                0xEE,
            );
        }
        records
    }

    fn placed(&self, place: &mut dyn FnMut(&mut Vec<u8>, &[u8]) -> Extent) -> Records {
        let mut records = Records {
            order: self.order,
            ..Default::default()
        };
        for (section, index) in self.sections.iter().zip(1..) {
            let relocations = Extent {
                at: records.relocations.len() as u32,
                length: section.relocations.len() as u32,
            };
            records.relocations.extend_from_slice(&section.relocations);
            records.sections.push(SectionRecord {
                index,
                mark: section.mark,
                name: place(&mut records.names, &section.name),
                address: section.address,
                size: section.size,
                bytes: place(&mut records.data, &section.data),
                relocations,
            });
        }
        for (symbol, index) in self.symbols.iter().zip(1..) {
            records.symbols.push(SymbolRecord {
                index,
                section: symbol.section,
                name: place(&mut records.names, &symbol.name),
                address: symbol.address,
                size: symbol.size,
                kind: symbol.kind,
                definition: symbol.definition,
            });
        }
        records
    }
}

fn append(table: &mut Vec<u8>, piece: &[u8]) -> Extent {
    let at = table.len() as u32;
    table.extend(piece);
    Extent {
        at,
        length: piece.len() as u32,
    }
}

fn pack(rng: &mut Rng, table: &mut Vec<u8>, piece: &[u8]) -> Extent {
    if piece.is_empty() {
        return Extent {
            at: rng.below(table.len() + 1) as u32,
            length: 0,
        };
    }
    if piece.len() <= 32 && table.len() <= 1024 && rng.chance(1, 3) {
        if let Some(at) = table.windows(piece.len()).position(|part| part == piece) {
            return Extent {
                at: at as u32,
                length: piece.len() as u32,
            };
        }
    }
    if rng.chance(1, 16) {
        table.extend(rng.pick(&[&b"\0"[..], b"\x80\xFF", b"abcdefg"]).iter());
    }
    append(table, piece)
}

#[cfg(test)]
mod tests {
    use super::*;
    use crate::rules::broken;

    fn draft() -> Draft {
        let mut draft = Draft::default();
        draft.section("xdp", vec![1, 2, 3]).mark = 1;
        draft.last().relocations = vec![RelocationRecord {
            offset: 1,
            symbol: 1,
            size: 0,
        }];
        draft.section("", vec![]);
        draft.symbol("dp", 4, 5, 1);
        draft.symbol("", 6, 7, 2).section = 1;
        draft
    }

    fn says_the_draft(records: &Records) {
        assert_eq!(broken(records), None);
        let names: Vec<&[u8]> = records
            .sections
            .iter()
            .map(|x| piece(&records.names, x.name))
            .collect();
        assert_eq!(names, [&b"xdp"[..], b""]);
        assert_eq!(piece(&records.data, records.sections[0].bytes), [1, 2, 3]);
        assert_eq!(
            (
                records.sections[0].index,
                records.sections[0].mark,
                records.sections[0].size
            ),
            (1, 1, 3)
        );
        assert_eq!(records.sections[0].relocations, Extent { at: 0, length: 1 });
        let y = &records.symbols[0];
        assert_eq!(
            (
                y.index,
                y.section,
                piece(&records.names, y.name),
                y.address,
                y.size,
                y.kind,
                y.definition
            ),
            (1, 2, &b"dp"[..], 4, 5, 1, 1)
        );
        assert_eq!(
            (records.symbols[1].index, records.symbols[1].section),
            (2, 1)
        );
    }

    #[test]
    fn records_say_what_the_draft_says() {
        says_the_draft(&draft().records());
        assert_eq!(draft().records().names, b"xdpdp");
    }

    #[test]
    fn records_give_the_draft_again() {
        let records = draft().records();
        assert_eq!(Draft::of(&records).records(), records);
    }

    #[test]
    fn packing_shares_and_fills_but_says_the_same() {
        let mut rng = Rng::new(1);
        let packed: Vec<Records> = (0..400).map(|_| draft().packed(&mut rng)).collect();
        packed.iter().for_each(says_the_draft);
        assert!(packed.iter().any(|r| r.names == b"xdp"));
        assert!(packed.iter().any(|r| r.names.contains(&0x80)));
        assert!(packed.iter().any(|r| deposit::places(r).end % STREAM == 0));
    }
}
