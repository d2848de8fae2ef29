//! The rules of document 01's stream as far as records can break them (number 2), and the limits.
use crate::case::{Extent, Records, SectionRecord, SymbolRecord};

pub const MOST_BYTES: usize = 16_777_216;
pub const MOST_SECTIONS: usize = 4_096;
pub const MOST_RECORDS: usize = 65_536;
pub const MOST_NAME: u32 = 65_535;

/// The rule that the records break, if any.
pub fn broken(records: &Records) -> Option<&'static str> {
    let fine = |rule: bool, what| if rule { None } else { Some(what) };
    fine(records.order < 2, "byte order")
        .or_else(|| fine(records.sections.len() <= MOST_SECTIONS, "sections"))
        .or_else(|| fine(records.symbols.len() <= MOST_RECORDS, "symbols"))
        .or_else(|| fine(records.relocations.len() <= MOST_RECORDS, "relocations"))
        .or_else(|| {
            fine(
                rise(records.sections.iter().map(|x| x.index)),
                "section indexes",
            )
        })
        .or_else(|| {
            fine(
                rise(records.symbols.iter().map(|y| y.index)),
                "symbol indexes",
            )
        })
        .or_else(|| records.sections.iter().find_map(|x| section(records, x)))
        .or_else(|| records.symbols.iter().find_map(|y| symbol(records, y)))
        .or_else(|| {
            fine(
                records.relocations.iter().all(|r| r.symbol != 0),
                "relocation symbol",
            )
        })
}

fn section(records: &Records, x: &SectionRecord) -> Option<&'static str> {
    let rules = [
        (x.mark < 2, "section mark"),
        (x.size <= MOST_BYTES as u64, "section size"),
        (name_fits(records, x.name), "section name"),
        (inside(x.bytes, records.data.len()), "section data"),
        (
            inside(x.relocations, records.relocations.len()),
            "section relocations",
        ),
    ];
    rules.iter().find(|(fits, _)| !fits).map(|(_, what)| *what)
}

fn symbol(records: &Records, y: &SymbolRecord) -> Option<&'static str> {
    let rules = [
        (y.section != 0, "symbol section"),
        (name_fits(records, y.name), "symbol name"),
        (y.kind < 3, "symbol kind"),
        (y.definition < 2, "symbol definition"),
    ];
    rules.iter().find(|(fits, _)| !fits).map(|(_, what)| *what)
}

fn rise(indexes: impl Iterator<Item = u32>) -> bool {
    let mut last = 0;
    for index in indexes {
        if index <= last {
            return false;
        }
        last = index;
    }
    true
}

fn inside(extent: Extent, length: usize) -> bool {
    u64::from(extent.at) + u64::from(extent.length) <= length as u64
}

fn name_fits(records: &Records, name: Extent) -> bool {
    name.length <= MOST_NAME
        && inside(name, records.names.len())
        && piece(&records.names, name)
            .iter()
            .all(|b| (1..=127).contains(b))
}

/// A range's bytes; none where it leaves the table.
pub fn piece(table: &[u8], extent: Extent) -> &[u8] {
    let at = extent.at as usize;
    table.get(at..at + extent.length as usize).unwrap_or(&[])
}

#[cfg(test)]
mod tests {
    use super::*;
    use crate::case::{NONE, RelocationRecord};

    fn sound() -> Records {
        Records {
            order: 1,
            sections: vec![
                SectionRecord {
                    index: 1,
                    name: Extent { at: 0, length: 3 },
                    size: 4,
                    bytes: Extent { at: 0, length: 4 },
                    ..Default::default()
                },
                SectionRecord {
                    index: 5,
                    relocations: Extent { at: 0, length: 1 },
                    ..Default::default()
                },
            ],
            symbols: vec![SymbolRecord {
                index: 2,
                section: NONE,
                name: Extent { at: 3, length: 0 },
                ..Default::default()
            }],
            relocations: vec![RelocationRecord {
                offset: 0,
                symbol: NONE,
                size: 255,
            }],
            names: b"xdp\0".to_vec(),
            data: vec![0; 4],
        }
    }

    fn of(change: impl FnOnce(&mut Records)) -> Option<&'static str> {
        let mut records = sound();
        change(&mut records);
        broken(&records)
    }

    #[test]
    fn a_sound_object_breaks_none() {
        assert_eq!(broken(&sound()), None);
        assert_eq!(broken(&Records::default()), None);
        assert_eq!(of(|r| r.sections[1].index = NONE), None);
        assert_eq!(of(|r| r.sections[0].size = 16_777_216), None);
    }

    #[test]
    fn each_rule() {
        assert_eq!(of(|r| r.order = 2), Some("byte order"));
        assert_eq!(of(|r| r.sections[0].index = 0), Some("section indexes"));
        assert_eq!(of(|r| r.sections[1].index = 1), Some("section indexes"));
        assert_eq!(of(|r| r.symbols[0].index = 0), Some("symbol indexes"));
        assert_eq!(of(|r| r.sections[0].mark = 2), Some("section mark"));
        assert_eq!(
            of(|r| r.sections[0].size = 16_777_217),
            Some("section size")
        );
        assert_eq!(of(|r| r.sections[0].name.length = 4), Some("section name"));
        assert_eq!(of(|r| r.sections[0].name.length = 5), Some("section name"));
        assert_eq!(of(|r| r.names[1] = 128), Some("section name"));
        assert_eq!(of(|r| r.sections[1].bytes.at = 5), Some("section data"));
        assert_eq!(
            of(|r| r.sections[0].bytes.length = u32::MAX),
            Some("section data")
        );
        assert_eq!(
            of(|r| r.sections[1].relocations.at = 1),
            Some("section relocations")
        );
        assert_eq!(of(|r| r.symbols[0].section = 0), Some("symbol section"));
        assert_eq!(of(|r| r.symbols[0].name.at = 5), Some("symbol name"));
        assert_eq!(of(|r| r.symbols[0].kind = 3), Some("symbol kind"));
        assert_eq!(
            of(|r| r.symbols[0].definition = 2),
            Some("symbol definition")
        );
        assert_eq!(
            of(|r| r.relocations[0].symbol = 0),
            Some("relocation symbol")
        );
    }

    #[test]
    fn a_name_has_65535_bytes_at_most() {
        for (length, fits) in [(65_535, true), (65_536, false)] {
            let got = of(|r| {
                r.names = vec![b'a'; length as usize];
                r.symbols[0].name = Extent { at: 0, length };
            });
            assert_eq!(got.is_none(), fits);
        }
    }
}
