//! How much to lend: no accepted catalogue takes more.
use crate::answer::Room;
use crate::case::{Records, SectionRecord, SymbolRecord};
use crate::kinds::{Kind, kind};
use crate::parsing::TEXT;
use crate::rules::{MOST_BYTES, piece};

/// Rows of numbers are counted as numbers, functions as rows.
pub fn enough(records: &Records) -> Room {
    let mut room = Room {
        bytes: b"GPL".len(),
        ..Default::default()
    };
    for section in &records.sections {
        add_section(records, section, &mut room);
    }
    for symbol in &records.symbols {
        if let Ok(place) = records
            .sections
            .binary_search_by_key(&symbol.section, |x| x.index)
        {
            add_symbol(records, &records.sections[place], symbol, &mut room);
        }
    }
    room
}

fn kind_of(records: &Records, section: &SectionRecord) -> Kind {
    kind(
        piece(&records.names, section.name),
        section.mark,
        section.size,
    )
}

fn add_section(records: &Records, section: &SectionRecord, room: &mut Room) {
    let (name, data) = (
        piece(&records.names, section.name).len(),
        piece(&records.data, section.bytes).len(),
    );
    room.sections += 4;
    room.bytes += name;
    let kind = kind_of(records, section);
    if matches!(kind, Kind::Text | Kind::Program)
        && section.relocations.length as usize <= records.relocations.len()
    {
        room.relocations += 4 * section.relocations.length as usize;
    }
    match kind {
        // the licence, or the code of functions that don't overlap
        Kind::License | Kind::Text => room.bytes += data,
        Kind::Data | Kind::Rodata | Kind::Bss => {
            room.maps += 27;
            room.bytes += name
                + if kind == Kind::Bss {
                    (section.size as usize).min(MOST_BYTES)
                } else {
                    data
                };
        }
        _ => (),
    }
}

fn add_symbol(records: &Records, section: &SectionRecord, symbol: &SymbolRecord, room: &mut Room) {
    let name = piece(&records.names, symbol.name).len();
    match kind_of(records, section) {
        Kind::Maps => {
            room.maps += 27;
            room.bytes += name;
        }
        Kind::Text if symbol.kind == TEXT => {
            room.functions += 1;
            room.bytes += name;
        }
        Kind::Program if symbol.kind == TEXT => {
            room.programs += 7;
            room.functions += 1;
            // a longer one is refused
            let code = if symbol.size <= u64::from(section.bytes.length) {
                symbol.size as usize
            } else {
                0
            };
            room.bytes += 2 * name + code;
        }
        _ => (),
    }
}

#[cfg(test)]
mod tests {
    use super::*;
    use crate::sample::Sample;

    #[test]
    fn an_empty_object_takes_the_default_licence() {
        assert_eq!(
            enough(&Records::default()),
            Room {
                bytes: 3,
                ..Default::default()
            }
        );
    }

    #[test]
    fn each_table() {
        let mut o = Sample::default();
        o.section("license", b"MIT\0")
            .section(".text", &[0; 16])
            .relocation(0, 1);
        o.program("xdp", &[0; 8]).relocation(0, 1).relocation(8, 1);
        o.section(".data", b"abcd")
            .section(".bss", b"")
            .section("maps", &[0; 28])
            .section("other", b"zz")
            .relocation(0, 1);
        o.records.sections[4].size = 100;
        o.symbol("helper", 2, 0, 16, TEXT)
            .symbol("pass", 3, 0, 8, TEXT)
            .symbol("m", 6, 0, 28, 2)
            .symbol("rate", 4, 0, 4, 2);
        o.symbol("absent", 99, 0, 4, 2);
        let names = "license.textxdp.data.bssmapsother".len();
        let bytes = 3
            + 4
            + names
            + 2 * "pass".len()
            + 8
            + "helper".len()
            + 16
            + ".data.bssm".len()
            + 4
            + 100;
        let expected = Room {
            sections: 28,
            programs: 7,
            functions: 2,
            maps: 81,
            relocations: 12,
            bytes,
        };
        assert_eq!(enough(&o.records), expected);
    }

    #[test]
    fn broken_ranges_count_nothing() {
        let mut o = Sample::default();
        o.program("xdp", &[0; 8]).symbol("p", 1, 0, u64::MAX, TEXT);
        o.records.sections[0].bytes.at = u32::MAX;
        o.records.sections[0].relocations.length = u32::MAX;
        assert_eq!(
            enough(&o.records),
            Room {
                sections: 4,
                programs: 7,
                functions: 1,
                bytes: 3 + 3 + 2,
                ..Default::default()
            }
        );
    }
}
