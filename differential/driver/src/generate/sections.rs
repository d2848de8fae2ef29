//! Sections that are accepted, each with its symbols.
use crate::case::{NONE, RelocationRecord};
use crate::kinds::{Kind, kind};
use crate::rng::Rng;

use super::draft::Draft;
use super::words::{bytes, code, near_prefix, program_name, symbol_name};

pub const OTHER: u8 = 0;
pub const TEXT: u8 = 1;
pub const DATA: u8 = 2;
pub const TOP: u64 = u64::MAX;

/// A further section of a kind drawn at random.
pub fn any(rng: &mut Rng, draft: &mut Draft) {
    match rng.below(32) {
        0 | 1 => license(rng, draft),
        2 | 3 => version(rng, draft),
        4..=7 => legacy_maps(rng, draft),
        8..=12 => text(rng, draft),
        13..=20 => program(rng, draft),
        21..=24 => data(rng, draft, ".data"),
        25 | 26 => data(rng, draft, ".rodata"),
        27 | 28 => data(rng, draft, ".bss"),
        29 => btf_ext(rng, draft),
        _ => other(rng, draft),
    }
}

pub fn relocations(rng: &mut Rng) -> Vec<RelocationRecord> {
    (0..*rng.pick(&[0, 0, 0, 1, 2, 5]))
        .map(|_| relocation(rng))
        .collect()
}

pub fn relocation(rng: &mut Rng) -> RelocationRecord {
    let offset = match rng.below(10) {
        0 => TOP - rng.below(9) as u64,
        1 => rng.next(),
        _ => 8 * rng.below(6) as u64,
    };
    let symbol = if rng.chance(1, 20) {
        *rng.pick(&[NONE - 1, 65_537, 1 << 31])
    } else {
        1 + rng.below(9) as u32
    };
    let size = if rng.chance(1, 150) {
        *rng.pick(&[1, 8, 16, 63, 255])
    } else {
        *rng.pick(&[64, 32, 0])
    };
    RelocationRecord {
        offset,
        symbol,
        size,
    }
}

/// An address of a section whose bytes don't depend on it.
fn free_address(rng: &mut Rng) -> u64 {
    *rng.pick(&[0, 0, 0, 0, 8, 4096, 1 << 40, TOP - 7, TOP])
}

fn first_named(draft: &Draft, name: &[u8]) -> bool {
    draft.sections.iter().all(|x| x.name != name)
}

const LICENSES: [&[u8]; 6] = [
    b"GPL\0",
    b"Dual MIT/GPL\0",
    b"a\0",
    b"\x80\xFF\x01\0",
    b"GPL v2\0",
    b"license of more than sixteen bytes\0",
];

pub fn license(rng: &mut Rng, draft: &mut Draft) {
    let name = *rng.pick(&["license", "license", "license", "license2", "license/x"]);
    let named_so = first_named(draft, name.as_bytes());
    let text = if name == "license" && named_so {
        rng.pick(&LICENSES).to_vec()
    } else {
        rng.pick(&[&b""[..], b"x", b"GPL", b"a\0b"]).to_vec()
    };
    draft.section(name, text).mark = u32::from(rng.chance(1, 8));
    draft.last().relocations = relocations(rng);
}

pub fn version(rng: &mut Rng, draft: &mut Draft) {
    let name = *rng.pick(&["version", "version", "version", "version2", "version.x"]);
    let number: u32 = *rng.pick(&[
        0xFFFF_FFFE,
        0xFEFF_FFFF,
        0,
        1,
        0xFFFF_FFFF,
        0xFFFF_FFFD,
        0x0102_0304,
    ]);
    let mut data = number.to_le_bytes().to_vec();
    if !(name == "version" && first_named(draft, b"version")) {
        data.truncate(rng.below(5));
    }
    draft.section(name, data).relocations = relocations(rng);
}

/// A legacy map's record with a pinning of 0 or 1, so long.
pub fn map_record(rng: &mut Rng, length: usize) -> Vec<u8> {
    let mut out = Vec::new();
    for _ in 0..6 {
        let word = if rng.chance(1, 6) {
            rng.next() as u32
        } else {
            rng.below(70) as u32
        };
        out.extend(word.to_le_bytes());
    }
    out.extend([rng.below(2) as u8, 0, 0, 0]);
    out.resize(length.max(28), 0xAA);
    out.truncate(length);
    out
}

pub fn legacy_maps(rng: &mut Rng, draft: &mut Draft) {
    draft
        .section(
            rng.pick(&["maps", "maps", "maps", "maps2", "maps/x"]),
            Vec::new(),
        )
        .address = free_address(rng);
    for _ in 0..=rng.below(3) {
        let length = *rng.pick(&[20, 21, 24, 25, 27, 28, 28, 28, 28, 29, 40]);
        let at = draft.last().data.len() as u64;
        draft.last().data.extend(map_record(rng, length));
        named(rng, draft, at, length as u64);
    }
    if rng.chance(1, 6) {
        let length = 20 + rng.below(5);
        let at = rng.below(draft.last().data.len().saturating_sub(length) + 1) as u64;
        if at + length as u64 <= draft.last().data.len() as u64 {
            named(rng, draft, at, length as u64);
        }
    }
    finish(rng, draft);
}

/// A symbol of any kind; text ones are nearly always defined.
fn named(rng: &mut Rng, draft: &mut Draft, address: u64, size: u64) {
    let kind = *rng.pick(&[DATA, DATA, DATA, OTHER, TEXT]);
    let symbol = draft.symbol(symbol_name(rng), address, size, kind);
    symbol.definition = u8::from(if kind == TEXT {
        !rng.chance(1, 60)
    } else {
        rng.chance(3, 4)
    });
}

/// The size is that of the data, and relocations are added.
fn finish(rng: &mut Rng, draft: &mut Draft) {
    let section = draft.last();
    section.size = section.data.len() as u64;
    section.mark = u32::from(rng.chance(1, 10));
    section.relocations = relocations(rng);
}

pub fn text(rng: &mut Rng, draft: &mut Draft) {
    let slots = *rng.pick(&[0, 1, 1, 2, 2, 3, 4, 6, 9]);
    let address = match rng.below(10) {
        0 => 0u64.wrapping_sub(8 * slots as u64),
        1 => 8 * rng.below(600) as u64,
        2 => rng.next() >> 1,
        _ => 0,
    };
    draft.section(
        rng.pick(&[".text", ".text", ".text", ".text2", ".text.x"]),
        code(rng, slots),
    );
    finish(rng, draft);
    if slots > 0 && rng.chance(1, 20) {
        // a function may pass 2^64 where none follows it
        let address = TOP - rng.below(8) as u64;
        draft.last().address = address;
        draft.symbol(symbol_name(rng), address, 8 * slots as u64, TEXT);
    } else {
        draft.last().address = address;
        tile(rng, draft, address, slots);
    }
    for _ in 0..*rng.pick(&[0, 0, 0, 1, 2]) {
        between(rng, draft, slots);
    }
}

/// Functions from one end of a text to the other.
fn tile(rng: &mut Rng, draft: &mut Draft, address: u64, slots: usize) {
    let mut at = 0;
    while at < slots {
        let size = 1 + rng.below((slots - at).min(4));
        draft.symbol(
            symbol_name(rng),
            address + 8 * at as u64,
            8 * size as u64,
            TEXT,
        );
        at += size;
    }
}

/// A symbol in a function's middle, past the data or of another kind, that the walk of a text doesn't meet.
fn between(rng: &mut Rng, draft: &mut Draft, slots: usize) {
    let here = draft.here();
    let address = draft
        .last()
        .address
        .wrapping_add(rng.below(8 * slots + 16) as u64);
    let taken = draft
        .symbols
        .iter()
        .any(|y| y.section == here && y.kind == TEXT && y.address == address);
    let kind = *rng.pick(&[TEXT, TEXT, DATA, OTHER]);
    if kind != TEXT || !taken {
        let size = *rng.pick(&[0, 1, 8, 100, TOP]);
        draft
            .symbol(symbol_name(rng), address, size, kind)
            .definition = u8::from(!rng.chance(1, 20));
    }
}

pub fn program(rng: &mut Rng, draft: &mut Draft) {
    let slots = 1 + rng.below(5);
    draft.section(program_name(rng), code(rng, slots)).mark = 1;
    let address = if rng.chance(1, 6) {
        rng.below(8 * slots + 1)
    } else {
        0
    };
    draft.last().address = address as u64;
    draft.last().relocations = relocations(rng);
    for _ in 0..=*rng.pick(&[0, 0, 0, 1, 2]) {
        let start = if rng.chance(1, 2) {
            address
        } else {
            address + rng.below(8 * slots - address + 1)
        };
        let most = (8 * slots - start) / 8;
        let size = if rng.chance(2, 3) {
            most
        } else {
            rng.below(most + 1)
        };
        draft
            .symbol(symbol_name(rng), start as u64, 8 * size as u64, TEXT)
            .definition = u8::from(!rng.chance(1, 80));
    }
    if rng.chance(1, 5) {
        let address = *rng.pick(&[0, 3, 1000, TOP]);
        let symbol = draft.symbol("", address, *rng.pick(&[0, 3, 8, TOP]), TEXT);
        if rng.chance(1, 2) {
            (symbol.name, symbol.kind) = (symbol_name(rng), DATA);
        }
    }
}

/// A `.data`, `.rodata` or `.bss` section; now and then without data.
pub fn data(rng: &mut Rng, draft: &mut Draft, prefix: &str) {
    let size = *rng.pick(&[0, 1, 4, 8, 8, 12, 16, 16, 24, 33]);
    let has_data = if prefix == ".bss" {
        rng.chance(1, 6)
    } else {
        !rng.chance(1, 8)
    };
    let name = [prefix, *rng.pick(&["", "", "", ".x", "2"])].concat();
    draft
        .section(
            name,
            if has_data {
                bytes(rng, size)
            } else {
                Vec::new()
            },
        )
        .size = size as u64;
    draft.last().address = free_address(rng);
    draft.last().mark = u32::from(has_data && rng.chance(1, 12));
    draft.last().relocations = relocations(rng);
    for _ in 0..*rng.pick(&[0, 1, 1, 2, 2, 3, 4]) {
        let at = rng.below(size + 1);
        let most = size - at;
        let (mut address, mut length) = (
            at as u64,
            *rng.pick(&[most, most.min(4), most.min(1)]) as u64,
        );
        if rng.chance(1, 12) {
            address = *rng.pick(&[size as u64, size as u64 + 1, TOP, TOP - 1]);
            length = rng.below(5) as u64;
        }
        named(rng, draft, address, length);
    }
}

fn btf_ext(rng: &mut Rng, draft: &mut Draft) {
    let length = rng.below(9);
    draft.section(".BTF.ext", bytes(rng, length)).mark = rng.below(2) as u32;
    draft.last().relocations = relocations(rng);
    if rng.chance(1, 3) {
        draft.last().relocations.push(RelocationRecord {
            offset: 0,
            symbol: NONE,
            size: 64,
        });
    }
}

/// A section that only enters the section list: no text mark, or of size 0.
fn other(rng: &mut Rng, draft: &mut Draft) {
    let name = loop {
        let name = match rng.below(4) {
            0 => program_name(rng),
            1 => rng
                .pick(&["", "x", ".strtab", ".symtab", "~", "foo", ".BTFx", ".BT"])
                .as_bytes()
                .to_vec(),
            _ => near_prefix(rng),
        };
        if kind(&name, 0, 0) == Kind::Other && name != b".BTF" {
            break name;
        }
    };
    let length = rng.below(10);
    let section = draft.section(name, bytes(rng, length));
    if length == 0 {
        section.mark = rng.below(2) as u32;
    }
    if section.mark == 0 && rng.chance(1, 8) {
        (section.data, section.size) = (Vec::new(), rng.below(1000) as u64);
    }
    section.address = free_address(rng);
    draft.last().relocations = relocations(rng);
    if rng.chance(1, 4) {
        let (address, size) = (rng.below(9) as u64, rng.below(9) as u64);
        named(rng, draft, address, size);
    }
}

/// A symbol without a section, or of one that isn't in the table.
pub fn elsewhere(rng: &mut Rng, draft: &mut Draft) {
    let kind = *rng.pick(&[OTHER, TEXT, DATA]);
    let definition = u8::from(kind == TEXT || rng.chance(1, 2));
    let absent = draft.here() + 1 + rng.below(4) as u32;
    let section = *rng.pick(&[NONE, NONE, absent, 5000, 0xFF00, 0xFFF1, 0xFFFF, NONE - 1]);
    let symbol = draft.symbol(
        symbol_name(rng),
        rng.below(20) as u64,
        rng.below(20) as u64,
        kind,
    );
    (symbol.section, symbol.definition) = (section, definition);
}

#[cfg(test)]
mod tests {
    use super::*;
    use crate::parsing::parse;
    use crate::rules::broken;

    fn accepted(make: impl Fn(&mut Rng, &mut Draft)) {
        let mut rng = Rng::new(1);
        for _ in 0..3000 {
            let mut draft = Draft::default();
            make(&mut rng, &mut draft);
            assert_eq!(broken(&draft.records()), None);
            assert!(parse(&draft.records()).is_ok(), "{:?}", draft.records());
        }
    }

    #[test]
    fn each_kind_is_accepted() {
        accepted(license);
        accepted(version);
        accepted(legacy_maps);
        accepted(text);
        accepted(program);
        accepted(|rng, draft| data(rng, draft, ".data"));
        accepted(|rng, draft| data(rng, draft, ".bss"));
        accepted(btf_ext);
        accepted(other);
        accepted(elsewhere);
    }

    #[test]
    fn together_they_are_accepted() {
        accepted(|rng, draft| (0..8).for_each(|_| any(rng, draft)));
    }

    #[test]
    fn texts_reach_the_end_of_the_addresses() {
        let mut rng = Rng::new(5);
        let mut ends = Vec::new();
        for _ in 0..500 {
            let mut draft = Draft::default();
            text(&mut rng, &mut draft);
            ends.push(
                draft.sections[0]
                    .address
                    .checked_add(draft.sections[0].size),
            );
        }
        assert!(ends.contains(&None));
    }
}
