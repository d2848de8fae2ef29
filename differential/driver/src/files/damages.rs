//! Files that are cut or whose bytes are damaged.
use crate::generate::words::bytes;
use crate::rng::Rng;

use super::edit::{Edit, Field, MACHINE, SECTION_FIELDS, SHENTSIZE, SHNUM, SHOFF, SHSTRNDX, TYPE};
use super::read::{HEAD, SECTION_HEADER};

const TOP: u64 = u64::MAX;

type Damage = fn(&mut Rng, &mut Edit);

/// What a file comes to then is not known beforehand. Each also takes a file without sections.
pub const DAMAGES: [(&str, Damage); 9] = [
    ("cut", cut),
    ("bytes changed", |rng, edit| {
        for _ in 0..1 + rng.below(4) {
            let at = rng.below(edit.bytes.len().max(1));
            if let Some(byte) = edit.bytes.get_mut(at) {
                let (flipped, any) = (*byte ^ (1 << rng.below(8)), rng.next() as u8);
                *byte = *rng.pick(&[flipped, flipped, 0, 1, 0xFF, any]);
            }
        }
    }),
    ("number of the header changed", |rng, edit| {
        let field = *rng.pick(&[SHOFF, SHNUM, SHSTRNDX, SHENTSIZE, TYPE, MACHINE]);
        let value = number(rng, edit, field, 0);
        edit.set(0, field, value);
    }),
    ("number of a section changed", |rng, edit| {
        for _ in 0..1 + rng.below(3) {
            let at = header(rng, edit);
            let field = *rng.pick(&SECTION_FIELDS);
            let value = number(rng, edit, field, at);
            edit.set(at, field, value);
        }
    }),
    ("number of an entry changed", |rng, edit| {
        let mut tables = edit.relocations.clone();
        tables.extend(edit.symbols);
        if let Some(table) = rng.any(&tables) {
            let entry = rng.below((table.size / 8 + 1).min(1 << 20) as usize) as u64;
            let at = table.offset.saturating_add(8 * entry) as usize;
            let field = *rng.pick(&[Field(0, 8), Field(0, 4), Field(4, 2), Field(6, 2)]);
            let value = number(rng, edit, field, at);
            edit.set(at, field, value);
        }
    }),
    ("section headers change places", |rng, edit| {
        let (a, b) = (header(rng, edit), header(rng, edit));
        let end = a.max(b).saturating_add(SECTION_HEADER as usize);
        if end <= edit.bytes.len() && a.abs_diff(b) >= SECTION_HEADER as usize {
            for k in 0..SECTION_HEADER as usize {
                edit.bytes.swap(a + k, b + k);
            }
        }
    }),
    ("bytes copied", |rng, edit| {
        let length = rng.below(100).min(edit.bytes.len());
        let from = rng.below(edit.bytes.len() - length + 1);
        let to = rng.below(edit.bytes.len() - length + 1);
        edit.bytes.copy_within(from..from + length, to);
    }),
    ("bytes put in", |rng, edit| {
        let at = rng.below(edit.bytes.len() + 1);
        let length = *rng.pick(&[1, 8, 64, 100]);
        let more = bytes(rng, length);
        edit.bytes.splice(at..at, more);
    }),
    ("bytes taken out", |rng, edit| {
        let length = rng.below(100).min(edit.bytes.len());
        let at = rng.below(edit.bytes.len() - length + 1);
        edit.bytes.drain(at..at + length);
    }),
];

/// Where the header of an entry begins, entry 0 too.
fn header(rng: &mut Rng, edit: &Edit) -> usize {
    let count = (edit.count() as usize).clamp(1, 4100);
    let step = SECTION_HEADER as usize * rng.below(count);
    edit.headers_at.saturating_add(step)
}

/// A number that a field could go wrong by.
fn number(rng: &mut Rng, edit: &Edit, field: Field, header: usize) -> u64 {
    let now = edit.get(header, field);
    let length = edit.bytes.len() as u64;
    match rng.below(8) {
        0 => now.wrapping_add(1),
        1 => now.wrapping_sub(1),
        2 => *rng.pick(&[0, 1, 2, 3, 4, 8, 9, 11, 18]),
        3 => *rng.pick(&[length, length + 1, length.saturating_sub(64), length / 2]),
        4 => *rng.pick(&[1 << 16, 1 << 24, 1 << 32, 1 << 63, TOP, TOP - 63, 0xFF00]),
        5 => rng.below(edit.count() as usize + 2) as u64,
        6 => rng.next(),
        _ => now ^ (1 << rng.below(64)),
    }
}

/// At a place of any sort: in the header, at and round each section's end and header, anywhere.
fn cut(rng: &mut Rng, edit: &mut Edit) {
    let at = match rng.below(5) {
        0 => rng.below(HEAD + 1),
        1 => header(rng, edit).saturating_add(*rng.pick(&[0, 1, 47, 48, 49, 56, 57, 63, 64])),
        2 => rng.any(&edit.sections).map_or(0, |x| x.offset as usize),
        3 => rng.any(&edit.sections).map_or(0, |x| {
            let end = x.offset.saturating_add(x.size);
            end.saturating_add(*rng.pick(&[0, 1])).saturating_sub(1) as usize
        }),
        _ => rng.below(edit.bytes.len() + 1),
    };
    edit.bytes.truncate(at);
}

#[cfg(test)]
mod tests {
    use super::*;
    use crate::files::clauses::tests::{comes_to, files};

    #[test]
    fn damages_take_any_bytes() {
        let mut rng = Rng::new(3);
        for (_, make) in DAMAGES {
            for length in [0, 1, 63, 64, 65, 200] {
                for _ in 0..50 {
                    make(
                        &mut rng,
                        &mut Edit::of(bytes(&mut Rng::new(length), length as usize)),
                    );
                }
            }
            for file in files() {
                let mut edit = Edit::of(file);
                (0..5).for_each(|_| make(&mut rng, &mut edit));
            }
        }
    }

    #[test]
    fn damaged_files_come_to_all_three() {
        let mut rng = Rng::new(4);
        let mut met = [0; 27];
        for file in files().iter().cycle().take(5000) {
            let mut edit = Edit::of(file.clone());
            (rng.pick(&DAMAGES).1)(&mut rng, &mut edit);
            met[comes_to(&edit.bytes) as usize] += 1;
        }
        assert!(met[0] > 1000 && met[25] > 200 && met[26] > 500, "{met:?}");
    }
}
