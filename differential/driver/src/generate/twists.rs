//! Changes to records that leave most objects accepted: shared and overlapping ranges, gaps in the indexes, other sizes.
use crate::case::{Extent, NONE, Records};
use crate::kinds::{Kind, kind};
use crate::rng::Rng;
use crate::rules::piece;

type Twist = fn(&mut Rng, &mut Records);

/// Each happens once in so many objects.
const TWISTS: [(usize, Twist); 6] = [
    (10, share_relocations),
    (12, overlap_data),
    (60, spread_sections),
    (60, spread_symbols),
    (60, other_size),
    (200, last_index),
];

pub fn twist(rng: &mut Rng, records: &mut Records) {
    for (rarity, make) in TWISTS {
        if !records.sections.is_empty() && rng.chance(1, rarity) {
            make(rng, records);
        }
    }
}

fn part(rng: &mut Rng, table: usize) -> Extent {
    let at = rng.below(table + 1);
    Extent {
        at: at as u32,
        length: rng.below(table - at + 1) as u32,
    }
}

fn share_relocations(rng: &mut Rng, records: &mut Records) {
    for _ in 0..2 {
        let section = rng.below(records.sections.len());
        records.sections[section].relocations = part(rng, records.relocations.len());
    }
}

/// Another section's bytes, or parts of several, for a data map.
fn overlap_data(rng: &mut Rng, records: &mut Records) {
    let names = &records.names;
    let mut maps: Vec<_> = records
        .sections
        .iter_mut()
        .filter(|x| matches!(kind(piece(names, x.name), 0, 0), Kind::Data | Kind::Rodata))
        .collect();
    if maps.is_empty() {
        return;
    }
    let place = rng.below(maps.len());
    let length = maps[place].bytes.length;
    maps[place].bytes.at = rng.below(records.data.len() - length as usize + 1) as u32;
}

fn spread_sections(rng: &mut Rng, records: &mut Records) {
    let from = rng.below(records.sections.len());
    let first = records.sections[from].index;
    let step = *rng.pick(&[1, 7, 5000, 1 << 31]);
    for x in &mut records.sections[from..] {
        x.index += step;
    }
    for y in records
        .symbols
        .iter_mut()
        .filter(|y| y.section >= first && y.section < 4096)
    {
        y.section += step;
    }
}

fn spread_symbols(rng: &mut Rng, records: &mut Records) {
    let step = *rng.pick(&[1, 7, 70_000]);
    let from = rng.below(records.symbols.len() + 1);
    for y in &mut records.symbols[from..] {
        y.index += step;
    }
}

fn other_size(rng: &mut Rng, records: &mut Records) {
    let section = rng.below(records.sections.len());
    let x = &mut records.sections[section];
    if rng.chance(1, 3) {
        x.bytes.length = 0;
    } else {
        x.size = *rng.pick(&[0, x.size + 1, 2 * x.size, x.size / 2]);
    }
}

/// The last section gets the index that means none elsewhere: no symbol lies in it.
fn last_index(_: &mut Rng, records: &mut Records) {
    if let Some(x) = records.sections.last_mut() {
        x.index = NONE;
    }
}

#[cfg(test)]
mod tests {
    use super::*;
    use crate::generate::draft::Draft;
    use crate::generate::sections::any;
    use crate::rules::broken;

    #[test]
    fn no_twist_breaks_a_rule() {
        let mut rng = Rng::new(1);
        for _ in 0..2000 {
            let mut draft = Draft::default();
            (0..6).for_each(|_| any(&mut rng, &mut draft));
            let plain = draft.packed(&mut rng);
            let mut changed = 0;
            for (_, make) in TWISTS {
                let mut records = plain.clone();
                make(&mut rng, &mut records);
                assert_eq!(broken(&records), None);
                changed += usize::from(records != plain);
            }
            assert!(changed > 0);
        }
    }

    #[test]
    fn spreading_keeps_symbols_in_their_sections() {
        let mut draft = Draft::default();
        draft.section("xdp", vec![0; 8]).mark = 1;
        draft.symbol("p", 0, 8, 1);
        draft.symbol("none", 0, 8, 1).section = NONE;
        let mut records = draft.records();
        spread_sections(&mut Rng::new(1), &mut records);
        assert!(records.sections[0].index > 1);
        assert_eq!(records.symbols[0].section, records.sections[0].index);
        assert_eq!(records.symbols[1].section, NONE);
    }
}
