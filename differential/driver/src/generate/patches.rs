//! Patch lists for a draft, as they are lent.
use std::collections::HashMap;

use crate::case::Patch;
use crate::kinds::{Kind, kind};
use crate::rng::Rng;

use super::draft::{Draft, Symbol};
use super::words::bytes;

#[derive(Default)]
pub struct Lent {
    /// Empty where the list is sound.
    pub aim: &'static str,
    pub entries: Vec<u64>,
    pub patches: Vec<u8>,
}

/// A draft's symbols by what a patch of them comes to.
struct Bearers<'a> {
    /// Inside a map's own bytes.
    sound: Vec<&'a Symbol>,
    /// 19.
    several: Vec<&'a Symbol>,
    /// 22.
    no_map: Vec<&'a Symbol>,
    /// 23.
    outside: Vec<&'a Symbol>,
    names: HashMap<&'a [u8], usize>,
}

fn bearers(draft: &Draft) -> Bearers<'_> {
    let mut names = HashMap::new();
    for symbol in &draft.symbols {
        *names.entry(symbol.name.as_slice()).or_insert(0) += 1;
    }
    let mut out = Bearers {
        sound: vec![],
        several: vec![],
        no_map: vec![],
        outside: vec![],
        names,
    };
    for symbol in draft.symbols.iter().filter(|y| y.size <= 64) {
        if out.names[symbol.name.as_slice()] > 1 {
            out.several.push(symbol);
            continue;
        }
        match own_bytes(draft, symbol.section) {
            None => out.no_map.push(symbol),
            Some(own)
                if symbol
                    .address
                    .checked_add(symbol.size)
                    .is_some_and(|end| end <= own) =>
            {
                out.sound.push(symbol)
            }
            Some(_) => out.outside.push(symbol),
        }
    }
    out
}

/// How many own bytes the maps of a section have, if it has any and none is replaced.
fn own_bytes(draft: &Draft, section: u32) -> Option<u64> {
    let section = draft.sections.get((section as usize).wrapping_sub(1))?;
    match kind(&section.name, section.mark, section.size) {
        Kind::Maps => Some(0),
        Kind::Data | Kind::Rodata => Some(section.data.len() as u64),
        Kind::Bss => Some(section.size),
        _ => None,
    }
}

type Make = fn(&mut Rng, &Bearers) -> Option<Patch>;

const FAULTY: [(&str, Make); 6] = [
    ("19 several bearers", |rng, all| patch_of(rng, &all.several)),
    ("20 must exist", |rng, all| {
        Some(Patch {
            must_exist: true,
            ..unknown(rng, all)
        })
    }),
    ("21 data of another size", other_size),
    ("22 no map", |rng, all| patch_of(rng, &all.no_map)),
    ("23 past the map's bytes", |rng, all| {
        patch_of(rng, &all.outside)
    }),
    ("21 to 23 of any symbol", |rng, all| {
        let symbols = [all.no_map.as_slice(), &all.outside, &all.sound].concat();
        patch_of(rng, &symbols).map(|patch| Patch {
            data: patch.data[..patch.data.len() / 2].to_vec(),
            ..patch
        })
    }),
];

fn patch_of(rng: &mut Rng, symbols: &[&Symbol]) -> Option<Patch> {
    if symbols.is_empty() {
        return None;
    }
    let symbol = rng.pick(symbols);
    Some(Patch {
        name: symbol.name.clone(),
        data: bytes(rng, symbol.size as usize),
        must_exist: rng.chance(1, 2),
    })
}

fn other_size(rng: &mut Rng, all: &Bearers) -> Option<Patch> {
    let mut patch = patch_of(rng, &all.sound)?;
    if rng.chance(1, 2) || patch.data.is_empty() {
        patch.data.push(1);
    } else {
        patch.data.pop();
    }
    Some(patch)
}

/// A name that no symbol has, near to one that a symbol has.
fn unknown(rng: &mut Rng, all: &Bearers) -> Patch {
    loop {
        let mut name = patch_of(rng, &all.sound).map_or(b"unknown".to_vec(), |patch| patch.name);
        match rng.below(32) {
            0..=19 => name.push(*rng.pick(b"x\0\x01")),
            20..=24 => drop(name.pop()),
            25..=28 => name.clear(),
            29 | 30 => name = "ü".as_bytes().to_vec(),
            _ => name.push(*rng.pick(b"\xFF\x80")),
        }
        if !all.names.contains_key(name.as_slice()) {
            let length = rng.below(4);
            return Patch {
                name,
                data: bytes(rng, length),
                must_exist: false,
            };
        }
    }
}

/// Entries that are accepted; few overlap or repeat a name.
fn sound(rng: &mut Rng, all: &Bearers) -> Vec<Patch> {
    let mut left = all.sound.clone();
    let mut list = Vec::new();
    for _ in 0..*rng.pick(&[1, 1, 2, 2, 3, 5]) {
        if left.is_empty() || rng.chance(1, 8) {
            list.push(unknown(rng, all));
            continue;
        }
        let symbol = left[rng.below(left.len())];
        list.extend(patch_of(rng, &[symbol]));
        let (again, over) = (rng.chance(1, 24), rng.chance(1, 6));
        left.retain(|other| {
            if other.name == symbol.name {
                again
            } else {
                over || !overlap(symbol, other)
            }
        });
    }
    list
}

fn overlap(a: &Symbol, b: &Symbol) -> bool {
    a.section == b.section && a.address < b.address + b.size && b.address < a.address + a.size
}

/// A list; most are sound.
pub fn draw(rng: &mut Rng, draft: &Draft) -> Lent {
    let all = bearers(draft);
    let mut list = sound(rng, &all);
    let mut aim = "";
    if rng.chance(1, 4) {
        for _ in 0..*rng.pick(&[1, 1, 1, 2]) {
            let (what, make) = rng.pick(&FAULTY);
            if let Some(patch) = make(rng, &all) {
                list.insert(rng.below(list.len() + 1), patch);
                aim = what;
            }
        }
    }
    let (mut entries, mut patches) = packed(rng, &list);
    if rng.chance(1, 10) {
        patches.extend(b"more");
    }
    if rng.chance(1, 16) {
        aim = damage(rng, &mut entries, patches.len() as u64);
    }
    Lent {
        aim,
        entries,
        patches,
    }
}

/// The list over a buffer whose pieces may share bytes.
fn packed(rng: &mut Rng, list: &[Patch]) -> (Vec<u64>, Vec<u8>) {
    let (mut entries, mut patches) = (Vec::new(), Vec::new());
    for patch in list {
        for piece in [&patch.name, &patch.data] {
            entries.extend([place(rng, &mut patches, piece), piece.len() as u64]);
        }
        entries.push(u64::from(patch.must_exist));
    }
    (entries, patches)
}

fn place(rng: &mut Rng, patches: &mut Vec<u8>, piece: &[u8]) -> u64 {
    if piece.is_empty() {
        return rng.below(patches.len() + 1) as u64;
    }
    let found = patches.windows(piece.len()).position(|part| part == piece);
    if let Some(at) = found.filter(|_| rng.chance(1, 2)) {
        return at as u64;
    }
    patches.extend(piece);
    (patches.len() - piece.len()) as u64
}

/// Makes one entry leave its buffer, have another mark or end too early (18).
fn damage(rng: &mut Rng, entries: &mut Vec<u64>, length: u64) -> &'static str {
    let first = 5 * rng.below(entries.len() / 5);
    let range = first + *rng.pick(&[0, 2]);
    match rng.below(5) {
        0 => {
            entries[range] = length + 1 - entries[range + 1];
            "18 place past the buffer"
        }
        1 => {
            (entries[range], entries[range + 1]) =
                *rng.pick(&[(length + 1, 0), (length, 1), (0, length + 1)]);
            "18 range past the buffer"
        }
        2 => {
            (entries[range], entries[range + 1]) = *rng.pick(&[
                (u64::MAX, 1),
                (u64::MAX, 0),
                (1, u64::MAX),
                (u64::MAX, u64::MAX),
                (u64::MAX - 3, 8),
                (1 << 32, 0),
            ]);
            "18 range far away"
        }
        3 => {
            entries[first + 4] = *rng.pick(&[2, 3, 256, 1 << 32, u64::MAX]);
            "18 mark above 1"
        }
        _ => {
            entries.truncate(first + 1 + rng.below(4));
            "18 entry not whole"
        }
    }
}

#[cfg(test)]
mod tests {
    use super::*;
    use crate::case::Judge;
    use crate::domain::{comparable, judge, known};
    use crate::patch_list::{lend, listed};

    fn draft() -> Draft {
        let mut draft = Draft::default();
        draft.section(".data", vec![0; 16]);
        draft.symbol("a", 0, 4, 2);
        draft.symbol("b", 4, 4, 2);
        draft.symbol("past", 15, 4, 2);
        draft.symbol("two", 0, 4, 2);
        draft.symbol("two", 0, 4, 2);
        draft.section("maps", vec![0; 20]);
        draft.symbol("m", 0, 20, 2);
        draft.symbol("nowhere", 0, 3, 2).section = 9;
        draft
    }

    #[test]
    fn faulty_entries_are_what_they_aim_at() {
        let mut rng = Rng::new(1);
        let (draft, records) = (draft(), draft().records());
        for (aim, make) in &FAULTY {
            for _ in 0..50 {
                let patch = make(&mut rng, &bearers(&draft)).expect("the draft has such symbols");
                let (entries, patches) = lend(&[patch.clone()]);
                let judged = judge(&records, &entries, &patches);
                match *aim {
                    "19 several bearers" => assert_eq!(judged, known(19, 1)),
                    _ if std::str::from_utf8(&patch.name).is_err() => (),
                    _ => {
                        let two = comparable(&records, &[patch, missing()]);
                        assert_eq!(two, Err("several faulty entries"), "{aim}");
                    }
                }
            }
        }
    }

    fn missing() -> Patch {
        Patch {
            name: b"missing".to_vec(),
            data: vec![],
            must_exist: true,
        }
    }

    #[test]
    fn sound_lists_are_accepted() {
        let mut rng = Rng::new(2);
        let (draft, records) = (draft(), draft().records());
        let mut inside = 0;
        for _ in 0..1000 {
            let mut list = sound(&mut rng, &bearers(&draft));
            let (entries, patches) = packed(&mut rng, &list);
            assert_eq!(listed(&entries, &patches), Some(list.clone()));
            inside += usize::from(judge(&records, &entries, &patches) == Judge::Crate);
            list.push(missing());
            assert_ne!(comparable(&records, &list), Err("several faulty entries"));
        }
        assert!(inside > 700, "{inside}");
    }

    #[test]
    fn damaged_entries_are_18() {
        let mut rng = Rng::new(3);
        let records = draft().records();
        let a = Patch {
            name: b"a".to_vec(),
            data: vec![1; 4],
            must_exist: true,
        };
        let b = Patch {
            name: b"b".to_vec(),
            ..a.clone()
        };
        for _ in 0..1000 {
            let (mut entries, patches) = lend(&[a.clone(), b.clone()]);
            let aim = damage(&mut rng, &mut entries, patches.len() as u64);
            assert!(aim.starts_with("18"));
            assert_eq!(listed(&entries, &patches), None, "{aim}");
            assert!(
                matches!(judge(&records, &entries, &patches), Judge::Known(refusal) if refusal.number == 18),
                "{aim}"
            );
        }
    }
}
