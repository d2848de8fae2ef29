//! What a case has in it that the comparison is meant to reach, beside the number it answers.
use std::collections::{HashMap, HashSet};

use crate::case::{Case, NONE, Records, SectionRecord, SymbolRecord};
use crate::kinds::{Kind, kind};
use crate::parsing::TEXT;
use crate::rules::piece;

/// Larger objects are not looked into.
const MOST: usize = 1000;

/// Addresses from here on are near 2^64.
const NEAR_THE_TOP: u64 = u64::MAX - 0xFFFF;

/// Of records that pass the rules.
pub fn features(case: &Case, records: &Records) -> Vec<&'static str> {
    if records.sections.len().max(records.symbols.len()) > MOST {
        return vec!["large object"];
    }
    let object = Object::of(records);
    let mut found = vec![if records.order == 0 {
        "little-endian"
    } else {
        "big-endian"
    }];
    let mut note = |holds: bool, what| {
        if holds {
            found.push(what);
        }
    };
    note(twice(object.section_names()), "section name twice");
    note(twice(object.program_names()), "program name twice");
    note(twice(object.program_places()), "program address twice");
    note(object.relocation_twice(), "relocation offset twice");
    note(object.relocations_shared(), "relocations shared");
    note(object.data_overlaps(), "data ranges overlap");
    note(object.in_the_middle(), "symbol in a function's middle");
    note(object.near_the_top(), "address near 2^64");
    note(object.absent_section(), "symbol of an absent section");
    let maps = object.maps();
    note(follows(&maps, true, true), "legacy map by legacy map");
    note(follows(&maps, true, false), "legacy map by data map");
    note(follows(&maps, false, true), "data map by legacy map");
    note(follows(&maps, false, false), "data map by data map");
    let unknown = |name: &[u8]| {
        !object
            .symbols()
            .any(|y| piece(&records.names, y.name) == name)
    };
    let list = case.list.as_deref().unwrap_or_default();
    let passed_over = list.iter().any(|p| !p.must_exist && unknown(&p.name));
    note(passed_over, "unknown name passed over");
    note(list.iter().any(|p| p.name.is_empty()), "empty patch name");
    note(list.iter().any(|p| p.data.is_empty()), "empty patch data");
    found
}

/// The opcode and register bytes of instructions whose immediate rewriting looks for, where it is on.
pub fn calls(case: &Case, records: &Records) -> Vec<[u8; 2]> {
    let code = |x: &&SectionRecord| matches!(kind_of(records, x), Kind::Text | Kind::Program);
    let sections = records
        .sections
        .iter()
        .filter(|_| case.rewrite)
        .filter(code);
    sections
        .flat_map(|x| piece(&records.data, x.bytes).chunks_exact(8))
        .filter(|i| (112..=115).contains(&i[4]) && i[5..] == [0, 0, 0])
        .map(|i| [i[0], i[1]])
        .collect()
}

fn kind_of(records: &Records, x: &SectionRecord) -> Kind {
    kind(piece(&records.names, x.name), x.mark, x.size)
}

/// Records with their sections' kinds.
struct Object<'a> {
    records: &'a Records,
    kinds: HashMap<u32, Kind>,
}

impl<'a> Object<'a> {
    fn of(records: &'a Records) -> Self {
        let kinds = records
            .sections
            .iter()
            .map(|x| (x.index, kind_of(records, x)))
            .collect();
        Object { records, kinds }
    }

    fn sections(&self) -> impl Iterator<Item = (&'a SectionRecord, Kind)> {
        self.records
            .sections
            .iter()
            .map(|x| (x, self.kinds[&x.index]))
    }

    fn symbols(&self) -> impl Iterator<Item = &'a SymbolRecord> {
        self.records.symbols.iter()
    }

    fn lies_in(&self, y: &SymbolRecord, wanted: Kind) -> bool {
        self.kinds.get(&y.section) == Some(&wanted)
    }

    fn programs(&self) -> impl Iterator<Item = &'a SymbolRecord> {
        self.symbols()
            .filter(|y| y.kind == TEXT && y.name.length > 0 && self.lies_in(y, Kind::Program))
    }

    fn section_names(&self) -> impl Iterator<Item = &'a [u8]> {
        self.sections()
            .map(|(x, _)| piece(&self.records.names, x.name))
    }

    fn program_names(&self) -> impl Iterator<Item = &'a [u8]> {
        self.programs().map(|y| piece(&self.records.names, y.name))
    }

    fn program_places(&self) -> impl Iterator<Item = (u32, u64)> {
        self.programs().map(|y| (y.section, y.address))
    }

    /// Names in the order in which they enter the map table, and whether each is a legacy map's.
    fn maps(&self) -> Vec<(&'a [u8], bool)> {
        let name = |extent| piece(&self.records.names, extent);
        self.sections()
            .flat_map(|(x, kind)| match kind {
                Kind::Data | Kind::Rodata | Kind::Bss => vec![(name(x.name), false)],
                Kind::Maps => {
                    let own = self.symbols().filter(|y| y.section == x.index);
                    own.map(|y| (name(y.name), true)).collect()
                }
                _ => Vec::new(),
            })
            .collect()
    }

    fn relocation_twice(&self) -> bool {
        self.sections()
            .filter(|(_, kind)| matches!(kind, Kind::Text | Kind::Program))
            .any(|(x, _)| {
                let first = x.relocations.at as usize;
                let own = &self.records.relocations[first..first + x.relocations.length as usize];
                twice(own.iter().map(|r| r.offset))
            })
    }

    fn relocations_shared(&self) -> bool {
        meet(
            self.sections()
                .map(|(x, _)| (x.relocations.at, x.relocations.length)),
        )
    }

    fn data_overlaps(&self) -> bool {
        meet(self.sections().map(|(x, _)| (x.bytes.at, x.bytes.length)))
    }

    fn in_the_middle(&self) -> bool {
        let defined = |y: &&SymbolRecord| y.kind == TEXT && y.definition == 1;
        let inside = |y: &SymbolRecord, z: &SymbolRecord| {
            z.section == y.section && z.address > y.address && z.address - y.address < y.size
        };
        self.symbols()
            .filter(defined)
            .filter(|y| self.lies_in(y, Kind::Text))
            .any(|y| self.symbols().filter(defined).any(|z| inside(y, z)))
    }

    fn near_the_top(&self) -> bool {
        self.symbols().any(|y| y.address >= NEAR_THE_TOP)
            || self.sections().any(|(x, _)| x.address >= NEAR_THE_TOP)
    }

    fn absent_section(&self) -> bool {
        self.symbols()
            .any(|y| y.section != NONE && !self.kinds.contains_key(&y.section))
    }
}

fn twice<T: Eq + std::hash::Hash>(mut values: impl Iterator<Item = T>) -> bool {
    let mut seen = HashSet::new();
    values.any(|v| !seen.insert(v))
}

/// Whether two ranges, by start and length, share an element.
fn meet(ranges: impl Iterator<Item = (u32, u32)>) -> bool {
    let mut ranges: Vec<(u32, u32)> = ranges.filter(|r| r.1 > 0).collect();
    ranges.sort_unstable();
    ranges
        .windows(2)
        .any(|pair| pair[1].0 - pair[0].0 < pair[0].1)
}

/// Whether a map of one sort is replaced by a later one of the other of its name.
fn follows(maps: &[(&[u8], bool)], first: bool, second: bool) -> bool {
    let of = |k: usize| maps[..k].iter().rev().find(|m| m.0 == maps[k].0);
    (0..maps.len()).any(|k| maps[k].1 == second && of(k).is_some_and(|m| m.1 == first))
}

#[cfg(test)]
mod tests {
    use super::*;

    #[test]
    fn ranges_that_meet() {
        assert!(meet([(4, 2), (0, 5)].into_iter()));
        assert!(!meet([(4, 2), (0, 4), (2, 0)].into_iter()));
    }

    #[test]
    fn maps_of_one_name() {
        let maps: [(&[u8], bool); 3] = [(b"a", true), (b"b", false), (b"a", false)];
        assert!(follows(&maps, true, false));
        assert!(!follows(&maps, true, true) && !follows(&maps, false, false));
    }

    #[test]
    fn names_twice() {
        assert!(twice([b"x", b"y", b"x"].iter()));
        assert!(!twice([b"x", b"y"].iter()));
    }
}
