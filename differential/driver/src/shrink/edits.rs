//! Records made smaller in one place, their references kept in order.
use std::collections::{HashMap, HashSet};
use std::ops::Range;

use crate::case::{Extent, NONE, Records};
use crate::rules::{broken, piece};

pub fn without<T: Clone>(of: &[T], run: Range<usize>) -> Vec<T> {
    [&of[..run.start], &of[run.end..]].concat()
}

/// None where nothing changes.
pub fn zeroed(of: &[u8], run: Range<usize>) -> Option<Vec<u8>> {
    if of[run.clone()].iter().all(|&b| b == 0) {
        return None;
    }
    let mut out = of.to_vec();
    out[run].fill(0);
    Some(out)
}

pub fn with_zeros(of: &Records, run: Range<usize>) -> Option<Records> {
    let data = zeroed(&of.data, run)?;
    Some(Records { data, ..of.clone() })
}

/// A number without those below it that went, which are in order.
fn lowered(n: u32, gone: &[u32]) -> u32 {
    if n == NONE {
        NONE
    } else {
        n.saturating_sub(gone.partition_point(|&g| g < n) as u32)
    }
}

/// Their symbols go too, or lie in no section then.
pub fn without_sections(of: &Records, run: Range<usize>, with_symbols: bool) -> Records {
    let gone: Vec<u32> = of.sections[run.clone()].iter().map(|x| x.index).collect();
    let lost: HashSet<u32> = gone.iter().copied().collect();
    let mut out = if with_symbols {
        without_symbols(of, |place| lost.contains(&of.symbols[place].section))
    } else {
        of.clone()
    };
    out.sections = without(&of.sections, run);
    for x in &mut out.sections {
        x.index = lowered(x.index, &gone);
    }
    for y in &mut out.symbols {
        y.section = if lost.contains(&y.section) {
            NONE
        } else {
            lowered(y.section, &gone)
        };
    }
    out
}

pub fn without_symbols(of: &Records, goes: impl Fn(usize) -> bool) -> Records {
    let mut out = of.clone();
    let mut gone = Vec::new();
    out.symbols.clear();
    for (place, symbol) in of.symbols.iter().enumerate() {
        if goes(place) {
            gone.push(symbol.index);
        } else {
            out.symbols.push(symbol.clone());
        }
    }
    for y in &mut out.symbols {
        y.index = lowered(y.index, &gone);
    }
    for r in &mut out.relocations {
        r.symbol = lowered(r.symbol, &gone);
    }
    out
}

pub fn without_relocations(of: &Records, run: Range<usize>) -> Records {
    let (from, to) = (run.start as u32, run.end as u32);
    let place = |k: u32| k - k.min(to).saturating_sub(from);
    let mut out = Records {
        relocations: without(&of.relocations, run),
        ..of.clone()
    };
    for x in &mut out.sections {
        let Extent { at, length } = x.relocations;
        let end = place(at.saturating_add(length));
        x.relocations = Extent {
            at: place(at),
            length: end - place(at),
        };
    }
    out
}

/// The lengths of all ranges; `cut` takes a place among them.
pub fn lengths(of: &Records) -> Vec<u64> {
    extents(&mut of.clone())
        .map(|extent| u64::from(extent.length))
        .collect()
}

fn extents(of: &mut Records) -> impl Iterator<Item = &mut Extent> {
    let sections = of
        .sections
        .iter_mut()
        .flat_map(|x| [&mut x.bytes, &mut x.name, &mut x.relocations]);
    sections.chain(of.symbols.iter_mut().map(|y| &mut y.name))
}

/// A shorter range; a section's size goes with its data.
pub fn cut(of: &Records, place: usize, length: u32) -> Records {
    let mut out = of.clone();
    extents(&mut out)
        .nth(place)
        .expect("the ranges are the same")
        .length = length;
    for (new, old) in out.sections.iter_mut().zip(&of.sections) {
        if old.size == u64::from(old.bytes.length) {
            new.size = u64::from(new.bytes.length);
        }
    }
    out
}

enum Number<'a> {
    Byte(&'a mut u8),
    Word(&'a mut u32),
    Long(&'a mut u64),
}

impl Number<'_> {
    fn get(&self) -> u64 {
        match self {
            Number::Byte(n) => u64::from(**n),
            Number::Word(n) => u64::from(**n),
            Number::Long(n) => **n,
        }
    }

    fn set(self, value: u64) {
        match self {
            Number::Byte(n) => *n = value as u8,
            Number::Word(n) => *n = value as u32,
            Number::Long(n) => *n = value,
        }
    }
}

/// The numbers that may get smaller; `with_number` takes a place among them.
pub fn values(of: &Records) -> Vec<u64> {
    numbers(&mut of.clone())
        .map(|number| number.get())
        .collect()
}

pub fn with_number(of: &Records, place: usize, value: u64) -> Records {
    let mut out = of.clone();
    numbers(&mut out)
        .nth(place)
        .expect("the numbers are the same")
        .set(value);
    out
}

fn numbers(of: &mut Records) -> impl Iterator<Item = Number<'_>> {
    use Number::{Byte, Long, Word};
    let sections = of
        .sections
        .iter_mut()
        .flat_map(|x| [Word(&mut x.mark), Long(&mut x.address), Long(&mut x.size)]);
    let symbols = of.symbols.iter_mut().flat_map(|y| {
        [
            Long(&mut y.address),
            Long(&mut y.size),
            Byte(&mut y.kind),
            Byte(&mut y.definition),
        ]
    });
    let relocations = of
        .relocations
        .iter_mut()
        .flat_map(|r| [Long(&mut r.offset), Word(&mut r.symbol), Byte(&mut r.size)]);
    std::iter::once(Word(&mut of.order))
        .chain(sections)
        .chain(symbols)
        .chain(relocations)
}

/// Indexes without gaps, if there were any.
pub fn closed(of: &Records) -> Option<Records> {
    let sections: HashMap<u32, u32> = of.sections.iter().map(|x| x.index).zip(1..).collect();
    let symbols: HashMap<u32, u32> = of.symbols.iter().map(|y| y.index).zip(1..).collect();
    let to = |n: u32, indexes: &HashMap<u32, u32>| {
        indexes
            .get(&n)
            .copied()
            .unwrap_or(n.max(indexes.len() as u32 + 1))
    };
    let mut out = of.clone();
    for x in &mut out.sections {
        x.index = sections[&x.index];
    }
    for y in &mut out.symbols {
        (y.index, y.section) = (
            symbols[&y.index],
            if y.section == NONE {
                NONE
            } else {
                to(y.section, &sections)
            },
        );
    }
    for r in out.relocations.iter_mut().filter(|r| r.symbol != NONE) {
        r.symbol = to(r.symbol, &symbols);
    }
    (broken(of).is_none() && out != *of).then_some(out)
}

/// Tables of names and data with nothing that nobody has, if that is shorter.
pub fn compact(of: &Records) -> Option<Records> {
    if broken(of).is_some() {
        return None;
    }
    let mut out = Records {
        names: Vec::new(),
        data: Vec::new(),
        ..of.clone()
    };
    for x in &mut out.sections {
        x.name = moved(&of.names, &mut out.names, x.name);
        x.bytes = moved(&of.data, &mut out.data, x.bytes);
    }
    for y in &mut out.symbols {
        y.name = moved(&of.names, &mut out.names, y.name);
    }
    (out.names.len() + out.data.len() < of.names.len() + of.data.len()).then_some(out)
}

/// A range's bytes in the new table, found there or put behind.
fn moved(from: &[u8], to: &mut Vec<u8>, extent: Extent) -> Extent {
    let bytes = piece(from, extent);
    if bytes.is_empty() {
        return Extent::default();
    }
    let found = (to.len() <= 4096)
        .then(|| to.windows(bytes.len()).position(|part| part == bytes))
        .flatten();
    let at = found.unwrap_or(to.len());
    if found.is_none() {
        to.extend(bytes);
    }
    Extent {
        at: at as u32,
        ..extent
    }
}

#[cfg(test)]
mod tests {
    use super::*;
    use crate::sample::Sample;

    #[test]
    fn references_follow_what_goes() {
        let mut o = Sample::default();
        o.section("a", b"1")
            .section("b", b"2")
            .relocation(0, 3)
            .relocation(8, 1)
            .section("c", b"3")
            .relocation(16, 2);
        o.symbol("x", 1, 0, 0, 1)
            .symbol("y", 2, 0, 0, 1)
            .symbol("z", 3, 0, 0, 1)
            .symbol("n", NONE, 0, 0, 1);
        let without_first = without_sections(&o.records, 0..1, true);
        assert_eq!(
            without_first
                .sections
                .iter()
                .map(|x| x.index)
                .collect::<Vec<_>>(),
            [1, 2]
        );
        assert_eq!(
            without_first
                .symbols
                .iter()
                .map(|y| (y.index, y.section))
                .collect::<Vec<_>>(),
            [(1, 1), (2, 2), (3, NONE)]
        );
        assert_eq!(
            without_first
                .relocations
                .iter()
                .map(|r| r.symbol)
                .collect::<Vec<_>>(),
            [2, 1, 1]
        );
        let fewer = without_relocations(&o.records, 1..2);
        let runs: Vec<Extent> = fewer.sections.iter().map(|x| x.relocations).collect();
        assert_eq!(
            runs,
            [
                Extent { at: 0, length: 0 },
                Extent { at: 0, length: 1 },
                Extent { at: 1, length: 1 }
            ]
        );
        assert_eq!(
            fewer
                .relocations
                .iter()
                .map(|r| r.offset)
                .collect::<Vec<_>>(),
            [0, 16]
        );
        assert_eq!(broken(&fewer), None);
        let one = without_relocations(&o.records, 0..2);
        let last = one.sections.last().map(|x| x.relocations);
        assert_eq!(last, Some(Extent { at: 0, length: 1 }));
    }

    #[test]
    fn gaps_close() {
        let mut o = Sample::default();
        o.section("a", b"")
            .section("b", b"")
            .relocation(0, 9)
            .symbol("x", 7, 0, 0, 1)
            .symbol("y", 3, 0, 0, 1);
        o.records.sections[1].index = 7;
        o.records.symbols[1].index = 9;
        let closed = closed(&o.records).expect("there are gaps");
        assert_eq!(closed.sections[1].index, 2);
        assert_eq!(
            (
                closed.symbols[0].section,
                closed.symbols[1].section,
                closed.symbols[1].index
            ),
            (2, 3, 2)
        );
        assert_eq!(closed.relocations[0].symbol, 2);
        assert_eq!(super::closed(&closed), None);
    }
}
