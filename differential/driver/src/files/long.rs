//! Files with long names: runs of letters in one string table, and names that begin anywhere in them.
use crate::rng::Rng;
use crate::rules::MOST_NAME;

use super::edit::{Edit, LINK, NAME, SHSTRNDX};
use super::layout::{Body, Plan, Symbol};
use super::read::{PROGBITS, STRTAB, SYMBOL};

/// Most are read; in some one name is too long, has a byte above 127 or no end.
pub fn file(rng: &mut Rng) -> Vec<u8> {
    let mut table = Table::draw(rng);
    let count = *rng.pick(&[1, 3, 8, 20, 60]);
    let mut plan = Plan::with_symbols(vec![symbol(rng); count]);
    plan.big = rng.chance(1, 2);
    plan.section("maps", PROGBITS, Body::Bytes(vec![1; 24]));
    for _ in 0..rng.below(4) {
        plan.section(".data", PROGBITS, Body::Bytes(vec![2; 4]));
    }
    plan.section("", STRTAB, Body::Bytes(table.bytes.clone()));
    let strings = plan.here();
    let mut edit = Edit::of(plan.plain());
    let sections = edit.sections.clone();
    if let Some(symbols) = edit.symbols {
        edit.set(symbols.at, LINK, strings.into());
        for k in 1..=count as u64 {
            let at = symbols.offset + SYMBOL * k;
            edit.set(at as usize, NAME, table.name(rng));
        }
    }
    if rng.chance(1, 3) {
        edit.set(0, SHSTRNDX, strings.into());
        for x in sections {
            edit.set(x.at, NAME, table.name(rng));
        }
    }
    edit.bytes
}

/// A legacy map, whose name is listed, or one that nothing is made of.
fn symbol(rng: &mut Rng) -> Symbol {
    Symbol {
        info: 1,
        section: *rng.pick(&[3, 3, 0]),
        size: 20,
        ..Default::default()
    }
}

struct Table {
    bytes: Vec<u8>,
    /// Where each run begins and how long it is; only of those that end with a zero.
    runs: Vec<(usize, usize)>,
    /// How many names more may break a rule.
    faults: usize,
}

const LENGTHS: [usize; 12] = [
    0, 5, 1022, 1023, 1024, 1025, 2047, 2048, 3000, 5000, 65_535, 66_000,
];

impl Table {
    fn draw(rng: &mut Rng) -> Table {
        let mut out = Table {
            bytes: vec![0; rng.below(3)],
            runs: Vec::new(),
            faults: usize::from(rng.chance(1, 2)),
        };
        let word = *rng.pick(&["a", "ab", ".data", "maps", "tp/"]);
        for _ in 0..1 + rng.below(5) {
            let at = out.bytes.len();
            let length = if rng.chance(1, 2) {
                *rng.pick(&LENGTHS) + rng.below(3)
            } else {
                // it ends round a multiple of 1,024 of the table
                1024 * (1 + rng.below(4)) - at % 1024 + rng.below(3) - 1
            };
            out.bytes.extend(word.bytes().cycle().take(length));
            let end = *rng.pick(&[0, 0, 0, 0, 128, 255]);
            out.bytes.push(end);
            if end == 0 {
                out.runs.push((at, length));
            }
        }
        if rng.chance(1, 4) {
            out.bytes.extend(word.bytes().cycle().take(rng.below(3000)));
        } else {
            out.runs.push((out.bytes.len(), 0));
            out.bytes.push(0);
        }
        out
    }

    /// Where a name begins.
    fn name(&mut self, rng: &mut Rng) -> u64 {
        if self.faults > 0 && rng.chance(1, 8) {
            self.faults -= 1;
            return rng.below(self.bytes.len() + 2) as u64;
        }
        let Some(&(at, length)) = self.runs.get(rng.below(self.runs.len().max(1))) else {
            return 0;
        };
        let first = length.saturating_sub(MOST_NAME as usize);
        let into = match rng.below(4) {
            0 => first,
            1 => length - rng.below(length.min(1030) + 1),
            2 => first + rng.below(length - first + 1),
            // round a multiple of 1,024 of the table
            _ => ((at + first).next_multiple_of(1024) + rng.below(3)).saturating_sub(at + 1),
        };
        (at + into.clamp(first, length)) as u64
    }
}

#[cfg(test)]
mod tests {
    use super::*;
    use crate::files::read::read;

    #[test]
    fn most_are_read() {
        let mut rng = Rng::new(1);
        let mut met = [0; 3];
        let mut longest = 0;
        for _ in 0..300 {
            match read(&file(&mut rng)) {
                Ok(records) => {
                    met[0] += 1;
                    let names = records.symbols.iter().map(|y| y.name.length);
                    longest = longest.max(names.max().unwrap_or(0));
                }
                Err(number) => met[number as usize - 24] += 1,
            }
        }
        assert!(met[0] > 150 && met[1] == 0 && met[2] > 20, "{met:?}");
        assert_eq!(longest, MOST_NAME);
    }
}
