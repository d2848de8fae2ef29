//! ELF files: paper 1 of document 02.
mod clauses;
mod damages;
#[cfg(test)]
mod differences;
mod direct;
mod draw;
pub mod edit;
pub mod fuzz;
mod guard;
pub mod layout;
mod limits;
mod long;
mod reach;
pub mod read;
mod told;
mod twists;
pub mod worst;

use crate::case::{Case, Form};
use crate::domain::{judge_file, known};
use crate::generate::{self, Draft, Lent};
use crate::patch_list::listed;
use crate::rng::Rng;

use clauses::CLAUSES;
use damages::DAMAGES;
use edit::Edit;

pub use direct::{AS_IT_IS, given};
pub use edit::without_btf;
pub use limits::limits;
pub use reach::features;
pub use told::told;

/// A file drawn at random, or a real one; some of both are changed.
pub fn case(rng: &mut Rng, real: &[Vec<u8>]) -> Case {
    let (aim, draft, mut lent) = generate::drafted(rng);
    let rewrite = rng.chance(1, 2);
    let (other, mut file) = base(rng, &draft, real, 10);
    if let (REAL, Ok(records)) = (other, read::read(&file)) {
        lent = generate::list(rng, &Draft::of(&records));
    }
    let mut aim = [other, aim, lent.aim, "sound"]
        .into_iter()
        .find(|aim| !aim.is_empty())
        .unwrap_or_default();
    if rng.chance(1, if other == REAL { 2 } else { 4 }) {
        aim = change(rng, &mut file);
    }
    of_file(aim, file, lent, rewrite)
}

const REAL: &str = "real";

/// A file that states the draft; or one with long names, or once in so many times a real one, and which of these.
fn base(rng: &mut Rng, draft: &Draft, real: &[Vec<u8>], of: usize) -> (&'static str, Vec<u8>) {
    if !real.is_empty() && rng.chance(1, of) {
        return (REAL, rng.pick(real).clone());
    }
    if rng.chance(1, 120) {
        return ("long names", long::file(rng));
    }
    let drawn = draw::file(rng, draft);
    ("", twists::twist(rng, drawn))
}

/// Brings a file to a clause of 25 or 26, or damages it; what was done.
fn change(rng: &mut Rng, file: &mut Vec<u8>) -> &'static str {
    let mut edit = Edit::of(std::mem::take(file));
    let mut aim = "";
    if rng.chance(2, 3) && read::read(&edit.bytes).is_ok() && !edit.sections.is_empty() {
        let (clause, make) = rng.pick(&CLAUSES);
        let past = rng.chance(2, 3);
        make(rng, &mut edit, past);
        aim = clause;
    }
    if aim.is_empty() || rng.chance(1, 10) {
        for _ in 0..*rng.pick(&[1, 1, 1, 2, 4]) {
            let (damage, make) = rng.pick(&DAMAGES);
            make(rng, &mut edit);
            aim = damage;
        }
    }
    *file = edit.bytes;
    aim
}

/// The case of a file, with what it states and who judges it.
pub fn of_file(aim: &'static str, file: Vec<u8>, lent: Lent, rewrite: bool) -> Case {
    let Lent {
        entries, patches, ..
    } = lent;
    let (records, judge) = match read::read(&file) {
        Err(number) => (None, known(number, 0)),
        Ok(records) => {
            let judge = judge_file(&records, &entries, &patches);
            (Some(records), judge)
        }
    };
    Case {
        aim,
        form: Form::File,
        input: file,
        records,
        list: listed(&entries, &patches),
        entries,
        patches,
        rewrite,
        judge,
    }
}

#[cfg(test)]
mod tests {
    use super::*;
    use crate::case::Judge;
    use std::collections::HashMap;

    fn cases(seed: u64, count: usize) -> impl Iterator<Item = Case> {
        let mut rng = Rng::new(seed);
        (0..count).map(move |_| case(&mut rng, &[]))
    }

    #[test]
    fn a_seed_gives_the_same_cases() {
        let told = |seed| {
            cases(seed, 50)
                .map(|c| (c.aim, c.input, c.entries, c.patches, c.rewrite, c.judge))
                .collect::<Vec<_>>()
        };
        assert_eq!(told(7), told(7));
        assert_ne!(told(7), told(8));
    }

    #[test]
    fn most_are_compared_on_their_own_bytes() {
        let mut met: HashMap<&str, usize> = HashMap::new();
        for case in cases(1, 10_000) {
            let how = match &case.judge {
                Judge::Crate => given(&case).how,
                Judge::Known(r) if r.number > 24 => "refused",
                _ => "other",
            };
            *met.entry(how).or_default() += 1;
        }
        assert!(met[direct::AS_IT_IS] > 5000, "{met:?}");
        assert!(met[direct::MOVED] > 50 && met["refused"] > 1000, "{met:?}");
    }

    #[test]
    fn every_aim_is_met() {
        let mut met: HashMap<&str, usize> = HashMap::new();
        cases(2, 40_000).for_each(|case| *met.entry(case.aim).or_default() += 1);
        let clauses = CLAUSES.iter().map(|c| c.0);
        for aim in clauses
            .chain(DAMAGES.iter().map(|d| d.0))
            .chain(["sound", "long names"])
        {
            let count = met.get(aim).copied().unwrap_or(0);
            assert!(count > 40, "{aim} {count}");
        }
    }

    #[test]
    fn shapes_that_have_to_appear() {
        let mut met: HashMap<&str, usize> = HashMap::new();
        for case in cases(3, 20_000) {
            for feature in case.records.iter().flat_map(|r| features(&case.input, r)) {
                *met.entry(feature).or_default() += 1;
            }
        }
        let few: Vec<_> = met
            .iter()
            .filter(|(what, n)| **n < 40 && **what != "large file")
            .collect();
        assert!(few.is_empty() && met.len() == 35, "{} {met:?}", met.len());
    }
}
