//! Makes a failing case smaller as long as it still fails.
pub mod edits;
mod file_edits;

use std::ops::Range;

use crate::case::{Case, Form, Records};
use crate::deposit::{BLOCK, STREAM, lay_out, read, seal};
use crate::domain::{judge, judge_file, known};
use crate::files;
use crate::generate::Lent;
use crate::patch_list::{lend, listed};

use edits::{without, zeroed};

/// How many smaller cases are tried at most, and how many bytes their deposits have together.
const TRIES: usize = 5_000;
const BYTES: usize = 4_000_000_000;

pub fn shrink(case: Case, fails: &mut dyn FnMut(&Case) -> bool) -> Case {
    let mut search = Search {
        best: case,
        tries: 0,
        bytes: 0,
        fails,
    };
    while search.pass() {}
    search.best
}

struct Search<'a> {
    best: Case,
    tries: usize,
    bytes: usize,
    fails: &'a mut dyn FnMut(&Case) -> bool,
}

impl Search<'_> {
    /// Tries each way once; whether one helped.
    fn pass(&mut self) -> bool {
        let list = self.list();
        let object = match (self.best.form, &self.best.records) {
            (Form::File, _) => self.file(),
            (Form::Deposit, Some(_)) => self.records(),
            (Form::Deposit, None) => self.damaged(),
        };
        list || object
    }

    fn over(&self) -> bool {
        self.tries >= TRIES || self.bytes >= BYTES
    }

    fn offer(&mut self, case: Case) -> bool {
        if self.over() || self.is_best(&case) {
            return false;
        }
        self.tries += 1;
        self.bytes += case.input.len();
        let failed = (self.fails)(&case);
        if failed {
            self.best = case;
        }
        failed
    }

    fn is_best(&self, case: &Case) -> bool {
        let best = &self.best;
        case.input == best.input
            && case.entries == best.entries
            && case.patches == best.patches
            && case.rewrite == best.rewrite
    }

    /// Offers what `change` makes of each run of `count` parts, long runs first. Where nothing changes it gives none.
    fn runs(
        &mut self,
        count: impl Fn(&Case) -> usize,
        change: impl Fn(&Case, Range<usize>) -> Option<Case>,
    ) -> bool {
        let mut helped = false;
        let mut run = count(&self.best);
        while run > 0 {
            let mut from = 0;
            while from < count(&self.best) && !self.over() {
                let before = count(&self.best);
                let to = (from + run).min(before);
                helped |= change(&self.best, from..to).is_some_and(|case| self.offer(case));
                if count(&self.best) == before {
                    from = to;
                }
            }
            run /= 2;
        }
        helped
    }

    /// Offers smaller values of each number; `change` sets the one at a place.
    fn values(&mut self, values: Vec<u64>, change: impl Fn(&Case, usize, u64) -> Case) -> bool {
        let mut helped = false;
        for (place, mut value) in values.into_iter().enumerate() {
            while let Some(n) =
                smaller(value).find(|&n| !self.over() && self.offer(change(&self.best, place, n)))
            {
                value = n;
                helped = true;
            }
        }
        helped
    }

    fn list(&mut self) -> bool {
        let mut helped = self.best.rewrite
            && self.offer(Case {
                rewrite: false,
                ..self.best.clone()
            });
        helped |= self.runs(
            |case| case.entries.len().div_ceil(5),
            |case, run| {
                let end = (5 * run.end).min(case.entries.len());
                let entries = without(&case.entries, 5 * run.start..end);
                Some(of_list(case, entries, case.patches.clone()))
            },
        );
        helped |= match self.best.list.as_deref().map(lend) {
            Some((entries, patches)) => {
                patches.len() < self.best.patches.len()
                    && self.offer(of_list(&self.best, entries, patches))
            }
            None => self.loose_list(),
        };
        helped |= self.runs(
            |case| case.patches.len(),
            |case, run| {
                let patches = zeroed(&case.patches, run)?;
                Some(of_list(case, case.entries.clone(), patches))
            },
        );
        helped
    }

    /// A list with an entry that isn't whole, leaves its buffer or has another mark: its numbers and its buffer each on their own.
    fn loose_list(&mut self) -> bool {
        let mut helped = self.runs(
            |case| case.entries.len(),
            |case, run| {
                let entries = without(&case.entries, run);
                Some(of_list(case, entries, case.patches.clone()))
            },
        );
        helped |= self.runs(
            |case| case.patches.len(),
            |case, run| {
                let patches = without(&case.patches, run);
                Some(of_list(case, case.entries.clone(), patches))
            },
        );
        helped |= self.values(self.best.entries.clone(), |case, place, n| {
            let mut entries = case.entries.clone();
            entries[place] = n;
            of_list(case, entries, case.patches.clone())
        });
        helped
    }

    fn records(&mut self) -> bool {
        let sections = |of: &Records| of.sections.len();
        let mut helped = self.record_runs(sections, |of, run| {
            Some(edits::without_sections(of, run, true))
        });
        helped |= self.record_runs(sections, |of, run| {
            Some(edits::without_sections(of, run, false))
        });
        helped |= self.record_runs(
            |of| of.symbols.len(),
            |of, run| Some(edits::without_symbols(of, |place| run.contains(&place))),
        );
        helped |= self.record_runs(
            |of| of.relocations.len(),
            |of, run| Some(edits::without_relocations(of, run)),
        );
        let lengths = edits::lengths(records(&self.best));
        helped |= self.values(lengths, |case, place, n| {
            of_records(case, edits::cut(records(case), place, n as u32))
        });
        let values = edits::values(records(&self.best));
        helped |= self.values(values, |case, place, n| {
            of_records(case, edits::with_number(records(case), place, n))
        });
        for tidy in [edits::closed, edits::compact] {
            let tidied = tidy(records(&self.best));
            helped |= tidied.is_some_and(|tidied| self.offer(of_records(&self.best, tidied)));
        }
        helped |= self.record_runs(|of| of.data.len(), edits::with_zeros);
        helped
    }

    /// `runs` of a part of the records.
    fn record_runs(
        &mut self,
        count: impl Fn(&Records) -> usize,
        change: impl Fn(&Records, Range<usize>) -> Option<Records>,
    ) -> bool {
        self.runs(
            |case| count(records(case)),
            |case, run| Some(of_records(case, change(records(case), run)?)),
        )
    }

    /// A file: fewer sections, fewer bytes, smaller numbers, more zeros.
    fn file(&mut self) -> bool {
        let mut helped = self.runs(
            |case| file_edits::sections(&case.input),
            |case, run| {
                let less = file_edits::without_sections(&case.input, run)?;
                Some(of_file(case, less))
            },
        );
        for table in 0..file_edits::table_count(&self.best.input) {
            helped |= self.runs(
                |case| file_edits::entries(&case.input, table),
                |case, run| {
                    let less = file_edits::without_entries(&case.input, table, run)?;
                    Some(of_file(case, less))
                },
            );
        }
        helped |= self.runs(
            |case| case.input.len(),
            |case, run| {
                let less = file_edits::without_bytes(&case.input, run)?;
                Some(of_file(case, less))
            },
        );
        helped |= self.runs(
            |case| case.input.len(),
            |case, run| Some(of_file(case, case.input[..run.start].to_vec())),
        );
        let values = file_edits::values(&self.best.input);
        helped |= self.values(values, |case, place, n| {
            let changed = file_edits::with_number(&case.input, place, n);
            of_file(case, changed.unwrap_or_else(|| case.input.clone()))
        });
        helped |= self.runs(
            |case| case.input.len(),
            |case, run| Some(of_file(case, zeroed(&case.input, run)?)),
        );
        helped
    }

    /// A case of damaged bytes: fewer blocks, more zeros, the checks as they are or made again.
    fn damaged(&mut self) -> bool {
        let blocks = |case: &Case| case.input.len().div_ceil(BLOCK);
        let block_run = |case: &Case, run: Range<usize>| {
            let end = (BLOCK * run.end).min(case.input.len());
            without(&case.input, BLOCK * run.start..end)
        };
        let mut helped = self.runs(blocks, |case, run| {
            Some(of_bytes(case, block_run(case, run)))
        });
        helped |= self.runs(blocks, |case, run| {
            Some(of_bytes(case, resealed(&block_run(case, run))))
        });
        helped |= self.runs(
            |case| case.input.len(),
            |case, run| Some(of_bytes(case, zeroed(&case.input, run)?)),
        );
        helped |= self.runs(
            |case| case.input.len(),
            |case, run| Some(of_bytes(case, resealed(&zeroed(&case.input, run)?))),
        );
        helped
    }
}

fn records(case: &Case) -> &Records {
    case.records.as_ref().expect("the case has records")
}

fn of_records(case: &Case, records: Records) -> Case {
    Case {
        aim: case.aim,
        form: Form::Deposit,
        input: lay_out(&records),
        judge: judge(&records, &case.entries, &case.patches),
        records: Some(records),
        entries: case.entries.clone(),
        patches: case.patches.clone(),
        list: case.list.clone(),
        rewrite: case.rewrite,
    }
}

fn of_file(case: &Case, input: Vec<u8>) -> Case {
    let lent = Lent {
        aim: "",
        entries: case.entries.clone(),
        patches: case.patches.clone(),
    };
    files::of_file(case.aim, input, lent, case.rewrite)
}

fn of_list(case: &Case, entries: Vec<u64>, patches: Vec<u8>) -> Case {
    let judge = match (case.form, &case.records) {
        (_, None) => case.judge.clone(),
        (Form::Deposit, Some(records)) => judge(records, &entries, &patches),
        (Form::File, Some(records)) => judge_file(records, &entries, &patches),
    };
    Case {
        list: listed(&entries, &patches),
        entries,
        patches,
        judge,
        ..case.clone()
    }
}

fn of_bytes(case: &Case, input: Vec<u8>) -> Case {
    match read(&input) {
        Ok(records) => of_records(case, records),
        Err(number) => Case {
            input,
            records: None,
            judge: known(number, 0),
            ..case.clone()
        },
    }
}

fn smaller(n: u64) -> impl Iterator<Item = u64> {
    [0, 1, n / 2, n.saturating_sub(8), n.saturating_sub(1)]
        .into_iter()
        .filter(move |&m| m < n)
}

fn resealed(deposit: &[u8]) -> Vec<u8> {
    let stream: Vec<u8> = deposit
        .chunks(BLOCK)
        .flat_map(|block| &block[..block.len().min(STREAM)])
        .copied()
        .collect();
    seal(&stream)
}

#[cfg(test)]
mod tests {
    use super::*;
    use crate::case::{Judge, NONE};
    use crate::deposit::stream;
    use crate::generate;
    use crate::kinds::{Kind, kind};
    use crate::rng::Rng;
    use crate::rules::piece;
    use crate::sample::Sample;

    fn kinds(case: &Case) -> Vec<Kind> {
        let of = case.records.iter().flat_map(|r| {
            r.sections
                .iter()
                .map(|x| kind(piece(&r.names, x.name), x.mark, x.size))
        });
        of.collect()
    }

    fn agrees(case: &Case) {
        assert_eq!(case.list, listed(&case.entries, &case.patches));
        match &case.records {
            Some(records) => {
                assert_eq!(case.input, lay_out(records));
                assert_eq!(case.judge, judge(records, &case.entries, &case.patches));
            }
            None => assert_eq!(
                read(&case.input).map_err(|n| known(n, 0)),
                Err(case.judge.clone())
            ),
        }
    }

    /// Shrinks until nothing more can be done.
    fn to_the_end(case: Case, fails: impl Fn(&Case) -> bool) -> Case {
        let mut calls = 0;
        let out = shrink(case, &mut |case| {
            calls += 1;
            agrees(case);
            fails(case)
        });
        assert!(calls < TRIES);
        out
    }

    /// Shrinks the first few cases drawn that fail so.
    fn shrunk(seed: u64, fails: impl Fn(&Case) -> bool) -> Vec<Case> {
        let mut rng = Rng::new(seed);
        let cases = std::iter::from_fn(move || Some(generate::case(&mut rng))).take(20_000);
        let failing = cases.filter(|case| fails(case)).take(5);
        let out: Vec<Case> = failing.map(|case| to_the_end(case, &fails)).collect();
        assert_eq!(out.len(), 5);
        out
    }

    #[test]
    fn one_section_of_a_kind_is_left() {
        for case in shrunk(1, |case| {
            kinds(case).contains(&Kind::Program) && case.judge == Judge::Crate
        }) {
            let records = case.records.as_ref().unwrap();
            assert_eq!(
                (
                    kinds(&case),
                    records.symbols.len(),
                    records.relocations.len()
                ),
                (vec![Kind::Program], 0, 0)
            );
            assert_eq!(
                (
                    records.names.len(),
                    records.data.len(),
                    case.entries.len(),
                    case.rewrite
                ),
                (0, 1, 0, false)
            );
            assert_eq!(case.input, lay_out(records));
        }
    }

    #[test]
    fn a_refusal_that_is_known_stays_known() {
        let of = |case: &Case, number| matches!(case.judge, Judge::Known(refusal) if refusal.number == number);
        for case in shrunk(2, |case| of(case, 18)) {
            assert_eq!(
                (case.entries.len(), case.patches.len(), kinds(&case).len()),
                (1, 0, 0)
            );
        }
        for case in shrunk(3, |case| of(case, 19)) {
            assert_eq!(
                (
                    case.entries.len(),
                    records(&case).symbols.len(),
                    kinds(&case).len()
                ),
                (5, 2, 0)
            );
        }
        for case in shrunk(4, |case| of(case, 3)) {
            assert_eq!(
                (records(&case).names.as_slice(), kinds(&case).len()),
                (&b".BTF"[..], 1)
            );
        }
    }

    #[test]
    fn damaged_bytes_get_fewer() {
        for case in shrunk(5, |case| {
            case.records.is_none() && case.judge == known(2, 0)
        }) {
            assert!(case.input.len() <= 2 * BLOCK);
            assert!(
                case.input.iter().filter(|&&b| b != 0).count() <= 6,
                "{:?}",
                case.input
            );
            assert_eq!(read(&case.input), Err(2));
        }
        for case in shrunk(6, |case| case.judge == known(1, 0)) {
            assert!(case.input.is_empty());
        }
        for case in shrunk(7, |case| {
            case.records.is_none() || case.input.len() == BLOCK
        }) {
            assert_eq!(
                read(&case.input)
                    .map(|records| records.sections.len())
                    .unwrap_or(0),
                0
            );
        }
    }

    #[test]
    fn the_effort_is_bounded() {
        let mut o = Sample::default();
        for k in 0..1000 {
            o.symbol("s", NONE, k, k, 0);
        }
        let case = of_records(&empty(), o.records);
        let mut calls = 0;
        let same = shrink(case.clone(), &mut |_| {
            calls += 1;
            false
        });
        assert_eq!((calls, same.input), (TRIES, case.input));
    }

    fn empty() -> Case {
        let judge = Judge::None;
        Case {
            aim: "",
            form: Form::Deposit,
            input: vec![],
            records: None,
            entries: vec![],
            patches: vec![],
            list: Some(vec![]),
            rewrite: false,
            judge,
        }
    }

    #[test]
    fn bytes_that_can_be_read_get_records_and_lose_them() {
        let mut o = Sample::default();
        o.section("xdp", b"12345678");
        let mut stream = stream(&o.records);
        stream.resize(300, 0);
        stream.push(1);
        let case = Case {
            form: Form::Deposit,
            input: seal(&stream),
            judge: known(2, 0),
            ..empty()
        };
        let one_section =
            |case: &Case| case.input.get(4) == Some(&1) && read(&case.input) != Err(1);
        let out = to_the_end(case, one_section);
        assert_eq!(out.input.iter().filter(|&&b| b != 0).count(), 2);
    }
}
