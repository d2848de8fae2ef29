//! How often a run reached what.
use std::collections::{BTreeMap, BTreeSet};

use crate::answer::Answer;
use crate::case::{Case, Form, Judge, Records, SectionRecord};
use crate::hold::Run;
use crate::kinds::{self, Kind, PREFIXES};
use crate::rules::{broken, piece};
use crate::{domain, files, reach};

#[derive(Default)]
pub struct Tally {
    pub cases: u64,
    /// By judge: the crate on accepted and on refused cases, the crate entry by entry, the way a case was made, nobody.
    pub judged: [u64; 5],
    pub refusals: BTreeMap<u32, u64>,
    /// Variant, first and second value of each program that was listed.
    pub variants: BTreeMap<[u64; 3], u64>,
    pub kinds: BTreeMap<&'static str, u64>,
    pub features: BTreeMap<&'static str, u64>,
    /// How many instructions had an immediate that rewriting looks for, by opcode and register byte.
    pub calls: BTreeMap<[u8; 2], u64>,
    /// Why cases that pass 1 to 3 are outside the domain of comparison.
    pub outside: BTreeMap<&'static str, u64>,
    pub aims: BTreeMap<&'static str, u64>,
    /// How the crate got the files that it judged.
    pub given: BTreeMap<&'static str, u64>,
    /// What files had in them.
    pub files: BTreeMap<&'static str, u64>,
}

impl Tally {
    pub fn count(&mut self, case: &Case, run: &Run) {
        self.cases += 1;
        let refused = match run.answer {
            Answer::Accepted(_) => 0,
            Answer::Refused(r) => r.number,
        };
        let judge = match case.judge {
            Judge::Crate => usize::from(refused != 0),
            Judge::CrateByEntry => 2,
            Judge::Known(_) => 3,
            Judge::None => 4,
        };
        self.judged[judge] += 1;
        *self.refusals.entry(refused).or_default() += 1;
        *self.aims.entry(case.aim).or_default() += 1;
        if let Some(why) = outside(case) {
            *self.outside.entry(why).or_default() += 1;
        }
        if case.form == Form::File {
            self.count_file(case, run);
        }
        if let Answer::Accepted(s) = run.answer {
            for row in run.lent.programs.chunks(7).take(s.programs as usize) {
                *self.variants.entry([row[2], row[3], row[4]]).or_default() += 1;
            }
        }
        let Some(records) = case.records.as_ref().filter(|r| broken(r).is_none()) else {
            return;
        };
        for section in &records.sections {
            *self.kinds.entry(kind(records, section)).or_default() += 1;
        }
        for feature in reach::features(case, records) {
            *self.features.entry(feature).or_default() += 1;
        }
        for call in reach::calls(case, records) {
            *self.calls.entry(call).or_default() += 1;
        }
    }

    fn count_file(&mut self, case: &Case, run: &Run) {
        if let Some(given) = run.given {
            *self.given.entry(given).or_default() += 1;
        }
        for feature in case
            .records
            .iter()
            .flat_map(|r| files::features(&case.input, r))
        {
            *self.files.entry(feature).or_default() += 1;
        }
    }

    pub fn add(&mut self, other: Tally) {
        fn sum<K: Ord>(into: &mut BTreeMap<K, u64>, from: BTreeMap<K, u64>) {
            for (key, n) in from {
                *into.entry(key).or_default() += n;
            }
        }
        self.cases += other.cases;
        for (k, n) in other.judged.iter().enumerate() {
            self.judged[k] += n;
        }
        sum(&mut self.refusals, other.refusals);
        sum(&mut self.variants, other.variants);
        sum(&mut self.kinds, other.kinds);
        sum(&mut self.features, other.features);
        sum(&mut self.calls, other.calls);
        sum(&mut self.outside, other.outside);
        sum(&mut self.aims, other.aims);
        sum(&mut self.given, other.given);
        sum(&mut self.files, other.files);
    }

    pub fn print(&self) {
        let accepted = self.refusals.get(&0).copied().unwrap_or(0);
        println!(
            "answers: accepted {accepted},{}",
            listed(self.refusals.iter().filter(|(n, _)| **n != 0))
        );
        println!(
            "24: each accepted case once more for each lent table, with one element less than its catalogue takes"
        );
        println!("sections:{}", listed(self.kinds.iter()));
        let variants = self
            .variants
            .iter()
            .map(|(v, n)| (format!("{}/{}/{}", v[0], v[1], v[2]), n));
        println!(
            "programs (variant/first/second value):{}",
            variants
                .map(|(v, n)| format!(" {v} {n}"))
                .collect::<String>()
        );
        println!("reached:{}", listed(self.features.iter()));
        println!(
            "immediates 112 to 115 where rewriting is on: {}",
            rewriting(&self.calls)
        );
        if !self.files.is_empty() {
            println!("files with:{}", listed(self.files.iter()));
            println!("given to the crate:{}", listed(self.given.iter()));
        }
        println!("outside the domain:{}", listed(self.outside.iter()));
        println!("made for:{}", listed(self.aims.iter()));
    }

    /// The last line.
    pub fn line(&self) -> String {
        let [accepted, refused, by_entry, known, free] = self.judged;
        format!(
            "{} cases: {} compared with the crate on the domain ({accepted} accepted, {refused} refused), {by_entry} with the crate entry by entry, {known} with a refusal known by their making, {free} held to what needs no judge",
            self.cases,
            accepted + refused
        )
    }
}

fn listed<'a, K: std::fmt::Display + 'a>(counts: impl Iterator<Item = (&'a K, &'a u64)>) -> String {
    counts
        .map(|(key, n)| format!(" {key} {n},"))
        .collect::<String>()
        .trim_end_matches(',')
        .to_string()
}

fn outside(case: &Case) -> Option<&'static str> {
    let records = case.records.as_ref()?;
    let list = match &case.list {
        Some(list) => list,
        None => return Some("patch list outside its buffer"),
    };
    match case.form {
        Form::Deposit => domain::comparable(records, list).err(),
        Form::File => domain::comparable_file(records, list).err(),
    }
}

fn kind(records: &Records, section: &SectionRecord) -> &'static str {
    let name = piece(&records.names, section.name);
    let prefix = PREFIXES
        .iter()
        .find(|(p, _)| name.starts_with(p.as_bytes()));
    match (prefix, kinds::kind(name, section.mark, section.size)) {
        (Some((prefix, _)), _) => prefix,
        (None, Kind::Program) => "program",
        (None, Kind::BtfExt) => ".BTF.ext",
        (None, _) if name == b".BTF" => ".BTF",
        (None, _) => "other",
    }
}

/// Of the instructions with an immediate that rewriting looks for: those that it changes, and how many bytes stood in the others' places.
fn rewriting(calls: &BTreeMap<[u8; 2], u64>) -> String {
    let changed = calls.get(&[0x85, 0]).copied().unwrap_or(0);
    let all: u64 = calls.values().sum();
    let opcodes: BTreeSet<u8> = calls.keys().map(|c| c[0]).collect();
    let registers: BTreeSet<u8> = calls
        .keys()
        .filter(|c| c[0] == 0x85)
        .map(|c| c[1])
        .collect();
    format!(
        "{changed} changed, {} kept, with {} opcodes, and {} register bytes at 0x85",
        all - changed,
        opcodes.len(),
        registers.len()
    )
}
