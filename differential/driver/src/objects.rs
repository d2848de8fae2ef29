//! Real objects: the crate on the file; the load calls on the file, on a copy whose `.BTF` has another name, and on the deposit that `./deposit` makes.
use std::collections::BTreeMap;
use std::fmt::Display;
use std::fs;
use std::path::{Path, PathBuf};

use crate::answer::{Answer, Lent, Room};
use crate::case::{Case, Form, Judge, Refusal};
use crate::generate;
use crate::theirs::{Given, Theirs};
use crate::{compare, domain, files, hold, ours, theirs};

/// Room for what such an object takes.
pub const ROOM: Room = Room {
    sections: 1 << 14,
    programs: 1 << 14,
    functions: 1 << 12,
    maps: 1 << 16,
    relocations: 1 << 18,
    bytes: 1 << 24,
};

enum Held {
    Accepted,
    Refused(Refusal),
    Outside(&'static str),
    Differs(String),
}

/// How many objects came to what.
#[derive(Default)]
struct Counts {
    accepted: u32,
    refused: BTreeMap<u32, u32>,
    outside: BTreeMap<&'static str, u32>,
    differ: u32,
}

impl Counts {
    fn add(&mut self, name: &str, held: Held) {
        match held {
            Held::Accepted => self.accepted += 1,
            Held::Refused(r) => *self.refused.entry(r.number).or_default() += 1,
            Held::Outside(why) => *self.outside.entry(why).or_default() += 1,
            Held::Differs(text) => {
                self.differ += 1;
                println!("{name}: {text}");
            }
        }
    }

    fn print(&self, what: &str) {
        println!(
            "{what}, refused on both sides, by number:{}",
            listed(&self.refused)
        );
        println!("{what}, outside the comparison:{}", listed(&self.outside));
        let refused: u32 = self.refused.values().sum();
        let outside: u32 = self.outside.values().sum();
        let all = self.accepted + refused + outside + self.differ;
        println!(
            "{all} {what}: {} accepted and {refused} refused on both sides, {outside} outside, {} differ",
            self.accepted, self.differ
        );
    }
}

/// Whether all agree.
pub fn run(folder: &Path) -> bool {
    let files = match objects(folder) {
        Ok(files) => files,
        Err(e) => {
            println!("{}: {e}", folder.display());
            return false;
        }
    };
    let mut deposits = Counts::default();
    let mut as_they_are = Counts::default();
    let mut renamed = Counts::default();
    for file in &files {
        let name = name(file);
        match inputs(file) {
            Err(text) => as_they_are.add(&name, Held::Differs(text)),
            Ok((object, deposit)) => {
                deposits.add(&name, by_deposit(&deposit, &object));
                if let Some(copy) = files::without_btf(&object) {
                    renamed.add(&name, as_file(copy));
                }
                as_they_are.add(&name, beside(deposit, object));
            }
        }
    }
    deposits.print("deposits of objects");
    as_they_are.print("objects as files");
    renamed.print("objects as files with .BTF renamed");
    [deposits, as_they_are, renamed]
        .iter()
        .all(|c| c.differ == 0)
}

fn listed<K: Display>(counts: &BTreeMap<K, u32>) -> String {
    let words: Vec<String> = counts
        .iter()
        .map(|(key, n)| format!(" {key} ({n})"))
        .collect();
    words.join(",")
}

fn name(file: &Path) -> String {
    file.file_name()
        .unwrap_or_default()
        .to_string_lossy()
        .into_owned()
}

pub fn objects(folder: &Path) -> std::io::Result<Vec<PathBuf>> {
    let mut files: Vec<PathBuf> = fs::read_dir(folder)?
        .map(|e| Ok(e?.path()))
        .collect::<std::io::Result<_>>()?;
    files.retain(|f| f.extension().is_some_and(|e| e == "o"));
    files.sort();
    Ok(files)
}

/// The objects of a folder, where one is said.
pub fn read(folders: &[&str]) -> Option<Vec<Vec<u8>>> {
    match folders {
        [] => Some(Vec::new()),
        [folder] => {
            let files = objects(Path::new(folder)).ok()?;
            files.into_iter().map(|f| fs::read(f).ok()).collect()
        }
        _ => None,
    }
}

/// An object and its deposit.
fn inputs(file: &Path) -> Result<(Vec<u8>, Vec<u8>), String> {
    let read = |f: &Path| fs::read(f).map_err(|e| format!("{}: {e}", name(f)));
    Ok((read(file)?, read(&file.with_extension("deposit"))?))
}

fn case(form: Form, input: Vec<u8>, rewrite: bool) -> Case {
    Case {
        aim: "a real object",
        form,
        input,
        records: None,
        entries: Vec::new(),
        patches: Vec::new(),
        list: Some(Vec::new()),
        rewrite,
        judge: Judge::None,
    }
}

fn by_deposit(deposit: &[u8], object: &[u8]) -> Held {
    let held = |rewrite| held(&case(Form::Deposit, deposit.to_vec(), rewrite), object);
    with_rewriting(held)
}

/// What an object comes to without rewriting, if it agrees with it too.
fn with_rewriting(held: impl Fn(bool) -> Held) -> Held {
    match held(true) {
        Held::Differs(text) => Held::Differs(format!("with rewriting: {text}")),
        _ => held(false),
    }
}

fn held(case: &Case, object: &[u8]) -> Held {
    let (answer, lent) = ours::load(case, &ROOM, 0xA5);
    // The file's own tables are in the deposit too.
    let theirs = theirs::run(object, u32::MAX, &[], Given::Whole, case.rewrite);
    match answer {
        Answer::Refused(Refusal { number: 3, .. }) => return Held::Outside("section .BTF"),
        Answer::Refused(Refusal { number: 16, .. }) if undefined_pinning(&theirs) => {
            return Held::Outside("pinning neither 0 nor 1");
        }
        _ => (),
    }
    match (compare::difference(&answer, &lent, &theirs), answer) {
        (Some(text), _) => Held::Differs(text),
        (None, Answer::Accepted(_)) => Held::Accepted,
        (None, Answer::Refused(r)) => Held::Refused(r),
    }
}

fn undefined_pinning(theirs: &Theirs) -> bool {
    matches!(theirs, Theirs::Accepted(c) if c.maps.iter().any(|m| m.words[6] > 1))
}

/// The file, which gives what its deposit gives.
fn beside(deposit: Vec<u8>, object: Vec<u8>) -> Held {
    let load = |form, input: &[u8]| -> (Answer, Lent) {
        ours::load(&case(form, input.to_vec(), false), &ROOM, 0x5A)
    };
    if load(Form::File, &object) != load(Form::Deposit, &deposit) {
        return Held::Differs("its deposit gives something else".into());
    }
    as_file(object)
}

fn as_file(object: Vec<u8>) -> Held {
    with_rewriting(|rewrite| {
        let lent = generate::Lent::default();
        file_held(&files::of_file(
            "a real object",
            object.clone(),
            lent,
            rewrite,
        ))
    })
}

fn file_held(case: &Case) -> Held {
    let run = match hold::hold(case) {
        Ok(run) => run,
        Err(text) => return Held::Differs(text),
    };
    match (run.given, run.answer, &case.records) {
        (Some(files::AS_IT_IS), Answer::Accepted(_), _) => Held::Accepted,
        (Some(files::AS_IT_IS), Answer::Refused(r), _) => Held::Refused(r),
        (Some(why), ..) => Held::Outside(why),
        (None, _, None) => Held::Outside("goes back with 25 or 26"),
        (None, _, Some(records)) => {
            let why = domain::comparable_file(records, &[]).err();
            Held::Outside(why.unwrap_or("nobody judges"))
        }
    }
}
