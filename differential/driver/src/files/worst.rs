//! Worst cases of files: those that are made to take the load call long.
use crate::bench::{case, parse};
use crate::case::Form;
use crate::rules::{MOST_NAME, MOST_RECORDS, MOST_SECTIONS};
use crate::worst::{List, NO_LIST, timed};

use super::edit::{Edit, LINK, NAME, SHSTRNDX};
use super::layout::{Body, Plan, Relocation, Symbol};
use super::read::{PROGBITS, REL, RELA, STRTAB, SYMBOL, TEXT_FLAGS};

/// Where the largest data leaves room for tables.
const MUCH_DATA: usize = 13 << 20;

pub fn run() {
    names();
    relocations();
    let many = file(sections_over_one_data());
    ours_alone("file: 4093 sections over the same 13 MB", many, NO_LIST);
    let mut text = Plan::with_symbols((0..MOST_RECORDS).map(function).collect());
    let code = Body::Bytes(vec![0x95; 8 * MOST_RECORDS]);
    text.section(".text", PROGBITS, code).flags = TEXT_FLAGS;
    both("file: 65536 functions of .text, mixed", file(text));
}

fn names() {
    let one = file(named_alike("maps"));
    ours_alone("file: 65536 maps of one long name", one, NO_LIST);
    for section in ["maps", "other"] {
        let title = format!("file: 65536 symbols of {section}, names end one another");
        ours_alone(&title, suffixes(section), NO_LIST);
    }
    let longest = "a".repeat(MOST_NAME as usize);
    let list = List(1000, &longest, 0);
    ours_alone(
        "file: patches of a long name among 65536",
        suffixes("other"),
        list,
    );
    ours_alone(
        "file: 4096 sections, names end one another",
        section_suffixes(),
        NO_LIST,
    );
    ours_alone("file: names without an end", endless(), NO_LIST);
}

fn relocations() {
    let few = |k: u64| k * 40_503 % 16;
    let mixed = |k: u64| k.wrapping_mul(0x9E37_79B9_7F4A_7C15);
    both(
        "file: 65536 relocations of one section, mixed",
        relocated(1, mixed),
    );
    both(
        "file: 65536 relocations of one section, 16 offsets",
        relocated(1, few),
    );
    ours_alone(
        "file: 4090 tables of one section",
        relocated(4090, mixed),
        NO_LIST,
    );
}

fn both(name: &str, file: Vec<u8>) {
    let theirs = parse(&[&file]);
    timed(name, 0, &case(Form::File, file), Some(theirs));
}

fn ours_alone(name: &str, file: Vec<u8>, list: List) {
    let entries = list.0;
    timed(name, entries, &list.lent_to(case(Form::File, file)), None);
}

fn file(plan: Plan) -> Vec<u8> {
    plan.plain()
}

fn function(k: usize) -> Symbol {
    Symbol {
        name: format!("function_{k}").into_bytes(),
        info: 2,
        section: 3,
        address: 8 * (k as u64 * 40_503 % MOST_RECORDS as u64),
        size: 8,
        ..Default::default()
    }
}

fn symbol(name: Vec<u8>) -> Symbol {
    Symbol {
        name,
        info: 1,
        section: 3,
        size: 28,
        ..Default::default()
    }
}

/// As many symbols of one section as there may be.
fn named_alike(section: &str) -> Plan {
    let name = vec![b'a'; MOST_NAME as usize];
    let mut plan = Plan::with_symbols(vec![symbol(name); MOST_RECORDS]);
    plan.section(section, PROGBITS, Body::Bytes(vec![0; 28]));
    plan
}

/// Where name k begins in a run of letters of the greatest length.
fn place(k: usize) -> u64 {
    1 + k as u64 * 40_503 % u64::from(MOST_NAME)
}

/// Each symbol's name begins elsewhere in one run of letters.
fn suffixes(section: &str) -> Vec<u8> {
    let mut edit = Edit::of(named_alike(section).plain());
    let table = edit.symbols.expect("a symbol table");
    for k in 0..MOST_RECORDS {
        let at = table.offset + SYMBOL * (k as u64 + 1);
        edit.set(at as usize, NAME, place(k));
    }
    edit.bytes
}

/// As many sections as there may be, in a table of names with this run.
fn with_run(count: usize, run: Vec<u8>) -> Edit {
    let mut plan = Plan::with_symbols(Vec::new());
    while plan.sections.len() + 1 < count {
        plan.section("", PROGBITS, Body::default());
    }
    plan.section("", STRTAB, Body::Bytes(run));
    let strings = plan.here();
    let mut edit = Edit::of(plan.plain());
    edit.set(0, SHSTRNDX, strings.into());
    edit
}

fn section_suffixes() -> Vec<u8> {
    let run = [&[0], &vec![b'a'; MOST_NAME as usize][..], &[0]].concat();
    let mut edit = with_run(MOST_SECTIONS, run);
    for (k, x) in edit.sections.clone().into_iter().enumerate() {
        edit.set(x.at, NAME, place(k));
    }
    edit.bytes
}

/// Names that begin everywhere in a long run of letters without a zero; only the last has one behind it.
fn endless() -> Vec<u8> {
    let mut run = vec![b'a'; MUCH_DATA];
    run.extend([0, b'b', 0]);
    let mut edit = with_run(MOST_SECTIONS, run);
    let count = edit.sections.len();
    for (k, x) in edit.sections.clone().into_iter().enumerate() {
        let last = k + 1 == count;
        let short = MUCH_DATA as u64 - u64::from(MOST_NAME) + 16 * k as u64;
        edit.set(
            x.at,
            NAME,
            if last { 0 } else { short.min(MUCH_DATA as u64) },
        );
    }
    let strings = edit.count() - 1;
    if let Some(symbols) = edit.symbols {
        edit.set(symbols.at, LINK, strings);
    }
    edit.bytes
}

/// So many tables of one text section, with as many relocations as there may be.
fn relocated(tables: usize, offset: fn(u64) -> u64) -> Vec<u8> {
    let mut plan = Plan::with_symbols(Vec::new());
    plan.section(".text", PROGBITS, Body::default()).flags = TEXT_FLAGS;
    let entries: Vec<Relocation> = (0..MOST_RECORDS as u64)
        .map(|k| Relocation {
            offset: offset(k),
            symbol: 1,
            kind: 1,
            addend: 0,
        })
        .collect();
    let each = MOST_RECORDS.div_ceil(tables);
    for (k, part) in entries.chunks(each).enumerate() {
        plan.relocations(if k % 2 == 0 { REL } else { RELA }, 3, part.to_vec());
    }
    plan.plain()
}

fn sections_over_one_data() -> Plan {
    let mut plan = Plan::with_symbols(Vec::new());
    plan.section(".data", PROGBITS, Body::Bytes(vec![7; MUCH_DATA]));
    while plan.sections.len() < MOST_SECTIONS {
        let name = format!(".data.{}", plan.sections.len());
        let body = Body::Reach {
            offset: 64,
            size: MUCH_DATA as u64,
        };
        plan.section(name, PROGBITS, body);
    }
    plan
}

#[cfg(test)]
mod tests {
    use super::*;
    use crate::answer::Answer;
    use crate::files::read::read;
    use crate::ours;
    use crate::rules::MOST_BYTES;
    use crate::worst::ROOM;

    #[test]
    fn they_are_read() {
        for file in [
            file(named_alike("maps")),
            suffixes("maps"),
            section_suffixes(),
            relocated(4090, |k| k),
            file(sections_over_one_data()),
        ] {
            assert!(file.len() <= MOST_BYTES && read(&file).is_ok());
        }
        assert_eq!(read(&endless()), Err(26));
    }

    #[test]
    fn the_most_records_load_in_a_thread_of_the_default_size() {
        let mut plan = Plan::with_symbols((0..MOST_RECORDS).map(function).collect());
        let code = Body::Bytes(vec![0x95; 8 * MOST_RECORDS]);
        plan.section(".text", PROGBITS, code).flags = TEXT_FLAGS;
        let entry = |k: usize| Relocation {
            offset: 8 * k as u64,
            symbol: 1,
            ..Default::default()
        };
        plan.relocations(REL, 3, (0..MOST_RECORDS).map(entry).collect());
        while plan.sections.len() < MOST_SECTIONS {
            plan.section("", PROGBITS, Body::default());
        }
        let case = List(1, "f7", 0).lent_to(case(Form::File, plan.plain()));
        let load = move || {
            let mut lent = ours::filled(&ROOM, 0);
            ours::load_into(&case, &mut lent)
        };
        let thread = std::thread::Builder::new().stack_size(2 << 20);
        let answer = thread.spawn(load).unwrap().join().unwrap();
        assert!(matches!(answer, Answer::Accepted(_)), "{answer:?}");
    }
}
