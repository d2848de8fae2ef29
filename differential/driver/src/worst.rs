//! Worst cases: deposits and patch lists that are made to take the load call long.
use std::ffi::{c_int, c_void};
use std::hint::black_box;
use std::time::Duration;

use crate::answer::{Answer, Room};
use crate::bench::{case, least, parse, times, times_or_none};
use crate::case::{Case, Extent, Form, Patch, Records, RelocationRecord};
use crate::made::{data, falling, function, functions, mixed, name, own_section, rising, section};
use crate::rng::Rng;
use crate::rules::{MOST_BYTES, MOST_NAME, MOST_RECORDS, MOST_SECTIONS, piece};
use crate::{deposit, elf, ours, patch_list};

/// No deposit may take longer.
const LIMIT: Duration = Duration::from_secs(5);
/// What is lent for a case: every table but that of relocations whole, and less than many cases have bytes, which is then 24.
pub const ROOM: Room = Room {
    sections: 4 * MOST_SECTIONS,
    programs: 7 * MOST_RECORDS,
    functions: MOST_RECORDS,
    maps: 27 * (MOST_SECTIONS + MOST_RECORDS),
    relocations: 4 * MOST_RECORDS,
    bytes: 2 * MOST_BYTES,
};
/// The bytes that long names overlap in.
const LONG: u32 = 130_000;
/// The name of a program section that is found last.
const PROGRAM: &str = "cgroup/recvmsg6";
/// How many sections with 65536 relocations each the crate takes in reasonable memory.
const CRATES_SHARING: u32 = 64;
/// Where the largest data leaves room for records and names.
const MUCH_DATA: usize = 15 << 20;

/// Prints a row for each case: its bytes, entries of its patch list, the answer's number, what each takes, and how many times longer the
/// crate takes. So many sections share relocations.
pub fn run(sharing: u32) {
    println!("worst case, bytes, patch entries, answer, load, Object::parse, ratio");
    long_names();
    shared_relocations(sharing);
    one_section();
    shared_data();
    patch_lists();
}

fn long_names() {
    let maps = long_named("maps", 0, 28);
    let load = ours_alone("65536 maps, long names", &maps, NO_LIST);
    let sorted = qsorted(&maps);
    println!(
        "  qsort with memcmp of the same names {sorted:.1?}, the load {} times as long",
        times(load, sorted)
    );
    let programs = long_named(PROGRAM, 1, 8);
    ours_alone("65536 programs, long names", &programs, NO_LIST);
    let other = long_named("other", 0, 0);
    ours_alone("65536 other symbols, long names", &other, NO_LIST);
    let mut sections = Records::default();
    long_named_sections(&mut sections);
    ours_alone("4096 .data sections, long names", &sections, NO_LIST);
    let mut all = maps;
    long_named_sections(&mut all);
    let title = "65536 maps and 4095 .data sections, long names";
    ours_alone(title, &all, List(1, "x", 0));
    let alike = of_one_length(long_named("maps", 0, 28));
    ours_alone("65536 maps, names of one length", &alike, List(1, "x", 0));
}

fn shared_relocations(sections: u32) {
    let all = |_| Extent {
        at: 0,
        length: MOST_RECORDS as u32,
    };
    let part = |k| Extent {
        at: k,
        length: (MOST_RECORDS - MOST_SECTIONS) as u32,
    };
    let mixed = |k| Rng::new(k).next();
    let few = |k| Rng::new(k).next() % 16;
    for (offsets, records) in [
        ("offsets mixed", relocated(sections, mixed, all)),
        ("one offset", relocated(sections, |_| 0, all)),
        ("16 offsets", relocated(sections, few, all)),
        ("ranges differ", relocated(sections, mixed, part)),
    ] {
        let title = format!("{sections} .text sections, 65536 relocations shared, {offsets}");
        if sections <= CRATES_SHARING {
            both(&title, &records);
        } else {
            ours_alone(&title, &records, NO_LIST);
        }
    }
}

fn one_section() {
    let count = MOST_RECORDS as u64;
    let orders = [
        ("falling", falling(count)),
        ("mixed", mixed(count)),
        ("one address", vec![0; MOST_RECORDS]),
    ];
    for (order, slots) in orders {
        for section in [PROGRAM, ".text"] {
            let title = format!("65536 functions of one section {section}, {order}");
            both(&title, &functions(section, &slots));
        }
    }
    let mut license = Records::default();
    let mut bytes = vec![b'a'; MUCH_DATA];
    bytes[MUCH_DATA - 1] = 0;
    own_section(&mut license, "license", 0, &bytes);
    both("a licence of 15 MB", &license);
}

fn shared_data() {
    for (kind, mark) in [(".data", 0), (PROGRAM, 1), (".text", 1)] {
        let title = format!("4096 sections {kind} over the same 15 MB");
        ours_alone(&title, &over_one_data(kind, mark), NO_LIST);
    }
}

fn patch_lists() {
    let mut globals = Records::default();
    own_section(&mut globals, ".data", 0, &vec![7; MUCH_DATA]);
    let all = name(&mut globals, "all");
    function(&mut globals, all, 0, MUCH_DATA as u64);
    let list = List(10_000, "all", MUCH_DATA);
    ours_alone("patches of 15 MB", &globals, list);
    let many = functions(".data", &rising(MOST_RECORDS as u64));
    let list = List(100_000, "function_54321", 8);
    ours_alone("patches of one of 65536 symbols", &many, list);
    let other = long_named("other", 0, 0);
    let name = "a".repeat(MOST_NAME as usize);
    let list = List(100_000, &name, 0);
    ours_alone("patches of a long name among 65536", &other, list);
}

fn both(name: &str, records: &Records) {
    let object = elf::write(records);
    let theirs = parse(&[&object]);
    row(name, records, NO_LIST, Some(theirs));
}

/// For what the crate does not take in reasonable time or memory.
fn ours_alone(name: &str, records: &Records, list: List) -> Duration {
    row(name, records, list, None)
}

fn row(name: &str, records: &Records, list: List, theirs: Option<Duration>) -> Duration {
    let entries = list.0;
    let case = list.lent_to(case(Form::Deposit, deposit::lay_out(records)));
    timed(name, entries, &case, theirs)
}

/// Times a case, and prints its row.
pub fn timed(name: &str, entries: usize, case: &Case, theirs: Option<Duration>) -> Duration {
    let mut lent = ours::filled(&ROOM, 0);
    let mut number = 0;
    let ours = least(|| {
        number = match black_box(ours::load_into(case, &mut lent)) {
            Answer::Accepted(_) => 0,
            Answer::Refused(r) => r.number,
        }
    });
    assert!(number == 0 || number > 3, "{name}: not opened, {number}");
    let bytes = case.input.len();
    let parse = theirs.map_or("-".to_string(), |t| format!("{t:.1?}"));
    let ratio = times_or_none(theirs, Some(ours));
    let over = if ours > LIMIT { ", OVER 5 s" } else { "" };
    println!("{name}, {bytes}, {entries}, {number}, {ours:.1?}, {parse}, {ratio}{over}");
    ours
}

/// A list of so many entries, all of one name and so many bytes of data, which they share.
pub struct List<'a>(pub usize, pub &'a str, pub usize);

pub const NO_LIST: List = List(0, "", 0);

impl List<'_> {
    pub fn lent_to(self, case: Case) -> Case {
        let List(count, name, length) = self;
        let (entries, patches) = patch_list::lend(&[Patch {
            name: name.into(),
            data: vec![1; length],
            must_exist: false,
        }]);
        Case {
            entries: entries.repeat(count),
            patches,
            ..case
        }
    }
}

/// Range k of those of 60,000 to 65,000 bytes in LONG bytes that start at whole periods.
fn long_name(k: u32, period: u32) -> Extent {
    Extent {
        at: k * 7919 % (65_000 / period) * period,
        length: 60_000 + k * 40503 % 5_001,
    }
}

/// One section with as many symbols as there may be, whose names overlap in a run of equal letters.
fn long_named(called: &str, mark: u32, size: u64) -> Records {
    let mut records = Records {
        names: vec![b'a'; LONG as usize],
        ..Default::default()
    };
    own_section(&mut records, called, mark, &vec![0; size as usize]);
    for k in 0..MOST_RECORDS as u32 {
        function(&mut records, long_name(k, 1), 0, size);
    }
    records
}

/// The same records with names of the greatest length, whose runs of equal letters end at different places behind 60,000 bytes.
fn of_one_length(mut records: Records) -> Records {
    records.names[65_000..LONG as usize].fill(b'b');
    for (k, symbol) in records.symbols.iter_mut().enumerate() {
        symbol.name = Extent {
            at: k as u32 * 40503 % 5_001,
            length: MOST_NAME,
        };
    }
    records
}

/// As many sections as there may be in all, whose names overlap in a run of a word.
fn long_named_sections(records: &mut Records) {
    let word = ".data";
    let period = word.len() as u32;
    let run = name(records, &word.repeat((LONG / period) as usize));
    for k in records.sections.len()..MOST_SECTIONS {
        let mut name = long_name(k as u32, period);
        name.at += run.at;
        section(records, name, 0, Extent::default());
    }
}

/// Empty text sections, and the relocations of each as a range of all.
fn relocated(sections: u32, offset: impl Fn(u64) -> u64, range: impl Fn(u32) -> Extent) -> Records {
    let mut records = Records::default();
    let name = name(&mut records, ".text");
    for k in 0..sections {
        section(&mut records, name, 1, Extent::default());
        records.sections[k as usize].relocations = range(k);
    }
    records.relocations = (0..MOST_RECORDS as u64)
        .map(|k| RelocationRecord {
            offset: offset(k),
            symbol: 1,
            size: 64,
        })
        .collect();
    records
}

/// As many sections as there may be with the same data, each with one function that is all of it.
fn over_one_data(called: &str, mark: u32) -> Records {
    let mut records = Records::default();
    let bytes = data(&mut records, &vec![0x95; MUCH_DATA]);
    for k in 0..MOST_SECTIONS {
        let name = name(&mut records, &format!("{called}/{k}"));
        section(&mut records, name, mark, bytes);
        function(&mut records, name, 0, MUCH_DATA as u64);
    }
    records
}

#[repr(C)]
#[derive(Clone, Copy)]
struct Name {
    at: *const u8,
    length: usize,
}

type Compare = extern "C" fn(*const Name, *const Name) -> c_int;

unsafe extern "C" {
    fn qsort(base: *mut Name, count: usize, size: usize, compare: Compare);
    fn memcmp(a: *const c_void, b: *const c_void, length: usize) -> c_int;
}

extern "C" fn compare(a: *const Name, b: *const Name) -> c_int {
    // qsort hands out places of its array, whose names lie in the records.
    let (a, b) = unsafe { (*a, *b) };
    let order = unsafe { memcmp(a.at.cast(), b.at.cast(), a.length.min(b.length)) };
    if order != 0 {
        return order;
    }
    a.length.cmp(&b.length) as c_int
}

/// What the C library takes to sort the symbols' names.
fn qsorted(records: &Records) -> Duration {
    let of = |extent| {
        let bytes = piece(&records.names, extent);
        Name {
            at: bytes.as_ptr(),
            length: bytes.len(),
        }
    };
    let names: Vec<Name> = records.symbols.iter().map(|y| of(y.name)).collect();
    least(|| {
        let mut names = names.clone();
        let size = size_of::<Name>();
        unsafe { qsort(names.as_mut_ptr(), names.len(), size, compare) };
        black_box(names);
    })
}

#[cfg(test)]
mod tests {
    use super::*;

    /// What a thread of Rust's default size has left beside the index of an ELF file.
    const STACK: usize = (2 << 20) - (600 << 10);

    #[test]
    fn the_most_records_load_in_a_thread_of_the_default_size() {
        let all = |_| Extent {
            at: 0,
            length: MOST_RECORDS as u32,
        };
        let mut records = relocated(MOST_SECTIONS as u32, |_| 0, all);
        let data = own_data(&mut records);
        for k in 0..MOST_RECORDS {
            let name = name(&mut records, &format!("f{k}"));
            function(&mut records, name, 8 * k as u64, 8);
        }
        records.sections[0].bytes = data;
        let case = List(1, "f7", 0).lent_to(case(Form::Deposit, deposit::lay_out(&records)));
        let load = move || {
            let mut lent = ours::filled(&ROOM, 0);
            ours::load_into(&case, &mut lent)
        };
        let thread = std::thread::Builder::new().stack_size(STACK);
        let answer = thread.spawn(load).unwrap().join().unwrap();
        assert!(!matches!(answer, Answer::Refused(r) if r.number < 4));
    }

    fn own_data(records: &mut Records) -> Extent {
        data(records, &vec![0x95; 8 * MOST_RECORDS])
    }
}
