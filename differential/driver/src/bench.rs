//! The load calls and `Object::parse` side by side, on the same objects, in one run.
use std::hint::black_box;
use std::path::Path;
use std::time::Duration;

use crate::answer::{Answer, Room};
use crate::case::{Case, Form, Judge, Records};
use crate::clock::thread_time;
use crate::made::{data_section, falling, functions, mixed, program_sections, rising};
use crate::rules::MOST_SECTIONS;
use crate::theirs::aligned;
use crate::{deposit, elf, files, objects, ours, room, worst};

/// Time for each side of a row, at least.
const SPENT: Duration = Duration::from_millis(300);
/// Time between two looks at the clock, at least, where a run is short.
const BATCH: Duration = Duration::from_micros(200);

/// Prints two rows for each object, as a deposit and as a file: its bytes, what each takes, how many times longer the crate takes, and growth; then the
/// worst cases, where so many sections share relocations.
pub fn run(folder: &Path, sharing: u32) -> bool {
    println!("object, form, bytes, load, Object::parse, ratio, growth");
    let text = |slots: fn(u64) -> Vec<u64>| move |n| functions(".text", &slots(n));
    series("text functions, rising", 65536, text(rising));
    series("text functions, falling", 65536, text(falling));
    series("text functions, mixed", 65536, text(mixed));
    series("program sections", 4096, program_sections);
    series("bytes of .data", 4 << 20, data_section);
    let real = real(folder);
    worst::run(sharing);
    files::worst::run();
    real
}

/// An input, the same object for the crate, and room for its catalogue.
type Object = (Case, Vec<u8>, Room);

/// Rows up to a largest count, each of 16 times the one before; a row's growth is how many times longer its load takes than that of the one before.
fn series(name: &str, most: u64, make: impl Fn(u64) -> Records) {
    let mut before = [None, None];
    for count in (0..4).rev().map(|k| most >> (4 * k)).filter(|n| *n >= 16) {
        // a file's own tables are sections too
        let in_file = if make(1).sections.len() < make(2).sections.len() {
            count.min(MOST_SECTIONS as u64 - 2)
        } else {
            count
        };
        let rows = [
            (count, as_deposit(&make(count))),
            (in_file, as_file(elf::write(&make(in_file)))),
        ];
        for ((count, row), before) in rows.into_iter().zip(&mut before) {
            *before = Some(told(&format!("{count} {name}"), &[row], *before));
        }
    }
}

fn as_deposit(records: &Records) -> Object {
    let case = case(Form::Deposit, deposit::lay_out(records));
    (case, elf::write(records), room::enough(records))
}

fn as_file(object: Vec<u8>) -> Object {
    let records = files::read::read(&object).expect("it is read");
    let case = case(Form::File, object.clone());
    (case, object, room::enough(&records))
}

/// All real objects that both accept, as one row for each form.
fn real(folder: &Path) -> bool {
    let (mut deposits, mut files) = (Vec::new(), Vec::new());
    for path in objects::objects(folder).unwrap_or_default() {
        let read = |path: &Path| std::fs::read(path).ok();
        let (Some(object), Some(deposit)) = (read(&path), read(&path.with_extension("deposit")))
        else {
            return false;
        };
        deposits.extend(accepted(Form::Deposit, deposit, object.clone()));
        files.extend(accepted(Form::File, object.clone(), object));
    }
    for objects in [deposits, files] {
        told(&format!("{} real objects", objects.len()), &objects, None);
    }
    true
}

fn accepted(form: Form, input: Vec<u8>, object: Vec<u8>) -> Option<Object> {
    let case = case(form, input);
    match ours::load(&case, &objects::ROOM, 0) {
        (Answer::Accepted(s), _) => Some((case, object, Room::of(s.taken()))),
        _ => None,
    }
}

pub fn case(form: Form, input: Vec<u8>) -> Case {
    Case {
        aim: "",
        form,
        input,
        records: None,
        entries: Vec::new(),
        patches: Vec::new(),
        list: None,
        rewrite: false,
        judge: Judge::None,
    }
}

/// Prints a row, and answers with what the load takes.
fn told(name: &str, cases: &[Object], before: Option<Duration>) -> Duration {
    let mut lent: Vec<_> = cases
        .iter()
        .map(|(_, _, room)| ours::filled(room, 0))
        .collect();
    let ours = least(|| {
        for ((case, ..), lent) in cases.iter().zip(&mut lent) {
            black_box(ours::load_into(case, lent));
        }
    });
    let objects: Vec<&[u8]> = cases.iter().map(|(_, object, _)| &object[..]).collect();
    let theirs = parse(&objects);
    let bytes: usize = cases.iter().map(|(case, ..)| case.input.len()).sum();
    let form = match cases.first().map(|(case, ..)| case.form) {
        Some(Form::File) => "file",
        _ => "deposit",
    };
    let (ratio, growth) = (times(theirs, ours), times_or_none(Some(ours), before));
    println!("{name}, {form}, {bytes}, {ours:.1?}, {theirs:.1?}, {ratio}, {growth}");
    ours
}

/// What the crate takes for all of these.
pub fn parse(objects: &[&[u8]]) -> Duration {
    let mut buffers = vec![Vec::new(); objects.len()];
    let objects: Vec<&[u8]> = objects
        .iter()
        .zip(&mut buffers)
        .map(|(object, buffer)| aligned(object, buffer))
        .collect();
    least(|| {
        for object in &objects {
            drop(black_box(aya_obj::Object::parse(object)));
        }
    })
}

pub fn times(longer: Duration, shorter: Duration) -> String {
    format!("{:.2}", longer.as_secs_f64() / shorter.as_secs_f64())
}

pub fn times_or_none(longer: Option<Duration>, shorter: Option<Duration>) -> String {
    longer
        .zip(shorter)
        .map_or("-".to_string(), |(a, b)| times(a, b))
}

/// What a run takes: in the shortest of many batches, or the only time if that is long.
pub fn least(mut run: impl FnMut()) -> Duration {
    let mut timed = |runs: u32| {
        let from = thread_time();
        for _ in 0..runs {
            run();
        }
        thread_time() - from
    };
    let mut least = timed(1);
    let mut spent = least;
    let runs = 1 + BATCH.div_duration_f64(least) as u32;
    while spent < SPENT {
        let batch = timed(runs);
        least = least.min(batch / runs);
        spent += batch;
    }
    least
}
