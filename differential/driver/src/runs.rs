//! Cases by their numbers, in as many threads as there are processors; the first that fails is made smaller, told and saved.
use std::path::Path;
use std::sync::Mutex;
use std::sync::atomic::{AtomicU64, Ordering};
use std::{fs, thread};

use crate::case::{Case, Form};
use crate::rng::Rng;
use crate::tally::Tally;
use crate::{crash, elf, files, hold, shrink};

/// A load takes up to 1.5 MB of stack.
const STACK: usize = 64 << 20;

/// The random numbers of case i of a seed, whatever ran before it.
pub fn numbers(seed: u64, i: u64) -> Rng {
    let start = Rng::new(seed).next();
    Rng::new(start.wrapping_add(i.wrapping_mul(0x9E37_79B9_7F4A_7C15)))
}

/// Some that are always the same, and those that are drawn.
pub struct Cases<'a> {
    pub first: Vec<Case>,
    pub draw: &'a (dyn Fn(&mut Rng) -> Case + Sync),
    pub seed: u64,
}

impl Cases<'_> {
    fn case(&self, i: u64) -> Case {
        let first = self.first.get(i as usize).cloned();
        first.unwrap_or_else(|| (self.draw)(&mut numbers(self.seed, i)))
    }
}

/// Whether no difference was found.
pub fn run(n: u64, cases: &Cases, folder: &Path) -> bool {
    crash::watch(folder);
    let total = Mutex::new(Tally::default());
    let work = |tally: &mut Tally, i: u64| {
        let case = cases.case(i);
        crash::in_hand(i, &case);
        match hold::hold(&case) {
            Ok(run) => tally.count(&case, &run),
            Err(text) => {
                let which = format!("case {i} of seed {}", cases.seed);
                report(&which, case, &text, folder, &|case| hold::hold(case).err());
                return false;
            }
        }
        true
    };
    let same = each(n, Tally::default, work, |tally| {
        total.lock().unwrap().add(tally)
    });
    let total = total.into_inner().unwrap();
    total.print();
    let found = if same {
        "no difference"
    } else {
        "A DIFFERENCE"
    };
    println!("{}; {found}", total.line());
    same
}

/// Works on the numbers below `n`, up to the first that fails; whether none did. Each thread has a state of its own, which it hands over at its end.
pub fn each<S>(
    n: u64,
    start: impl Fn() -> S + Sync,
    work: impl Fn(&mut S, u64) -> bool + Sync,
    end: impl Fn(S) + Sync,
) -> bool {
    let (next, stop) = (AtomicU64::new(0), AtomicU64::new(u64::MAX));
    let thread = || {
        let mut state = start();
        loop {
            let i = next.fetch_add(1, Ordering::Relaxed);
            if i >= n || i >= stop.load(Ordering::Relaxed) {
                break;
            }
            if !work(&mut state, i) {
                stop.fetch_min(i, Ordering::Relaxed);
            }
        }
        end(state);
    };
    thread::scope(|scope| {
        for _ in 0..thread::available_parallelism().map_or(1, usize::from) {
            thread::Builder::new()
                .stack_size(STACK)
                .spawn_scoped(scope, thread)
                .expect("a thread");
        }
    });
    stop.into_inner() == u64::MAX
}

/// What is wrong with a case, if anything is.
type Wrong<'a> = &'a dyn Fn(&Case) -> Option<String>;

/// Shrinks a case and saves it.
pub fn report(which: &str, case: Case, text: &str, folder: &Path, wrong: Wrong) {
    println!("difference, {which}, made for {}: {text}", case.aim);
    let small = shrink::shrink(case, &mut |case| wrong(case).is_some());
    let text = wrong(&small).unwrap_or_default();
    println!("shrunk: {text}\n{}", told(&small));
    match save(&small, &text, folder) {
        Ok(()) => println!("saved as {}/difference.*", folder.display()),
        Err(e) => println!("not saved in {}: {e}", folder.display()),
    }
}

/// A case in words; its input is a file.
fn told(case: &Case) -> String {
    let input = match (case.form, &case.records) {
        (Form::File, _) => files::told(&case.input),
        (Form::Deposit, Some(records)) => format!("{records:?}"),
        (Form::Deposit, None) => format!("{} bytes that state no records", case.input.len()),
    };
    let Case {
        entries,
        patches,
        rewrite,
        ..
    } = case;
    format!("{input}\nlist {entries:?} over {patches:?}\nrewriting {rewrite}")
}

fn save(case: &Case, text: &str, folder: &Path) -> std::io::Result<()> {
    fs::create_dir_all(folder)?;
    match (case.form, &case.records) {
        (Form::File, _) => fs::write(folder.join("difference.o"), &case.input)?,
        (Form::Deposit, records) => {
            fs::write(folder.join("difference.deposit"), &case.input)?;
            if let Some(records) = records {
                fs::write(folder.join("difference.o"), elf::write(records))?;
            }
        }
    }
    let text = format!("{text}\n{}\n", told(case));
    fs::write(folder.join("difference.txt"), text)
}
