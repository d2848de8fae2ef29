//! One case: the load call is run on it, held to its judge, and to what needs no judge.
use crate::answer::{Answer, Lent, Room, Summary};
use crate::case::{Case, Form, Judge, Records, Refusal};
use crate::rules::MOST_BYTES;
use crate::shrink::edits;
use crate::theirs::{Given, Theirs};
use crate::{compare, deposit, files, lay, ours, room, theirs};

/// What our call gave, for the counts.
pub struct Run {
    pub answer: Answer,
    pub lent: Lent,
    /// How the crate got the input, where it judged.
    pub given: Option<&'static str>,
}

/// What is wrong with our answer, if anything is.
pub fn hold(case: &Case) -> Result<Run, String> {
    let room = lent_for(case);
    let (answer, lent) = ours::load(case, &room, 0xA5);
    match answer {
        Answer::Accepted(summary) => {
            zero_behind(&summary, &lent)?;
            finds_each(&summary, &lent)?;
            fits_exactly(case, &summary, &lent)?;
        }
        Answer::Refused(refusal) => {
            ensure(compare::all_zero(&lent), || {
                "refused, and not everything lent is zero".into()
            })?;
            ensure(refusal.number != 24, || {
                "24, though there is room for every catalogue".into()
            })?;
            same_without_room(case, &refusal)?;
        }
    }
    let again = ours::load(case, &room, 0);
    ensure(again == (answer, lent.clone()), || {
        "what was lent before the call shows".into()
    })?;
    let given = judged(case, &answer, &lent)?;
    same_as_deposit(case, &answer, &lent)?;
    Ok(Run {
        answer,
        lent,
        given,
    })
}

fn ensure(holds: bool, otherwise: impl FnOnce() -> String) -> Result<(), String> {
    if holds { Ok(()) } else { Err(otherwise()) }
}

/// Room for every catalogue of the case; some for bytes that no records stand behind.
fn lent_for(case: &Case) -> Room {
    match &case.records {
        Some(records) => room::enough(records),
        None => Room::of([64, 64, 8, 128, 64, 1024]),
    }
}

fn zero_behind(summary: &Summary, lent: &Lent) -> Result<(), String> {
    let behind =
        cut(lent, &summary.taken(), true).ok_or("the summary counts more than was lent")?;
    ensure(compare::all_zero(&behind), || {
        "what is lent past the catalogue is not zero".into()
    })
}

/// The part of each table up to a length, or from it on.
fn cut(lent: &Lent, at: &[usize; 6], behind: bool) -> Option<Lent> {
    fn part<T: Clone>(v: &[T], at: usize, behind: bool) -> Option<Vec<T>> {
        let (front, back) = v.split_at_checked(at)?;
        Some(if behind { back } else { front }.to_vec())
    }
    Some(Lent {
        sections: part(&lent.sections, at[0], behind)?,
        programs: part(&lent.programs, at[1], behind)?,
        functions: part(&lent.functions, at[2], behind)?,
        maps: part(&lent.maps, at[3], behind)?,
        relocations: part(&lent.relocations, at[4], behind)?,
        bytes: part(&lent.bytes, at[5], behind)?,
    })
}

/// Each row of the function table is found by its section and address, and no other address between two rows is.
fn finds_each(summary: &Summary, lent: &Lent) -> Result<(), String> {
    let count = summary.functions as usize;
    for (k, row) in lent.functions[..count].iter().enumerate() {
        let found = ours::find(&lent.functions, count, row.section, row.address);
        ensure(found == Some(k as u64), || {
            format!("find gives {found:?} for row {k} of the function table")
        })?;
        let next = row.address.wrapping_add(1);
        let known = lent.functions[..count]
            .iter()
            .position(|f| (f.section, f.address) == (row.section, next));
        let found = ours::find(&lent.functions, count, row.section, next);
        ensure(found == known.map(|k| k as u64), || {
            format!("find gives {found:?} for the address behind row {k}")
        })?;
    }
    Ok(())
}

/// Lent exactly what the catalogue takes, the call gives it; with one element less of any, 24 and zeros.
fn fits_exactly(case: &Case, summary: &Summary, lent: &Lent) -> Result<(), String> {
    let exact = summary.taken();
    let (answer, held) = ours::load(case, &Room::of(exact), 0x5A);
    ensure(answer == Answer::Accepted(*summary), || {
        format!("lent exactly what it takes: {answer:?}")
    })?;
    ensure(Some(held) == cut(lent, &exact, false), || {
        "lent exactly what it takes, the catalogue differs".into()
    })?;
    for k in (0..6).filter(|&k| exact[k] > 0) {
        let mut less = exact;
        less[k] -= 1;
        let (answer, held) = ours::load(case, &Room::of(less), 0x5A);
        let full = Answer::Refused(Refusal {
            number: 24,
            section: 0,
            symbol: 0,
            entry: 0,
        });
        ensure(answer == full && compare::all_zero(&held), || {
            format!("lent one element less ({less:?}): {answer:?}")
        })?;
    }
    Ok(())
}

/// 24 comes last: a refusal is the same where nothing is lent.
fn same_without_room(case: &Case, refusal: &Refusal) -> Result<(), String> {
    let (answer, _) = ours::load(case, &Room::default(), 0);
    ensure(answer == Answer::Refused(*refusal), || {
        format!("{refusal:?}, but with nothing lent {answer:?}")
    })
}

/// The case with the deposit that states the same, for a file that states something.
pub fn stated(case: &Case) -> Case {
    let mut out = case.clone();
    if let (Form::File, Some(records)) = (case.form, &case.records) {
        let records = edits::compact(records).unwrap_or_else(|| records.clone());
        (out.form, out.input) = (Form::Deposit, deposit::lay_out(&records));
    }
    out
}

/// A file's answer is that of the deposit which states the same, where one is short enough.
fn same_as_deposit(case: &Case, answer: &Answer, lent: &Lent) -> Result<(), String> {
    let states = |r: &Records| case.form == Form::File && deposit::length(r) <= MOST_BYTES;
    if !case.records.as_ref().is_some_and(states) {
        return Ok(());
    }
    let (other, held) = ours::load(&stated(case), &lent_for(case), 0x5A);
    ensure(other == *answer, || {
        format!("{answer:?}, and the deposit of what it states {other:?}")
    })?;
    ensure(held == *lent, || {
        "the deposit of what it states gives another catalogue".into()
    })
}

/// How the crate got the input, where it is the judge.
fn judged(case: &Case, answer: &Answer, lent: &Lent) -> Result<Option<&'static str>, String> {
    match &case.judge {
        Judge::None => Ok(None),
        Judge::Known(refusal) => {
            ensure(*answer == Answer::Refused(*refusal), || {
                format!("made to be {refusal:?}, is {answer:?}")
            })?;
            Ok(None)
        }
        Judge::Crate | Judge::CrateByEntry => {
            let (theirs, given) = by_crate(case);
            match compare::difference(answer, lent, &theirs) {
                None => Ok(Some(given)),
                Some(text) => Err(format!("{text} (the crate got it {given})")),
            }
        }
    }
}

/// What the crate makes of a case that it judges, and how it got the input.
fn by_crate(case: &Case) -> (Theirs, &'static str) {
    let file = files::given(case);
    let list = case
        .list
        .as_ref()
        .expect("a case that the crate judges has a list");
    let given = if case.judge == Judge::CrateByEntry {
        Given::ByEntry
    } else {
        Given::Whole
    };
    let theirs = theirs::run(&file.file, file.sections, list, given, case.rewrite);
    (theirs, file.how)
}

/// A case for the record: its lent lengths, a little more than the catalogue takes; the answer and what it lays in them.
/// They are the crate's where it judges and accepts. A refusal keeps our places, since the crate names few.
pub fn recorded(case: &Case, run: &Run) -> (Room, Answer, Lent) {
    let Answer::Accepted(summary) = run.answer else {
        let room = Room::of([9, 15, 2, 28, 9, 41]);
        return (room, run.answer, Lent::default());
    };
    let mut lengths = summary.taken();
    for (length, more) in lengths.iter_mut().zip([3, 3, 1, 3, 3, 5]) {
        *length += more;
    }
    let room = Room::of(lengths);
    if case.judge != Judge::None
        && let (Theirs::Accepted(catalogue), _) = by_crate(case)
    {
        let answer = Answer::Accepted(lay::summary(&catalogue));
        return (room, answer, lay::lent(&catalogue, &room));
    }
    let (answer, lent) = ours::load(case, &room, 0xA5);
    (room, answer, lent)
}
