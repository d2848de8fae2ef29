//! Mutated files through the call, with guards round everything lent.
use std::collections::BTreeMap;
use std::path::Path;
use std::sync::Mutex;

use crate::answer::{Lent, Room};
use crate::case::{Case, Form, Judge};
use crate::ours::{self, LoadAnswer, Read, Written};
use crate::rng::Rng;
use crate::runs::{each, numbers, report};
use crate::{compare, crash, generate, room};

use super::damages::DAMAGES;
use super::edit::Edit;
use super::guard::{Guarded, Side};
use super::{base, change, of_file};

/// Whether nothing was wrong.
pub fn run(n: u64, seed: u64, real: &[Vec<u8>], folder: &Path) -> bool {
    crash::watch(folder);
    let total = Mutex::new(BTreeMap::new());
    let work = |(memory, answers): &mut (Memory, BTreeMap<u32, u64>), i: u64| {
        let mut rng = numbers(seed, i);
        let case = mutated(&mut rng, real);
        let room = lent_for(&mut rng, &case);
        crash::in_hand(i, &case);
        match memory.hold(&case, &room) {
            Ok(number) => *answers.entry(number).or_default() += 1,
            Err(text) => {
                let which = format!("case {i} of seed {seed}");
                let wrong = |case: &Case| Memory::new().hold(case, &room).err();
                report(&which, case, &text, folder, &wrong);
                return false;
            }
        }
        true
    };
    let end = |(_, answers): (Memory, BTreeMap<u32, u64>)| {
        for (number, count) in answers {
            *total.lock().unwrap().entry(number).or_insert(0) += count;
        }
    };
    let fine = each(n, || (Memory::new(), BTreeMap::new()), work, end);
    let total: BTreeMap<u32, u64> = total.into_inner().unwrap();
    let answers: Vec<String> = total.iter().map(|(k, n)| format!("{k} {n}")).collect();
    println!("answers, 0 is accepted: {}", answers.join(", "));
    let cases: u64 = total.values().sum();
    let found = if fine {
        "nothing was touched outside, equal inputs gave equal answers"
    } else {
        "A FAULT"
    };
    println!("{cases} mutated files, each given twice: {found}");
    fine
}

/// A file with a few changes, drawn or real.
pub fn mutated(rng: &mut Rng, real: &[Vec<u8>]) -> Case {
    let (_, draft, lent) = generate::drafted(rng);
    let (_, mut file) = base(rng, &draft, real, 2);
    for _ in 0..*rng.pick(&[0, 1, 1, 1, 2, 4]) {
        if rng.chance(1, 4) {
            change(rng, &mut file);
        } else {
            let mut edit = Edit::of(file);
            (rng.pick(&DAMAGES).1)(rng, &mut edit);
            file = edit.bytes;
        }
    }
    if !real.is_empty() && rng.chance(1, 10) {
        let other = rng.pick(real);
        let (from, to) = (rng.below(file.len() + 1), rng.below(other.len() + 1));
        file.truncate(from);
        file.extend(&other[to..]);
    }
    let rewrite = rng.chance(1, 2);
    of_file("mutated", file, lent, rewrite)
}

/// What is lent: enough for what the file states, or some of it.
fn lent_for(rng: &mut Rng, case: &Case) -> Room {
    let Room {
        sections,
        programs,
        functions,
        maps,
        relocations,
        bytes,
    } = case.records.as_ref().map(room::enough).unwrap_or_default();
    let more = |n: usize| n + n / 8 + 3;
    let enough = [sections, programs, functions, maps, relocations, bytes].map(more);
    let cut = rng.chance(1, 3);
    Room::of(enough.map(|n| if cut { rng.below(n + 1) } else { n }))
}

/// The places of everything that is lent, used again for each case.
struct Memory {
    input: Guarded,
    entries: Guarded,
    patches: Guarded,
    sections: Guarded,
    programs: Guarded,
    functions: Guarded,
    maps: Guarded,
    relocations: Guarded,
    bytes: Guarded,
    answer: Guarded,
}

impl Memory {
    fn new() -> Memory {
        Memory {
            input: Guarded::new(),
            entries: Guarded::new(),
            patches: Guarded::new(),
            sections: Guarded::new(),
            programs: Guarded::new(),
            functions: Guarded::new(),
            maps: Guarded::new(),
            relocations: Guarded::new(),
            bytes: Guarded::new(),
            answer: Guarded::new(),
        }
    }

    fn all(&mut self) -> [(&'static str, &mut Guarded); 10] {
        [
            ("the file", &mut self.input),
            ("the entries", &mut self.entries),
            ("the patches", &mut self.patches),
            ("the sections", &mut self.sections),
            ("the programs", &mut self.programs),
            ("the functions", &mut self.functions),
            ("the maps", &mut self.maps),
            ("the relocations", &mut self.relocations),
            ("the bytes", &mut self.bytes),
            ("the answer", &mut self.answer),
        ]
    }

    /// One call, with the closed pages on one side of all; the answer and what it leaves.
    fn call(
        &mut self,
        case: &Case,
        room: &Room,
        side: Side,
        fill: u8,
    ) -> Result<(LoadAnswer, Lent), String> {
        let input: &mut [u8] = self.input.lend(case.input.len(), side, 0);
        input.copy_from_slice(&case.input);
        let entries: &mut [u64] = self.entries.lend(case.entries.len(), side, 0);
        entries.copy_from_slice(&case.entries);
        let patches: &mut [u8] = self.patches.lend(case.patches.len(), side, 0);
        patches.copy_from_slice(&case.patches);
        let answer: &mut [LoadAnswer] = self.answer.lend(1, side, fill);
        let written = Written {
            sections: self.sections.lend(room.sections, side, fill),
            programs: self.programs.lend(room.programs, side, fill),
            functions: self.functions.lend(room.functions, side, fill),
            maps: self.maps.lend(room.maps, side, fill),
            relocations: self.relocations.lend(room.relocations, side, fill),
            bytes: self.bytes.lend(room.bytes, side, fill),
            answer: &mut answer[0],
        };
        let read = Read {
            form: Form::File,
            input,
            entries,
            patches,
            rewrite: case.rewrite,
        };
        ours::call(read, written);
        let answer = answer[0];
        self.check(case)?;
        Ok((answer, self.lent()))
    }

    /// Nothing beside what was lent was written, nor what is only read.
    fn check(&mut self, case: &Case) -> Result<(), String> {
        for (what, guarded) in self.all() {
            ensure(guarded.untouched(), || {
                format!("bytes beside {what} were written")
            })?;
        }
        let read = self.input.lent::<u8>() == case.input
            && self.entries.lent::<u64>() == case.entries
            && self.patches.lent::<u8>() == case.patches;
        ensure(read, || "what is only read was written".into())
    }

    fn lent(&mut self) -> Lent {
        Lent {
            sections: self.sections.lent(),
            programs: self.programs.lent(),
            functions: self.functions.lent(),
            maps: self.maps.lent(),
            relocations: self.relocations.lent(),
            bytes: self.bytes.lent(),
        }
    }

    /// Two calls over other contents of what is lent, guarded on either side; what is wrong, or the answer's number.
    fn hold(&mut self, case: &Case, room: &Room) -> Result<u32, String> {
        let (answer, lent) = self.call(case, room, Side::Back, 0xA5)?;
        let again = self.call(case, room, Side::Front, 0)?;
        ensure(again == (answer, lent.clone()), || {
            format!("{answer:?}, and for the same input {:?}", again.0)
        })?;
        let number = answer.number;
        ensure(number == 0 || (3..=26).contains(&number), || {
            format!("the answer's number is {number}")
        })?;
        ensure(number == 0 || compare::all_zero(&lent), || {
            format!("refused {number}, and not everything lent is zero")
        })?;
        let read = match &case.judge {
            Judge::Known(r) if [3, 25, 26].contains(&r.number) => r.number,
            _ => 0,
        };
        let said = if [3, 25, 26].contains(&number) {
            number
        } else {
            0
        };
        ensure(said == read, || {
            format!("the answer's number is {number}, the file comes to {read}")
        })?;
        Ok(number)
    }
}

fn ensure(holds: bool, otherwise: impl FnOnce() -> String) -> Result<(), String> {
    if holds { Ok(()) } else { Err(otherwise()) }
}
