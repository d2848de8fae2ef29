//! The load call beside the crate aya-obj.
mod answer;
mod bench;
mod case;
mod clock;
mod compare;
mod crash;
mod deposit;
mod domain;
mod elf;
mod files;
mod generate;
mod hold;
mod kinds;
mod lay;
mod made;
mod objects;
mod ours;
mod parsing;
mod patch_list;
mod reach;
mod record;
mod rng;
mod room;
mod rules;
mod runs;
#[cfg(test)]
mod sample;
mod shrink;
mod tally;
mod theirs;
mod worst;

use std::fs;
use std::path::Path;
use std::process::ExitCode;

use case::{Case, Judge};
use rng::Rng;
use runs::{Cases, numbers, report, run};

const USAGE: &str = "driver random N SEED FOLDER: N cases drawn by SEED, those at the limits among them
driver files N SEED FOLDER [OBJECTS]: N ELF files drawn by SEED, some of them real ones of OBJECTS changed
driver fuzz N SEED FOLDER [OBJECTS]: N such files changed, with guards round everything lent
driver record N SEED FOLDER: N cases with the crate's answers, as the program replay reads them, into FOLDER
driver outside N SEED FOLDER: N cases that nobody judges with our answers, for tools/model_check.py, into FOLDER
driver outside-files N SEED FOLDER: the same of files, each by the deposit that states the same
driver objects FOLDER: each NAME.o in FOLDER beside its NAME.deposit
driver bench FOLDER N: how long both take, on such objects, on made ones and in worst cases, N sections with the same relocations; built for release
A difference is shrunk and saved in FOLDER, and the exit status is 1.";

fn main() -> ExitCode {
    let words: Vec<String> = std::env::args().skip(1).collect();
    let words: Vec<&str> = words.iter().map(String::as_str).collect();
    let ran = || match words[..] {
        ["random", n, seed, folder] => {
            let cases = Cases {
                first: generate::limits(),
                draw: &generate::case,
                seed: seed.parse().ok()?,
            };
            Some(run(n.parse().ok()?, &cases, Path::new(folder)))
        }
        ["files", n, seed, folder, ref objects @ ..] => {
            let real = objects::read(objects)?;
            let cases = Cases {
                first: files::limits(),
                draw: &|rng| files::case(rng, &real),
                seed: seed.parse().ok()?,
            };
            Some(run(n.parse().ok()?, &cases, Path::new(folder)))
        }
        ["fuzz", n, seed, folder, ref objects @ ..] => {
            let real = objects::read(objects)?;
            let (n, seed) = (n.parse().ok()?, seed.parse().ok()?);
            Some(files::fuzz::run(n, seed, &real, Path::new(folder)))
        }
        ["record", n, seed, folder] => {
            let of = Writing {
                word: "crate",
                draw: generate::case,
                wanted: by_crate,
            };
            Some(of.write(n.parse().ok()?, seed.parse().ok()?, Path::new(folder)))
        }
        [word @ ("outside" | "outside-files"), n, seed, folder] => {
            let of = Writing {
                word: "outside",
                draw: if word == "outside" {
                    generate::case
                } else {
                    of_no_object
                },
                wanted: by_nobody,
            };
            Some(of.write(n.parse().ok()?, seed.parse().ok()?, Path::new(folder)))
        }
        ["bench", folder, n] => Some(bench::run(Path::new(folder), n.parse().ok()?)),
        ["objects", folder] => Some(objects::run(Path::new(folder))),
        _ => None,
    };
    match ran() {
        Some(true) => ExitCode::SUCCESS,
        Some(false) => ExitCode::from(1),
        None => {
            eprintln!("{USAGE}");
            ExitCode::from(2)
        }
    }
}

fn of_no_object(rng: &mut Rng) -> Case {
    files::case(rng, &[])
}

/// Deposits above this length are not written out: the file stays small.
const WRITTEN: usize = 1536;

/// Cases that are written out.
struct Writing {
    /// Their names begin with it.
    word: &'static str,
    draw: fn(&mut Rng) -> Case,
    wanted: fn(&Judge) -> bool,
}

impl Writing {
    /// Writes out N cases, as the program replay reads them and with what it is to write; whether no difference was found. A file is written as the
    /// deposit that states the same.
    fn write(&self, n: u64, seed: u64, folder: &Path) -> bool {
        let (mut input, mut output) = (String::new(), String::new());
        let cases = (0..).map(|i| (i, (self.draw)(&mut numbers(seed, i))));
        let stated = cases
            .filter(|(_, case)| (self.wanted)(&case.judge))
            .map(|(i, case)| (i, hold::stated(&case), case))
            .filter(|(_, stated, _)| stated.input.len() <= WRITTEN);
        for (i, stated, case) in stated.take(n as usize) {
            match hold::hold(&case) {
                Err(text) => {
                    let which = format!("case {i} of seed {seed}");
                    report(&which, case, &text, folder, &|case| hold::hold(case).err());
                    return false;
                }
                Ok(run) => {
                    let name = format!("{}-{seed}-{i}", self.word);
                    let (room, answer, lent) = hold::recorded(&case, &run);
                    input += &record::line(&name, &stated, &room);
                    output += &record::printed(&name, &answer, &lent);
                }
            }
        }
        let written = fs::create_dir_all(folder)
            .and_then(|()| fs::write(folder.join("stdin"), input))
            .and_then(|()| fs::write(folder.join("stdout"), output));
        match written {
            Ok(()) => println!("{n} cases in {}", folder.display()),
            Err(ref e) => println!("{}: {e}", folder.display()),
        }
        written.is_ok()
    }
}

fn by_crate(judge: &Judge) -> bool {
    matches!(judge, Judge::Crate | Judge::CrateByEntry)
}

fn by_nobody(judge: &Judge) -> bool {
    *judge == Judge::None
}
