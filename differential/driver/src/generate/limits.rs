//! Objects at each limit of document 01 and one past it.
use crate::case::{Case, Extent, Patch, Records};
use crate::deposit::{STREAM, places};
use crate::patch_list::lend;
use crate::rng::Rng;
use crate::rules::{MOST_BYTES, MOST_NAME, MOST_RECORDS, MOST_SECTIONS};

use super::draft::Draft;
use super::patches::Lent;
use super::sections::{DATA, TEXT, relocation};
use super::words::code;

pub fn limits() -> Vec<Case> {
    let mut rng = Rng::new(0);
    let mut out = Vec::new();
    for past in [0, 1] {
        let name = vec![b'n'; MOST_NAME as usize + past];
        out.push(of("limit: section name", section_name(&name)));
        out.push(of("limit: program name", program_name(&name)));
        out.push(patched_name(&name));
        out.push(of("limit: sections", sections(MOST_SECTIONS + past)));
        out.push(of(
            "limit: text symbols",
            text_symbols(&mut rng, MOST_RECORDS + past),
        ));
        out.push(of("limit: map symbols", map_symbols(MOST_RECORDS + past)));
        out.push(of(
            "limit: relocations",
            relocations(&mut rng, MOST_RECORDS + past),
        ));
        out.push(of("limit: section size", sized(".bss", MOST_BYTES + past)));
        out.push(of("limit: section size", sized(".data", MOST_BYTES + past)));
        out.push(of("limit: section size", sized("other", MOST_BYTES + past)));
        out.push(of("limit: deposit", whole_deposit(past)));
    }
    out
}

fn of(aim: &'static str, records: Records) -> Case {
    super::of_records(aim, records, Lent::default(), true)
}

fn section_name(name: &[u8]) -> Records {
    let mut draft = Draft::default();
    draft.section(name, b"data".to_vec());
    draft.records()
}

fn program_name(name: &[u8]) -> Records {
    let mut draft = Draft::default();
    draft.section("xdp", vec![0; 8]).mark = 1;
    draft.symbol(name, 0, 8, TEXT);
    draft.symbol("p", 0, 8, TEXT);
    draft.records()
}

fn patched_name(name: &[u8]) -> Case {
    let mut draft = Draft::default();
    draft.section(".data", b"0123".to_vec());
    draft.symbol(name, 1, 2, DATA);
    let (entries, patches) = lend(&[Patch {
        name: name.to_vec(),
        data: b"ab".to_vec(),
        must_exist: true,
    }]);
    super::of_records(
        "limit: patched name",
        draft.records(),
        Lent {
            aim: "",
            entries,
            patches,
        },
        false,
    )
}

fn sections(count: usize) -> Records {
    let mut draft = Draft::default();
    for k in 0..count {
        match k % 3 {
            0 => drop(draft.section(format!(".data.{k}"), vec![k as u8])),
            1 => {
                draft
                    .section(format!("tp/{k}"), vec![0x95, 0, 0, 0, 0, 0, 0, 0])
                    .mark = 1;
                draft.symbol(format!("p{}", k / 6), 0, 8, TEXT);
            }
            _ => drop(draft.section("again", vec![])),
        }
    }
    draft.records()
}

/// A text of functions of one instruction, from the last to the first.
fn text_symbols(rng: &mut Rng, count: usize) -> Records {
    let mut draft = Draft::default();
    draft.section(".text", code(rng, count));
    for k in (0..count).rev() {
        draft.symbol(format!("f{}", k % 1000), 8 * k as u64, 8, TEXT);
    }
    draft.records()
}

fn map_symbols(count: usize) -> Records {
    let mut draft = Draft {
        order: 1,
        ..Default::default()
    };
    draft.section("maps", vec![1; 24]);
    for k in 0..count {
        draft.symbol(
            format!("m{:04x}", (k * 40_503) & 0xFFFF),
            k as u64 % 5,
            20,
            DATA,
        );
    }
    draft.records()
}

fn relocations(rng: &mut Rng, count: usize) -> Records {
    let mut draft = Draft::default();
    draft.section("xdp", vec![0; 16]).mark = 1;
    draft.symbol("p", 0, 16, TEXT);
    draft.last().relocations = (0..count).map(|_| relocation(rng)).collect();
    for r in &mut draft.last().relocations {
        (r.offset, r.size) = (rng.below(count) as u64, 32);
    }
    draft.records()
}

fn sized(name: &str, size: usize) -> Records {
    let mut draft = Draft::default();
    draft.section(name, vec![]).size = size as u64;
    draft.records()
}

/// As many blocks as a deposit may have, the last of them full, and so many bytes more.
fn whole_deposit(more: usize) -> Records {
    let mut draft = Draft::default();
    draft.section(".data", vec![]);
    draft.symbol("v", 0, 8, DATA);
    let mut records = draft.records();
    let length = MOST_BYTES / 512 * STREAM - places(&records).end + more;
    records.data = (0..length).map(|k| (k * 31 / 8) as u8).collect();
    records.sections[0].size = length as u64;
    records.sections[0].bytes = Extent {
        at: 0,
        length: length as u32,
    };
    records
}

#[cfg(test)]
mod tests {
    use super::*;
    use crate::case::Judge;
    use crate::domain::known;

    #[test]
    fn at_each_limit_the_crate_judges_and_past_it_the_number_is_known() {
        let cases = limits();
        let (at, past) = cases.split_at(cases.len() / 2);
        for case in at {
            assert_eq!(case.judge, Judge::Crate, "{}", case.aim);
        }
        for case in past {
            let number = if case.aim == "limit: deposit" { 1 } else { 2 };
            assert_eq!(case.judge, known(number, 0), "{}", case.aim);
        }
        assert!(at.iter().any(|case| case.input.len() == 16_777_216));
        assert!(past.iter().any(|case| case.input.len() == 16_777_216 + 512));
    }
}
