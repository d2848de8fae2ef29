//! Sections that go back with one of the numbers 3 to 17, if nothing before them does.
use crate::case::{NONE, RelocationRecord};
use crate::rng::Rng;

use super::draft::Draft;
use super::sections::{
    DATA, OTHER, TEXT, TOP, any, legacy_maps, map_record, program, relocation, relocations, text,
};
use super::words::{bytes, code, program_name, symbol_name, unknown_program_name};

pub struct Fault {
    pub aim: &'static str,
    #[cfg_attr(not(test), expect(dead_code))]
    pub number: u32,
    pub make: fn(&mut Rng, &mut Draft),
}

const fn fault(number: u32, aim: &'static str, make: fn(&mut Rng, &mut Draft)) -> Fault {
    Fault { aim, number, make }
}

pub const FAULTS: [Fault; 27] = [
    fault(3, "3 section .BTF", btf),
    fault(4, "4 relocation without symbol", no_target),
    fault(5, "5 licence too short", |rng, draft| {
        license(rng, draft, &[b"", b"\0", b"a"])
    }),
    fault(5, "5 licence with a zero inside", |rng, draft| {
        license(rng, draft, &[b"a\0b", b"\0\0", b"a\0\0", b"GPL\0MIT\0"])
    }),
    fault(6, "6 licence without a zero", |rng, draft| {
        license(rng, draft, &[b"GPL", b"ab", b"a licence without its end"])
    }),
    fault(7, "7 version not of 4 bytes", version),
    fault(8, "8 program section's name", unknown_program),
    fault(9, "9 program section without symbol", no_program_symbol),
    fault(9, "9 maps section without symbol", no_map_symbol),
    fault(10, "10 map past the data", |rng, draft| {
        long_map(rng, draft, false)
    }),
    fault(10, "10 map past 2^64", |rng, draft| {
        long_map(rng, draft, true)
    }),
    fault(10, "10 program past the data", |rng, draft| {
        long_program(rng, draft, false)
    }),
    fault(10, "10 program past 2^64", |rng, draft| {
        long_program(rng, draft, true)
    }),
    fault(10, "10 program below its section", low_program),
    fault(11, "11 text address twice", |rng, draft| {
        conflict(rng, draft, 1)
    }),
    fault(11, "11 several text addresses twice", |rng, draft| {
        conflict(rng, draft, 2)
    }),
    fault(12, "12 gap in a text", gap),
    fault(12, "12 text past 2^64", past_top),
    fault(
        12,
        "12 only other symbols at a text address",
        no_text_symbol,
    ),
    fault(13, "13 text symbol of size 0", |rng, draft| {
        last_function(rng, draft, &[0])
    }),
    fault(14, "14 function past the text", |rng, draft| {
        last_function(rng, draft, &[9, 16, 17, 1 << 40, TOP, TOP - 7])
    }),
    fault(15, "15 text function's length", |rng, draft| {
        last_function(rng, draft, &[1, 4, 7])
    }),
    fault(15, "15 program's length", odd_program),
    fault(16, "16 map record under 20 bytes", short_record),
    fault(16, "16 pinning", pinning),
    fault(17, "17 section .maps", btf_maps),
    fault(4, "4 and the section's own number", no_target_of_a_fault),
];

fn btf(rng: &mut Rng, draft: &mut Draft) {
    let length = rng.below(9);
    draft.section(".BTF", bytes(rng, length)).mark = rng.below(2) as u32;
}

fn no_target(rng: &mut Rng, draft: &mut Draft) {
    loop {
        any(rng, draft);
        if draft.last().name != b".BTF.ext" {
            return without_target(rng, draft);
        }
    }
}

fn without_target(rng: &mut Rng, draft: &mut Draft) {
    let none = RelocationRecord {
        symbol: NONE,
        ..relocation(rng)
    };
    let at = rng.below(draft.last().relocations.len() + 1);
    draft.last().relocations.insert(at, none);
}

fn no_target_of_a_fault(rng: &mut Rng, draft: &mut Draft) {
    let others = &FAULTS[2..FAULTS.len() - 1];
    (rng.pick(others).make)(rng, draft);
    without_target(rng, draft);
}

fn license(rng: &mut Rng, draft: &mut Draft, texts: &[&[u8]]) {
    draft
        .section("license", rng.pick(texts).to_vec())
        .relocations = relocations(rng);
}

fn version(rng: &mut Rng, draft: &mut Draft) {
    let length = *rng.pick(&[0, 1, 3, 5, 8]);
    draft.section("version", bytes(rng, length)).relocations = relocations(rng);
}

fn unknown_program(rng: &mut Rng, draft: &mut Draft) {
    draft.section(unknown_program_name(rng), code(rng, 2)).mark = 1;
    if rng.chance(2, 3) {
        draft.symbol(symbol_name(rng), 0, 16, TEXT);
    }
}

fn no_program_symbol(rng: &mut Rng, draft: &mut Draft) {
    draft.section(program_name(rng), code(rng, 1)).mark = 1;
}

fn no_map_symbol(rng: &mut Rng, draft: &mut Draft) {
    let length = *rng.pick(&[0, 20, 28]);
    draft
        .section(rng.pick(&["maps", "maps2"]), map_record(rng, length))
        .mark = rng.below(2) as u32;
}

fn long_map(rng: &mut Rng, draft: &mut Draft, past_top: bool) {
    legacy_maps(rng, draft);
    let length = draft.last().size;
    let (address, size) = if past_top {
        *rng.pick(&[
            (TOP, 20),
            (TOP - 19, 20),
            (20, TOP),
            (TOP, TOP),
            (TOP - 19, 40),
        ])
    } else {
        *rng.pick(&[
            (0, length + 1),
            (length - 19, 20),
            (length, 28),
            (length + 1, 0),
            (TOP, 0),
            (1, length),
        ])
    };
    draft.symbol(
        symbol_name(rng),
        address,
        size,
        *rng.pick(&[DATA, OTHER, TEXT]),
    );
}

fn long_program(rng: &mut Rng, draft: &mut Draft, past_top: bool) {
    program(rng, draft);
    let length = draft.last().size;
    let (address, size) = if past_top {
        *rng.pick(&[
            (TOP, 8),
            (TOP - 7, 8),
            (TOP - 7, 16),
            (length, TOP),
            (8, TOP - 7),
            (TOP, TOP),
        ])
    } else {
        *rng.pick(&[
            (length, 8),
            (length, 1),
            (length - 7, 8),
            (length + 1, 0),
            (length + 8, 0),
            (TOP, 0),
        ])
    };
    draft.symbol("p", address, size, TEXT);
}

fn low_program(rng: &mut Rng, draft: &mut Draft) {
    program(rng, draft);
    let length = draft.last().size;
    draft.last().address = *rng.pick(&[8, length, length + 1, 1 << 40, TOP]);
    let below = draft.last().address - 1;
    draft.symbol(
        "p",
        *rng.pick(&[0, below.min(length)]),
        *rng.pick(&[0, 8, 3]),
        TEXT,
    );
}

/// So many further addresses of a text that two symbols share, in the text, past it or at one of its functions.
fn conflict(rng: &mut Rng, draft: &mut Draft, addresses: u64) {
    text(rng, draft);
    let (start, length) = (draft.last().address, draft.last().size);
    for k in 0..addresses {
        let address = start
            .wrapping_add(*rng.pick(&[0, 1, 8, length]))
            .wrapping_add(2 * k);
        for _ in 0..2 + rng.below(2) {
            draft.symbol(symbol_name(rng), address, 8, TEXT);
        }
    }
}

/// A text of two functions, the second as it is asked for.
fn two_functions(rng: &mut Rng, draft: &mut Draft, second: (u64, u64)) {
    let address = *rng.pick(&[0, 0, 8, 4096, 1 << 40]);
    draft
        .section(rng.pick(&[".text", ".text2"]), code(rng, 3))
        .address = address;
    draft.last().relocations = relocations(rng);
    draft.symbol(symbol_name(rng), address, 16, TEXT);
    draft.symbol(symbol_name(rng), address + second.0, second.1, TEXT);
}

fn gap(rng: &mut Rng, draft: &mut Draft) {
    if rng.chance(1, 2) {
        let second = *rng.pick(&[(8, 16), (17, 8), (24, 8), (15, 9)]);
        return two_functions(rng, draft, second);
    }
    draft.section(".text", code(rng, 2)).address = *rng.pick(&[0, 8]);
    if rng.chance(1, 2) {
        draft.symbol(symbol_name(rng), *rng.pick(&[1, 16, 24]), 8, TEXT);
    }
}

fn past_top(rng: &mut Rng, draft: &mut Draft) {
    let address = TOP - *rng.pick(&[0, 3, 7]);
    draft.section(".text", code(rng, 2)).address = address;
    draft.symbol(symbol_name(rng), address, 8, TEXT);
    if rng.chance(1, 2) {
        draft.symbol(symbol_name(rng), address.wrapping_add(8), 8, TEXT);
    }
}

fn no_text_symbol(rng: &mut Rng, draft: &mut Draft) {
    two_functions(rng, draft, (16, 8));
    let second = draft.symbols.last_mut().expect("a text has symbols");
    (second.kind, second.definition) = *rng.pick(&[(DATA, 1), (OTHER, 1), (TEXT, 0)]);
}

/// A text whose second and last function has one of these sizes.
fn last_function(rng: &mut Rng, draft: &mut Draft, sizes: &[u64]) {
    let size = *rng.pick(sizes);
    two_functions(rng, draft, (16, size));
}

fn odd_program(rng: &mut Rng, draft: &mut Draft) {
    program(rng, draft);
    let length = draft.last().size;
    let start = draft.last().address.min(length - 1);
    draft.last().address = start;
    let odd: Vec<u64> = (1..=length - start).filter(|size| size % 8 != 0).collect();
    draft.symbol("p", start, *rng.pick(&odd), TEXT);
}

fn short_record(rng: &mut Rng, draft: &mut Draft) {
    legacy_maps(rng, draft);
    let length = *rng.pick(&[0, 1, 19]);
    let at = *rng.pick(&[0, draft.last().size - length]);
    draft.symbol(symbol_name(rng), at, length, DATA);
}

fn pinning(rng: &mut Rng, draft: &mut Draft) {
    draft.section("maps", map_record(rng, 28));
    let (place, byte) = *rng.pick(&[(24, 2), (24, 3), (25, 1), (26, 1), (27, 1), (27, 0x80)]);
    draft.last().data[place] = byte;
    let length = *rng.pick(&[28, place as u64 + 1]);
    draft.symbol(symbol_name(rng), 0, length, DATA);
}

fn btf_maps(rng: &mut Rng, draft: &mut Draft) {
    let length = *rng.pick(&[0, 28]);
    draft
        .section(
            rng.pick(&[".maps", ".maps2", ".maps.x"]),
            map_record(rng, length),
        )
        .mark = rng.below(2) as u32;
    if rng.chance(1, 2) {
        draft.symbol(symbol_name(rng), 0, 28, DATA);
    }
}

#[cfg(test)]
mod tests {
    use super::*;
    use crate::domain::{judge, known};
    use crate::parsing::{Stop, parse};

    #[test]
    fn each_fault_is_refused() {
        let mut rng = Rng::new(1);
        for fault in &FAULTS {
            for _ in 0..300 {
                let mut draft = Draft::default();
                (fault.make)(&mut rng, &mut draft);
                let records = draft.records();
                if fault.number == 3 {
                    assert_eq!(judge(&records, &[], b""), known(3, 0));
                } else {
                    assert!(parse(&records).is_err(), "{} {records:?}", fault.aim);
                }
            }
        }
    }

    #[test]
    fn what_is_outside_the_domain() {
        let mut rng = Rng::new(2);
        let mut stops = |aim: &str| {
            let fault = FAULTS
                .iter()
                .find(|f| f.aim == aim)
                .expect("there is this fault");
            let mut draft = Draft::default();
            (fault.make)(&mut rng, &mut draft);
            parse(&draft.records())
        };
        for _ in 0..100 {
            assert_eq!(stops("16 pinning"), Err(Stop::Pinning));
            assert_eq!(stops("11 text address twice"), Err(Stop::Refused));
            assert_eq!(
                stops("11 several text addresses twice"),
                Err(Stop::Conflicts)
            );
        }
    }
}
