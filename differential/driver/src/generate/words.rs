//! Names and instructions to draw from.
use crate::kinds::{ALONE, BARE, Kind, PAIRS, PREFIXES, is_program, kind};
use crate::rng::Rng;

const SHORT: [&str; 14] = [
    "a", "b", "c", "d", "e", "f", "g", "aa", "ab", "ba", "m", "n", "a/b", "a.b",
];
/// Names that sections have too.
const SECTIONS: [&str; 8] = [
    ".data", ".data", ".bss", ".rodata", ".data.x", ".text", "xdp", "maps",
];

pub fn symbol_name(rng: &mut Rng) -> Vec<u8> {
    match rng.below(32) {
        0..=13 => rng.pick(&SHORT).as_bytes().to_vec(),
        14..=19 => stem(rng),
        20..=27 => format!("v{}", rng.below(40)).into_bytes(),
        28 | 29 => Vec::new(),
        30 => rng.pick(&SECTIONS).as_bytes().to_vec(),
        _ if rng.chance(1, 8) => vec![b'l'; 100 + rng.below(900)],
        _ => vec![1 + rng.below(127) as u8],
    }
}

/// Names that differ late or in length only.
fn stem(rng: &mut Rng) -> Vec<u8> {
    let mut name = vec![b'a'; *rng.pick(&[1, 7, 8, 9, 15, 16, 17, 24])];
    match rng.below(3) {
        0 => (),
        1 => name.push(*rng.pick(b"\x01b\x7f")),
        _ => *name.last_mut().expect("a stem has a byte") = *rng.pick(b"\x01b\x7f"),
    }
    name
}

/// A name of a program section that is known.
pub fn program_name(rng: &mut Rng) -> Vec<u8> {
    let (name, alone) = match rng.below(ALONE.len() + BARE.len() + PAIRS.len()) {
        k if k < ALONE.len() => (ALONE[k], true),
        k if k < ALONE.len() + BARE.len() => (BARE[k - ALONE.len()], false),
        k => (PAIRS[k - ALONE.len() - BARE.len()], true),
    };
    let rest = if alone {
        *rng.pick(&["", "", "", "/f", "/f/g", "/", "//"])
    } else {
        ""
    };
    [name, rest].concat().into_bytes()
}

/// A name near to a program section's that is unknown (8).
pub fn unknown_program_name(rng: &mut Rng) -> Vec<u8> {
    loop {
        let mut name = program_name(rng);
        match rng.below(9) {
            0 => drop(name.pop()),
            1 => name.push(b'x'),
            2 => name.insert(0, *rng.pick(b"/ x")),
            3 => drop(name.remove(0)),
            4 => name.make_ascii_uppercase(),
            5 => name.extend(b".s"),
            6 => name.truncate(
                name.iter()
                    .position(|&b| b == b'/')
                    .map_or(0, |k| k + rng.below(2)),
            ),
            7 => {
                name = rng
                    .pick(&[
                        "",
                        "/",
                        "xdp/",
                        "xdp/x",
                        "cgroup",
                        "cgroup/",
                        "sk_skb",
                        "sk_skb/",
                        "cgroup_skb",
                        "sk_reuseport/",
                        "foo",
                    ])
                    .as_bytes()
                    .to_vec()
            }
            _ => name = near_prefix(rng),
        }
        if kind(&name, 1, 1) == Kind::Program && !is_program(&name) {
            return name;
        }
    }
}

/// A name that misses a prefix of document 01 by little.
pub fn near_prefix(rng: &mut Rng) -> Vec<u8> {
    let mut name = if rng.chance(1, 5) {
        b".BTF.ext".to_vec()
    } else {
        rng.pick(&PREFIXES).0.as_bytes().to_vec()
    };
    match rng.below(4) {
        0 => drop(name.pop()),
        1 => drop(name.remove(0)),
        2 => name.insert(0, *rng.pick(b" .x")),
        _ => {
            let at = rng.below(name.len());
            name[at] ^= 0x20;
            name[at] = name[at].clamp(1, 127);
        }
    }
    name
}

const OPCODES: [u8; 16] = [
    0x85, 0x85, 0x85, 0x85, 0x85, 0x85, 0x85, 0x85, 0x84, 0x86, 0x8D, 0x95, 0x05, 0xC5, 0x75, 0x18,
];
const REGISTERS: [u8; 8] = [0, 0, 0, 0, 0, 0x10, 0x01, 0xFF];
const OFFSETS: [i16; 6] = [0, 0, 0, 1, -1, 0x7171];
const IMMEDIATES: [i32; 16] = [
    3,
    4,
    45,
    111,
    112,
    113,
    114,
    115,
    116,
    112,
    113,
    114,
    115,
    -113,
    113 + 256,
    113 << 24,
];

/// So many slots of code, eight bytes each; many are calls that rewriting looks at.
pub fn code(rng: &mut Rng, slots: usize) -> Vec<u8> {
    let mut out = Vec::with_capacity(8 * slots);
    while out.len() < 8 * slots {
        match rng.below(8) {
            0 => out.extend([0x95, 0, 0, 0, 0, 0, 0, 0]),
            1 => out.extend([0xB7, 0, 0, 0, 1, 0, 0, 0]),
            2 => {
                out.extend(call(rng, 0x18));
                let second = *rng.pick(&[0, 0x85]);
                out.extend(call(rng, second));
            }
            3 => {
                let opcode = rng.next() as u8;
                out.extend(call(rng, opcode));
            }
            4 => {
                let mut slot = call(rng, 0x85);
                slot[1] = rng.next() as u8;
                out.extend(slot);
            }
            _ => {
                let opcode = *rng.pick(&OPCODES);
                out.extend(call(rng, opcode));
            }
        }
    }
    out.truncate(8 * slots);
    out
}

fn call(rng: &mut Rng, opcode: u8) -> [u8; 8] {
    let [o0, o1] = rng.pick(&OFFSETS).to_le_bytes();
    let [i0, i1, i2, i3] = rng.pick(&IMMEDIATES).to_le_bytes();
    [opcode, *rng.pick(&REGISTERS), o0, o1, i0, i1, i2, i3]
}

pub fn bytes(rng: &mut Rng, length: usize) -> Vec<u8> {
    (0..length).map(|_| rng.next() as u8).collect()
}

#[cfg(test)]
mod tests {
    use super::*;
    use std::collections::HashSet;

    #[test]
    fn every_variant_is_drawn_and_known() {
        let mut rng = Rng::new(1);
        let drawn: HashSet<Vec<u8>> = (0..5000).map(|_| program_name(&mut rng)).collect();
        assert!(
            drawn
                .iter()
                .all(|name| is_program(name) && kind(name, 1, 8) == Kind::Program)
        );
        assert!(
            ALONE
                .iter()
                .chain(&BARE)
                .chain(&PAIRS)
                .all(|name| drawn.contains(name.as_bytes()))
        );
    }

    #[test]
    fn near_misses_are_names() {
        let mut rng = Rng::new(2);
        for _ in 0..2000 {
            assert!(near_prefix(&mut rng).iter().all(|b| (1..=127).contains(b)));
            assert!(
                unknown_program_name(&mut rng)
                    .iter()
                    .all(|b| (1..=127).contains(b))
            );
            assert!(symbol_name(&mut rng).iter().all(|b| (1..=127).contains(b)));
        }
    }

    #[test]
    fn code_has_calls_that_are_rewritten() {
        let mut rng = Rng::new(3);
        assert_eq!(code(&mut rng, 7).len(), 56);
        let many = code(&mut rng, 2000);
        for immediate in 112..=115 {
            assert!(
                many.chunks(8)
                    .any(|slot| slot == [0x85, 0, 0, 0, immediate, 0, 0, 0])
            );
        }
        assert!(
            many.chunks(8)
                .any(|slot| slot[0] == 0x85 && slot[1] == 0x10 && slot[4] == 113)
        );
    }

    #[test]
    fn code_has_every_opcode_and_register_byte() {
        let many = code(&mut Rng::new(4), 60_000);
        let opcodes: HashSet<u8> = many.chunks(8).map(|slot| slot[0]).collect();
        let calls = many.chunks(8).filter(|slot| slot[0] == 0x85);
        let registers: HashSet<u8> = calls.map(|slot| slot[1]).collect();
        assert_eq!((opcodes.len(), registers.len()), (256, 256));
    }
}
