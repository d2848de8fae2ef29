//! Changes to a file's bytes that leave most files readable: what nobody looks at, and what the crate looks at alone.
use crate::generate::words::bytes;
use crate::rng::Rng;

use super::draw::wild;
use super::edit::{
    ADDRESS, ALIGN, ENTRY, Edit, FLAGS, FREE, INFO, KIND, LINK, NAME, OFFSET, PHNUM, PHOFF, SHNUM,
    SHOFF, SIZE,
};
use super::read::{NOBITS, SECTION_HEADER, STRTAB, SYMBOL, SYMTAB};

type Twist = fn(&mut Rng, &mut Edit);

/// Each happens once in so many files.
const TWISTS: [(usize, Twist); 15] = [
    (8, ident),
    (6, free_fields),
    (30, one_program_field),
    (150, program_headers),
    (8, overlap),
    (20, relocations_elsewhere),
    (10, address),
    (10, entry_0),
    (150, typed_entry_0),
    (150, named_entry_0),
    (10, symbol_0),
    (120, no_symbols),
    (200, |_, edit| edit.set(0, SHOFF, 0)),
    (200, |_, edit| edit.set(0, SHNUM, 0)),
    (6, trailing),
];

pub fn twist(rng: &mut Rng, file: Vec<u8>) -> Vec<u8> {
    let mut edit = Edit::of(file);
    for (rarity, make) in TWISTS {
        if rng.chance(1, rarity) {
            make(rng, &mut edit);
        }
    }
    edit.bytes
}

fn ident(rng: &mut Rng, edit: &mut Edit) {
    let junk = bytes(rng, 9);
    edit.bytes[7..16].copy_from_slice(&junk);
}

fn free_fields(rng: &mut Rng, edit: &mut Edit) {
    for field in FREE {
        edit.set(0, field, rng.next());
    }
}

fn one_program_field(rng: &mut Rng, edit: &mut Edit) {
    let field = *rng.pick(&[PHOFF, PHNUM]);
    edit.set(0, field, *rng.pick(&[1, 64, 0xFFFE]));
}

fn program_headers(rng: &mut Rng, edit: &mut Edit) {
    edit.set(0, PHOFF, *rng.pick(&[1, 64, u64::MAX]));
    edit.set(0, PHNUM, *rng.pick(&[1, 2, 0xFFFF]));
}

/// A section that is no table reaches elsewhere in the file: over others, over tables, over headers.
fn overlap(rng: &mut Rng, edit: &mut Edit) {
    let plain = |kind: u32| ![SYMTAB, STRTAB, NOBITS, 4, 9].contains(&kind);
    let sections = edit.sections.iter().copied();
    let sections: Vec<_> = sections.filter(|x| plain(x.kind) && x.size > 0).collect();
    if let Some(x) = rng.any(&sections) {
        let room = edit.bytes.len().saturating_sub(x.size as usize);
        edit.set(x.at, OFFSET, rng.below(room + 1) as u64);
    }
}

/// A relocation table in use reaches over other bytes of the file.
fn relocations_elsewhere(rng: &mut Rng, edit: &mut Edit) {
    if let Some(x) = rng.any(&edit.relocations) {
        let room = edit.bytes.len().saturating_sub(x.size as usize);
        edit.set(x.at, OFFSET, 8 * rng.below(room / 8 + 1) as u64);
    }
}

fn address(rng: &mut Rng, edit: &mut Edit) {
    if let Some(x) = rng.any(&edit.sections) {
        edit.set(x.at, ADDRESS, wild(rng));
    }
}

/// What stands in entry 0 but for its name and type.
fn entry_0(rng: &mut Rng, edit: &mut Edit) {
    for field in [FLAGS, ADDRESS, OFFSET, SIZE, LINK, INFO, ALIGN, ENTRY] {
        edit.set(edit.headers_at, field, *rng.pick(&[0, 6, 64, u64::MAX]));
    }
    edit.set(edit.headers_at, KIND, *rng.pick(&[0, 0, 1, 3, 8]));
}

fn typed_entry_0(rng: &mut Rng, edit: &mut Edit) {
    entry_0(rng, edit);
    let kinds = [SYMTAB, 4, 9, 11, 18, 0x4000_0014];
    edit.set(edit.headers_at, KIND, u64::from(*rng.pick(&kinds)));
}

/// Entry 0 bears another's name.
fn named_entry_0(rng: &mut Rng, edit: &mut Edit) {
    if let Some(x) = rng.any(&edit.sections) {
        edit.set(edit.headers_at, NAME, x.name.into());
    }
}

fn symbol_0(rng: &mut Rng, edit: &mut Edit) {
    let Some(table) = edit.symbols.filter(|x| x.size >= SYMBOL) else {
        return;
    };
    let at = table.offset as usize;
    let junk = bytes(rng, SYMBOL as usize);
    if let Some(entry) = edit.bytes.get_mut(at..at + SYMBOL as usize) {
        entry.copy_from_slice(&junk);
    }
}

/// A symbol table without entry 0.
fn no_symbols(rng: &mut Rng, edit: &mut Edit) {
    if let Some(table) = edit.symbols {
        edit.set(table.at, SIZE, *rng.pick(&[0, 0, SYMBOL]));
    }
}

fn trailing(rng: &mut Rng, edit: &mut Edit) {
    let length = rng.below(SECTION_HEADER as usize + 9);
    let more = bytes(rng, length);
    edit.bytes.extend(more);
}
