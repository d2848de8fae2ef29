//! Files at each clause of 25 and 26, and one past it.
use crate::rng::Rng;
use crate::rules::MOST_BYTES;

use super::edit::{
    ENTRY, Edit, Field, INFO, KIND, LINK, MACHINE, NAME, OFFSET, SHENTSIZE, SHNUM, SHOFF, SHSTRNDX,
    SIZE, TYPE,
};
use super::read::{HEAD, Header, NOBITS, RELA, SECTION_HEADER, STRTAB, SYMBOL, SYMTAB};

/// Brings a file that is read to the limit of a clause, or one past it. What it then comes to: 25, 26 or 0 where it is read.
/// None where the file has nothing to change so; a file may then be changed in part.
type Make = fn(&mut Rng, &mut Edit, bool) -> Option<u32>;

const TOP: u64 = u64::MAX;

pub const CLAUSES: [(&str, Make); 28] = [
    ("25 first seven bytes", first_seven),
    ("25 type", |rng, edit, past| {
        let others = [0, 2, 3, 4, 0x100, 0x101, 0xFE00];
        of_head(rng, edit, past, TYPE, 1, &others)
    }),
    ("25 machine", |rng, edit, past| {
        let others = [0, 246, 248, 0xF700, 0x1F7];
        of_head(rng, edit, past, MACHINE, 247, &others)
    }),
    ("25 section header's size", section_header_size),
    ("25 symbol's size", |rng, edit, past| {
        let table = edit.symbols?;
        entry_size(rng, edit, past, table)
    }),
    ("25 relocation's size", |rng, edit, past| {
        let table = rng.any(&edit.relocations.clone())?;
        entry_size(rng, edit, past, table)
    }),
    ("25 before a cut in the header", cut_head),
    ("25 before a cut in the section headers", cut_headers),
    ("25 before a cut in the symbols' header", cut_symbols_header),
    ("25 before 26", |rng, edit, past| {
        edit.set(0, SHSTRNDX, *rng.pick(&[0, 0xFFFF]));
        of_head(rng, edit, past, TYPE, 1, &[0, 2])?;
        Some(if past { 25 } else { 26 })
    }),
    ("26 file's header", short),
    ("26 section headers", |rng, edit, past| {
        edit.headers_last();
        let cut = 1 + rng.below(SECTION_HEADER as usize);
        edit.bytes
            .truncate(edit.bytes.len() - if past { cut } else { 0 });
        Some(if past { 26 } else { 0 })
    }),
    ("26 section headers far away", far_away),
    ("26 one section header more", |_, edit, past| {
        edit.headers_last();
        edit.set(0, SHNUM, edit.count() + u64::from(past));
        Some(if past { 26 } else { 0 })
    }),
    ("26 section names' table", |rng, edit, past| {
        let table = edit.get(0, SHSTRNDX) as u32;
        let number = string_link(rng, edit, past, table)?;
        edit.set(0, SHSTRNDX, number & 0xFFFF);
        Some(if past { 26 } else { 0 })
    }),
    ("26 symbol names' table", |rng, edit, past| {
        let link = edit.symbols?.link;
        let number = string_link(rng, edit, past, link)?;
        edit.set(edit.symbols?.at, LINK, number);
        Some(if past { 26 } else { 0 })
    }),
    ("26 type of a string table", string_type),
    ("26 empty string table", empty_strings),
    ("26 relocated section", relocated),
    ("26 section's end", section_end),
    ("26 section's place", section_place),
    ("26 section's size", section_size),
    ("26 section name's place", |rng, edit, past| {
        let header = rng.any(&edit.sections.clone())?;
        let table = edit.get(0, SHSTRNDX) as u32;
        name_place(rng, edit, past, table, header.at)
    }),
    ("26 symbol name's place", |rng, edit, past| {
        let (at, link) = (symbol(rng, edit)?, edit.symbols?.link);
        name_place(rng, edit, past, link, at)
    }),
    ("26 name's end", name_end),
    ("26 name's bytes", name_byte),
    ("26 symbols not whole", |rng, edit, past| {
        let table = edit.symbols?;
        not_whole(rng, edit, past, table)
    }),
    ("26 relocations not whole", |rng, edit, past| {
        let table = rng.any(&edit.relocations.clone())?;
        not_whole(rng, edit, past, table)
    }),
];

fn first_seven(rng: &mut Rng, edit: &mut Edit, past: bool) -> Option<u32> {
    if past {
        let at = rng.below(8);
        match edit.bytes.get_mut(at) {
            // the other byte order
            Some(_) if at == 7 => edit.bytes[5] = if edit.big { 1 } else { 2 },
            byte => *byte? ^= 1 << rng.below(8),
        }
        return Some(25);
    }
    edit.bytes[7 + rng.below(9)] = rng.next() as u8;
    Some(0)
}

/// A number of the file's header: the one that is right, or another.
fn of_head(
    rng: &mut Rng,
    edit: &mut Edit,
    past: bool,
    field: Field,
    right: u64,
    others: &[u64],
) -> Option<u32> {
    edit.set(0, field, if past { *rng.pick(others) } else { right });
    Some(if past { 25 } else { 0 })
}

/// Also where there is no section (E4).
fn section_header_size(rng: &mut Rng, edit: &mut Edit, past: bool) -> Option<u32> {
    if rng.chance(1, 3) {
        edit.set(0, *rng.pick(&[SHOFF, SHNUM]), 0);
    }
    let others = [0, 40, 63, 65, 0x4000, 0x4040];
    of_head(rng, edit, past, SHENTSIZE, SECTION_HEADER, &others)
}

fn entry_size(rng: &mut Rng, edit: &mut Edit, past: bool, table: Header) -> Option<u32> {
    if past {
        let size = table.entry_size();
        let others = [
            0,
            1,
            size - 1,
            size + 1,
            40 - size,
            size + (1 << 32),
            size << 56,
        ];
        edit.set(table.at, ENTRY, *rng.pick(&others));
        return Some(25);
    }
    // those of all other sections are free
    let used: Vec<u32> = edit
        .relocations
        .iter()
        .chain(&edit.symbols)
        .map(|x| x.index)
        .collect();
    for x in edit.sections.clone() {
        if !used.contains(&x.index) {
            edit.set(x.at, ENTRY, *rng.pick(&[0, 16, 23, TOP]));
        }
    }
    Some(0)
}

/// Bytes that 25 looks at in the file's header.
const LOOKED_AT: [usize; 13] = [0, 1, 2, 3, 4, 5, 6, 16, 17, 18, 19, 58, 59];

/// A wrong byte is the last one, or the first that is cut off.
fn cut_head(rng: &mut Rng, edit: &mut Edit, past: bool) -> Option<u32> {
    let at = *rng.pick(&LOOKED_AT);
    edit.bytes[at] ^= 1 << rng.below(8);
    edit.bytes.truncate(at + usize::from(past));
    Some(if past { 25 } else { 26 })
}

/// The same in the entry size of a table in use. One whose symbol table is cut off isn't in use.
fn cut_headers(rng: &mut Rng, edit: &mut Edit, past: bool) -> Option<u32> {
    edit.headers_last();
    let used: Vec<Header> = edit
        .symbols
        .iter()
        .chain(&edit.relocations)
        .copied()
        .collect();
    let table = rng.any(&used)?;
    let at = table.at + 56 + rng.below(8);
    edit.bytes[at] ^= 1 << rng.below(8);
    edit.bytes.truncate(at + usize::from(past));
    let linked = edit
        .symbols
        .is_none_or(|symbols| symbols.index <= table.index);
    Some(if past && linked { 25 } else { 26 })
}

/// The symbol table's header comes last and is cut behind its 48th byte, or before it. Tables in use are those that link to it, or to none.
fn cut_symbols_header(rng: &mut Rng, edit: &mut Edit, past: bool) -> Option<u32> {
    let table = rng.any(&edit.relocations.clone())?;
    let first = edit.symbols?;
    if edit.sections.iter().filter(|x| x.kind == SYMTAB).count() > 1 {
        return None;
    }
    edit.set(first.at, KIND, 0);
    let last = copied(edit, first.index, SYMTAB)?;
    let at = edit.section(table.index.into())?.at;
    edit.set(at, ENTRY, 17);
    edit.set(at, LINK, if past { last.into() } else { 0 });
    let symbols = edit.section(last.into())?.at;
    let (whole, cut) = (symbols + 48 + rng.below(8), symbols + rng.below(48));
    let seen = rng.chance(2, 3);
    edit.bytes.truncate(if seen { whole } else { cut });
    Some(if seen == past { 25 } else { 26 })
}

/// E9, E10.
fn short(rng: &mut Rng, edit: &mut Edit, past: bool) -> Option<u32> {
    edit.set(0, SHOFF, 0);
    edit.bytes
        .truncate(if past { rng.below(HEAD) } else { HEAD });
    Some(if past { 26 } else { 0 })
}

fn far_away(rng: &mut Rng, edit: &mut Edit, past: bool) -> Option<u32> {
    let (length, table) = (edit.bytes.len() as u64, SECTION_HEADER * edit.count());
    if table == 0 {
        return None;
    }
    if past {
        let places = [
            length,
            length + 1,
            1 << 32,
            1 << 63,
            TOP,
            TOP - 63,
            0u64.wrapping_sub(table),
        ];
        edit.set(0, SHOFF, *rng.pick(&places));
        return Some(26);
    }
    // an empty table reaches nowhere (E11)
    edit.set(0, SHNUM, 0);
    edit.set(0, SHOFF, *rng.pick(&[length, TOP, 1]));
    Some(0)
}

/// Puts a copy of a section behind the last one, with another type; its number.
fn copied(edit: &mut Edit, section: u32, kind: u32) -> Option<u32> {
    edit.headers_last();
    let from = edit.section(section.into())?.at;
    let header = edit
        .bytes
        .get(from..from + SECTION_HEADER as usize)?
        .to_vec();
    let (at, number) = (edit.bytes.len(), edit.count());
    if number > 4096 {
        return None;
    }
    edit.bytes.extend(header);
    edit.set(at, KIND, kind.into());
    edit.set(0, SHNUM, number + 1);
    *edit = Edit::of(std::mem::take(&mut edit.bytes));
    Some(number as u32)
}

/// A number for a link to a string table: the last there is, or one that names none.
fn string_link(rng: &mut Rng, edit: &mut Edit, past: bool, table: u32) -> Option<u64> {
    if !past {
        return Some(copied(edit, table, STRTAB)?.into());
    }
    let others = edit.sections.iter().filter(|x| x.kind != STRTAB);
    let mut numbers: Vec<u64> = others.map(|x| x.index.into()).collect();
    numbers.extend([0, edit.count(), 0xFFFF, 0xFF00]);
    rng.any(&numbers)
}

fn string_type(rng: &mut Rng, edit: &mut Edit, past: bool) -> Option<u32> {
    let links = [
        Some(edit.get(0, SHSTRNDX) as u32),
        edit.symbols.map(|x| x.link),
    ];
    let links: Vec<u32> = links.into_iter().flatten().collect();
    let table = edit.section(rng.any(&links)?.into())?;
    if past {
        edit.set(table.at, KIND, *rng.pick(&[0, 1, 7, NOBITS.into(), 0x300]));
        return Some(26);
    }
    Some(0)
}

/// A symbol table may link to an empty table of strings where it has no symbol; the section names have at least the table's own.
fn empty_strings(rng: &mut Rng, edit: &mut Edit, past: bool) -> Option<u32> {
    let any = edit.get(0, SHSTRNDX) as u32;
    let empty = copied(edit, any, STRTAB)?;
    let at = edit.section(empty.into())?.at;
    edit.set(at, SIZE, 0);
    edit.set(at, OFFSET, *rng.pick(&[0, TOP]));
    if past && (edit.symbols.is_none() || rng.chance(1, 2)) {
        edit.set(0, SHSTRNDX, empty.into());
        return Some(26);
    }
    let symbols = edit.symbols?;
    edit.set(symbols.at, LINK, empty.into());
    if past {
        return (symbols.size > SYMBOL).then_some(26);
    }
    edit.set(symbols.at, SIZE, SYMBOL.min(symbols.size));
    Some(0)
}

fn relocated(rng: &mut Rng, edit: &mut Edit, past: bool) -> Option<u32> {
    let table = rng.any(&edit.relocations.clone())?;
    let number = if past {
        let tables = edit.sections.iter().filter(|x| x.relocates());
        let mut numbers: Vec<u32> = tables.map(|x| x.index).collect();
        numbers.extend([edit.count() as u32, 0xFFFF, u32::MAX]);
        *rng.pick(&numbers)
    } else if rng.chance(1, 2) {
        let others = edit.sections.iter().filter(|x| !x.relocates());
        let numbers: Vec<u32> = others.map(|x| x.index).collect();
        rng.any(&numbers)?
    } else {
        let names = edit.get(0, SHSTRNDX) as u32;
        copied(edit, names, 0)?
    };
    let at = edit.section(table.index.into())?.at;
    edit.set(at, INFO, number.into());
    Some(if past { 26 } else { 0 })
}

/// Sections whose data have no form.
fn free_sections(edit: &Edit) -> Vec<Header> {
    let links = [
        edit.get(0, SHSTRNDX) as u32,
        edit.symbols.map_or(0, |x| x.link),
    ];
    let fits = |x: &&Header| ![SYMTAB, RELA, 9].contains(&x.kind) && !links.contains(&x.index);
    edit.sections.iter().filter(fits).copied().collect()
}

/// A section that ends with the file, or one byte past it.
fn section_end(rng: &mut Rng, edit: &mut Edit, past: bool) -> Option<u32> {
    let sections: Vec<Header> = free_sections(edit);
    let sections: Vec<Header> = sections.into_iter().filter(|x| x.kind != NOBITS).collect();
    let x = rng.any(&sections)?;
    let length = edit.bytes.len() as u64;
    let at = if x.offset <= length { x.offset } else { length };
    edit.set(x.at, OFFSET, at);
    edit.set(x.at, SIZE, length - at + u64::from(past));
    Some(if past { 26 } else { 0 })
}

/// Any section with data; without data any place is fine (E16, E17).
fn section_place(rng: &mut Rng, edit: &mut Edit, past: bool) -> Option<u32> {
    let reaches = |x: &Header| x.kind != NOBITS && x.size > 0;
    let sections = edit.sections.iter().filter(|x| reaches(x) == past);
    let sections: Vec<Header> = sections.copied().collect();
    let x = rng.any(&sections)?;
    let length = edit.bytes.len() as u64;
    let place = if past {
        let next = length.saturating_sub(x.size) + 1;
        *rng.pick(&[next, length, TOP, 0u64.wrapping_sub(x.size), 1 << 63])
    } else {
        *rng.pick(&[length + 1, TOP, 1 << 40])
    };
    edit.set(x.at, OFFSET, place);
    Some(if past { 26 } else { 0 })
}

/// E18.
fn section_size(rng: &mut Rng, edit: &mut Edit, past: bool) -> Option<u32> {
    let x = rng.any(&free_sections(edit))?;
    let most = MOST_BYTES as u64;
    edit.set(x.at, KIND, NOBITS.into());
    let past_it = [most + 1, most + 512, 1 << 32, TOP];
    edit.set(x.at, SIZE, if past { *rng.pick(&past_it) } else { most });
    Some(if past { 26 } else { 0 })
}

/// Where a symbol's entry stands, from 1 on.
fn symbol(rng: &mut Rng, edit: &Edit) -> Option<usize> {
    let table = edit.symbols?;
    let count = (table.size / SYMBOL).checked_sub(1).filter(|&n| n > 0)?;
    Some((table.offset + SYMBOL * (1 + rng.below(count as usize) as u64)) as usize)
}

fn strings(edit: &Edit, table: u32) -> Option<(Header, &[u8])> {
    let x = edit.section(table.into())?;
    let at = usize::try_from(x.offset).ok()?;
    Some((x, edit.bytes.get(at..at.checked_add(x.size as usize)?)?))
}

/// A name that begins at the last zero of its table, or past it.
fn name_place(
    rng: &mut Rng,
    edit: &mut Edit,
    past: bool,
    table: u32,
    header: usize,
) -> Option<u32> {
    let (x, strings) = strings(edit, table)?;
    let last = strings.iter().rposition(|&b| b == 0)? as u64;
    let place = if past {
        *rng.pick(&[last + 1, x.size, x.size + 1, 1 << 31, u32::MAX.into()])
    } else {
        last
    };
    edit.set(header, NAME, place);
    Some(if past { 26 } else { 0 })
}

/// Where the names that a table serves begin in it.
fn served(edit: &Edit, table: u32) -> Vec<usize> {
    let mut out = Vec::new();
    if edit.get(0, SHSTRNDX) == table.into() {
        out.extend(edit.sections.iter().map(|x| x.name as usize));
    }
    if let Some(symbols) = edit.symbols.filter(|x| x.link == table) {
        let entries = (1..symbols.size / SYMBOL).map(|k| symbols.offset + SYMBOL * k);
        out.extend(entries.map(|at| edit.get(at as usize, NAME) as usize));
    }
    out
}

fn string_tables(edit: &Edit) -> Vec<u32> {
    let names = edit.get(0, SHSTRNDX) as u32;
    edit.symbols
        .map(|x| x.link)
        .into_iter()
        .chain([names])
        .collect()
}

/// A string table that ends with the zero of its last name, or before it.
fn name_end(rng: &mut Rng, edit: &mut Edit, past: bool) -> Option<u32> {
    let table = rng.any(&string_tables(edit))?;
    let (x, strings) = strings(edit, table)?;
    let end = |at: usize| Some(at + strings.get(at..)?.iter().position(|&b| b == 0)?);
    let last = served(edit, table).into_iter().filter_map(end).max()?;
    edit.set(x.at, SIZE, last as u64 + u64::from(!past));
    Some(if past { 26 } else { 0 })
}

/// A byte of a name: 127, or one above.
fn name_byte(rng: &mut Rng, edit: &mut Edit, past: bool) -> Option<u32> {
    let table = rng.any(&string_tables(edit))?;
    let (x, strings) = strings(edit, table)?;
    let named = |at: &usize| strings.get(*at).is_some_and(|&b| b != 0);
    let names: Vec<usize> = served(edit, table).into_iter().filter(named).collect();
    let name = rng.any(&names)?;
    let length = strings[name..].iter().position(|&b| b == 0)?;
    let at = x.offset as usize + name + rng.below(length);
    edit.bytes[at] = if past {
        *rng.pick(&[128, 200, 255])
    } else {
        *rng.pick(&[1, 127])
    };
    Some(if past { 26 } else { 0 })
}

fn not_whole(rng: &mut Rng, edit: &mut Edit, past: bool, table: Header) -> Option<u32> {
    let entry = table.entry_size();
    let less = table.size.checked_sub(entry)?;
    let size = if past {
        less + *rng.pick(&[1, 8, entry - 1])
    } else {
        less
    };
    edit.set(table.at, SIZE, size);
    Some(if past { 26 } else { 0 })
}

#[cfg(test)]
pub mod tests {
    use super::*;
    use crate::files::draw;
    use crate::files::layout::{Body, Plan, Relocation, Symbol};
    use crate::files::read::{PROGBITS, REL, read};
    use crate::generate::drafted;

    pub fn comes_to(file: &[u8]) -> u32 {
        read(file).err().unwrap_or(0)
    }

    /// Objects of generate/ in plain files, and one with all sorts of tables.
    pub fn files() -> Vec<Vec<u8>> {
        let mut rng = Rng::new(1);
        let drawn = (0..120).map(|_| draw::plain(&mut Rng::new(rng.next()), &drafted(&mut rng).1));
        drawn.chain([false, true].map(every_table)).collect()
    }

    fn every_table(big: bool) -> Vec<u8> {
        let symbol = Symbol {
            name: b"s".to_vec(),
            section: 3,
            ..Default::default()
        };
        let mut plan = Plan::with_symbols(vec![symbol; 3]);
        plan.big = big;
        plan.section("x", PROGBITS, Body::Bytes(vec![1; 9]));
        plan.section("bss", NOBITS, Body::Reach { offset: 0, size: 1 });
        for kind in [REL, RELA] {
            plan.relocations(kind, 3, vec![Relocation::default(); 2]);
            plan.relocations(kind, 4, vec![]);
        }
        plan.plain()
    }

    #[test]
    fn each_clause_at_its_limit_and_past_it() {
        let mut rng = Rng::new(2);
        let files = files();
        let last = &files[files.len() - 2..];
        assert!(files.iter().all(|file| comes_to(file) == 0));
        for (aim, make) in CLAUSES {
            let past_number: u32 = aim[..2].parse().unwrap();
            for past in [false, true] {
                let mut made = 0;
                for file in files.iter().chain(last.iter().cycle().take(40)) {
                    let mut edit = Edit::of(file.clone());
                    if let Some(number) = make(&mut rng, &mut edit, past) {
                        made += 1;
                        assert_eq!(comes_to(&edit.bytes), number, "{aim}, past {past}");
                        let cut = aim.starts_with("25 before");
                        let fits = if past { past_number } else { 0 };
                        assert!(number == fits || cut && number > 24, "{aim} {number}");
                    }
                }
                assert!(made > 40, "{aim}, past {past}: {made}");
            }
        }
    }
}
