//! Files made smaller in one place, their offsets and numbers kept in order.
use std::ops::Range;

use crate::files::edit::{
    ADDRESS, ALIGN, ENTRY, Edit, FLAGS, FREE, Field, INFO, KIND, LINK, NAME, OFFSET, PHNUM, PHOFF,
    SHNUM, SHOFF, SHSTRNDX, SIZE,
};
use crate::files::read::{HEAD, Header, NOBITS, SECTION_HEADER, SYMBOL};

/// A file whose section headers stand in it; the last may be cut.
pub fn edit(file: &[u8]) -> Option<Edit> {
    if file.len() < HEAD {
        return None;
    }
    let edit = Edit::of(file.to_vec());
    (edit.sections.len() as u64 + 1 == edit.count()).then_some(edit)
}

pub fn sections(file: &[u8]) -> usize {
    edit(file).map_or(0, |edit| edit.sections.len())
}

/// Without a run of section headers, counted from 0 for section 1; what names those is 0 then.
pub fn without_sections(file: &[u8], run: Range<usize>) -> Option<Vec<u8>> {
    let mut edit = edit(file)?;
    let lowered = |number: u64| match number {
        n if n <= run.start as u64 => n,
        n if n <= run.end as u64 => 0,
        n => n - run.len() as u64,
    };
    for x in edit.sections.clone() {
        edit.set(x.at, LINK, lowered(x.link.into()));
        if x.relocates() {
            edit.set(x.at, INFO, lowered(x.info.into()));
        }
    }
    const SECTION: Field = Field(6, 2);
    for at in symbols(&edit) {
        let section = edit.get(at, SECTION);
        if section < 0xFF00 {
            edit.set(at, SECTION, lowered(section));
        }
    }
    edit.set(0, SHSTRNDX, lowered(edit.get(0, SHSTRNDX)));
    edit.set(0, SHNUM, edit.count() - run.len() as u64);
    let header = |k: usize| edit.headers_at + SECTION_HEADER as usize * (k + 1);
    let (from, to) = (header(run.start), header(run.end));
    let end = header(edit.sections.len());
    if end < edit.bytes.len() {
        edit.bytes.copy_within(to..end, from);
    } else {
        // the last header may be cut
        let length = edit.bytes.len();
        edit.bytes.drain(from.min(length)..to.min(length));
    }
    Some(edit.bytes)
}

/// The symbol table and the relocation tables in use.
fn tables(edit: &Edit) -> Vec<Header> {
    edit.symbols
        .iter()
        .chain(&edit.relocations)
        .copied()
        .collect()
}

pub fn table_count(file: &[u8]) -> usize {
    edit(file).map_or(0, |edit| tables(&edit).len())
}

/// How many entries a table has.
pub fn entries(file: &[u8], table: usize) -> usize {
    let count = |edit| Some(tables(&edit).get(table)?).map(|x| x.size / x.entry_size());
    edit(file)
        .and_then(count)
        .unwrap_or(0)
        .min(file.len() as u64) as usize
}

pub fn without_entries(file: &[u8], table: usize, run: Range<usize>) -> Option<Vec<u8>> {
    let x = *tables(&edit(file)?).get(table)?;
    let (at, width) = (x.offset as usize, x.entry_size() as usize);
    let end = at.checked_add(width * run.end)?;
    if end > file.len() {
        return None;
    }
    without_bytes(file, at + width * run.start..end)
}

/// Where the symbols' entries stand, from 1 on.
fn symbols(edit: &Edit) -> Vec<usize> {
    let Some(table) = edit.symbols else {
        return Vec::new();
    };
    let entries = (1..table.size / SYMBOL).map(|k| table.offset.saturating_add(SYMBOL * k));
    let inside = |at: &u64| at.saturating_add(SYMBOL) <= edit.bytes.len() as u64;
    entries.take_while(inside).map(|at| at as usize).collect()
}

/// Without a run of bytes: what reaches over it is shorter, and what stands behind it moves up.
pub fn without_bytes(file: &[u8], run: Range<usize>) -> Option<Vec<u8>> {
    let mut edit = edit(file)?;
    let headers =
        edit.headers_at..edit.headers_at + SECTION_HEADER as usize * edit.count() as usize;
    let meets = |other: &Range<usize>| run.start < other.end && other.start < run.end;
    if run.start < HEAD || meets(&headers) {
        return None;
    }
    let length = file.len() as u64;
    let place = |at: u64| match at {
        at if at <= run.start as u64 => at,
        at if at <= run.end as u64 => run.start as u64,
        at => at - run.len() as u64,
    };
    move_names(&mut edit, &place);
    for x in edit.sections.clone() {
        let end = x.offset.saturating_add(x.size);
        if x.kind != NOBITS && end <= length {
            edit.set(x.at, OFFSET, place(x.offset));
            edit.set(x.at, SIZE, place(end) - place(x.offset));
        }
    }
    edit.set(0, SHOFF, place(edit.headers_at as u64));
    edit.bytes.drain(run.clone());
    Some(edit.bytes)
}

/// Names keep their places where their string tables lose bytes.
fn move_names(edit: &mut Edit, place: &dyn Fn(u64) -> u64) {
    let moved = |table: &Header, name: u64| {
        let at = table.offset.saturating_add(name);
        place(at).saturating_sub(place(table.offset))
    };
    if let Some(table) = edit.names() {
        for x in edit.sections.clone() {
            edit.set(x.at, NAME, moved(&table, x.name.into()));
        }
    }
    let strings = edit.symbols.and_then(|x| edit.section(x.link.into()));
    if let Some(table) = strings {
        for at in symbols(edit) {
            edit.set(at, NAME, moved(&table, edit.get(at, NAME)));
        }
    }
}

/// The numbers that may get smaller; `with_number` takes a place among them.
pub fn values(file: &[u8]) -> Vec<u64> {
    let Some(edit) = edit(file) else {
        return Vec::new();
    };
    let places = places(&edit);
    places.map(|(at, field)| edit.get(at, field)).collect()
}

pub fn with_number(file: &[u8], place: usize, value: u64) -> Option<Vec<u8>> {
    let mut edit = edit(file)?;
    let (at, field) = places(&edit).nth(place)?;
    edit.set(at, field, value);
    Some(edit.bytes)
}

fn places(edit: &Edit) -> impl Iterator<Item = (usize, Field)> + use<> {
    const OF_SECTIONS: [Field; 10] = [
        SIZE, FLAGS, ADDRESS, OFFSET, KIND, LINK, INFO, ALIGN, ENTRY, NAME,
    ];
    let head = FREE
        .into_iter()
        .chain([PHOFF, PHNUM])
        .map(|field| (0, field));
    let headers: Vec<usize> = edit.sections.iter().map(|x| x.at).collect();
    let headers = [edit.headers_at].into_iter().chain(headers);
    head.chain(headers.flat_map(|at| OF_SECTIONS.map(|field| (at, field))))
}

#[cfg(test)]
mod tests {
    use super::*;
    use crate::files::fuzz::mutated;
    use crate::files::layout::{Body, Plan, Relocation, Symbol};
    use crate::files::read::{PROGBITS, REL, read};
    use crate::rng::Rng;
    use crate::rules::piece;

    fn sample() -> Vec<u8> {
        let symbol = |name: &str, section| Symbol {
            name: name.into(),
            section,
            ..Default::default()
        };
        let symbols = vec![symbol("first", 3), symbol("second", 4)];
        let mut plan = Plan::with_symbols(symbols);
        plan.section("a", PROGBITS, Body::Bytes(b"1234".to_vec()));
        plan.section("bb", PROGBITS, Body::Bytes(b"56".to_vec()));
        plan.relocations(REL, 4, vec![Relocation::default(); 2]);
        plan.plain()
    }

    #[test]
    fn sections_go_and_the_others_keep_what_is_theirs() {
        let less = read(&without_sections(&sample(), 2..3).unwrap()).unwrap();
        assert_eq!(less.sections.len(), 4);
        assert_eq!(piece(&less.data, less.sections[2].bytes), b"56");
        assert_eq!(piece(&less.names, less.sections[2].name), b"bb");
        let sections: Vec<u32> = less.symbols.iter().map(|y| y.section).collect();
        assert_eq!(sections, [crate::case::NONE, 3]);
        assert_eq!(less.sections[2].relocations.length, 2);
    }

    #[test]
    fn bytes_go_and_the_others_stay() {
        let file = sample();
        let data = edit(&file).unwrap().section(3).unwrap().offset as usize;
        let less = read(&without_bytes(&file, data + 1..data + 5).unwrap()).unwrap();
        assert_eq!(piece(&less.data, less.sections[2].bytes), b"1");
        assert_eq!(piece(&less.data, less.sections[3].bytes), b"6");
        let strings = edit(&file).unwrap().section(1).unwrap().offset as usize;
        let less = read(&without_bytes(&file, strings + 1..strings + 3).unwrap()).unwrap();
        let names: Vec<&[u8]> = less
            .symbols
            .iter()
            .map(|y| piece(&less.names, y.name))
            .collect();
        assert_eq!(names, [&b"first"[..], b"second"]);
    }

    #[test]
    fn entries_go() {
        let file = sample();
        assert_eq!(
            (table_count(&file), entries(&file, 0), entries(&file, 1)),
            (2, 3, 2)
        );
        let less = read(&without_entries(&file, 0, 1..2).unwrap()).unwrap();
        assert_eq!(piece(&less.names, less.symbols[0].name), b"second");
        let less = read(&without_entries(&file, 1, 0..2).unwrap()).unwrap();
        assert_eq!(less.relocations, []);
    }

    #[test]
    fn any_file_may_be_tried() {
        let mut rng = Rng::new(1);
        for _ in 0..3000 {
            let file = mutated(&mut rng, &[]).input;
            let run = |rng: &mut Rng, most: usize| {
                let from = rng.below(most + 1);
                from..from + rng.below(most - from + 1)
            };
            let some = run(&mut rng, sections(&file));
            without_sections(&file, some);
            let some = run(&mut rng, file.len());
            without_bytes(&file, some);
            for table in 0..table_count(&file).min(3) {
                let some = run(&mut rng, entries(&file, table));
                without_entries(&file, table, some);
            }
            let count = values(&file).len();
            with_number(&file, rng.below(count + 1), rng.next());
        }
    }
}
