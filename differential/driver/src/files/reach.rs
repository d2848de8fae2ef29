//! What a file has in it that the comparison is meant to reach.
use std::collections::{HashMap, HashSet};

use crate::case::{NONE, Records};

use super::edit::{Edit, SHNUM, SHOFF};
use super::read::{
    HEAD, Header, NOBITS, PROGBITS, REL, RELA, RESERVED, SECTION_HEADER, STRTAB, SYMBOL, SYMTAB,
};

/// Larger files are not looked into.
const MOST: usize = 500;

/// Of a file that is read.
pub fn features(bytes: &[u8], records: &Records) -> Vec<&'static str> {
    let file = Edit::of(bytes.to_vec());
    if records.sections.len().max(records.symbols.len()) > MOST {
        return vec!["large file"];
    }
    let mut found = Vec::new();
    let mut note = |holds: bool, what| {
        if holds {
            found.push(what);
        }
    };
    let length = bytes.len() as u64;
    let has = |fits: &dyn Fn(&Header) -> bool| file.sections.iter().any(fits);
    let outside = |x: &Header| x.offset > length;
    note(file.get(0, SHOFF) == 0, "e_shoff 0");
    note(
        file.get(0, SHOFF) != 0 && file.get(0, SHNUM) == 0,
        "e_shnum 0",
    );
    note(
        has(&|x| x.kind == NOBITS && outside(x)),
        "NOBITS outside the file",
    );
    let empty = |x: &Header| x.kind != NOBITS && x.size == 0;
    note(
        has(&|x| empty(x) && outside(x)),
        "empty section outside the file",
    );
    note(has(&|x| x.address > 0), "section with an address");
    note(has(&plain_type), "other type of a section");
    note(meet(&file.sections), "sections overlap");
    note(has(&|x| over_headers(&file, x)), "section over the headers");
    note(bytes_behind(&file), "bytes behind");
    tables(&file, &mut note);
    strings(&file, records, &mut note);
    symbols(&file, &mut note);
    relocations(&file, records, &mut note);
    found
}

fn plain_type(x: &Header) -> bool {
    ![PROGBITS, SYMTAB, STRTAB, RELA, NOBITS, REL].contains(&x.kind)
}

/// Where a section's data begin and end.
fn range(x: &Header) -> (u64, u64) {
    let data = x.data();
    (data.at.into(), u64::from(data.at) + u64::from(data.length))
}

fn meet(sections: &[Header]) -> bool {
    let mut ranges: Vec<_> = sections.iter().map(range).filter(|r| r.0 < r.1).collect();
    ranges.sort_unstable();
    ranges.windows(2).any(|pair| pair[1].0 < pair[0].1)
}

fn headers(file: &Edit) -> (u64, u64) {
    let at = file.headers_at as u64;
    (at, at + SECTION_HEADER * file.count())
}

fn over_headers(file: &Edit, x: &Header) -> bool {
    let ((from, to), (first, last)) = (range(x), headers(file));
    from < to && (from < HEAD as u64 || from < last && first < to)
}

fn bytes_behind(file: &Edit) -> bool {
    let ends = file.sections.iter().map(|x| range(x).1);
    ends.chain([headers(file).1]).max() < Some(file.bytes.len() as u64)
}

type Note<'a> = &'a mut dyn FnMut(bool, &'static str);

fn tables(file: &Edit, note: Note) {
    let count = |kind| file.sections.iter().filter(|x| x.kind == kind).count();
    note(count(SYMTAB) > 1, "second symbol table");
    let names = file.names().map(|x| x.index);
    let linked = file.symbols.map(|x| x.link);
    note(
        names.is_some() && names == linked,
        "one string table for all names",
    );
    note(count(STRTAB) > 2, "further string table");
    let own = file.sections.iter().position(|x| x.kind == PROGBITS);
    note(own.is_some_and(|k| k > 0), "own table first");
    let off = |x: &Header| x.size > 0 && x.offset % 8 != 0;
    let mut used = file.relocations.iter().chain(&file.symbols);
    note(
        used.any(off),
        "symbols or relocations not at a multiple of 8",
    );
    note(
        file.headers_at % 8 != 0,
        "section headers not at a multiple of 8",
    );
}

fn strings(file: &Edit, records: &Records, note: Note) {
    let sections = records.sections.iter().map(|x| x.name);
    let names = sections.chain(records.symbols.iter().map(|y| y.name));
    let names: Vec<_> = names.filter(|n| n.length > 0).collect();
    let places: HashSet<u32> = names.iter().map(|n| n.at).collect();
    let ends: HashSet<u32> = names.iter().map(|n| n.at + n.length).collect();
    note(places.len() < names.len(), "one name for several");
    note(ends.len() < places.len(), "name ends another");
    let table = file.names().map(|x| x.data()).unwrap_or_default();
    let table = crate::rules::piece(&file.bytes, table);
    note(
        table.first().is_some_and(|&b| b != 0),
        "no zero first among the names",
    );
    note(
        table.last().is_some_and(|&b| b != 0),
        "no zero last among the names",
    );
    note(
        table.iter().any(|&b| b > 127),
        "other bytes among the names",
    );
}

fn symbols(file: &Edit, note: Note) {
    let Some(table) = file.symbols else {
        note(
            !file.relocations.is_empty(),
            "relocations without a symbol table",
        );
        return note(true, "no symbol table");
    };
    note(table.size == 0, "symbol table of size 0");
    note(table.size == SYMBOL, "symbol table without a symbol");
    let entries: Vec<usize> = (1..table.size / SYMBOL)
        .map(|k| (table.offset + SYMBOL * k) as usize)
        .collect();
    let kind = |at: &usize| file.bytes[at + 4] & 15;
    note(
        entries.iter().any(|y| [3, 4].contains(&kind(y))),
        "symbol of type 3 or 4",
    );
    note(entries.iter().any(|y| kind(y) > 4), "symbol type from 5 on");
    let section = |at: &usize| file.get(*at, super::edit::Field(6, 2)) as u16;
    note(
        entries.iter().any(|y| section(y) >= RESERVED),
        "symbol of a reserved section",
    );
}

fn relocations(file: &Edit, records: &Records, note: Note) {
    let has = |kind| file.relocations.iter().any(|x| x.kind == kind);
    note(has(REL), "REL");
    note(has(RELA), "RELA");
    note(
        file.relocations.iter().any(|x| x.size == 0),
        "empty relocation table",
    );
    let all = file.sections.iter().filter(|x| x.relocates()).count();
    note(all > file.relocations.len(), "relocation table not in use");
    let mut tables: HashMap<u32, u32> = HashMap::new();
    for x in &file.relocations {
        *tables.entry(x.info).or_default() += 1;
    }
    note(
        tables.values().any(|n| *n > 1),
        "several relocation tables of a section",
    );
    let count = records.symbols.len() as u32;
    let targets = || records.relocations.iter().map(|r| r.symbol);
    note(targets().any(|y| y == NONE), "relocation without a symbol");
    note(
        targets().any(|y| y != NONE && y > count),
        "relocation symbol past the table",
    );
}
