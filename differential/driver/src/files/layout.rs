//! An ELF file in parts, and its bytes.
use std::collections::HashMap;

use crate::elf::{Header, Out, head};

use super::read::{HEAD, REL, RELA, SECTION_HEADER, STRTAB, SYMBOL, SYMTAB};

#[derive(Clone, Default)]
pub struct Plan {
    pub big: bool,
    /// From number 1 on, the file's own tables among them.
    pub sections: Vec<Section>,
    /// e_shstrndx.
    pub names: u32,
}

#[derive(Clone, Default)]
pub struct Section {
    pub name: Vec<u8>,
    pub kind: u32,
    pub flags: u64,
    pub address: u64,
    pub link: u32,
    pub info: u32,
    pub align: u64,
    pub entry: u64,
    pub body: Body,
}

#[derive(Clone)]
pub enum Body {
    Bytes(Vec<u8>),
    /// What stands elsewhere in the file, or nowhere.
    Reach {
        offset: u64,
        size: u64,
    },
    /// A string table, with the names of the sections or symbols that it serves.
    Names,
    /// All but entry 0.
    Symbols(Vec<Symbol>),
    Relocations(Vec<Relocation>),
}

impl Default for Body {
    fn default() -> Body {
        Body::Bytes(Vec::new())
    }
}

#[derive(Clone, Default)]
pub struct Symbol {
    pub name: Vec<u8>,
    pub info: u8,
    pub other: u8,
    pub section: u16,
    pub address: u64,
    pub size: u64,
}

#[derive(Clone, Default)]
pub struct Relocation {
    pub offset: u64,
    pub symbol: u32,
    pub kind: u32,
    pub addend: u64,
}

impl Plan {
    /// A string table for all names, section 1, and a table of these symbols, section 2.
    pub fn with_symbols(symbols: Vec<Symbol>) -> Plan {
        let mut plan = Plan {
            names: 1,
            ..Default::default()
        };
        plan.section("", STRTAB, Body::Names);
        let table = plan.section("", SYMTAB, Body::Symbols(symbols));
        (table.link, table.entry) = (1, SYMBOL);
        plan
    }

    /// A further section.
    pub fn section(&mut self, name: impl AsRef<[u8]>, kind: u32, body: Body) -> &mut Section {
        self.sections.push(Section {
            name: name.as_ref().to_vec(),
            kind,
            body,
            ..Default::default()
        });
        self.sections.last_mut().expect("one was pushed")
    }

    /// The number of the last section.
    pub fn here(&self) -> u32 {
        self.sections.len() as u32
    }

    /// A further table of relocations, of section 2's symbols.
    pub fn relocations(&mut self, kind: u32, of: u32, entries: Vec<Relocation>) -> &mut Section {
        let table = self.section("", kind, Body::Relocations(entries));
        (table.link, table.info) = (2, of);
        table.entry = if kind == RELA { 24 } else { 16 };
        table
    }

    pub fn plain(&self) -> Vec<u8> {
        lay_out(self, &mut Plain)
    }
}

/// Chooses what a plan leaves open.
pub trait Hand {
    /// A string table with these names, and where each begins.
    fn strings(&mut self, names: &[&[u8]]) -> (Vec<u8>, Vec<u32>);
    /// In which order the bodies are laid out, so many of them and the section headers, which are the last number.
    fn order(&mut self, count: usize) -> Vec<usize>;
    /// What stands between this place and a body; a table is one that the crate wants at a multiple of 8.
    fn gap(&mut self, at: usize, table: bool) -> Vec<u8>;
    /// Where a body's bytes lie already and need no place of their own.
    fn shared(&mut self, file: &[u8], body: &[u8], table: bool) -> Option<usize>;
}

/// Everything once and in order, tables at multiples of 8.
pub struct Plain;

impl Hand for Plain {
    fn strings(&mut self, names: &[&[u8]]) -> (Vec<u8>, Vec<u32>) {
        let mut bytes = vec![0];
        let mut known = HashMap::from([(&b""[..], 0)]);
        let mut place = |name| {
            *known.entry(name).or_insert_with(|| {
                bytes.extend(name);
                bytes.push(0);
                (bytes.len() - name.len() - 1) as u32
            })
        };
        let places = names.iter().map(|name| place(*name)).collect();
        (bytes, places)
    }

    fn order(&mut self, count: usize) -> Vec<usize> {
        (0..=count).collect()
    }

    fn gap(&mut self, at: usize, table: bool) -> Vec<u8> {
        if table { to_eight(at) } else { Vec::new() }
    }

    fn shared(&mut self, _: &[u8], _: &[u8], _: bool) -> Option<usize> {
        None
    }
}

/// Zeros up to a multiple of 8.
pub fn to_eight(at: usize) -> Vec<u8> {
    vec![0; at.next_multiple_of(8) - at]
}

/// Stands where headers come to stand, so that no body is found there.
const NOT_YET: u8 = 0xE5;

pub fn lay_out(plan: &Plan, hand: &mut dyn Hand) -> Vec<u8> {
    let strings = strings(plan, hand);
    let mut out = Out {
        bytes: vec![NOT_YET; HEAD],
        big: plan.big,
    };
    let mut places = vec![(0, 0); plan.sections.len()];
    let mut headers_at = 0;
    for k in hand.order(plan.sections.len()) {
        match plan.sections.get(k) {
            Some(section) => places[k] = place(plan, &strings, section, k, &mut out, hand),
            None => {
                headers_at = begin(&mut out, true, hand);
                let length = SECTION_HEADER as usize * (1 + plan.sections.len());
                out.bytes.resize(headers_at + length, NOT_YET);
            }
        }
    }
    let headers = headers(plan, &strings, &places);
    out.bytes[headers_at..headers_at + headers.len()].copy_from_slice(&headers);
    let count = 1 + plan.sections.len() as u16;
    let head = head(plan.big, headers_at as u64, count, plan.names as u16);
    out.bytes[..HEAD].copy_from_slice(&head);
    out.bytes
}

/// The section headers, entry 0 empty.
fn headers(plan: &Plan, names: &Names, places: &[(u64, u64)]) -> Vec<u8> {
    let mut out = Out {
        bytes: Vec::new(),
        big: plan.big,
    };
    out.header(&Header::default());
    for (k, section) in plan.sections.iter().enumerate() {
        let (offset, size) = places[k];
        out.header(&Header {
            name: names.sections.get(k).copied().unwrap_or(0),
            kind: section.kind,
            flags: section.flags,
            address: section.address,
            offset,
            size,
            link: section.link,
            info: section.info,
            align: section.align,
            entry: section.entry,
        });
    }
    out.bytes
}

/// The string tables by section, and where the names begin in them.
struct Names {
    tables: Vec<Option<Vec<u8>>>,
    sections: Vec<u32>,
    /// Of each symbol table.
    symbols: Vec<Vec<u32>>,
}

fn strings(plan: &Plan, hand: &mut dyn Hand) -> Names {
    let mut out = Names {
        tables: vec![None; plan.sections.len()],
        sections: Vec::new(),
        symbols: vec![Vec::new(); plan.sections.len()],
    };
    for (k, number) in (0..plan.sections.len()).zip(1..) {
        if !matches!(plan.sections[k].body, Body::Names) {
            continue;
        }
        let mut names: Vec<&[u8]> = Vec::new();
        if plan.names == number {
            names.extend(plan.sections.iter().map(|x| &x.name[..]));
        }
        let own = names.len();
        let served = |x: &&Section| x.kind == SYMTAB && x.link == number;
        for table in plan.sections.iter().filter(served) {
            names.extend(symbols_of(table).iter().map(|y| &y.name[..]));
        }
        let (bytes, places) = hand.strings(&names);
        out.tables[k] = Some(bytes);
        if plan.names == number {
            out.sections = places[..own].to_vec();
        }
        let mut rest = &places[own..];
        for (j, table) in plan.sections.iter().enumerate().filter(|(_, x)| served(x)) {
            let (front, back) = rest.split_at(symbols_of(table).len());
            out.symbols[j] = front.to_vec();
            rest = back;
        }
    }
    out
}

fn symbols_of(table: &Section) -> &[Symbol] {
    match &table.body {
        Body::Symbols(symbols) => symbols,
        _ => &[],
    }
}

/// Lays a body out; where it begins, and its size.
fn place(
    plan: &Plan,
    names: &Names,
    section: &Section,
    k: usize,
    out: &mut Out,
    hand: &mut dyn Hand,
) -> (u64, u64) {
    let body = match &section.body {
        Body::Reach { offset, size } => return (*offset, *size),
        Body::Bytes(bytes) => bytes.clone(),
        Body::Names => names.tables[k].clone().unwrap_or_default(),
        Body::Symbols(symbols) => symbol_table(plan.big, symbols, &names.symbols[k]),
        Body::Relocations(entries) => relocations(plan.big, section.kind, entries),
    };
    let table = matches!(section.kind, SYMTAB | RELA | REL);
    let at = hand.shared(&out.bytes, &body, table).unwrap_or_else(|| {
        let at = begin(out, table, hand);
        out.bytes.extend(&body);
        at
    });
    (at as u64, body.len() as u64)
}

/// Puts a gap behind what stands, and says where it ends.
fn begin(out: &mut Out, table: bool, hand: &mut dyn Hand) -> usize {
    let gap = hand.gap(out.bytes.len(), table);
    out.bytes.extend(gap);
    out.bytes.len()
}

/// A symbol whose names stand in no table has offset 0.
fn symbol_table(big: bool, symbols: &[Symbol], names: &[u32]) -> Vec<u8> {
    let mut out = Out {
        bytes: vec![0; SYMBOL as usize],
        big,
    };
    for (k, symbol) in symbols.iter().enumerate() {
        out.u32(names.get(k).copied().unwrap_or(0));
        out.bytes.extend([symbol.info, symbol.other]);
        out.u16(symbol.section);
        out.u64(symbol.address);
        out.u64(symbol.size);
    }
    out.bytes
}

fn relocations(big: bool, kind: u32, entries: &[Relocation]) -> Vec<u8> {
    let mut out = Out {
        bytes: Vec::new(),
        big,
    };
    for entry in entries {
        out.u64(entry.offset);
        out.u64(u64::from(entry.symbol) << 32 | u64::from(entry.kind));
        if kind == RELA {
            out.u64(entry.addend);
        }
    }
    out.bytes
}
