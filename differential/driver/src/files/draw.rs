//! Random files: the objects of generate/, laid out as ELF files in many ways.
use crate::case::{NONE, RelocationRecord};
use crate::generate::Draft;
use crate::generate::words::bytes;
use crate::rng::Rng;

use super::layout::{Body, Hand, Plan, Relocation, Section, Symbol, lay_out, to_eight};
use super::read::{NOBITS, PROGBITS, REL, RELA, RESERVED, STRTAB, SYMBOL, SYMTAB, TEXT_FLAGS};

/// A file that states the object, its sections in any order and its own tables among them.
pub fn file(rng: &mut Rng, draft: &Draft) -> Vec<u8> {
    let plan = plan(rng, draft);
    lay_out(&plan, &mut Free(rng))
}

/// What a section of the file is.
#[derive(Clone, PartialEq)]
enum What {
    /// Of the object, from 0.
    Drafted(usize),
    SectionNames,
    SymbolNames,
    Symbols,
    /// A further symbol table.
    MoreSymbols,
    MoreNames,
    /// Relocations of a section of the object, from one to another.
    Relocations {
        of: usize,
        from: usize,
        to: usize,
    },
    /// A relocation table that isn't in use.
    Unused,
    Other,
}

/// The sections of a file by what they are; their numbers count from 1.
struct Sections(Vec<What>);

impl Sections {
    fn number(&self, what: &What) -> Option<u32> {
        let place = self.0.iter().position(|x| x == what)?;
        Some(place as u32 + 1)
    }

    fn drafted(&self, k: usize) -> u32 {
        self.number(&What::Drafted(k)).expect("it is there")
    }

    /// Where the symbols' names stand.
    fn symbol_names(&self) -> u32 {
        let own = self.number(&What::SymbolNames);
        own.or(self.number(&What::SectionNames))
            .expect("the section names are there")
    }
}

fn plan(rng: &mut Rng, draft: &Draft) -> Plan {
    let sections = Sections(arranged(rng, draft));
    let naming = Naming::draw(rng);
    let mut plan = Plan {
        big: draft.order == 1,
        sections: Vec::new(),
        names: sections.number(&What::SectionNames).unwrap_or(0),
    };
    for what in &sections.0 {
        let mut section = section(rng, draft, &sections, what);
        if !matches!(what, What::Drafted(_)) {
            section.name = naming.own_name(rng, draft, what);
        }
        section.align = *rng.pick(&[0, 1, 4, 8, 16, u64::MAX]);
        plan.sections.push(section);
    }
    plan
}

/// Which sections there are, in which order.
fn arranged(rng: &mut Rng, draft: &Draft) -> Vec<What> {
    let mut own = vec![What::SectionNames];
    let has_symbols = !draft.symbols.is_empty() || rng.chance(1, 2);
    if has_symbols {
        own.push(What::Symbols);
        if rng.chance(2, 3) {
            own.push(What::SymbolNames);
        }
    }
    for (of, section) in draft.sections.iter().enumerate() {
        own.extend(tables(rng, of, section.relocations.len()));
    }
    if has_symbols && rng.chance(1, 6) {
        own.push(What::MoreSymbols);
    }
    for (what, of) in [(What::MoreNames, 8), (What::Unused, 8), (What::Other, 5)] {
        if rng.chance(1, of) {
            own.push(what);
        }
    }
    let drafted = (0..draft.sections.len()).map(What::Drafted).collect();
    match rng.below(4) {
        0 => [own, drafted].concat(),
        1 => mixed(rng, own, drafted),
        _ => [drafted, own].concat(),
    }
}

/// The relocation tables of a section; now and then two, or an empty one.
fn tables(rng: &mut Rng, of: usize, count: usize) -> Vec<What> {
    let table = |from, to| What::Relocations { of, from, to };
    if count == 0 && !rng.chance(1, 12) {
        return Vec::new();
    }
    if rng.chance(1, 30) {
        let cut = rng.below(count + 1);
        return vec![table(0, cut), table(cut, count)];
    }
    vec![table(0, count)]
}

/// The file's own sections anywhere among those of the object.
fn mixed(rng: &mut Rng, own: Vec<What>, drafted: Vec<What>) -> Vec<What> {
    let mut out = drafted;
    for what in own {
        out.insert(rng.below(out.len() + 1), what);
    }
    let place = |what| out.iter().position(|x| *x == what);
    if let (Some(first), Some(more)) = (place(What::Symbols), place(What::MoreSymbols))
        && more < first
    {
        out.swap(first, more);
    }
    out
}

fn section(rng: &mut Rng, draft: &Draft, sections: &Sections, what: &What) -> Section {
    match what {
        What::Drafted(k) => drafted(rng, draft, *k),
        What::SectionNames | What::SymbolNames | What::MoreNames => Section {
            kind: STRTAB,
            flags: *rng.pick(&[0, 0, 0x20, 2]),
            body: Body::Names,
            entry: *rng.pick(&[0, 0, 1]),
            ..Default::default()
        },
        What::Symbols => Section {
            kind: SYMTAB,
            link: sections.symbol_names(),
            info: *rng.pick(&[0, 1, 1, 7]),
            entry: SYMBOL,
            body: Body::Symbols(symbols(rng, draft, sections)),
            ..Default::default()
        },
        What::MoreSymbols => more_symbols(rng, draft, sections),
        What::Relocations { of, from, to } => {
            let entries = &draft.sections[*of].relocations[*from..*to];
            let kind = *rng.pick(&[REL, REL, RELA]);
            Section {
                kind,
                flags: *rng.pick(&[0, 0x40]),
                link: sections.number(&What::Symbols).unwrap_or(0),
                info: sections.drafted(*of),
                entry: if kind == REL { 16 } else { 24 },
                body: Body::Relocations(entries.iter().map(|r| relocation(rng, r)).collect()),
                ..Default::default()
            }
        }
        What::Unused => unused(rng, sections),
        What::Other => other(rng),
    }
}

/// Types of sections that nothing is asked of.
const PLAIN: [u32; 12] = [
    0,
    3,
    5,
    6,
    7,
    10,
    14,
    17,
    0x6FFF_FFF6,
    0x7000_0001,
    0x8000_0000,
    u32::MAX,
];
const FLAGS: [u64; 8] = [0, 1, 0x10, 0x30, 0x200, 0x400, 0x800, 0xF000_0000_0000_0000];

fn drafted(rng: &mut Rng, draft: &Draft, k: usize) -> Section {
    let x = &draft.sections[k];
    let mut section = Section {
        name: x.name.clone(),
        kind: PROGBITS,
        flags: *rng.pick(&FLAGS),
        address: x.address,
        body: Body::Bytes(x.data.clone()),
        entry: *rng.pick(&[0, 0, 8, 24, u64::MAX]),
        ..Default::default()
    };
    if x.size > 0 && x.data.is_empty() {
        section.kind = NOBITS;
        section.flags |= *rng.pick(&[0, 2, TEXT_FLAGS]);
        section.body = Body::Reach {
            offset: wild(rng),
            size: x.size,
        };
    } else if x.mark == 1 {
        section.flags |= TEXT_FLAGS;
    } else if rng.chance(1, 6) {
        section.kind = *rng.pick(&PLAIN);
        section.flags |= *rng.pick(&[0, 2, TEXT_FLAGS]);
    } else {
        section.flags |= *rng.pick(&[0, 2, 2, 2, 4]);
    }
    section
}

/// An offset that need not lie in the file.
pub fn wild(rng: &mut Rng) -> u64 {
    *rng.pick(&[0, 1, 64, 4096, 1 << 40, u64::MAX - 7, u64::MAX])
}

fn symbols(rng: &mut Rng, draft: &Draft, sections: &Sections) -> Vec<Symbol> {
    draft
        .symbols
        .iter()
        .map(|y| Symbol {
            name: y.name.clone(),
            info: (rng.below(4) as u8) << 4 | symbol_type(rng, y.kind),
            other: *rng.pick(&[0, 0, 2, 0xFF]),
            section: symbol_section(rng, draft, sections, y.section),
            address: y.address,
            size: y.size,
        })
        .collect()
}

fn symbol_type(rng: &mut Rng, kind: u8) -> u8 {
    match kind {
        // a function or a datum no longer, though 5, 6 and 10 look like one
        1 | 2 if rng.chance(1, 80) => *rng.pick(&[0, 3, 4, 5, 6, 10, 10, 13]),
        1 => 2,
        2 => 1,
        _ if rng.chance(1, 40) => 5 + rng.below(11) as u8,
        _ => *rng.pick(&[0, 0, 3, 4]),
    }
}

fn symbol_section(rng: &mut Rng, draft: &Draft, sections: &Sections, section: u32) -> u16 {
    match section {
        NONE if rng.chance(1, 20) => 0xFFFF,
        NONE => *rng.pick(&[0, 0, RESERVED, 0xFFF1, 0xFFF2, 0xFFFE]),
        k if (1..=draft.here()).contains(&k) => sections.drafted(k as usize - 1) as u16,
        other => other.min(0xFEFF) as u16,
    }
}

fn relocation(rng: &mut Rng, record: &RelocationRecord) -> Relocation {
    let kind = match record.size {
        64 => 1,
        32 => 10,
        _ => *rng.pick(&[0, 2, 3, 9, 11, 0x101, 0x0100_000A, u32::MAX]),
    };
    let symbol = match record.symbol {
        NONE if rng.chance(1, 4) => NONE,
        NONE => 0,
        symbol => symbol,
    };
    Relocation {
        offset: record.offset,
        symbol,
        kind,
        addend: *rng.pick(&[0, 0, 8, u64::MAX]),
    }
}

fn more_symbols(rng: &mut Rng, draft: &Draft, sections: &Sections) -> Section {
    let some = rng.below(draft.symbols.len() + 1);
    Section {
        kind: SYMTAB,
        link: *rng.pick(&[sections.symbol_names(), 0, 0xFFFF]),
        entry: *rng.pick(&[SYMBOL, 0, 25]),
        body: Body::Symbols(symbols(rng, draft, sections).split_off(some)),
        ..Default::default()
    }
}

/// Linked elsewhere or of no section: its entry size, links and length are free.
fn unused(rng: &mut Rng, sections: &Sections) -> Section {
    let symbols = sections.number(&What::Symbols).unwrap_or(0);
    let anywhere = 1 + rng.below(sections.0.len()) as u32;
    let (link, info) = match rng.below(3) {
        0 => (symbols, 0),
        1 => (anywhere, 0),
        _ => {
            let more = sections.number(&What::MoreSymbols);
            let other = *rng.pick(&[0xFFFF, more.unwrap_or(symbols + 1), symbols + 1]);
            (other, *rng.pick(&[anywhere, 0xFFFF_FFFF]))
        }
    };
    let length = *rng.pick(&[0, 16, 24, 7]);
    Section {
        kind: *rng.pick(&[REL, RELA]),
        link,
        info,
        entry: *rng.pick(&[0, 16, 24]),
        body: Body::Bytes(bytes(rng, length)),
        ..Default::default()
    }
}

/// Dynamic symbols, extended section numbers and compact relocations are rare: the crate reads them.
fn other(rng: &mut Rng) -> Section {
    let kind = if rng.chance(1, 12) {
        *rng.pick(&[11, 18, 0x4000_0014])
    } else {
        *rng.pick(&PLAIN)
    };
    let length = rng.below(30);
    Section {
        kind,
        flags: *rng.pick(&FLAGS),
        address: wild(rng),
        link: rng.below(9) as u32,
        info: rng.below(9) as u32,
        body: Body::Bytes(bytes(rng, length)),
        ..Default::default()
    }
}

/// What the file calls its own tables.
enum Naming {
    /// As compilers do.
    Usual,
    Empty,
    /// By names that sections of an object have.
    Any,
}

impl Naming {
    fn draw(rng: &mut Rng) -> Naming {
        match rng.below(12) {
            0 => Naming::Any,
            1 | 2 => Naming::Empty,
            _ => Naming::Usual,
        }
    }

    fn own_name(&self, rng: &mut Rng, draft: &Draft, what: &What) -> Vec<u8> {
        match self {
            Naming::Usual => usual_name(draft, what),
            Naming::Empty => Vec::new(),
            Naming::Any => {
                let names = [
                    ".rodata.str",
                    ".data",
                    ".bss",
                    ".text",
                    "license2",
                    "version.x",
                    "xdp",
                    "",
                    ".BTF.ext",
                    "maps",
                ];
                rng.pick(&names).as_bytes().to_vec()
            }
        }
    }
}

fn usual_name(draft: &Draft, what: &What) -> Vec<u8> {
    let name = match what {
        What::SectionNames => ".shstrtab",
        What::SymbolNames | What::MoreNames => ".strtab",
        What::Symbols => ".symtab",
        What::MoreSymbols => ".symtab2",
        What::Relocations { of, .. } => {
            return [b".rel", &draft.sections[*of].name[..]].concat();
        }
        What::Unused => ".relocs",
        What::Drafted(_) | What::Other => ".note",
    };
    name.as_bytes().to_vec()
}

/// Lays a plan out in any way.
struct Free<'a>(&'a mut Rng);

impl Hand for Free<'_> {
    fn strings(&mut self, names: &[&[u8]]) -> (Vec<u8>, Vec<u32>) {
        let rng = &mut *self.0;
        let mut table = if rng.chance(7, 8) {
            vec![0]
        } else {
            Vec::new()
        };
        let mut places = vec![0; names.len()];
        for k in shuffled(rng, names.len()) {
            places[k] = string(rng, &mut table, names[k]);
        }
        if rng.chance(1, 8) {
            table.extend(rng.pick(&[&b"open"[..], b"\0\0", b"\xFF\x80"]).iter());
        }
        (table, places)
    }

    fn order(&mut self, count: usize) -> Vec<usize> {
        match self.0.below(3) {
            0 => shuffled(self.0, count + 1),
            1 => (0..=count).rev().collect(),
            _ => (0..=count).collect(),
        }
    }

    fn gap(&mut self, at: usize, table: bool) -> Vec<u8> {
        let rng = &mut *self.0;
        let mut gap = match rng.below(8) {
            0 => {
                let length = rng.below(20);
                bytes(rng, length)
            }
            _ => Vec::new(),
        };
        if table && !rng.chance(1, 60) {
            gap.extend(to_eight(at + gap.len()));
        }
        gap
    }

    fn shared(&mut self, file: &[u8], body: &[u8], table: bool) -> Option<usize> {
        let rng = &mut *self.0;
        if body.is_empty() {
            return rng.chance(1, 4).then(|| wild(rng) as usize);
        }
        if body.len() > 64 || file.len() > 4096 || !rng.chance(1, 6) {
            return None;
        }
        let step = if table { 8 } else { 1 };
        file.windows(body.len())
            .step_by(step)
            .position(|part| part == body)
            .map(|k| k * step)
    }
}

/// Where a name stands in a table; put there unless an equal one ends some other.
fn string(rng: &mut Rng, table: &mut Vec<u8>, name: &[u8]) -> u32 {
    let closed = [name, b"\0"].concat();
    if rng.chance(3, 4) && table.len() < 4096 {
        let found = table.windows(closed.len()).position(|part| part == closed);
        if let Some(at) = found {
            return at as u32;
        }
    }
    if rng.chance(1, 16) {
        table.extend(rng.pick(&[&b"\xFF"[..], b"\x80\0", b"front"]).iter());
    }
    table.extend(&closed);
    (table.len() - closed.len()) as u32
}

fn shuffled(rng: &mut Rng, count: usize) -> Vec<usize> {
    let mut out: Vec<usize> = (0..count).collect();
    for k in (1..count).rev() {
        out.swap(k, rng.below(k + 1));
    }
    out
}

/// The same in order, tables at multiples of 8.
#[cfg(test)]
pub fn plain(rng: &mut Rng, draft: &Draft) -> Vec<u8> {
    plan(rng, draft).plain()
}

#[cfg(test)]
mod tests {
    use super::*;
    use crate::case::Records;
    use crate::files::read::read;
    use crate::generate::drafted;
    use crate::rules::piece;

    /// Name, mark, data and relocations of the sections whose bytes the plan says.
    fn told(plan: &Plan, records: &Records) -> Vec<(Vec<u8>, u32, Vec<u8>, u32)> {
        let sections = plan.sections.iter().zip(&records.sections);
        let said = sections.filter(|(x, _)| matches!(x.body, Body::Bytes(_) | Body::Reach { .. }));
        let told = said.map(|(_, x)| {
            let name = piece(&records.names, x.name).to_vec();
            let data = piece(&records.data, x.bytes).to_vec();
            (name, x.mark, data, x.relocations.length)
        });
        told.collect()
    }

    #[test]
    fn a_file_states_its_object() {
        let mut rng = Rng::new(1);
        for _ in 0..2000 {
            let (_, draft, _) = drafted(&mut rng);
            let plan = plan(&mut rng, &draft);
            let (plain, free) = (plan.plain(), lay_out(&plan, &mut Free(&mut rng)));
            let [plain, free] = [plain, free].map(|file| read(&file).expect("it is read"));
            assert_eq!(told(&plan, &plain), told(&plan, &free));
            assert_eq!(plain.symbols.len(), draft.symbols.len());
            let names = |r: &Records| -> Vec<Vec<u8>> {
                let names = r.symbols.iter().map(|y| piece(&r.names, y.name).to_vec());
                names.collect()
            };
            let drafted: Vec<_> = draft.symbols.iter().map(|y| y.name.clone()).collect();
            assert_eq!((names(&plain), names(&free)), (drafted.clone(), drafted));
        }
    }
}
