//! How parsing an object ends, as far as the domain of comparison and the patch list ask: whether it is refused (4 to 17), not with which number.
use std::collections::{HashMap, HashSet};

use crate::case::{NONE, Records, SectionRecord, SymbolRecord};
use crate::kinds::{Kind, is_program, kind};
use crate::rules::piece;

pub const TEXT: u8 = 1;

#[derive(Clone, Copy, Debug, PartialEq, Eq)]
pub enum Stop {
    Refused,
    /// A text section has several addresses that two symbols share: the crate's error names any of them.
    Conflicts,
    /// A legacy map's pinning is neither 0 nor 1: undefined in the crate.
    Pinning,
}

/// How many own bytes the maps of a section have, of the map table at the end.
pub type Owned = HashMap<u32, u64>;

/// The records must break no rule of the stream.
pub fn parse(records: &Records) -> Result<Owned, Stop> {
    let parser = Parser {
        records,
        symbols: by_section(records),
    };
    parser.license()?;
    parser.version()?;
    let mut maps = HashMap::new();
    for section in &records.sections {
        if parser.name(section) != b".BTF.ext" {
            parser.section(section, &mut maps)?;
        }
    }
    Ok(maps.into_values().collect())
}

fn by_section(records: &Records) -> HashMap<u32, Vec<&SymbolRecord>> {
    let mut out: HashMap<u32, Vec<&SymbolRecord>> = HashMap::new();
    for symbol in records.symbols.iter().filter(|y| y.section != NONE) {
        out.entry(symbol.section).or_default().push(symbol);
    }
    out
}

struct Parser<'a> {
    records: &'a Records,
    symbols: HashMap<u32, Vec<&'a SymbolRecord>>,
}

/// By name: the section and how many own bytes.
type Maps<'a> = HashMap<&'a [u8], (u32, u64)>;

fn need(condition: bool) -> Result<(), Stop> {
    if condition {
        Ok(())
    } else {
        Err(Stop::Refused)
    }
}

impl<'a> Parser<'a> {
    fn name(&self, section: &SectionRecord) -> &'a [u8] {
        piece(&self.records.names, section.name)
    }

    fn data(&self, section: &SectionRecord) -> &'a [u8] {
        piece(&self.records.data, section.bytes)
    }

    fn named(&self, name: &[u8]) -> Option<&'a SectionRecord> {
        self.records.sections.iter().find(|x| self.name(x) == name)
    }

    fn targets(&self, section: &SectionRecord) -> Result<(), Stop> {
        let first = section.relocations.at as usize;
        let own = &self.records.relocations[first..first + section.relocations.length as usize];
        need(own.iter().all(|r| r.symbol != NONE))
    }

    fn license(&self) -> Result<(), Stop> {
        let Some(section) = self.named(b"license") else {
            return Ok(());
        };
        self.targets(section)?;
        let data = self.data(section);
        need(data.len() >= 2 && data.iter().position(|&b| b == 0) == Some(data.len() - 1))
    }

    fn version(&self) -> Result<(), Stop> {
        let Some(section) = self.named(b"version") else {
            return Ok(());
        };
        self.targets(section)?;
        need(self.data(section).len() == 4)
    }

    fn section(&self, section: &'a SectionRecord, maps: &mut Maps<'a>) -> Result<(), Stop> {
        self.targets(section)?;
        let name = self.name(section);
        let symbols = self
            .symbols
            .get(&section.index)
            .map_or(&[][..], Vec::as_slice);
        match kind(name, section.mark, section.size) {
            Kind::Program => self.programs(section, symbols),
            Kind::Text => self.text(section, symbols),
            Kind::Maps => self.legacy_maps(section, symbols, maps),
            Kind::BtfMaps => Err(Stop::Refused),
            Kind::Bss => {
                maps.insert(name, (section.index, section.size));
                Ok(())
            }
            Kind::Data | Kind::Rodata => {
                maps.insert(name, (section.index, self.data(section).len() as u64));
                Ok(())
            }
            Kind::License | Kind::Version | Kind::BtfExt | Kind::Other => Ok(()),
        }
    }

    fn programs(&self, section: &SectionRecord, symbols: &[&SymbolRecord]) -> Result<(), Stop> {
        need(is_program(self.name(section)) && !symbols.is_empty())?;
        for symbol in symbols
            .iter()
            .filter(|y| y.kind == TEXT && y.name.length > 0)
        {
            self.bytes_of(section, symbol)?;
            need(section.address <= symbol.address && symbol.size % 8 == 0)?;
        }
        Ok(())
    }

    /// A program's or map's bytes.
    fn bytes_of(&self, section: &SectionRecord, symbol: &SymbolRecord) -> Result<&'a [u8], Stop> {
        let data = self.data(section);
        let end = symbol
            .address
            .checked_add(symbol.size)
            .ok_or(Stop::Refused)?;
        need(end <= data.len() as u64)?;
        Ok(&data[symbol.address as usize..end as usize])
    }

    fn text(&self, section: &SectionRecord, symbols: &[&SymbolRecord]) -> Result<(), Stop> {
        let (mut sizes, mut twice) = (HashMap::new(), HashSet::new());
        for symbol in symbols
            .iter()
            .filter(|y| y.kind == TEXT && y.definition == 1)
        {
            if sizes.insert(symbol.address, symbol.size).is_some() {
                twice.insert(symbol.address);
            }
        }
        match twice.len() {
            0 => (),
            1 => return Err(Stop::Refused),
            _ => return Err(Stop::Conflicts),
        }
        let length = self.data(section).len() as u64;
        let mut offset = 0;
        while offset < length {
            let address = section.address.checked_add(offset).ok_or(Stop::Refused)?;
            let size = *sizes.get(&address).ok_or(Stop::Refused)?;
            need(size > 0 && size <= length - offset && size % 8 == 0)?;
            offset += size;
        }
        Ok(())
    }

    fn legacy_maps(
        &self,
        section: &SectionRecord,
        symbols: &[&'a SymbolRecord],
        maps: &mut Maps<'a>,
    ) -> Result<(), Stop> {
        need(!symbols.is_empty())?;
        for symbol in symbols {
            let record = self.bytes_of(section, symbol)?;
            need(record.len() >= 20)?;
            if pinning(record) > 1 {
                return Err(Stop::Pinning);
            }
            maps.insert(piece(&self.records.names, symbol.name), (section.index, 0));
        }
        Ok(())
    }
}

fn pinning(record: &[u8]) -> u32 {
    let mut word = [0; 4];
    for (to, from) in word.iter_mut().zip(record.iter().skip(24)) {
        *to = *from;
    }
    u32::from_le_bytes(word)
}

#[cfg(test)]
mod tests {
    use super::*;
    use crate::sample::*;

    fn end(object: &Sample) -> Result<Owned, Stop> {
        parse(&object.records)
    }

    const REFUSED: Result<Owned, Stop> = Err(Stop::Refused);

    #[test]
    fn maps_that_own_bytes() {
        let mut o = Sample::default();
        o.section(".data", b"first")
            .section("maps", &[0; 28])
            .section(".data", b"later!");
        o.section(".bss", b"").records.sections[3].size = 9;
        o.symbol("m", 2, 0, 28, 2).symbol(".bss", 2, 0, 20, 2);
        assert_eq!(end(&o), Ok(HashMap::from([(2, 0), (3, 6), (4, 9)])));
    }

    #[test]
    fn licences_and_versions() {
        for (data, fits) in [
            (&b"a\0"[..], true),
            (b"\0", false),
            (b"a", false),
            (b"ab", false),
            (b"a\0b", false),
            (b"a\0\0", false),
            (b"\0\0", false),
        ] {
            let mut o = Sample::default();
            o.section("license2", b"")
                .section("license", data)
                .section("license", b"");
            assert_eq!(end(&o).is_ok(), fits, "{data:?}");
        }
        for (data, fits) in [(&b"abcd"[..], true), (b"abc", false), (b"abcde", false)] {
            let mut o = Sample::default();
            o.section("version", data);
            assert_eq!(end(&o).is_ok(), fits);
        }
    }

    #[test]
    fn relocations_need_targets_but_not_in_btf_ext() {
        for (name, fits) in [
            (".BTF.ext", true),
            ("x", false),
            ("license2", false),
            (".data", false),
        ] {
            let mut o = Sample::default();
            o.section(name, b"ab").relocation(0, NONE);
            assert_eq!(end(&o).is_ok(), fits, "{name}");
        }
    }

    #[test]
    fn programs() {
        let one = |address: u64, size: u64, section_address: u64| {
            let mut o = Sample::default();
            o.program("xdp", &[0; 16])
                .symbol("p", 1, address, size, TEXT);
            o.records.sections[0].address = section_address;
            end(&o).is_ok()
        };
        assert!(one(0, 16, 0) && one(16, 0, 0) && one(8, 8, 8) && one(3, 8, 0));
        assert!(
            !one(0, 24, 0)
                && !one(17, 0, 0)
                && !one(0, 12, 0)
                && !one(0, 8, 8)
                && !one(u64::MAX, 8, 0)
        );
        let mut o = Sample::default();
        assert_eq!(end(o.program("xdp", &[0; 8])), REFUSED);
        assert!(end(o.symbol("", 1, 99, 3, TEXT).symbol("d", 1, 99, 3, 2)).is_ok());
        assert_eq!(
            end(o.program("foo", &[0; 8]).symbol("p", 2, 0, 8, TEXT)),
            REFUSED
        );
    }

    #[test]
    fn texts() {
        let text = |address: u64, length: usize, symbols: &[(u64, u64)]| {
            let mut o = Sample::default();
            o.section(".text", &vec![0; length]).records.sections[0].address = address;
            for &(address, size) in symbols {
                o.symbol("f", 1, address, size, TEXT);
            }
            end(&o)
        };
        assert!(text(0, 16, &[(0, 8), (8, 8), (3, 0)]).is_ok());
        assert!(text(0, 16, &[(0, 16), (8, 1)]).is_ok());
        assert!(text(u64::MAX - 15, 16, &[(u64::MAX - 15, 8), (u64::MAX - 7, 8)]).is_ok());
        assert_eq!(
            text(u64::MAX - 7, 16, &[(u64::MAX - 7, 8), (0, 8)]),
            REFUSED
        );
        for symbols in [
            &[(0, 8)][..],
            &[(0, 0)],
            &[(0, 24)],
            &[(0, 12), (12, 4)],
            &[(0, 8), (8, u64::MAX)],
            &[(0, 16), (5, 1), (5, 1)],
        ] {
            assert_eq!(text(0, 16, symbols), REFUSED, "{symbols:?}");
        }
        assert_eq!(
            text(0, 16, &[(0, 16), (5, 1), (5, 1), (6, 1), (6, 1)]),
            Err(Stop::Conflicts)
        );
        assert_eq!(text(0, 16, &[(0, 16), (5, 1), (5, 1), (5, 1)]), REFUSED);
    }

    #[test]
    fn legacy_maps() {
        let map = |address: u64, size: u64, pinning: u8| {
            let mut o = Sample::default();
            let mut data = vec![0; 40];
            data[24] = pinning;
            o.section("maps", &data).symbol("m", 1, address, size, 0);
            end(&o)
        };
        assert!(map(0, 20, 2).is_ok() && map(0, 28, 1).is_ok() && map(20, 20, 9).is_ok());
        assert_eq!(map(0, 25, 2), Err(Stop::Pinning));
        assert_eq!(map(0, 19, 0), REFUSED);
        assert_eq!(map(21, 20, 0), REFUSED);
        assert_eq!(end(Sample::default().section("maps", b"")), REFUSED);
        assert_eq!(end(Sample::default().section(".maps", b"")), REFUSED);
    }

    #[test]
    fn what_comes_first_ends_it() {
        let mut o = Sample::default();
        o.program("foo", &[0; 8]).section(".text", b"");
        for _ in 0..2 {
            o.symbol("a", 2, 0, 0, TEXT).symbol("b", 2, 1, 0, TEXT);
        }
        assert_eq!(end(&o), REFUSED);
        o.records.sections[0].mark = 0;
        assert_eq!(end(&o), Err(Stop::Conflicts));
    }
}
