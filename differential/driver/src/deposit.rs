//! Deposits: records as a stream, a stream in blocks with checks, and back (document 01, 'The deposit').
use crate::case::{Extent, Records, RelocationRecord, SectionRecord, SymbolRecord};
use crate::rules::{MOST_BYTES, MOST_RECORDS, MOST_SECTIONS, broken};

pub const BLOCK: usize = 512;
/// The bytes of stream in a block.
pub const STREAM: usize = 508;

/// Where the tables of a stream begin, and where the last ends.
pub struct Places {
    pub sections: usize,
    pub symbols: usize,
    pub relocations: usize,
    pub names: usize,
    pub data: usize,
    pub end: usize,
}

pub const SECTION: usize = 48;
pub const SYMBOL: usize = 40;
pub const RELOCATION: usize = 16;

/// Of the head's five counts: sections, symbols, relocations, name bytes, data bytes.
fn places_of(counts: [usize; 5]) -> Places {
    let sections = 32;
    let symbols = sections + SECTION * counts[0];
    let relocations = symbols + SYMBOL * counts[1];
    let names = relocations + RELOCATION * counts[2];
    let data = names + counts[3];
    Places {
        sections,
        symbols,
        relocations,
        names,
        data,
        end: data + counts[4],
    }
}

pub fn places(records: &Records) -> Places {
    places_of(counts(records))
}

fn counts(records: &Records) -> [usize; 5] {
    [
        records.sections.len(),
        records.symbols.len(),
        records.relocations.len(),
        records.names.len(),
        records.data.len(),
    ]
}

/// The length of the records' deposit.
pub fn length(records: &Records) -> usize {
    places(records).end.div_ceil(STREAM) * BLOCK
}

pub fn lay_out(records: &Records) -> Vec<u8> {
    seal(&stream(records))
}

/// The stream without the zeros that fill its last block.
pub fn stream(records: &Records) -> Vec<u8> {
    let mut out = Vec::with_capacity(places(records).end);
    put(&mut out, &[records.order]);
    put(&mut out, &counts(records).map(|n| n as u32));
    out.extend([0; 8]);
    for x in &records.sections {
        put(&mut out, &[x.index, x.mark, x.name.at, x.name.length]);
        out.extend(x.address.to_le_bytes());
        out.extend(x.size.to_le_bytes());
        put(
            &mut out,
            &[
                x.bytes.at,
                x.bytes.length,
                x.relocations.at,
                x.relocations.length,
            ],
        );
    }
    for y in &records.symbols {
        put(&mut out, &[y.index, y.section, y.name.at, y.name.length]);
        out.extend(y.address.to_le_bytes());
        out.extend(y.size.to_le_bytes());
        out.extend([y.kind, y.definition, 0, 0, 0, 0, 0, 0]);
    }
    for r in &records.relocations {
        out.extend(r.offset.to_le_bytes());
        put(&mut out, &[r.symbol]);
        out.extend([r.size, 0, 0, 0]);
    }
    out.extend(&records.names);
    out.extend(&records.data);
    out
}

fn put(out: &mut Vec<u8>, numbers: &[u32]) {
    for n in numbers {
        out.extend(n.to_le_bytes());
    }
}

/// Any stream in blocks with their checks; zeros fill the last.
pub fn seal(stream: &[u8]) -> Vec<u8> {
    let mut out = Vec::with_capacity(stream.len().div_ceil(STREAM) * BLOCK);
    for (k, part) in stream.chunks(STREAM).enumerate() {
        out.extend(part);
        out.resize(k * BLOCK + STREAM, 0);
        out.extend(check(part, k + 1).to_le_bytes());
    }
    out
}

/// The check of a block's stream bytes; `number` counts from 1.
pub fn check(part: &[u8], number: usize) -> u32 {
    let sum: u32 = part
        .iter()
        .zip(1..)
        .map(|(&byte, k)| u32::from(byte) * k)
        .sum();
    sum + number as u32
}

/// The records of a deposit, or the number that it goes back with, 1 or 2.
pub fn read(deposit: &[u8]) -> Result<Records, u32> {
    let stream = opened(deposit).ok_or(1u32)?;
    let records = records_of(&stream).ok_or(2u32)?;
    match broken(&records) {
        None => Ok(records),
        Some(_) => Err(2),
    }
}

fn opened(deposit: &[u8]) -> Option<Vec<u8>> {
    if deposit.is_empty() || deposit.len() > MOST_BYTES || !deposit.len().is_multiple_of(BLOCK) {
        return None;
    }
    let mut out = Vec::with_capacity(deposit.len());
    for (k, block) in deposit.chunks(BLOCK).enumerate() {
        let (part, stored) = block.split_at(STREAM);
        if stored != check(part, k + 1).to_le_bytes() {
            return None;
        }
        out.extend(part);
    }
    Some(out)
}

fn records_of(stream: &[u8]) -> Option<Records> {
    let mut head = Reader { bytes: stream };
    let order = head.u32();
    let counts = [(); 5].map(|()| head.u32() as usize);
    let reserved = head.u64();
    if reserved != 0
        || counts[0] > MOST_SECTIONS
        || counts[1] > MOST_RECORDS
        || counts[2] > MOST_RECORDS
    {
        return None;
    }
    let at = places_of(counts);
    if at.end.div_ceil(STREAM) * STREAM != stream.len() || stream[at.end..].iter().any(|&b| b != 0)
    {
        return None;
    }
    let rows = |from: usize, to: usize, width: usize| {
        stream[from..to].chunks(width).map(|bytes| Reader { bytes })
    };
    Some(Records {
        order,
        sections: rows(at.sections, at.symbols, SECTION)
            .map(section)
            .collect(),
        symbols: rows(at.symbols, at.relocations, SYMBOL)
            .map(symbol)
            .collect::<Option<_>>()?,
        relocations: rows(at.relocations, at.names, RELOCATION)
            .map(relocation)
            .collect::<Option<_>>()?,
        names: stream[at.names..at.data].to_vec(),
        data: stream[at.data..at.end].to_vec(),
    })
}

fn section(mut r: Reader) -> SectionRecord {
    SectionRecord {
        index: r.u32(),
        mark: r.u32(),
        name: r.extent(),
        address: r.u64(),
        size: r.u64(),
        bytes: r.extent(),
        relocations: r.extent(),
    }
}

fn symbol(mut r: Reader) -> Option<SymbolRecord> {
    let mut out = SymbolRecord {
        index: r.u32(),
        section: r.u32(),
        name: r.extent(),
        address: r.u64(),
        size: r.u64(),
        ..Default::default()
    };
    let [kind, definition, reserved @ ..] = r.u64().to_le_bytes();
    (out.kind, out.definition) = (kind, definition);
    (reserved == [0; 6]).then_some(out)
}

fn relocation(mut r: Reader) -> Option<RelocationRecord> {
    let (offset, symbol) = (r.u64(), r.u32());
    let [size, reserved @ ..] = r.u32().to_le_bytes();
    (reserved == [0; 3]).then_some(RelocationRecord {
        offset,
        symbol,
        size,
    })
}

/// Numbers one after the other.
struct Reader<'a> {
    bytes: &'a [u8],
}

impl Reader<'_> {
    fn u32(&mut self) -> u32 {
        let (first, rest) = self.bytes.split_first_chunk().expect("a record is whole");
        self.bytes = rest;
        u32::from_le_bytes(*first)
    }

    fn u64(&mut self) -> u64 {
        let low = u64::from(self.u32());
        low | u64::from(self.u32()) << 32
    }

    fn extent(&mut self) -> Extent {
        Extent {
            at: self.u32(),
            length: self.u32(),
        }
    }
}

#[cfg(test)]
mod tests {
    use super::*;

    fn sample() -> Records {
        let mut records = Records {
            order: 1,
            names: b"xdp".to_vec(),
            data: (0..=255).cycle().take(600).collect(),
            ..Default::default()
        };
        records.sections.push(SectionRecord {
            index: 1,
            mark: 1,
            name: Extent { at: 0, length: 3 },
            address: 0x0102_0304_0506_0708,
            size: 600,
            bytes: Extent { at: 0, length: 600 },
            relocations: Extent { at: 0, length: 1 },
        });
        records.symbols.push(SymbolRecord {
            index: 7,
            section: 1,
            name: Extent { at: 1, length: 2 },
            address: 8,
            size: 16,
            kind: 1,
            definition: 1,
        });
        records.relocations.push(RelocationRecord {
            offset: 0x1122_3344_5566_7788,
            symbol: 7,
            size: 64,
        });
        records
    }

    #[test]
    fn an_empty_object_byte_by_byte() {
        let mut expected = vec![0; 512];
        expected[508] = 1;
        assert_eq!(lay_out(&Records::default()), expected);
        let big = lay_out(&Records {
            order: 1,
            ..Default::default()
        });
        assert_eq!((big[0], big[508]), (1, 2));
    }

    #[test]
    fn numbers_stand_where_the_document_says() {
        let stream = stream(&sample());
        assert_eq!(
            &stream[..32],
            [
                1, 0, 0, 0, 1, 0, 0, 0, 1, 0, 0, 0, 1, 0, 0, 0, 3, 0, 0, 0, 88, 2, 0, 0, 0, 0, 0,
                0, 0, 0, 0, 0
            ]
        );
        assert_eq!(&stream[32 + 16..32 + 24], [8, 7, 6, 5, 4, 3, 2, 1]);
        assert_eq!(&stream[80 + 32..80 + 40], [1, 1, 0, 0, 0, 0, 0, 0]);
        assert_eq!(
            &stream[120..136],
            [
                0x88, 0x77, 0x66, 0x55, 0x44, 0x33, 0x22, 0x11, 7, 0, 0, 0, 64, 0, 0, 0
            ]
        );
        assert_eq!(&stream[136..141], b"xdp\0\x01");
    }

    #[test]
    fn the_second_block_has_its_own_check() {
        let deposit = lay_out(&sample());
        assert_eq!((deposit.len(), length(&sample())), (1024, 1024));
        let sum: u32 = (0..508)
            .map(|k| (k as u32 + 1) * u32::from(deposit[512 + k]))
            .sum();
        assert_eq!(deposit[1020..], (sum + 2).to_le_bytes());
    }

    #[test]
    fn read_gives_back_what_was_laid_out() {
        assert_eq!(read(&lay_out(&sample())), Ok(sample()));
        assert_eq!(read(&lay_out(&Records::default())), Ok(Records::default()));
    }

    #[test]
    fn read_refuses_lengths_and_checks() {
        let good = lay_out(&sample());
        for bad in [
            &[][..],
            &good[..511],
            &good[..1023],
            &[&good[..], &[0]].concat(),
        ] {
            assert_eq!(read(bad), Err(1));
        }
        for at in [0, 507, 508, 511, 600, 1023] {
            let mut bad = good.clone();
            bad[at] ^= 1;
            assert_eq!(read(&bad), Err(1), "{at}");
        }
        assert_eq!(read(&[&good[512..], &good[..512]].concat()), Err(1));
    }

    #[test]
    fn read_refuses_blocks_padding_and_reserved_bytes() {
        let good = stream(&sample());
        let resealed = |change: &dyn Fn(&mut Vec<u8>)| {
            let mut bad = good.clone();
            change(&mut bad);
            read(&seal(&bad))
        };
        assert_eq!(resealed(&|s| s.truncate(508)), Err(2));
        assert_eq!(resealed(&|s| s.resize(1017, 0)), Err(2));
        assert_eq!(resealed(&|s| s.push(1)), Err(2));
        assert_eq!(resealed(&|s| s[31] = 1), Err(2));
        assert_eq!(resealed(&|s| s[80 + 39] = 1), Err(2));
        assert_eq!(resealed(&|s| s[120 + 13] = 1), Err(2));
        assert_eq!(resealed(&|s| s[4..8].fill(255)), Err(2));
        assert_eq!(resealed(&|s| s[20..24].fill(255)), Err(2));
        assert_eq!(resealed(&|s| s[0] = 2), Err(2));
    }

    #[test]
    fn a_full_block_needs_no_further_one() {
        let full = Records {
            data: vec![1; 508 - 32],
            ..Default::default()
        };
        assert_eq!(lay_out(&full).len(), 512);
        assert_eq!(
            lay_out(&Records {
                data: vec![1; 509 - 32],
                ..Default::default()
            })
            .len(),
            1024
        );
        assert_eq!(read(&lay_out(&full)), Ok(full));
    }
}
