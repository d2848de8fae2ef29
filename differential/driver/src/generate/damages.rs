//! Deposits that break a rule of the stream (2) or whose blocks are damaged (1, 2).
use crate::case::{Extent, NONE, Records};
use crate::deposit::{self, BLOCK, RELOCATION, STREAM, SYMBOL, lay_out, places, seal, stream};
use crate::rng::Rng;
use crate::rules::{MOST_BYTES, piece};

/// Breaks one rule; false where the records have nothing to break it on.
type Break = fn(&mut Rng, &mut Records) -> bool;

pub const BREAKS: [(&str, Break); 18] = [
    ("2 byte order", |rng, r| {
        set(&mut r.order, rng, &[2, 256, NONE])
    }),
    ("2 section mark", |rng, r| {
        one(rng, &mut r.sections).is_some_and(|(x, rng)| set(&mut x.mark, rng, &[2, 3, 256, NONE]))
    }),
    ("2 section size", |rng, r| {
        let most = MOST_BYTES as u64;
        one(rng, &mut r.sections)
            .is_some_and(|(x, rng)| set(&mut x.size, rng, &[most + 1, 2 * most, 1 << 32, u64::MAX]))
    }),
    ("2 first section index 0", |_, r| {
        r.sections.first_mut().map(|x| x.index = 0).is_some()
    }),
    ("2 first symbol index 0", |_, r| {
        r.symbols.first_mut().map(|y| y.index = 0).is_some()
    }),
    ("2 section indexes don't rise", |rng, r| {
        let indexes: Vec<u32> = r.sections.iter().map(|x| x.index).collect();
        fall(rng, &indexes)
            .map(|(at, index)| r.sections[at].index = index)
            .is_some()
    }),
    ("2 symbol indexes don't rise", |rng, r| {
        let indexes: Vec<u32> = r.symbols.iter().map(|y| y.index).collect();
        fall(rng, &indexes)
            .map(|(at, index)| r.symbols[at].index = index)
            .is_some()
    }),
    ("2 section name past the names", |rng, r| {
        let length = r.names.len();
        one(rng, &mut r.sections).is_some_and(|(x, rng)| past(&mut x.name, rng, length))
    }),
    ("2 symbol name past the names", |rng, r| {
        let length = r.names.len();
        one(rng, &mut r.symbols).is_some_and(|(y, rng)| past(&mut y.name, rng, length))
    }),
    ("2 section past the data", |rng, r| {
        let length = r.data.len();
        one(rng, &mut r.sections).is_some_and(|(x, rng)| past(&mut x.bytes, rng, length))
    }),
    ("2 section past the relocations", |rng, r| {
        let length = r.relocations.len();
        one(rng, &mut r.sections).is_some_and(|(x, rng)| past(&mut x.relocations, rng, length))
    }),
    ("2 byte of a section's name", |rng, r| {
        let names: Vec<Extent> = r.sections.iter().map(|x| x.name).collect();
        name_byte(rng, &mut r.names, &names)
    }),
    ("2 byte of a symbol's name", |rng, r| {
        let names: Vec<Extent> = r.symbols.iter().map(|y| y.name).collect();
        name_byte(rng, &mut r.names, &names)
    }),
    ("2 symbol of section 0", |rng, r| {
        one(rng, &mut r.symbols).is_some_and(|(y, rng)| set(&mut y.section, rng, &[0]))
    }),
    ("2 symbol kind", |rng, r| {
        one(rng, &mut r.symbols).is_some_and(|(y, rng)| set(&mut y.kind, rng, &[3, 4, 128, 255]))
    }),
    ("2 symbol definition", |rng, r| {
        one(rng, &mut r.symbols).is_some_and(|(y, rng)| set(&mut y.definition, rng, &[2, 3, 255]))
    }),
    ("2 relocation of symbol 0", |rng, r| {
        one(rng, &mut r.relocations).is_some_and(|(x, rng)| set(&mut x.symbol, rng, &[0]))
    }),
    ("2 name table cut", |_, r| {
        let names = r
            .sections
            .iter()
            .map(|x| x.name)
            .chain(r.symbols.iter().map(|y| y.name));
        let needed = names.map(|n| n.at as usize + n.length as usize).max();
        needed
            .filter(|&n| n > 0)
            .map(|n| r.names.truncate(n - 1))
            .is_some()
    }),
];

fn one<'a, 'b, T>(rng: &'b mut Rng, of: &'a mut [T]) -> Option<(&'a mut T, &'b mut Rng)> {
    if of.is_empty() {
        return None;
    }
    let place = rng.below(of.len());
    Some((&mut of[place], rng))
}

fn set<T: Copy>(field: &mut T, rng: &mut Rng, values: &[T]) -> bool {
    *field = *rng.pick(values);
    true
}

/// A range that ends one past the table, or far past it.
fn past(extent: &mut Extent, rng: &mut Rng, table: usize) -> bool {
    let end = table as u32 + 1;
    let length = rng.below(end.min(8) as usize + 1) as u32;
    *extent = match rng.below(6) {
        0 => Extent {
            at: NONE,
            length: *rng.pick(&[0, 1, NONE]),
        },
        1 => Extent { at: 0, length: end },
        _ => Extent {
            at: end - length,
            length,
        },
    };
    true
}

/// Which index becomes which, so that it is no more than the one before it.
fn fall(rng: &mut Rng, indexes: &[u32]) -> Option<(usize, u32)> {
    let at = 1 + rng.below(indexes.len().checked_sub(1).filter(|&n| n > 0)?);
    let before = indexes[at - 1];
    Some((at, *rng.pick(&[before, before.saturating_sub(1), 0])))
}

fn name_byte(rng: &mut Rng, table: &mut [u8], names: &[Extent]) -> bool {
    let names: Vec<&Extent> = names
        .iter()
        .filter(|n| !piece(table, **n).is_empty())
        .collect();
    if names.is_empty() {
        return false;
    }
    let name = rng.pick(&names);
    table[name.at as usize + rng.below(name.length as usize)] = *rng.pick(&[0, 128, 255]);
    true
}

/// A damaged deposit of sound records; none where they have nothing to damage so.
type Frame = fn(&mut Rng, &Records) -> Option<Vec<u8>>;

pub const FRAMES: [(&str, u32, Frame); 15] = [
    ("1 empty", 1, |_, _| Some(Vec::new())),
    ("1 cut", 1, |rng, r| {
        let mut out = lay_out(r);
        out.truncate(out.len() - 1 - rng.below(BLOCK - 1));
        Some(out)
    }),
    ("1 bytes behind", 1, |rng, r| {
        let mut out = lay_out(r);
        out.resize(out.len() + 1 + rng.below(BLOCK - 1), 0);
        Some(out)
    }),
    ("1 byte changed", 1, |rng, r| {
        let mut out = lay_out(r);
        let at = rng.below(out.len());
        out[at] ^= 1 << rng.below(8);
        Some(out)
    }),
    ("1 check", 1, |rng, r| {
        let mut out = lay_out(r);
        let at = rng.below(out.len() / BLOCK) * BLOCK + STREAM;
        out[at + rng.below(4)] ^= 1 << rng.below(8);
        Some(out)
    }),
    ("1 block's number", 1, |rng, r| {
        let mut out = lay_out(r);
        let block = rng.below(out.len() / BLOCK);
        let check = deposit::check(&out[block * BLOCK..block * BLOCK + STREAM], block);
        out[block * BLOCK + STREAM..(block + 1) * BLOCK].copy_from_slice(&check.to_le_bytes());
        Some(out)
    }),
    ("1 blocks change places", 1, |rng, r| {
        let mut out = lay_out(r);
        let blocks = out.len() / BLOCK;
        let at = rng.below(blocks.checked_sub(1).filter(|&n| n > 0)?) * BLOCK;
        out[at..at + 2 * BLOCK].rotate_left(BLOCK);
        Some(out)
    }),
    ("1 before 2", 1, |rng, r| {
        let mut out = seal(&[&stream(r)[..], &[0; STREAM]].concat());
        let at = rng.below(out.len());
        out[at] ^= 1;
        Some(out)
    }),
    ("2 block missing", 2, |_, r| {
        let mut stream = stream(r);
        let rest = (stream.len() - 1) / STREAM * STREAM;
        stream.truncate(rest);
        (rest > 0).then(|| seal(&stream))
    }),
    ("2 further block", 2, |rng, r| {
        let mut stream = stream(r);
        stream.resize(
            (stream.len().div_ceil(STREAM) + 1 + rng.below(2)) * STREAM,
            0,
        );
        Some(seal(&stream))
    }),
    ("2 padding", 2, |rng, r| {
        let mut stream = stream(r);
        let end = stream.len();
        stream.resize(end.next_multiple_of(STREAM), 0);
        let at = end + rng.below((stream.len() - end).checked_sub(1)? + 1);
        stream[at] = *rng.pick(&[1, 128]);
        Some(seal(&stream))
    }),
    ("2 reserved byte of the head", 2, |rng, r| {
        reserved(rng, r, 24, 8)
    }),
    ("2 reserved byte of a symbol", 2, |rng, r| {
        let symbol = rng.below(Some(r.symbols.len()).filter(|&n| n > 0)?);
        reserved(rng, r, places(r).symbols + SYMBOL * symbol + 34, 6)
    }),
    ("2 reserved byte of a relocation", 2, |rng, r| {
        let relocation = rng.below(Some(r.relocations.len()).filter(|&n| n > 0)?);
        reserved(
            rng,
            r,
            places(r).relocations + RELOCATION * relocation + 13,
            3,
        )
    }),
    ("2 count above its limit", 2, |rng, r| {
        let (place, count) = *rng.pick(&[
            (4, 4_097),
            (8, 65_537),
            (12, 65_537),
            (4, NONE),
            (8, NONE),
            (12, NONE),
            (16, NONE),
            (20, NONE),
            (16, 1 << 24),
        ]);
        let mut stream = stream(r);
        stream[place..place + 4].copy_from_slice(&u32::to_le_bytes(count));
        Some(seal(&stream))
    }),
];

fn reserved(rng: &mut Rng, records: &Records, at: usize, count: usize) -> Option<Vec<u8>> {
    let mut stream = stream(records);
    stream[at + rng.below(count)] = *rng.pick(&[1, 2, 128, 255]);
    Some(seal(&stream))
}

#[cfg(test)]
mod tests {
    use super::*;
    use crate::deposit::read;
    use crate::generate::draft::Draft;
    use crate::generate::sections::any;
    use crate::rules::broken;

    fn objects() -> Vec<Records> {
        let mut rng = Rng::new(1);
        (0..300)
            .map(|k| {
                let mut draft = Draft::default();
                (0..k % 9).for_each(|_| any(&mut rng, &mut draft));
                draft.packed(&mut rng)
            })
            .collect()
    }

    #[test]
    fn each_break_breaks_a_rule() {
        let mut rng = Rng::new(2);
        for (aim, make) in BREAKS {
            let mut made = 0;
            for mut records in objects() {
                if make(&mut rng, &mut records) {
                    made += 1;
                    assert!(broken(&records).is_some(), "{aim}");
                    assert_eq!(read(&lay_out(&records)), Err(2), "{aim}");
                }
            }
            assert!(made > 100, "{aim} {made}");
        }
    }

    #[test]
    fn each_frame_goes_back_with_its_number() {
        let mut rng = Rng::new(3);
        for (aim, number, make) in FRAMES {
            let made = objects()
                .iter()
                .filter_map(|records| make(&mut rng, records))
                .inspect(|deposit| assert_eq!(read(deposit), Err(number), "{aim}"))
                .count();
            assert!(made > 100, "{aim} {made}");
        }
    }
}
