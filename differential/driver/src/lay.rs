//! A catalogue as docs/CATALOGUE.md lays it out in what is lent.
use crate::answer::{Catalogue, Function, FunctionRow, Lent, MapRow, Room, Summary};

pub const SECTION_WIDTH: usize = 4;
pub const PROGRAM_WIDTH: usize = 7;
pub const MAP_WIDTH: usize = 27;
pub const RELOCATION_WIDTH: usize = 4;

/// Where a piece of the bytes begins, and its length.
type Range = [u64; 2];

pub fn summary(c: &Catalogue) -> Summary {
    Summary {
        order: c.order,
        version: c.version,
        license: c.license.len() as u64,
        sections: c.sections.len() as u64,
        programs: c.programs.len() as u64,
        functions: c.functions.len() as u64,
        maps: c.maps.len() as u64,
        relocations: c.relocations.len() as u64,
        bytes: byte_count(c) as u64,
    }
}

/// Exactly what the catalogue takes.
pub fn room(c: &Catalogue) -> Room {
    Room {
        sections: c.sections.len() * SECTION_WIDTH,
        programs: c.programs.len() * PROGRAM_WIDTH,
        functions: c.functions.len(),
        maps: c.maps.len() * MAP_WIDTH,
        relocations: c.relocations.len() * RELOCATION_WIDTH,
        bytes: byte_count(c),
    }
}

pub fn fits(c: &Catalogue, lent: &Room) -> bool {
    let taken = room(c);
    taken.sections <= lent.sections
        && taken.programs <= lent.programs
        && taken.functions <= lent.functions
        && taken.maps <= lent.maps
        && taken.relocations <= lent.relocations
        && taken.bytes <= lent.bytes
}

/// Every element lent, with the catalogue laid out in it and zeros behind. The catalogue fits.
pub fn lent(c: &Catalogue, room: &Room) -> Lent {
    assert!(fits(c, room), "the catalogue is larger than the room");
    let mut bytes = c.license.clone();
    let section_names = put(&mut bytes, c.sections.iter().map(|s| &s.name));
    let program_names = put(&mut bytes, c.programs.iter().map(|p| &p.name));
    let function_names = put(&mut bytes, c.functions.iter().map(|f| &f.name));
    let code = put(&mut bytes, c.functions.iter().map(|f| &f.code));
    let map_names = put(&mut bytes, c.maps.iter().map(|m| &m.name));
    let own = put(&mut bytes, c.maps.iter().map(|m| &m.own));

    let sections = c.sections.iter().zip(section_names);
    let programs = c.programs.iter().zip(program_names);
    let functions = c.functions.iter().zip(function_names).zip(code);
    let maps = c.maps.iter().zip(map_names).zip(own);
    Lent {
        sections: padded(
            room.sections,
            sections.flat_map(|(s, [at, length])| [at, length, s.index, s.size]),
        ),
        programs: padded(
            room.programs,
            programs.flat_map(|(p, [at, length])| {
                let [variant, first, second] = p.variant;
                [at, length, variant, first, second, p.section, p.address]
            }),
        ),
        functions: padded(
            room.functions,
            functions.map(|((f, name), code)| function_row(f, name, code)),
        ),
        maps: padded(
            room.maps,
            maps.flat_map(|((m, name), own)| map_row(m, name, own)),
        ),
        relocations: padded(
            room.relocations,
            c.relocations
                .iter()
                .flat_map(|r| [r.section, r.offset, r.size, r.symbol]),
        ),
        bytes: padded(room.bytes, bytes.into_iter()),
    }
}

/// The pieces of the bytes by their lengths, in order: of each kind, what it is and one length a row.
pub fn pieces(c: &Catalogue) -> [(&'static str, Vec<usize>); 7] {
    [
        ("licence", vec![c.license.len()]),
        (
            "section name",
            c.sections.iter().map(|s| s.name.len()).collect(),
        ),
        (
            "program name",
            c.programs.iter().map(|p| p.name.len()).collect(),
        ),
        (
            "function name",
            c.functions.iter().map(|f| f.name.len()).collect(),
        ),
        (
            "function code",
            c.functions.iter().map(|f| f.code.len()).collect(),
        ),
        ("map name", c.maps.iter().map(|m| m.name.len()).collect()),
        ("map bytes", c.maps.iter().map(|m| m.own.len()).collect()),
    ]
}

fn byte_count(c: &Catalogue) -> usize {
    pieces(c).iter().flat_map(|(_, lengths)| lengths).sum()
}

/// Puts the pieces behind the bytes, and says where each lies.
fn put<'a>(bytes: &mut Vec<u8>, pieces: impl Iterator<Item = &'a Vec<u8>>) -> Vec<Range> {
    pieces
        .map(|piece| {
            let at = bytes.len() as u64;
            bytes.extend_from_slice(piece);
            [at, piece.len() as u64]
        })
        .collect()
}

fn function_row(f: &FunctionRow, name: Range, code: Range) -> Function {
    let [name_at, name_length] = name;
    let [code_at, code_length] = code;
    Function {
        section: u32::try_from(f.section).expect("section indexes have 32 bits"),
        address: f.address,
        offset: f.offset,
        name_at,
        name_length,
        code_at,
        code_length,
    }
}

fn map_row(m: &MapRow, name: Range, own: Range) -> [u64; MAP_WIDTH] {
    let mut row = [0; MAP_WIDTH];
    row[..2].copy_from_slice(&name);
    row[2..5].copy_from_slice(&[m.section, m.kind, m.symbol]);
    row[5..7].copy_from_slice(&own);
    row[7..14].copy_from_slice(&m.words.map(u64::from));
    row
}

fn padded<T: Clone + Default>(length: usize, elements: impl Iterator<Item = T>) -> Vec<T> {
    let mut out: Vec<T> = elements.collect();
    out.resize(length, T::default());
    out
}

#[cfg(test)]
pub mod tests {
    use super::*;
    use crate::answer::{ProgramRow, RelocationRow, SectionRow};

    /// Two rows of each table, with pieces of different lengths.
    pub fn sample() -> Catalogue {
        Catalogue {
            order: 1,
            version: Some(7),
            license: b"GPL".to_vec(),
            sections: vec![
                SectionRow {
                    name: b".bss".to_vec(),
                    index: 3,
                    size: 2,
                },
                SectionRow {
                    name: b"xdp".to_vec(),
                    index: 2,
                    size: 8,
                },
            ],
            programs: vec![
                ProgramRow {
                    name: b"p".to_vec(),
                    variant: [6, 1, 2],
                    section: 2,
                    address: 9,
                },
                ProgramRow {
                    name: b"qq".to_vec(),
                    variant: [0, 0, 0],
                    section: 2,
                    address: 0,
                },
            ],
            functions: vec![
                FunctionRow {
                    section: 1,
                    address: 16,
                    offset: 8,
                    name: b"".to_vec(),
                    code: vec![1; 8],
                },
                FunctionRow {
                    section: 2,
                    address: 0,
                    offset: 5,
                    name: b"pp".to_vec(),
                    code: vec![2; 16],
                },
            ],
            maps: vec![
                MapRow {
                    name: b".bss".to_vec(),
                    section: 3,
                    kind: 6,
                    symbol: 0,
                    words: [2, 4, 2, 1, 0, 0, 0],
                    own: vec![0, 5],
                },
                MapRow {
                    name: b"m".to_vec(),
                    section: 4,
                    kind: 1,
                    symbol: 11,
                    words: [21, 22, 23, 24, 25, 26, 1],
                    own: vec![],
                },
            ],
            relocations: vec![
                RelocationRow {
                    section: 1,
                    offset: 8,
                    size: 64,
                    symbol: 5,
                },
                RelocationRow {
                    section: 2,
                    offset: 0,
                    size: 32,
                    symbol: 6,
                },
            ],
        }
    }

    const BYTES: &[u8] =
        b"GPL.bssxdppqqpp\x01\x01\x01\x01\x01\x01\x01\x01\x02\x02\x02\x02\x02\x02\x02\x02\x02\x02\x02\x02\x02\x02\x02\x02.bssm\x00\x05";

    #[test]
    fn summary_counts_rows_and_bytes() {
        let expected = Summary {
            order: 1,
            version: Some(7),
            license: 3,
            sections: 2,
            programs: 2,
            functions: 2,
            maps: 2,
            relocations: 2,
            bytes: BYTES.len() as u64,
        };
        assert_eq!(summary(&sample()), expected);
    }

    #[test]
    fn room_is_what_the_rows_take() {
        let expected = Room {
            sections: 8,
            programs: 14,
            functions: 2,
            maps: 54,
            relocations: 8,
            bytes: 46,
        };
        assert_eq!(room(&sample()), expected);
    }

    #[test]
    fn pieces_lie_in_the_order_of_the_page() {
        assert_eq!(lent(&sample(), &room(&sample())).bytes, BYTES);
    }

    #[test]
    fn rows_say_where_their_pieces_lie() {
        let laid = lent(&sample(), &room(&sample()));
        assert_eq!(laid.sections, [3, 4, 3, 2, 7, 3, 2, 8]);
        assert_eq!(laid.programs, [10, 1, 6, 1, 2, 2, 9, 11, 2, 0, 0, 0, 2, 0]);
        let first = Function {
            section: 1,
            address: 16,
            offset: 8,
            name_at: 13,
            name_length: 0,
            code_at: 15,
            code_length: 8,
        };
        let second = Function {
            section: 2,
            address: 0,
            offset: 5,
            name_at: 13,
            name_length: 2,
            code_at: 23,
            code_length: 16,
        };
        assert_eq!(laid.functions, [first, second]);
        assert_eq!(
            laid.maps[..14],
            [39, 4, 3, 6, 0, 44, 2, 2, 4, 2, 1, 0, 0, 0]
        );
        assert_eq!(
            laid.maps[27..41],
            [43, 1, 4, 1, 11, 46, 0, 21, 22, 23, 24, 25, 26, 1]
        );
        assert_eq!(laid.maps[14..27], [0; 13]);
        assert_eq!(laid.maps[41..], [0; 13]);
        assert_eq!(laid.relocations, [1, 8, 64, 5, 2, 0, 32, 6]);
    }

    #[test]
    fn zeros_lie_behind() {
        let exact = lent(&sample(), &room(&sample()));
        let wide = Room {
            sections: 9,
            programs: 21,
            functions: 4,
            maps: 55,
            relocations: 8,
            bytes: 50,
        };
        let laid = lent(&sample(), &wide);
        assert_eq!(laid.sections, [&exact.sections[..], &[0]].concat());
        assert_eq!(laid.programs, [&exact.programs[..], &[0; 7]].concat());
        assert_eq!(
            laid.functions,
            [&exact.functions[..], &[Function::default(); 2]].concat()
        );
        assert_eq!(laid.maps, [&exact.maps[..], &[0]].concat());
        assert_eq!(laid.relocations, exact.relocations);
        assert_eq!(laid.bytes, [&exact.bytes[..], &[0; 4]].concat());
    }

    #[test]
    fn the_empty_catalogue_takes_nothing() {
        let empty = Catalogue::default();
        assert_eq!(room(&empty), Room::default());
        assert_eq!(lent(&empty, &Room::default()), Lent::default());
    }

    #[test]
    fn one_element_less_of_any_slice_is_too_small() {
        let c = sample();
        let room = room(&c);
        assert!(fits(&c, &room));
        assert!(!fits(
            &c,
            &Room {
                sections: room.sections - 1,
                ..room
            }
        ));
        assert!(!fits(
            &c,
            &Room {
                programs: room.programs - 1,
                ..room
            }
        ));
        assert!(!fits(
            &c,
            &Room {
                functions: room.functions - 1,
                ..room
            }
        ));
        assert!(!fits(
            &c,
            &Room {
                maps: room.maps - 1,
                ..room
            }
        ));
        assert!(!fits(
            &c,
            &Room {
                relocations: room.relocations - 1,
                ..room
            }
        ));
        assert!(!fits(
            &c,
            &Room {
                bytes: room.bytes - 1,
                ..room
            }
        ));
    }

    #[test]
    #[should_panic(expected = "larger than the room")]
    fn a_smaller_room_is_refused() {
        let room = room(&sample());
        lent(
            &sample(),
            &Room {
                bytes: room.bytes - 1,
                ..room
            },
        );
    }
}
