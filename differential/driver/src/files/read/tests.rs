//! The readings of paper 1 one by one, on small files of both byte orders.
use super::*;
use crate::domain::known;
use crate::files::edit::{
    ALIGN, ENTRY, Edit, FLAGS, FREE, Field, INFO, KIND, LINK, MACHINE, NAME, OFFSET, PHNUM, PHOFF,
    SHENTSIZE, SHNUM, SHOFF, SHSTRNDX, SIZE, TYPE,
};
use crate::files::layout::{Body, Plan, Relocation, Symbol};
use crate::files::of_file;
use crate::generate::Lent;
use crate::rules::piece;

/// Sections of the sample.
const STRINGS: u32 = 1;
const SYMBOLS: u32 = 2;
const XDP: u32 = 3;
const DATA: u32 = 4;
const REL_XDP: u32 = 5;
const BSS: u32 = 6;
const RELA_DATA: u32 = 7;

fn symbol(name: &str, info: u8, section: u16, address: u64, size: u64) -> Symbol {
    Symbol {
        name: name.into(),
        info,
        other: 0,
        section,
        address,
        size,
    }
}

fn relocation(offset: u64, symbol: u32, kind: u32) -> Relocation {
    Relocation {
        offset,
        symbol,
        kind,
        addend: 9,
    }
}

fn plan(big: bool) -> Plan {
    let symbols = vec![symbol("pass", 0x12, 3, 0, 8), symbol("rate", 0x11, 4, 1, 2)];
    let mut plan = Plan::with_symbols(symbols);
    plan.big = big;
    plan.section("xdp", PROGBITS, Body::Bytes(b"12345678".to_vec()))
        .flags = TEXT_FLAGS;
    plan.section(".data", PROGBITS, Body::Bytes(b"abcd".to_vec()))
        .address = 1 << 40;
    let entries = vec![relocation(8, 2, 1), relocation(0, 1, 10)];
    plan.relocations(REL, XDP, entries);
    let nowhere = Body::Reach {
        offset: u64::MAX,
        size: 40,
    };
    plan.section(".bss", NOBITS, nowhere);
    plan.relocations(RELA, DATA, vec![relocation(1, 0, 2)]);
    plan
}

/// The sample with one change, in both byte orders.
fn both(change: impl Fn(&mut Edit)) -> [Vec<u8>; 2] {
    [false, true].map(|big| {
        let mut edit = Edit::of(plan(big).plain());
        change(&mut edit);
        edit.bytes
    })
}

/// What both come to: 25, 26 or 0 where they are read.
fn number(change: impl Fn(&mut Edit)) -> u32 {
    let [little, big] = both(change).map(|file| read(&file).err().unwrap_or(0));
    assert_eq!(little, big);
    little
}

fn set(section: u32, field: Field, value: u64) -> u32 {
    number(|edit| set_in(edit, section, field, value))
}

fn set_in(edit: &mut Edit, section: u32, field: Field, value: u64) {
    let at = edit.section(section.into()).expect("it is there").at;
    edit.set(at, field, value);
}

fn head(field: Field, value: u64) -> u32 {
    number(|edit| edit.set(0, field, value))
}

/// What both state.
fn records(change: impl Fn(&mut Edit)) -> [Records; 2] {
    both(change).map(|file| read(&file).expect("it is read"))
}

fn planned(change: impl Fn(&mut Plan)) -> [Result<Records, u32>; 2] {
    [false, true].map(|big| {
        let mut plan = plan(big);
        change(&mut plan);
        read(&plan.plain())
    })
}

fn name(records: &Records, section: u32) -> &[u8] {
    piece(&records.names, records.sections[section as usize - 1].name)
}

fn data(records: &Records, section: u32) -> &[u8] {
    piece(&records.data, records.sections[section as usize - 1].bytes)
}

fn relocations(records: &Records, section: u32) -> &[RelocationRecord] {
    let Extent { at, length } = records.sections[section as usize - 1].relocations;
    &records.relocations[at as usize..(at + length) as usize]
}

#[test]
fn the_sample() {
    for (order, records) in records(|_| ()).iter().enumerate() {
        assert_eq!(records.order, order as u32);
        let names: Vec<&[u8]> = (1..=7).map(|k| name(records, k)).collect();
        assert_eq!(names, [&b""[..], b"", b"xdp", b".data", b"", b".bss", b""]);
        let marks: Vec<u32> = records.sections.iter().map(|x| x.mark).collect();
        assert_eq!(marks, [0, 0, 1, 0, 0, 0, 0]);
        assert_eq!(records.sections[3].address, 1 << 40);
        let symbols = records.symbols.iter();
        let symbols: Vec<_> = symbols
            .map(|y| (piece(&records.names, y.name), y.section, y.address, y.size))
            .collect();
        assert_eq!(symbols, [(&b"pass"[..], 3, 0, 8), (b"rate", 4, 1, 2)]);
    }
}

#[test]
fn e1_bytes_present() {
    for (big, low) in [(false, 1), (true, 0)] {
        let mut file = plan(big).plain();
        file.truncate(17);
        assert_eq!((file[16], read(&file)), (low, Err(26)));
        file[16] = 1 - low;
        assert_eq!(read(&file), Err(25));
        file.truncate(16);
        assert_eq!(read(&file), Err(26));
    }
}

#[test]
fn e2_first_seven() {
    for at in 0..16 {
        for byte in [0, 3, 0x80] {
            let changed = number(|edit| edit.bytes[at] ^= byte | 0x40);
            assert_eq!(changed, if at < 7 { 25 } else { 0 }, "{at}");
        }
    }
    let other_order = number(|edit| edit.bytes[5] = 3 - edit.bytes[5]);
    assert_eq!(other_order, 25);
}

#[test]
fn e3_type_machine_section_header_size() {
    for (field, right) in [(TYPE, 1), (MACHINE, 247), (SHENTSIZE, 64)] {
        assert_eq!(head(field, right), 0);
        for wrong in [0, right - 1, right + 1, right << 8, right + 256] {
            assert_eq!(head(field, wrong), 25, "{field:?} {wrong}");
        }
    }
}

#[test]
fn e4_section_header_size_without_sections() {
    for field in [SHOFF, SHNUM] {
        let sized = |size| {
            number(|edit| {
                edit.set(0, field, 0);
                edit.set(0, SHENTSIZE, size);
            })
        };
        assert_eq!((sized(64), sized(63)), (0, 25));
    }
}

#[test]
fn e5_entry_sizes() {
    for (table, size) in [(SYMBOLS, 24), (REL_XDP, 16), (RELA_DATA, 24)] {
        assert_eq!(set(table, ENTRY, size), 0);
        for wrong in [
            0,
            size - 1,
            size + 1,
            40 - size,
            size + (1 << 32),
            size << 56,
        ] {
            assert_eq!(set(table, ENTRY, wrong), 25, "{table} {wrong}");
            let empty = number(|edit| {
                set_in(edit, table, SIZE, 0);
                set_in(edit, table, ENTRY, wrong);
            });
            assert_eq!(empty, 25);
        }
    }
    for other in [STRINGS, XDP, DATA, BSS] {
        assert_eq!(set(other, ENTRY, 7), 0);
    }
}

#[test]
fn e6_headers_in_front_of_a_cut() {
    let cut = |table: u32, byte: usize, at: usize| {
        number(|edit| {
            edit.headers_last();
            let header = edit.section(table.into()).expect("it is there").at;
            edit.bytes[header + 56 + byte] ^= 1;
            edit.bytes.truncate(header + at);
        })
    };
    for table in [SYMBOLS, REL_XDP, RELA_DATA] {
        for byte in 0..8 {
            assert_eq!(cut(table, byte, 64), 25);
            assert_eq!(cut(table, byte, 57 + byte), 25);
            assert_eq!(cut(table, byte, 56 + byte), 26);
        }
    }
    // the symbol table behind the cut is none, so what links to it isn't in use
    let moved = number(|edit| {
        edit.headers_last();
        let [table, rel] = [SYMBOLS, REL_XDP].map(|k| edit.section(k.into()).expect("there").at);
        for k in 0..64 {
            edit.bytes.swap(table + k, rel + k);
        }
        edit.set(table, LINK, REL_XDP.into());
        edit.set(table, ENTRY, 17);
        edit.bytes.truncate(rel + 47);
    });
    assert_eq!(moved, 26);
    let looked_at = number(|edit| {
        edit.headers_last();
        let at = edit.section(SYMBOLS.into()).expect("there").at;
        set_in(edit, REL_XDP, ENTRY, 17);
        edit.bytes.truncate(at + 4 * 64);
    });
    assert_eq!(looked_at, 25);
}

#[test]
fn e7_not_looked_at() {
    for field in FREE.into_iter().chain([PHOFF, PHNUM]) {
        assert_eq!(head(field, u64::MAX), 0, "{field:?}");
    }
    assert_eq!(set(XDP, ALIGN, 3), 0);
    for records in records(|edit| {
        edit.bytes.push(7);
        edit.headers_last();
        let (from, to) = (edit.headers_at, edit.bytes.len() + 3);
        let headers = edit.bytes[from..].to_vec();
        edit.bytes.extend([0, 0, 0]);
        edit.bytes.extend(headers);
        edit.set(0, SHOFF, to as u64);
    }) {
        assert_eq!(name(&records, XDP), b"xdp");
    }
}

#[test]
fn e8_25_then_26_then_3() {
    let wrong = |kind, link, name: &str| {
        [false, true].map(|big| {
            let mut plan = plan(big);
            plan.section(name, PROGBITS, Body::default());
            let mut edit = Edit::of(plan.plain());
            edit.set(0, TYPE, kind);
            edit.set(0, SHSTRNDX, link);
            of_file("", edit.bytes, Lent::default(), false).judge
        })
    };
    assert_eq!(wrong(2, 0, ".BTF"), [known(25, 0), known(25, 0)]);
    assert_eq!(wrong(1, 0, ".BTF"), [known(26, 0), known(26, 0)]);
    assert_eq!(wrong(1, 1, ".BTF"), [known(3, 0), known(3, 0)]);
    let mut long = plan(false).plain();
    long.resize(MOST_BYTES + 1, 0);
    assert_eq!(read(&long), Err(26));
    long[0] = 0;
    assert_eq!(read(&long), Err(25));
}

#[test]
fn e9_under_64_bytes() {
    for length in 0..64 {
        let cut = number(|edit| {
            edit.set(0, SHOFF, 0);
            edit.bytes.truncate(length);
        });
        assert_eq!(cut, 26, "{length}");
    }
}

#[test]
fn e10_e11_no_sections() {
    let none = |field, others: [(Field, u64); 2]| {
        let change = |edit: &mut Edit| {
            edit.set(0, field, 0);
            for (other, value) in others {
                edit.set(0, other, value);
            }
            edit.bytes.truncate(64);
        };
        records(change).map(|r| (r.sections.len(), r.symbols.len(), r.relocations.len()))
    };
    assert_eq!(none(SHOFF, [(SHNUM, 5), (SHSTRNDX, 9)]), [(0, 0, 0); 2]);
    assert_eq!(
        none(SHNUM, [(SHOFF, u64::MAX), (SHSTRNDX, 0xFFFF)]),
        [(0, 0, 0); 2]
    );
}

#[test]
fn e12_section_headers_inside() {
    let ends = |cut: usize| {
        number(|edit| {
            edit.headers_last();
            edit.bytes.truncate(edit.bytes.len() - cut);
        })
    };
    assert_eq!((ends(0), ends(1), ends(64)), (0, 26, 26));
    for place in [1 << 20, 1 << 63, u64::MAX, 0u64.wrapping_sub(8 * 64)] {
        assert_eq!(head(SHOFF, place), 26);
    }
    let more = number(|edit| {
        edit.headers_last();
        edit.set(0, SHNUM, 9);
    });
    assert_eq!(more, 26);
}

#[test]
fn e13_entry_0() {
    let [little, big] = both(|edit| {
        let at = edit.headers_at;
        edit.bytes[at..at + 64].fill(0xFF);
        edit.set(at, KIND, SYMTAB.into());
    });
    let plain = records(|_| ());
    for (file, plain) in [little, big].iter().zip(plain) {
        let records = read(file).expect("it is read");
        assert_eq!(records.sections, plain.sections);
        assert_eq!(records.symbols, plain.symbols);
    }
}

#[test]
fn e15_each_section_is_a_record() {
    for kind in [0, 3, 5, 11, 14, 18, 0x4000_0014, u32::MAX] {
        for records in planned(|plan| {
            plan.section(".rodata.x", kind, Body::Bytes(b"zz".to_vec()));
        }) {
            let records = records.expect("it is read");
            assert_eq!(
                (records.sections.len(), name(&records, 8)),
                (8, &b".rodata.x"[..])
            );
            assert_eq!(data(&records, 8), b"zz");
        }
    }
}

#[test]
fn e16_nobits() {
    for records in records(|_| ()) {
        let bss = &records.sections[BSS as usize - 1];
        assert_eq!((bss.size, bss.bytes.length), (40, 0));
    }
}

#[test]
fn e17_data_inside() {
    let ends = |more: u64, kind: u32| {
        number(|edit| {
            let length = edit.bytes.len() as u64;
            set_in(edit, DATA, OFFSET, length - 5);
            set_in(edit, DATA, SIZE, 5 + more);
            set_in(edit, DATA, KIND, kind.into());
        })
    };
    for kind in [PROGBITS, 0, STRTAB, 77] {
        assert_eq!((ends(0, kind), ends(1, kind)), (0, 26));
    }
    assert_eq!(ends(1, NOBITS), 0);
    for place in [u64::MAX, 0u64.wrapping_sub(4), 1 << 40] {
        assert_eq!(set(DATA, OFFSET, place), 26);
        let empty = number(|edit| {
            set_in(edit, DATA, OFFSET, place);
            set_in(edit, DATA, SIZE, 0);
        });
        assert_eq!(empty, 0);
    }
    // over the headers
    for records in records(|edit| set_in(edit, DATA, OFFSET, 0)) {
        assert_eq!(data(&records, DATA), b"\x7FELF");
    }
}

#[test]
fn e18_sizes() {
    let most = MOST_BYTES as u64;
    assert_eq!(set(BSS, SIZE, most), 0);
    for size in [most + 1, 1 << 32, u64::MAX] {
        assert_eq!(set(BSS, SIZE, size), 26);
    }
    let mut long = plan(true).plain();
    long.resize(MOST_BYTES, 0);
    assert!(read(&long).is_ok());
    long.push(0);
    assert_eq!(read(&long), Err(26));
}

#[test]
fn e19_text_mark() {
    let mark = |kind: u32, flags: u64| {
        let change = |edit: &mut Edit| {
            set_in(edit, DATA, KIND, kind.into());
            set_in(edit, DATA, FLAGS, flags);
        };
        records(change).map(|r| r.sections[DATA as usize - 1].mark)
    };
    assert_eq!(mark(1, 6), [1, 1]);
    assert_eq!(mark(1, u64::MAX), [1, 1]);
    for (kind, flags) in [(1, 2), (1, 4), (1, !6), (0, 6), (8, 6), (3, 6), (0x101, 6)] {
        assert_eq!(mark(kind, flags), [0, 0], "{kind} {flags}");
    }
}

#[test]
fn e20_section_names_table() {
    assert_eq!(head(SHSTRNDX, STRINGS.into()), 0);
    for number in [0, SYMBOLS.into(), DATA.into(), 8, 9, 0xFF00, 0xFFFF] {
        assert_eq!(head(SHSTRNDX, number), 26, "{number}");
    }
    assert_eq!(head(SHNUM, 1), 26);
    let last = planned(|plan| {
        plan.names = 8;
        plan.section("last", STRTAB, Body::Names);
    });
    for records in last {
        assert_eq!(name(&records.expect("it is read"), 8), b"last");
    }
}

#[test]
fn e21_symbol_names_table() {
    for number in [0, XDP, SYMBOLS, 8, 0xFFFF_FFFF] {
        assert_eq!(set(SYMBOLS, LINK, number.into()), 26);
        let without_symbol = super::tests::number(|edit| {
            set_in(edit, SYMBOLS, LINK, number.into());
            set_in(edit, SYMBOLS, SIZE, 0);
        });
        assert_eq!(without_symbol, 26);
    }
    // a type is asked of the number alone
    assert_eq!(set(STRINGS, KIND, 1), 26);
}

#[test]
fn e22_names_end_in_their_table() {
    let size = |edit: &Edit| edit.section(STRINGS.into()).expect("it is there").size;
    for (more, comes_to) in [(-1i64, 0), (0, 26), (1, 26), (1 << 31, 26)] {
        let section = number(|edit| {
            let place = size(edit).wrapping_add_signed(more);
            set_in(edit, XDP, NAME, place);
        });
        let symbol = number(|edit| {
            let (at, place) = (
                edit.symbols.expect("a table").offset + SYMBOL,
                size(edit).wrapping_add_signed(more),
            );
            edit.set(at as usize, NAME, place);
        });
        assert_eq!((section, symbol), (comes_to, comes_to), "{more}");
    }
    // the last name loses its zero
    let cut = number(|edit| {
        let less = size(edit) - 1;
        set_in(edit, STRINGS, SIZE, less);
    });
    assert_eq!(cut, 26);
    assert_eq!(set(STRINGS, SIZE, 0), 26);
    // neither a zero first nor one at the end
    for records in records(|edit| {
        let at = edit.section(STRINGS.into()).expect("it is there");
        let (from, length) = (at.offset as usize, at.size as usize);
        let mut table = edit.bytes[from..from + length].to_vec();
        table[0] = b'z';
        table.extend(b"open");
        let to = edit.bytes.len() as u64;
        edit.bytes.extend(&table);
        set_in(edit, STRINGS, OFFSET, to);
        set_in(edit, STRINGS, SIZE, table.len() as u64);
    }) {
        assert_eq!(name(&records, STRINGS), b"zxdp");
        assert_eq!(name(&records, XDP), b"xdp");
    }
}

#[test]
fn e23_bytes_of_names() {
    for (byte, comes_to) in [(127, 0), (1, 0), (128, 26), (255, 26)] {
        let section = planned(|plan| plan.sections[3].name = vec![b'a', byte]);
        let symbol = planned(|plan| {
            let Body::Symbols(symbols) = &mut plan.sections[1].body else {
                panic!("no symbols");
            };
            symbols[1].name = vec![b'a', byte];
        });
        for read in section.into_iter().chain(symbol) {
            assert_eq!(read.err().unwrap_or(0), comes_to, "{byte}");
        }
    }
    // of symbol 0, and between the names, any byte will do
    let [little, big] = both(|edit| {
        let at = edit.symbols.expect("a table").offset as usize;
        edit.bytes[at..at + 24].fill(0xFF);
    });
    assert!(read(&little).is_ok() && read(&big).is_ok());
}

#[test]
fn e24_first_symbol_table() {
    for records in planned(|plan| {
        let more = vec![symbol("other", 2, 3, 0, 8); 3];
        plan.section(".symtab", SYMTAB, Body::Symbols(more)).entry = 7;
        plan.section(".dynsym", 11, Body::Bytes(vec![0; 48]));
    }) {
        assert_eq!(records.expect("it is read").symbols.len(), 2);
    }
    for records in planned(|plan| {
        plan.sections[1].kind = 1;
    }) {
        assert_eq!(records.expect("it is read").symbols, []);
    }
}

#[test]
fn e25_symbol_0() {
    for (size, count) in [(0, 0), (24, 0), (48, 1), (72, 2)] {
        for records in records(|edit| set_in(edit, SYMBOLS, SIZE, size)) {
            assert_eq!(records.symbols.len(), count);
            assert!(records.symbols.iter().zip(1..).all(|(y, k)| y.index == k));
        }
    }
    for size in [1, 23, 25, 71] {
        assert_eq!(set(SYMBOLS, SIZE, size), 26);
    }
}

#[test]
fn e26_types_and_sections_of_symbols() {
    let told = |info: u8, section: u16| {
        planned(|plan| {
            plan.sections[1].body = Body::Symbols(vec![symbol("s", info, section, 0, 0)]);
        })
        .map(|r| {
            let y = r.expect("it is read").symbols.remove(0);
            (y.kind, y.section, y.definition)
        })
    };
    for bind in [0, 0x10, 0x20, 0xF0] {
        assert_eq!(told(bind | 2, 3), [(1, 3, 1); 2]);
        assert_eq!(told(bind | 1, 3), [(2, 3, 1); 2]);
        for kind in [0, 3, 4, 5, 6, 10, 15] {
            assert_eq!(told(bind | kind, 3), [(0, 3, 0); 2]);
        }
    }
    for none in [0, 0xFF00, 0xFFF1, 0xFFF2, 0xFFFF] {
        assert_eq!(told(2, none), [(1, NONE, 0); 2]);
    }
    for absent in [8, 5000, 0xFEFF] {
        assert_eq!(told(1, absent), [(2, absent.into(), 1); 2]);
    }
}

#[test]
fn e27_e28_tables_in_use() {
    let count =
        |change: &dyn Fn(&mut Plan)| planned(change).map(|r| r.map(|r| r.relocations.len()));
    assert_eq!(count(&|_| ()), [Ok(3); 2]);
    assert_eq!(count(&|plan| plan.sections[4].info = 0), [Ok(1); 2]);
    assert_eq!(count(&|plan| plan.sections[4].link = 1), [Ok(1); 2]);
    // without a symbol table those are in use that link to 0
    let without = |link: u32| {
        move |plan: &mut Plan| {
            plan.sections[1].kind = 1;
            plan.sections[4].link = link;
        }
    };
    assert_eq!(count(&without(0)), [Ok(2); 2]);
    assert_eq!(count(&without(2)), [Ok(0); 2]);
    // a plain section's entry size, length and links are free
    for (link, info) in [(2, 0), (1, 0xFFFF_FFFF), (9, 3)] {
        let plain = |plan: &mut Plan| {
            let table = plan.section("", REL, Body::Bytes(vec![1; 7]));
            (table.link, table.info, table.entry) = (link, info, 3);
        };
        assert_eq!(count(&plain), [Ok(3); 2]);
    }
}

#[test]
fn e29_relocated_sections() {
    for target in [STRINGS, SYMBOLS, XDP, DATA, BSS] {
        for records in records(|edit| set_in(edit, REL_XDP, INFO, target.into())) {
            let count = if target == DATA { 3 } else { 2 };
            assert_eq!(relocations(&records, target).len(), count);
        }
    }
    for target in [REL_XDP, RELA_DATA, 8, 9, 0xFFFF_FFFF] {
        assert_eq!(set(REL_XDP, INFO, target.into()), 26);
        let empty = number(|edit| {
            set_in(edit, REL_XDP, INFO, target.into());
            set_in(edit, REL_XDP, SIZE, 0);
        });
        assert_eq!(empty, 26);
    }
}

#[test]
fn e30_whole_entries() {
    for size in [1, 8, 15, 17, 24, 31] {
        assert_eq!(set(REL_XDP, SIZE, size), 26);
    }
    for size in [1, 16, 23] {
        assert_eq!(set(RELA_DATA, SIZE, size), 26);
    }
    assert_eq!(set(REL_XDP, SIZE, 16), 0);
}

#[test]
fn e31_e32_symbols_and_types_of_relocations() {
    for (kind, size) in [
        (1, 64),
        (10, 32),
        (0, 0),
        (2, 0),
        (257, 0),
        (0x0100_000A, 0),
    ] {
        for (symbol, target) in [(0, NONE), (1, 1), (7, 7), (NONE, NONE), (1 << 31, 1 << 31)] {
            for table in [REL, RELA] {
                for records in planned(|plan| {
                    plan.relocations(table, XDP, vec![relocation(5, symbol, kind)]);
                }) {
                    let records = records.expect("it is read");
                    let last = relocations(&records, XDP).last().expect("a relocation");
                    assert_eq!((last.offset, last.symbol, last.size), (5, target, size));
                }
            }
        }
    }
}

#[test]
fn e33_several_tables() {
    for records in planned(|plan| {
        plan.relocations(RELA, XDP, vec![relocation(8, 5, 10), relocation(9, 1, 1)]);
        plan.relocations(REL, XDP, vec![relocation(8, 6, 1)]);
    }) {
        let records = records.expect("it is read");
        let offsets: Vec<(u64, u32)> = relocations(&records, XDP)
            .iter()
            .map(|r| (r.offset, r.symbol))
            .collect();
        assert_eq!(offsets, [(8, 2), (0, 1), (8, 5), (9, 1), (8, 6)]);
        assert_eq!(relocations(&records, DATA).len(), 1);
    }
}

#[test]
fn e34_bytes_as_they_lie() {
    let [little, big] = records(|_| ());
    assert_eq!(data(&little, XDP), data(&big, XDP));
    assert_eq!(name(&little, XDP), name(&big, XDP));
}
