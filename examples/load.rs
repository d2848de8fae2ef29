// load FILE: loads an ELF file or a deposit with the static library, and prints its programs, functions and maps. Build it at the repository's top:
//     ./staticlib && rustc -O examples/load.rs -L target/staticlib -l static=buncoyew
use std::process::exit;

// The types and calls of include/buncoyew.h; a range is [at, length].
#[repr(C)]
#[derive(Clone, Copy, Default)]
struct Function {
    section: u32,
    address: u64,
    offset: u64,
    name: [u64; 2],
    code: [u64; 2],
}

#[repr(C)]
#[derive(Default)]
struct Answer {
    number: u32,
    section: u32,
    symbol: u32,
    order: u32,
    entry: u64,
    versioned: u32,
    version: u32,
    license: u64,
    sections: u64,
    programs: u64,
    functions: u64,
    maps: u64,
    relocations: u64,
    bytes: u64,
}

#[rustfmt::skip]
extern "C" {
    fn buncoyew_load(
        deposit: *const u8, _: usize, entries: *const u64, _: usize, patches: *const u8, _: usize, rewrite: bool,
        sections: *mut u64, _: usize, programs: *mut u64, _: usize, functions: *mut Function, _: usize,
        maps: *mut u64, _: usize, relocations: *mut u64, _: usize, bytes: *mut u8, _: usize, answer: *mut Answer);
    fn buncoyew_load_elf(
        file: *const u8, _: usize, entries: *const u64, _: usize, patches: *const u8, _: usize, rewrite: bool,
        sections: *mut u64, _: usize, programs: *mut u64, _: usize, functions: *mut Function, _: usize,
        maps: *mut u64, _: usize, relocations: *mut u64, _: usize, bytes: *mut u8, _: usize, answer: *mut Answer);
    fn buncoyew_find(functions: *const Function, _: usize, count: usize, section: u32, address: u64) -> u64;
}

#[rustfmt::skip]
fn main() {
    let Some(path) = std::env::args().nth(1) else { eprintln!("usage: load FILE"); exit(2) };
    let input = std::fs::read(&path).unwrap_or_else(|e| { eprintln!("{path}: {e}"); exit(2) });
    // A symbol has 24 bytes in a file and 40 in a deposit, a section more, so there are at most so many rows; relocations and bytes can be more.
    let rows = input.len() / 24;
    let (mut sections, mut programs, mut functions) = (vec![0; rows * 4], vec![0; rows * 7], vec![Function::default(); rows]);
    let (mut maps, mut relocations, mut bytes) = (vec![0; rows * 27], vec![0; rows * 4], vec![0; input.len() * 8]);
    let (entries, patches, mut a) = ([], [], Answer::default());
    let load = if input.starts_with(b"\x7fELF") { buncoyew_load_elf } else { buncoyew_load };
    // SAFETY: each pointer is a slice's, with its length, and what is lent to be written is lent once.
    unsafe {
        load(input.as_ptr(), input.len(), entries.as_ptr(), 0, patches.as_ptr(), 0, true,
            sections.as_mut_ptr(), sections.len(), programs.as_mut_ptr(), programs.len(), functions.as_mut_ptr(), functions.len(),
            maps.as_mut_ptr(), maps.len(), relocations.as_mut_ptr(), relocations.len(), bytes.as_mut_ptr(), bytes.len(), &mut a);
    }
    if a.number != 0 {
        println!("refused {} {} {}", a.number, a.section, a.symbol);
        exit(1);
    }
    let text = |at: u64, length: u64| bytes[at as usize..][..length as usize].escape_ascii();
    println!("license {}", text(0, a.license));
    for p in programs.chunks(7).take(a.programs as usize) {
        // SAFETY: the slice's pointer, with its length.
        let row = unsafe { buncoyew_find(functions.as_ptr(), functions.len(), a.functions as usize, p[5] as u32, p[6]) };
        println!("program {} variant {} ({}, {}), function {row}", text(p[0], p[1]), p[2], p[3], p[4]);
    }
    for f in &functions[..a.functions as usize] {
        let name = text(f.name[0], f.name[1]);
        println!("function {name} section {}, address {}, {} instructions", f.section, f.address, f.code[1] / 8);
    }
    for m in maps.chunks(27).take(a.maps as usize) {
        print!("map {} section {}, type {}, key {}, value {}", text(m[0], m[1]), m[2], m[7], m[8], m[9]);
        println!(", {} entries, {} bytes", m[10], m[6]);
    }
}
