//! Objects that the benchmark makes.
use crate::case::{Extent, Records, SectionRecord, SymbolRecord};
use crate::parsing::TEXT;

pub fn name(records: &mut Records, name: &str) -> Extent {
    let at = records.names.len() as u32;
    records.names.extend(name.as_bytes());
    Extent {
        at,
        length: name.len() as u32,
    }
}

pub fn data(records: &mut Records, data: &[u8]) -> Extent {
    let at = records.data.len() as u32;
    records.data.extend(data);
    Extent {
        at,
        length: data.len() as u32,
    }
}

/// A section with a name and data that stand already.
pub fn section(records: &mut Records, name: Extent, mark: u32, bytes: Extent) {
    records.sections.push(SectionRecord {
        index: records.sections.len() as u32 + 1,
        mark,
        name,
        size: u64::from(bytes.length),
        bytes,
        ..Default::default()
    });
}

/// A section of its own name and data.
pub fn own_section(records: &mut Records, called: &str, mark: u32, bytes: &[u8]) {
    let (name, bytes) = (name(records, called), data(records, bytes));
    section(records, name, mark, bytes);
}

/// A defined text symbol of the last section.
pub fn function(records: &mut Records, name: Extent, address: u64, size: u64) {
    records.symbols.push(SymbolRecord {
        index: records.symbols.len() as u32 + 1,
        section: records.sections.len() as u32,
        name,
        address,
        size,
        kind: TEXT,
        definition: 1,
    });
}

fn own_function(records: &mut Records, called: &str, address: u64) {
    let name = name(records, called);
    function(records, name, address, 8);
}

/// One section of functions of one instruction, at these slots in symbol order.
pub fn functions(section: &str, slots: &[u64]) -> Records {
    let mut records = Records::default();
    own_section(&mut records, section, 1, &vec![0x95; 8 * slots.len()]);
    for (k, slot) in slots.iter().enumerate() {
        own_function(&mut records, &format!("function_{k}"), 8 * slot);
    }
    records
}

pub fn rising(count: u64) -> Vec<u64> {
    (0..count).collect()
}

pub fn falling(count: u64) -> Vec<u64> {
    (0..count).rev().collect()
}

pub fn mixed(count: u64) -> Vec<u64> {
    (0..count).map(|k| k * 40503 % count).collect()
}

pub fn program_sections(count: u64) -> Records {
    let mut records = Records::default();
    for k in 0..count {
        own_section(&mut records, &format!("kprobe/do_{k}"), 1, &[0x95; 64]);
        own_function(&mut records, &format!("program_{k}"), 0);
    }
    records
}

pub fn data_section(length: u64) -> Records {
    let mut records = Records::default();
    own_section(&mut records, ".data", 0, &vec![7; length as usize]);
    records
}
