//! A file in words.
use std::fmt::Write;

use crate::rules::piece;

use super::edit::{ENTRY, Edit, SHNUM, SHSTRNDX};
use super::read::{File, HEAD, Header, SYMBOL};

/// Sections and entries past these are not told.
const MOST: usize = 40;

pub fn told(bytes: &[u8]) -> String {
    if bytes.len() < HEAD {
        return format!("a file of {} bytes: {bytes:02x?}\n", bytes.len());
    }
    let (file, edit) = (File::of(bytes), Edit::of(bytes.to_vec()));
    let order = if file.big { "big" } else { "little" };
    let mut out = format!(
        "a file of {} bytes, {order}-endian, e_shoff {}, e_shnum {}, e_shstrndx {}, its header {:02x?}\n",
        bytes.len(),
        file.headers_at,
        edit.get(0, SHNUM),
        edit.get(0, SHSTRNDX),
        &bytes[..HEAD]
    );
    for x in file.sections.iter().take(MOST) {
        section(&mut out, &file, &edit, x);
    }
    out
}

fn section(out: &mut String, file: &File, edit: &Edit, x: &Header) {
    let name = edit.name(x);
    let name = String::from_utf8_lossy(&name[..name.len().min(MOST)]);
    let Header {
        index,
        kind,
        flags,
        address,
        offset,
        size,
        link,
        info,
        ..
    } = x;
    let entry = edit.get(x.at, ENTRY);
    let _ = writeln!(
        out,
        "section {index} {name:?} type {kind} flags {flags:#x} address {address} offset {offset} size {size} link {link} info {info} entry size {entry}"
    );
    if file.symbols().is_some_and(|y| y.index == *index) {
        entries(out, edit, x, "symbol", SYMBOL);
    } else if file.relocations().any(|y| y.index == *index) {
        entries(out, edit, x, "relocation", x.entry_size());
    }
}

fn entries(out: &mut String, edit: &Edit, x: &Header, what: &str, width: u64) {
    let data = piece(&edit.bytes, x.data());
    for (k, entry) in data.chunks(width as usize).enumerate().take(MOST) {
        let _ = writeln!(out, "  {what} {k}: {entry:02x?}");
    }
}
