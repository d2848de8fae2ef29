//! aya-obj 0.6.0 as far as docs/src has it: obj.rs, maps.rs, relocation.rs, btf/btf.rs, btf/info.rs and btf/types.rs are the crate's own files,
//! put here unchanged when this is built. The other files stand in for what those lean on; record.rs, tables.rs and places.rs are added.
#![allow(dead_code, unused_imports, unfulfilled_lint_expectations)]
#![allow(non_camel_case_types, non_upper_case_globals)]
// obj.rs calls Option::map_or_default
#![feature(result_option_map_or_default)]

pub mod btf;
mod extern_types;
pub mod generated;
pub mod maps;
pub mod obj;
pub mod places;
pub mod programs;
pub mod record;
pub mod relocation;
pub mod tables;
mod util;

pub use maps::Map;
pub use obj::*;

/// Stands in: `BtfError::LoadError` names it, and nothing here makes one.
#[derive(Debug)]
pub struct VerifierLog(String);

impl std::fmt::Display for VerifierLog {
    fn fmt(&self, f: &mut std::fmt::Formatter<'_>) -> std::fmt::Result {
        f.write_str(&self.0)
    }
}
