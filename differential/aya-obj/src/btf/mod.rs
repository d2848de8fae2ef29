//! Stands in for the crate's src/btf/mod.rs.
#[expect(clippy::module_inception)]
mod btf;
mod info;
mod relocation;
mod types;

pub use btf::*;
pub use info::*;
pub use types::*;
