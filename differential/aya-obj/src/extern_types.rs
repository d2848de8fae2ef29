//! Stands in for the crate's src/extern_types.rs: what btf.rs and relocation.rs name, and the call that obj.rs makes where there is a `.BTF`.
//! It collects nothing: objects whose BTF has `.ksyms` cannot be compared.
use crate::{Object, btf::BtfError, util::HashMap};

#[derive(Debug, Clone)]
pub(crate) struct ExternDesc {
    pub(crate) is_weak: bool,
    pub(crate) is_resolved: bool,
    pub(crate) kernel_btf_id: Option<u32>,
    pub(crate) ksym_addr: Option<u64>,
}

#[derive(Debug, Clone, Default)]
pub(crate) struct ExternCollection {
    pub(crate) externs: HashMap<String, ExternDesc>,
    pub(crate) datasec_id: Option<u32>,
    pub(crate) ksym_func_placeholder_id: Option<u32>,
}

impl ExternCollection {
    pub(crate) fn new() -> Self {
        Self::default()
    }

    pub(crate) fn is_empty(&self) -> bool {
        self.externs.is_empty()
    }

    pub(crate) fn iter(&self) -> impl Iterator<Item = (&String, &ExternDesc)> {
        self.externs.iter()
    }
}

impl Object {
    pub(crate) fn collect_ksyms_from_btf(&mut self) -> Result<(), BtfError> {
        Ok(())
    }
}
