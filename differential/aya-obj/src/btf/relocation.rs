//! Stands in for the crate's src/btf/relocation.rs: the record that `BtfExt::parse` reads, and no relocating.
use crate::{btf::BtfError, generated::bpf_core_relo};

/// BPF_CORE_TYPE_MATCHES, the last kind.
const LAST_KIND: u32 = 12;

#[derive(Copy, Clone, Debug)]
pub(crate) struct Relocation {
    kind: u32,
    ins_offset: usize,
    type_id: u32,
    access_str_offset: u32,
    number: usize,
}

impl Relocation {
    pub(crate) unsafe fn parse(data: &[u8], number: usize) -> Result<Self, BtfError> {
        if size_of::<bpf_core_relo>() > data.len() {
            return Err(BtfError::InvalidRelocationInfo);
        }
        let record = unsafe { std::ptr::read_unaligned::<bpf_core_relo>(data.as_ptr().cast()) };
        if record.kind > LAST_KIND {
            return Err(BtfError::InvalidRelocationKind { kind: record.kind });
        }
        Ok(Self {
            kind: record.kind,
            ins_offset: record.insn_off as usize,
            type_id: record.type_id,
            access_str_offset: record.access_str_off,
            number,
        })
    }
}
