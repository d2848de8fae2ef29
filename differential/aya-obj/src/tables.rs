//! A parsed object's tables, in plain data: each by its key, and numbers as docs/CATALOGUE.md has them.
use std::{collections::BTreeMap, ptr};

use object::Endianness;

use crate::{
    EbpfSectionKind, Function, Map, Object, Program, ProgramSection, generated::bpf_insn,
    maps::bpf_map_def, programs::CgroupSkbAttachType,
};

#[derive(Debug)]
pub struct Tables {
    pub big_endian: bool,
    pub license: Vec<u8>,
    pub version: Option<u32>,
    /// By name: index, size.
    pub sections: BTreeMap<String, (u64, u64)>,
    /// By name: variant with its two values, section, address.
    pub programs: BTreeMap<String, ([u64; 3], u64, u64)>,
    /// By section and address: offset, name, code.
    pub functions: BTreeMap<(u64, u64), (u64, String, Vec<u8>)>,
    /// By name.
    pub maps: BTreeMap<String, MapRow>,
    /// By section and offset: size, symbol.
    pub relocations: BTreeMap<(u64, u64), (u64, u64)>,
}

#[derive(Debug)]
pub struct MapRow {
    pub section: u64,
    pub kind: u64,
    pub symbol: Option<u64>,
    pub words: [u32; 7],
    pub own: Vec<u8>,
}

impl Tables {
    /// Panics on a map described by BTF, which document 01 doesn't have.
    pub(crate) fn of(object: Object) -> Self {
        Self {
            big_endian: object.endianness == Endianness::Big,
            license: object.license.into_bytes(),
            version: object.kernel_version,
            sections: object
                .section_infos
                .into_iter()
                .map(|(name, (index, size))| (name, (index.0 as u64, size)))
                .collect(),
            programs: object
                .programs
                .into_iter()
                .map(|(name, p)| (name, program(&p)))
                .collect(),
            functions: object
                .functions
                .into_iter()
                .map(|((section, address), f)| ((section as u64, address), function(f)))
                .collect(),
            maps: object
                .maps
                .into_iter()
                .map(|(name, map)| (name, map_row(map)))
                .collect(),
            relocations: object
                .relocations
                .into_iter()
                .flat_map(|(section, table)| {
                    table.into_iter().map(move |(offset, r)| {
                        (
                            (section.0 as u64, offset),
                            (u64::from(r.size), r.symbol_index as u64),
                        )
                    })
                })
                .collect(),
        }
    }
}

fn program(p: &Program) -> ([u64; 3], u64, u64) {
    (variant(&p.section), p.section_index as u64, p.address)
}

fn function(f: Function) -> (u64, String, Vec<u8>) {
    let code = f.instructions.iter().flat_map(instruction_bytes).collect();
    (f.section_offset as u64, f.name, code)
}

fn instruction_bytes(i: &bpf_insn) -> [u8; 8] {
    let [o0, o1] = i.off.to_le_bytes();
    let [i0, i1, i2, i3] = i.imm.to_le_bytes();
    [
        i.code,
        i.dst_reg() | i.src_reg() << 4,
        o0,
        o1,
        i0,
        i1,
        i2,
        i3,
    ]
}

fn map_row(map: Map) -> MapRow {
    let Map::Legacy(map) = map else {
        panic!("a map described by BTF");
    };
    MapRow {
        section: map.section_index as u64,
        kind: kind(map.section_kind),
        symbol: map.symbol_index.map(|i| i as u64),
        words: words(&map.def),
        own: map.data,
    }
}

fn kind(kind: EbpfSectionKind) -> u64 {
    match kind {
        EbpfSectionKind::Maps => 1,
        EbpfSectionKind::Data => 4,
        EbpfSectionKind::Rodata => 5,
        EbpfSectionKind::Bss => 6,
        other => panic!("a map of a section of kind {other:?}"),
    }
}

/// By its bytes: the crate makes `pinning` from any number, and one that is no `PinningType` must not be looked at.
fn words(def: &bpf_map_def) -> [u32; 7] {
    const { assert!(size_of::<bpf_map_def>() == size_of::<[u32; 7]>()) };
    unsafe { ptr::from_ref(def).cast::<[u32; 7]>().read() }
}

fn variant(section: &ProgramSection) -> [u64; 3] {
    use ProgramSection as S;
    match *section {
        S::KRetProbe => [0, 0, 0],
        S::KProbe => [1, 0, 0],
        S::UProbe { sleepable, multi } => [2, sleepable.into(), multi.into()],
        S::URetProbe { sleepable, multi } => [3, sleepable.into(), multi.into()],
        S::TracePoint => [4, 0, 0],
        S::SocketFilter => [5, 0, 0],
        S::Xdp { frags, attach_type } => [6, frags.into(), attach_type as u64],
        S::SkMsg => [7, 0, 0],
        S::SkSkbStream { kind } => [8, kind as u64, 0],
        S::SockOps => [9, 0, 0],
        S::SchedClassifier => [10, 0, 0],
        S::CgroupSkb { attach_type: None } => [11, 0, 0],
        S::CgroupSkb {
            attach_type: Some(CgroupSkbAttachType::Ingress),
        } => [11, 1, 0],
        S::CgroupSkb {
            attach_type: Some(CgroupSkbAttachType::Egress),
        } => [11, 2, 0],
        S::CgroupSockAddr { attach_type } => [12, attach_type as u64, 0],
        S::CgroupSysctl => [13, 0, 0],
        S::CgroupSockopt { attach_type } => [14, attach_type as u64, 0],
        S::LircMode2 => [15, 0, 0],
        S::PerfEvent => [16, 0, 0],
        S::RawTracePoint => [17, 0, 0],
        S::Lsm { sleepable } => [18, sleepable.into(), 0],
        S::LsmCgroup => [19, 0, 0],
        S::BtfTracePoint => [20, 0, 0],
        S::FEntry { sleepable } => [21, sleepable.into(), 0],
        S::FExit { sleepable } => [22, sleepable.into(), 0],
        S::FlowDissector => [23, 0, 0],
        S::Extension => [24, 0, 0],
        S::SkLookup => [25, 0, 0],
        S::SkReuseport { attach_type } => [26, attach_type as u64, 0],
        S::CgroupSock { attach_type } => [27, attach_type as u64, 0],
        S::CgroupDevice => [28, 0, 0],
        S::Iter { sleepable } => [29, sleepable.into(), 0],
    }
}
