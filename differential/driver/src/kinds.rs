//! Section kinds by name (document 01, 'What a section is') and the names of program sections.

#[derive(Clone, Copy, Debug, PartialEq, Eq)]
pub enum Kind {
    License,
    Version,
    Maps,
    BtfMaps,
    Text,
    Bss,
    Data,
    Rodata,
    BtfExt,
    Program,
    Other,
}

/// The first that fits decides.
pub const PREFIXES: [(&str, Kind); 8] = [
    ("license", Kind::License),
    ("version", Kind::Version),
    ("maps", Kind::Maps),
    (".maps", Kind::BtfMaps),
    (".text", Kind::Text),
    (".bss", Kind::Bss),
    (".data", Kind::Data),
    (".rodata", Kind::Rodata),
];

pub fn kind(name: &[u8], mark: u32, size: u64) -> Kind {
    if let Some((_, kind)) = PREFIXES
        .iter()
        .find(|(prefix, _)| name.starts_with(prefix.as_bytes()))
    {
        return *kind;
    }
    match name {
        b".BTF.ext" => Kind::BtfExt,
        b".BTF" => Kind::Other,
        _ if mark == 1 && size > 0 => Kind::Program,
        _ => Kind::Other,
    }
}

/// First pieces of a program section's name that decide alone.
pub const ALONE: [&str; 33] = [
    "kprobe",
    "kretprobe",
    "uprobe",
    "uprobe.s",
    "uprobe.multi",
    "uprobe.multi.s",
    "uretprobe",
    "uretprobe.s",
    "uretprobe.multi",
    "uretprobe.multi.s",
    "tp_btf",
    "tracepoint",
    "tp",
    "socket",
    "sk_msg",
    "sockops",
    "classifier",
    "lirc_mode2",
    "perf_event",
    "raw_tp",
    "raw_tracepoint",
    "lsm",
    "lsm.s",
    "lsm_cgroup",
    "fentry",
    "fentry.s",
    "fexit",
    "fexit.s",
    "flow_dissector",
    "freplace",
    "sk_lookup",
    "iter",
    "iter.s",
];

/// First pieces that may also stand without a second one.
pub const BARE: [&str; 3] = ["xdp", "xdp.frags", "sk_reuseport"];

/// First and second piece where the second decides too.
pub const PAIRS: [&str; 31] = [
    "xdp/cpumap",
    "xdp/devmap",
    "xdp.frags/cpumap",
    "xdp.frags/devmap",
    "sk_skb/stream_parser",
    "sk_skb/stream_verdict",
    "cgroup_skb/ingress",
    "cgroup_skb/egress",
    "sk_reuseport/migrate",
    "cgroup/skb",
    "cgroup/sysctl",
    "cgroup/dev",
    "cgroup/getsockopt",
    "cgroup/setsockopt",
    "cgroup/sock",
    "cgroup/post_bind4",
    "cgroup/post_bind6",
    "cgroup/sock_create",
    "cgroup/sock_release",
    "cgroup/bind4",
    "cgroup/bind6",
    "cgroup/connect4",
    "cgroup/connect6",
    "cgroup/getpeername4",
    "cgroup/getpeername6",
    "cgroup/getsockname4",
    "cgroup/getsockname6",
    "cgroup/sendmsg4",
    "cgroup/sendmsg6",
    "cgroup/recvmsg4",
    "cgroup/recvmsg6",
];

/// Whether a program section's name is known (number 8).
pub fn is_program(name: &[u8]) -> bool {
    let has = |names: &[&str], piece: &[u8]| names.iter().any(|n| n.as_bytes() == piece);
    let mut ends = (0..=name.len()).filter(|&k| k == name.len() || name[k] == b'/');
    let first = ends.next().map_or(name, |end| &name[..end]);
    let both = ends.next().map(|end| &name[..end]);
    has(&ALONE, first) || both.map_or(has(&BARE, first), |both| has(&PAIRS, both))
}

#[cfg(test)]
mod tests {
    use super::*;

    #[test]
    fn prefixes_win_over_the_mark() {
        assert_eq!(kind(b"license2", 1, 8), Kind::License);
        assert_eq!(kind(b".maps", 1, 8), Kind::BtfMaps);
        assert_eq!(kind(b".rodata.str", 0, 0), Kind::Rodata);
        assert_eq!(kind(b"licens", 1, 8), Kind::Program);
        assert_eq!(kind(b"xdp", 1, 0), Kind::Other);
        assert_eq!(kind(b"xdp", 0, 8), Kind::Other);
        assert_eq!(kind(b".BTF.ext", 1, 8), Kind::BtfExt);
        assert_eq!(kind(b".BTF", 1, 8), Kind::Other);
    }

    #[test]
    fn program_names_are_cut_at_slashes() {
        for known in [
            "kprobe/a/b",
            "kprobe/",
            "xdp",
            "xdp/cpumap/x",
            "cgroup/sock/",
            "sk_skb/stream_parser/f",
            "tp//",
        ] {
            assert!(is_program(known.as_bytes()), "{known}");
        }
        for unknown in [
            "",
            "/",
            "xdp/",
            "xdp/x",
            "xdp//cpumap",
            "cgroup",
            "cgroup/",
            "sk_skb",
            "kprob",
            "kprobe2",
            "/xdp",
            "sk_reuseport/x",
        ] {
            assert!(!is_program(unknown.as_bytes()), "{unknown}");
        }
        assert!(
            ALONE
                .iter()
                .chain(&BARE)
                .chain(&PAIRS)
                .all(|n| is_program(n.as_bytes()))
        );
    }
}
