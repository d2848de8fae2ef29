#!/usr/bin/env python3
"""program_names.py ORACLE CRATE: writes CRATE/stdin, names of program sections one a line, and CRATE/stdout, what aya-obj makes of each.

ORACLE is aya-obj built as a program that reads lines 'ELF - 0' under --batch and prints what it parsed of each file, closed by 'end'.
Run at the repository's top:  python3 tools/program_names.py ORACLE crates/test_program_section
A line of stdout is the name, then the variant's number in the crate's order and its two values, or 8 where the crate refuses the name."""
import os
import re
import struct
import subprocess
import sys
import tempfile

BARE = """kprobe kretprobe uprobe uprobe.s uprobe.multi uprobe.multi.s uretprobe uretprobe.s uretprobe.multi uretprobe.multi.s
xdp xdp.frags tp_btf tracepoint tp socket sk_msg sockops classifier lirc_mode2 perf_event raw_tp raw_tracepoint lsm lsm.s lsm_cgroup
fentry fentry.s fexit fexit.s flow_dissector freplace sk_lookup sk_reuseport iter iter.s""".split()
PAIRS = """xdp/cpumap xdp/devmap xdp.frags/cpumap xdp.frags/devmap sk_skb/stream_parser sk_skb/stream_verdict cgroup_skb/ingress
cgroup_skb/egress cgroup/skb cgroup/sysctl cgroup/dev cgroup/getsockopt cgroup/setsockopt cgroup/sock cgroup/post_bind4 cgroup/post_bind6
cgroup/sock_create cgroup/sock_release cgroup/bind4 cgroup/bind6 cgroup/connect4 cgroup/connect6 cgroup/getpeername4 cgroup/getpeername6
cgroup/getsockname4 cgroup/getsockname6 cgroup/sendmsg4 cgroup/sendmsg6 cgroup/recvmsg4 cgroup/recvmsg6 sk_reuseport/migrate""".split()

VARIANTS = """KRetProbe KProbe UProbe URetProbe TracePoint SocketFilter Xdp SkMsg SkSkbStream SockOps SchedClassifier CgroupSkb
CgroupSockAddr CgroupSysctl CgroupSockopt LircMode2 PerfEvent RawTracePoint Lsm LsmCgroup BtfTracePoint FEntry FExit FlowDissector
Extension SkLookup SkReuseport CgroupSock CgroupDevice Iter""".split()
VALUES = {
    "SkSkbStream": ["StreamParser", "StreamVerdict"],
    "CgroupSkb": ["None", "Some(Ingress)", "Some(Egress)"],
    "CgroupSockAddr": """Bind4 Bind6 Connect4 Connect6 GetPeerName4 GetPeerName6 GetSockName4 GetSockName6 UDPSendMsg4 UDPSendMsg6
UDPRecvMsg4 UDPRecvMsg6""".split(),
    "CgroupSockopt": ["Get", "Set"],
    "SkReuseport": ["Select", "SelectOrMigrate"],
    "CgroupSock": ["PostBind4", "PostBind6", "SockCreate", "SockRelease"],
    "Xdp": ["Interface", "CpuMap", "DevMap"],
}


def near(name):
    """The name and its near misses."""
    first, cut, second = name.partition("/")
    yield from (name, name + "x", name[:-1], name[1:], name[:-1] + "~", "~" + name[1:], name + "/", name + "/x", name + "/x/y", name + "//")
    yield from ("/" + name, name + ".", name + ".s", name + " ", " " + name, name.upper(), name + "/" + "p" * 70)
    if cut:
        yield from (first, first + "/", first + "//" + second, first + "x/" + second, first[:-1] + "/" + second, first + "." + second)
        yield from (second, first + "/" + second[1:], first + "/" + second + "/" + second)


def names():
    yield from ("", "/", "//", "x", "x/", "\x01", "\x7f", "cgroup", "cgroup/", "cgroup//", "sk_skb", "sk_skb/", "cgroup_skb", "cgroup_skb/")
    yield from ("xdp/", "cgroup/skb/", "xdp/cpumap/x", "kprobe/a/b", "xdp/cpumap/devmap", "tc", "tcx/ingress", "tcx/egress", "netkit/peer")
    for name in BARE + PAIRS:
        yield from near(name)
    for first in BARE + ["cgroup", "cgroup_skb", "sk_skb"]:
        for second in ("cpumap", "stream_verdict", "ingress", "skb", "sock", "migrate"):
            yield first + "/" + second
    # lengths about 20 and 40
    for n in (15, 16, 17, 18, 19, 20, 21, 39, 40, 41, 200):
        yield from ("a" * n, "cgroup/" + "a" * n, "kprobe" + "/" * n, "xdp" + "/" * n, "xdp/cpumap" + "/" * n, "cgroup/sock" + "a" * n)
        yield from ("sk_skb/stream_verdict/" + "a" * n, "uretprobe.multi.s/" + "a" * n, "uretprobe.multi.s" + "a" * n)


def elf(name):
    """An object with one text section of this name, which holds one function of 8 bytes."""
    strings = b"\0f\0" + name.encode("latin-1") + b"\0.symtab\0.strtab\0"
    at = lambda word: strings.index(b"\0" + word + b"\0") + 1
    symbols = struct.pack("<IBBHQQ", 0, 0, 0, 0, 0, 0) + struct.pack("<IBBHQQ", 1, 0x12, 0, 1, 0, 8)
    code = b"\x95" + bytes(7)
    strings += bytes(-len(strings) % 8)
    base = 64 + len(code)
    header = lambda n, kind, flags, offset, size, link=0, info=0, entry=0: struct.pack(
        "<IIQQQQIIQQ", n, kind, flags, 0, offset, size, link, info, 8, entry
    )
    table = bytes(64) + header(3, 1, 6, 64, len(code))
    table += header(at(b".symtab"), 2, 0, base, len(symbols), 3, 1, 24) + header(at(b".strtab"), 3, 0, base + len(symbols), len(strings))
    ident = b"\x7fELF\x02\x01\x01" + bytes(9)
    start = base + len(symbols) + len(strings)
    head = ident + struct.pack("<HHIQQQIHHHHHH", 1, 247, 1, 0, 0, start, 0, 64, 0, 0, 64, 4, 3)
    return head + code + symbols + strings + table


def value(variant, text):
    return {"false": 0, "true": 1}[text] if text in ("false", "true") else VALUES[variant].index(text)


def answer(lines):
    programs = [line.split() for line in lines if line.startswith("program ")]
    if not programs:
        if len(lines) != 2 or not lines[0].startswith("error InvalidProgramSection"):
            raise SystemExit("what the crate says is neither a program nor an unknown name: %r" % lines)
        return "8"
    [[_, _, text, _, _]] = programs
    variant, _, fields = text.partition("{")
    values = [value(variant, v) for v in re.findall(r":([^,}]+)", fields)]
    return " ".join(str(n) for n in [VARIANTS.index(variant)] + (values + [0, 0])[:2])


def main():
    if len(sys.argv) != 3:
        print(__doc__)
        return 2
    oracle, crate = sys.argv[1:]
    listed = list(dict.fromkeys(names()))
    with tempfile.TemporaryDirectory() as folder:
        paths = [os.path.join(folder, "%d.o" % k) for k in range(len(listed))]
        for path, name in zip(paths, listed):
            with open(path, "wb") as f:
                f.write(elf(name))
        lines = "".join(path + " - 0\n" for path in paths)
        out = subprocess.run([oracle, "--batch"], input=lines, stdout=subprocess.PIPE, text=True, check=True).stdout
    dumps = [dump.split("\n") for dump in out.split("end\n")[:-1]]
    if len(dumps) != len(listed):
        raise SystemExit("%d names and %d answers" % (len(listed), len(dumps)))
    with open(os.path.join(crate, "stdin"), "w", encoding="latin-1", newline="\n") as f:
        f.writelines(name + "\n" for name in listed)
    with open(os.path.join(crate, "stdout"), "w", encoding="latin-1", newline="\n") as f:
        f.writelines(name + " " + answer([line for line in dump if line]) + "\n" for name, dump in zip(listed, dumps))
    print("%d names" % len(listed))
    return 0


sys.exit(main())
