/* Holds the values of aya-obj/src/generated.rs to this machine's kernel headers: compiles if they agree. */
#include <linux/bpf.h>
#include <linux/btf.h>
#include <stddef.h>
#define EQ(a,b) _Static_assert((a)==(b), #a)
EQ(BPF_LD,0); EQ(BPF_JMP,5); EQ(BPF_K,0); EQ(BPF_IMM,0); EQ(BPF_DW,0x18); EQ(BPF_CALL,0x80);
EQ(BPF_PSEUDO_MAP_FD,1); EQ(BPF_PSEUDO_MAP_VALUE,2); EQ(BPF_PSEUDO_BTF_ID,3); EQ(BPF_PSEUDO_FUNC,4);
EQ(BPF_PSEUDO_CALL,1); EQ(BPF_PSEUDO_KFUNC_CALL,2); EQ(BPF_F_RDONLY_PROG,128);
EQ(BPF_FUNC_probe_read,4); EQ(BPF_FUNC_probe_read_str,45); EQ(BPF_FUNC_probe_read_user,112);
EQ(BPF_FUNC_probe_read_kernel,113); EQ(BPF_FUNC_probe_read_user_str,114); EQ(BPF_FUNC_probe_read_kernel_str,115);
EQ(BPF_MAP_TYPE_ARRAY,2); EQ(BPF_MAP_TYPE_CGROUP_STORAGE,19); EQ(BPF_MAP_TYPE_RINGBUF,27); EQ(BPF_MAP_TYPE_USER_RINGBUF,31);
EQ(sizeof(struct bpf_insn),8); EQ(offsetof(struct bpf_insn,off),2); EQ(offsetof(struct bpf_insn,imm),4);
EQ(sizeof(struct btf_header),24); EQ(sizeof(struct bpf_func_info),8); EQ(sizeof(struct bpf_line_info),16); EQ(sizeof(struct bpf_core_relo),16);
EQ(BPF_CORE_TYPE_MATCHES,12);
