// Maps in .maps, which BTF describes: made with -g it has BTF, without it nothing says what the maps are.
#include "meter.h"
#define UINT(name, value) int (*name)[value]
#define TYPE(name, type) typeof(type) *name
struct { UINT(type, 1); UINT(max_entries, 128); TYPE(key, u32); TYPE(value, u64); } counts SEC(".maps");
struct { UINT(type, 27); UINT(max_entries, 4096); } ring SEC(".maps");
volatile u32 last = 1;
static NOINLINE u32 next(void) { return last++; }
SEC("tp_btf/sys_enter") int program(void *c) {
    u32 key = next();
    return map_lookup(&counts, &key) != 0;
}
char licence[] SEC("license") = "GPL";
