// Calls within .text and between sections, addresses of functions and strings in data, constants in .rodata.str1.1 and .rodata.cst.
#include "meter.h"
typedef int step(u32);
static NOINLINE int odd(u32 n);
static NOINLINE int even(u32 n) { return n == 0 ? 1 : n > 7 ? 2 : odd(n - 1); }
static NOINLINE int odd(u32 n) { return n == 0 ? 0 : n > 7 ? 3 : even(n - 1); }
NOINLINE int both(u32 n) { return even(n) * 4 + odd(n); }
__attribute__((weak, noinline)) int spare(u32 n) { return n + 1; }
step *volatile steps[] = {both, spare};
const char *volatile greeting = "metered";
SEC("raw_tracepoint/a") int first(u32 *c) {
    trace_printk("%d calls", 9, both(c[0]));
    return spare(c[1]);
}
SEC("raw_tracepoint/b") int second(u32 *c) {
    struct { u64 a, b, c, d; } quarter = {1, 2, 3, 4};
    trace_printk("quarters", 9, &quarter);
    return both(c[2]) + (steps[c[3] & 1] != both);
}
char licence[] SEC("license") = "GPL";
