// Counts frames by size: globals in .data, .rodata and .bss, and functions in .text that call each other.
#include "meter.h"
struct frame { u32 data, data_end; };
volatile u32 limit = 1500;
volatile const u32 step = 64;
volatile u64 frames, octets, sizes[24];
static NOINLINE u32 bucket(u32 size) { return step ? size / step : 0; }
NOINLINE int count(u32 size) {
    u32 b = bucket(size);
    frames += 1;
    octets += size;
    if (b < 24)
        sizes[b] += 1;
    return size <= limit;
}
SEC("xdp") int ingress(struct frame *f) { return count(f->data_end - f->data) ? 2 : 1; }
SEC("xdp/devmap") int forwarded(struct frame *f) { return bucket(f->data_end - f->data) ? 2 : 1; }
char licence[] SEC("license") = "Dual BSD/GPL";
