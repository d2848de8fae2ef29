// A meter of received frames: counts them and their bytes, and passes those up to a limit.
#define SEC(name) __attribute__((section(name), used))
struct frame { unsigned int data, data_end; };
volatile unsigned int limit = 1500;
volatile unsigned long long frames, octets;
__attribute__((noinline)) int count(unsigned int size) {
    frames += 1;
    octets += size;
    return size <= limit;
}
SEC("xdp") int meter(struct frame *f) { return count(f->data_end - f->data) ? 2 : 1; }
char licence[] SEC("license") = "GPL";
