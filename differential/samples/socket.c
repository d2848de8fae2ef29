// Socket filters with the deprecated packet loads, several programs in one section, any version.
#include "meter.h"
u64 load_byte(void *, u64) asm("llvm.bpf.load.byte");
u64 load_half(void *, u64) asm("llvm.bpf.load.half");
u64 load_word(void *, u64) asm("llvm.bpf.load.word");
static u32 ports[4] = {53, 80, 443, 8080};
SEC("socket") int protocol(void *c) { return load_byte(c, 23); }
SEC("socket") int ethertype(void *c) { return load_half(c, 12); }
SEC("socket/dns") int source(void *c) { return load_word(c, 26); }
SEC("socket/dns") int port(void *c) {
    for (int k = 0; k < 4; k++)
        if (load_half(c, 36) == ((volatile u32 *)ports)[k])
            return -1;
    return 0;
}
SEC("sk_skb/stream_parser") int parser(void *c) { return 0; }
SEC("sk_skb/stream_verdict") int verdict(void *c) { return 1; }
SEC("sk_msg") int message(void *c) { return 1; }
SEC("sockops") int operations(void *c) { return 0; }
SEC("sk_reuseport/migrate") int reuse(void *c) { return 1; }
SEC("sk_lookup/any") int lookup(void *c) { return 1; }
u32 kernel SEC("version") = 0xFFFFFFFE;
