// An object for each refusal that a compiler can be brought to: -DREFUSAL=5 to 16.
#include "meter.h"
#define FUNCTION(name, body, size) asm(".globl " name "\n.type " name ",@function\n" name ":\n" body "\n.size " name "," size);
#define OTHER_SECTION asm(".section xdp,\"ax\",@progbits");
#if REFUSAL == 5
char licence[] SEC("license") = "GPL\0v2";
#elif REFUSAL == 6
char licence[3] SEC("license") = "GPL";
#elif REFUSAL == 7
u64 kernel SEC("version") = 1;
#elif REFUSAL == 8
SEC("xdp/interface") int pass(void *c) { return 2; }
#elif REFUSAL == 9
OTHER_SECTION
asm("exit");
#elif REFUSAL == 10
OTHER_SECTION
FUNCTION("pass", "exit", "16")
#elif REFUSAL == 11
int one(void) { return 1; }
int uno(void) __attribute__((alias("one")));
#elif REFUSAL == 12
FUNCTION("one", "r0 = 1\nexit", "8")
#elif REFUSAL == 13
FUNCTION("one", "r0 = 1\nexit", "0")
#elif REFUSAL == 14
FUNCTION("one", "r0 = 1\nexit", "24")
#elif REFUSAL == 15
FUNCTION("one", "exit\n.long 0", "12")
#elif REFUSAL == 16
struct { u32 type, key_size, value_size, max_entries; } cut SEC("maps") = {1, 4, 8, 16};
#else
#error "REFUSAL is 5 to 16"
#endif
