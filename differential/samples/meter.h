// What the samples share: sections, legacy map records, and helpers by their numbers.
typedef unsigned char u8;
typedef unsigned int u32;
typedef unsigned long long u64;
#define SEC(name) __attribute__((section(name), used))
#define NOINLINE __attribute__((noinline))
struct map { u32 type, key_size, value_size, max_entries, map_flags, id, pinning; };
static void *(*map_lookup)(void *, const void *) = (void *)1;
static long (*map_update)(void *, const void *, const void *, u64) = (void *)2;
static long (*probe_read)(void *, u32, const void *) = (void *)4;
static u64 (*ktime)(void) = (void *)5;
static long (*trace_printk)(const char *, u32, ...) = (void *)6;
static u64 (*current_pid)(void) = (void *)14;
static long (*probe_read_user)(void *, u32, const void *) = (void *)112;
static long (*probe_read_kernel)(void *, u32, const void *) = (void *)113;
static long (*probe_read_user_str)(void *, u32, const void *) = (void *)114;
static long (*probe_read_kernel_str)(void *, u32, const void *) = (void *)115;
