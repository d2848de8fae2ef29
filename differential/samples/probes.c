// Times a call by process: legacy maps with records of 20, 28 and 36 bytes, the helpers that rewriting looks for, a version.
#include "meter.h"
struct short_map { u32 type, key_size, value_size, max_entries, map_flags; };
struct long_map { struct map map; u32 inner, numa; };
struct map SEC("maps") started = {1, 8, 8, 4096, 0, 7, 0};
struct short_map SEC("maps") spent = {5, 4, 8, 64, 1};
struct long_map SEC("maps/long") names = {{2, 4, 16, 8, 0, 0, 0}, 3, 9};
SEC("kprobe/vfs_read") int entered(void *c) {
    u64 pid = current_pid(), now = ktime();
    return map_update(&started, &pid, &now, 0);
}
SEC("kretprobe/vfs_read") int left(void *c) {
    u64 pid = current_pid(), *since = map_lookup(&started, &pid);
    u32 slot = since ? (ktime() - *since) & 63 : 0;
    u64 *sum = map_lookup(&spent, &slot);
    if (sum)
        __sync_fetch_and_add(sum, 1);
    return 0;
}
SEC("uprobe.s//bin/true:main") int started_up(void *c) {
    char name[16] = "";
    u32 slot = 0;
    probe_read_user_str(name, 16, c);
    probe_read_user(name, 8, c);
    return map_update(&names, &slot, name, 0);
}
SEC("tp/sched/sched_exec") int executed(void *c) {
    char name[16] = "";
    probe_read(name, 4, c);
    probe_read_kernel(name + 4, 4, c);
    return probe_read_kernel_str(name + 8, 8, c);
}
char licence[] SEC("license") = "GPL";
u32 kernel SEC("version") = 0x0006010C;
