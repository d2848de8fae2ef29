// Programs of a control group that share one function in .text and one legacy map.
#include "meter.h"
struct map SEC("maps") uses = {1, 4, 8, 256, 0, 0, 0};
static NOINLINE int used(u32 kind) {
    u64 one = 1, *count = map_lookup(&uses, &kind);
    if (count)
        *count += 1;
    else
        map_update(&uses, &kind, &one, 1);
    return 1;
}
#define PROGRAM(section, name, kind) SEC(section) int name(void *c) { return used(kind); }
PROGRAM("cgroup_skb/ingress", in, 1)
PROGRAM("cgroup_skb/egress", out, 2)
PROGRAM("cgroup/skb", packet, 3)
PROGRAM("cgroup/sock", created, 4)
PROGRAM("cgroup/sock_release", released, 5)
PROGRAM("cgroup/post_bind6", bound, 6)
PROGRAM("cgroup/bind4", binds, 7)
PROGRAM("cgroup/connect6", connects, 8)
PROGRAM("cgroup/sendmsg4", sends, 9)
PROGRAM("cgroup/recvmsg6", receives, 10)
PROGRAM("cgroup/getpeername4", peer, 11)
PROGRAM("cgroup/getsockname6", self, 12)
PROGRAM("cgroup/getsockopt", reads, 13)
PROGRAM("cgroup/setsockopt", sets, 14)
PROGRAM("cgroup/sysctl", tunes, 15)
PROGRAM("cgroup/dev", opens, 16)
PROGRAM("lsm_cgroup/socket_post_create", guards, 17)
