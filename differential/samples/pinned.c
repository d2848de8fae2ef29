// A pinned legacy map. For little-endian objects only: of a big one the crate reads the pinning as 0x01000000, which is undefined there.
#include "meter.h"
struct map SEC("maps") shared = {2, 4, 8, 16, 0, 12, 1};
SEC("xdp") int pass(void *c) {
    u32 key = 0;
    return map_lookup(&shared, &key) ? 1 : 2;
}
