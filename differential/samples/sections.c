// Sections by prefix: several data maps and text sections, and names that only begin like the licence and the version.
#include "meter.h"
u32 SEC(".data.rates") rates[3] = {1, 2, 3};
u32 SEC(".data") plain = 4;
const volatile u64 SEC(".rodata.tariff") tariff = 0x1122334455667788;
const char SEC(".rodata") unit[] = "kWh";
u8 SEC(".bss.totals") totals[4000];
u64 zeroed __attribute__((aligned(64)));
u8 note[] SEC("license_note") = "not the licence";
u32 draft SEC("version_draft") = 1;
u32 unnamed SEC("anything") = 5;
SEC(".text.cold") NOINLINE int cold(u32 n) { return n * rates[n % 3]; }
SEC(".text.hot") NOINLINE int hot(u32 n) { return cold(n) + totals[n % 4000]; }
NOINLINE int lukewarm(u32 n) { return hot(n) + tariff; }
SEC("classifier") int classify(u32 *c) { return lukewarm(c[0]) + zeroed + unit[c[1] & 3]; }
SEC("classifier") int again(u32 *c) { return hot(c[1]) + plain; }
