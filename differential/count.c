/* count FILE: loads an ELF file or a deposit twice, first into more room than it needs, then into just as much, in `measured`. For valgrind --tool=callgrind
 * --toggle-collect=measured, which counts the instructions of the second load alone. */
#include <stdint.h>
#include <stdio.h>
#include <stdlib.h>
#include <string.h>

#include "buncoyew.h"

static void *room(size_t count, size_t size) {
    void *space = calloc(count + 1, size);
    if (space == NULL) exit(2);
    return space;
}

struct lent {
    uint64_t *sections, *programs, *maps, *relocations;
    buncoyew_function *functions;
    uint8_t *bytes;
    size_t s, p, f, m, r, b;
};

static struct lent lend(size_t s, size_t p, size_t f, size_t m, size_t r, size_t b) {
    struct lent l = {room(s, 8), room(p, 8), room(m, 8), room(r, 8), room(f, sizeof(buncoyew_function)), room(b, 1), s, p, f, m, r, b};
    return l;
}

static void load(const uint8_t *input, size_t length, const struct lent *l, buncoyew_answer *a) {
    uint64_t no_entries[1];
    uint8_t no_patches[1];
    bool elf = length >= 4 && memcmp(input, "\177ELF", 4) == 0;
    (elf ? buncoyew_load_elf : buncoyew_load)(input, length, no_entries, 0, no_patches, 0, false, l->sections, l->s, l->programs, l->p, l->functions, l->f, l->maps, l->m,
        l->relocations, l->r, l->bytes, l->b, a);
}

void measured(const uint8_t *input, size_t length, const struct lent *l, buncoyew_answer *a) {
    load(input, length, l, a);
}

int main(int count, char **words) {
    FILE *file = count == 2 ? fopen(words[1], "rb") : NULL;
    if (file == NULL) return 2;
    static uint8_t input[16777216];
    size_t length = fread(input, 1, sizeof input, file), rows = length / 24;
    struct lent large = lend(rows * 4, rows * 7, rows, rows * 27, rows * 16, length * 16);
    buncoyew_answer a;
    load(input, length, &large, &a);
    if (a.number != 0) return 1;
    struct lent just = lend(a.sections * 4, a.programs * 7, a.functions, a.maps * 27, a.relocations * 4, a.bytes);
    measured(input, length, &just, &a);
    return a.number != 0;
}
