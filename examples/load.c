/* load FILE: loads an ELF file or a deposit with the static library, and prints its programs, functions and maps. Build it at the repository's top:
 *     ./staticlib && cc -Iinclude examples/load.c target/staticlib/libbuncoyew.a -o load */
#include <inttypes.h>
#include <stdio.h>
#include <stdlib.h>
#include <string.h>

#include "buncoyew.h"

enum { SECTION = 4, PROGRAM = 7, MAP = 27, RELOCATION = 4 };

static void fail(const char *what) {
    perror(what);
    exit(2);
}

static void *room(size_t count, size_t size) {
    void *room = calloc(count + 1, size);
    if (room == NULL) fail("load");
    return room;
}

static uint8_t *contents(const char *path, size_t *length) {
    FILE *file = fopen(path, "rb");
    if (file == NULL || fseek(file, 0, SEEK_END) != 0) fail(path);
    long end = ftell(file);
    if (end < 0) fail(path);
    rewind(file);
    uint8_t *data = room(end, 1);
    *length = fread(data, 1, end, file);
    if (*length != (size_t)end) fail(path);
    fclose(file);
    return data;
}

static void print(const char *what, const uint8_t *bytes, uint64_t at, uint64_t length) {
    printf("%s ", what);
    fwrite(bytes + at, 1, length, stdout);
}

int main(int count, char **words) {
    if (count != 2) {
        fputs("usage: load FILE\n", stderr);
        return 2;
    }
    size_t length;
    uint8_t *input = contents(words[1], &length);
    /* A symbol has 24 bytes in a file and 40 in a deposit, a section more, so there are at most so many rows; relocations and bytes can be more. */
    size_t rows = length / 24, space = length * 8;
    uint64_t *sections = room(rows * SECTION, 8), *programs = room(rows * PROGRAM, 8), *maps = room(rows * MAP, 8);
    uint64_t *relocations = room(rows * RELOCATION, 8), no_entries[1];
    buncoyew_function *functions = room(rows, sizeof *functions);
    uint8_t *bytes = room(space, 1), no_patches[1];
    buncoyew_answer a;
    bool elf = length >= 4 && memcmp(input, "\177ELF", 4) == 0;
    (elf ? buncoyew_load_elf : buncoyew_load)(input, length, no_entries, 0, no_patches, 0, true, sections, rows * SECTION, programs, rows * PROGRAM,
        functions, rows, maps, rows * MAP, relocations, rows * RELOCATION, bytes, space, &a);
    if (a.number != 0) {
        printf("refused %" PRIu32 " %" PRIu32 " %" PRIu32 "\n", a.number, a.section, a.symbol);
        return 1;
    }
    print("license", bytes, 0, a.license);
    puts("");
    for (const uint64_t *p = programs; p < programs + a.programs * PROGRAM; p += PROGRAM) {
        uint64_t row = buncoyew_find(functions, rows, a.functions, p[5], p[6]);
        print("program", bytes, p[0], p[1]);
        printf(" variant %" PRIu64 " (%" PRIu64 ", %" PRIu64 "), function %" PRIu64 "\n", p[2], p[3], p[4], row);
    }
    for (const buncoyew_function *f = functions; f < functions + a.functions; f++) {
        print("function", bytes, f->name.at, f->name.length);
        printf(" section %" PRIu32 ", address %" PRIu64 ", %" PRIu64 " instructions\n", f->section, f->address, f->code.length / 8);
    }
    for (const uint64_t *m = maps; m < maps + a.maps * MAP; m += MAP) {
        print("map", bytes, m[0], m[1]);
        printf(" section %" PRIu64 ", type %" PRIu64 ", key %" PRIu64 ", value %" PRIu64, m[2], m[7], m[8], m[9]);
        printf(", %" PRIu64 " entries, %" PRIu64 " bytes\n", m[10], m[6]);
    }
    return 0;
}
