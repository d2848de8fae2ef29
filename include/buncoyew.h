/* Buncoyew's load calls, and the look-up in a function table. `./staticlib` writes target/staticlib/libbuncoyew.a.
 * docs/CATALOGUE.md sets out every element that a load writes, the patch list, and how much stack a call takes. */
#ifndef BUNCOYEW_H
#define BUNCOYEW_H

#include <stdbool.h>
#include <stddef.h>
#include <stdint.h>

#ifdef __cplusplus
extern "C" {
#endif

/* A range of the lent bytes. */
typedef struct buncoyew_range {
    uint64_t at;
    uint64_t length;
} buncoyew_range;

/* A row of the function table; the code has eight bytes an instruction. */
typedef struct buncoyew_function {
    uint32_t section;
    uint64_t address;
    uint64_t offset;
    buncoyew_range name;
    buncoyew_range code;
} buncoyew_function;

typedef struct buncoyew_answer {
    uint32_t number;      /* 0: accepted; else why the input goes back, 1 to 26, and all but the three places is 0 */
    uint32_t section;     /* the section, symbol and patch entry that a refusal names, else 0 */
    uint32_t symbol;
    uint32_t order;       /* 0 little-endian, 1 big-endian */
    uint64_t entry;
    uint32_t versioned;   /* 1: the kernel version is `version`; 0: any will do */
    uint32_t version;
    uint64_t license;     /* the licence's length */
    uint64_t sections;    /* rows of each table */
    uint64_t programs;
    uint64_t functions;
    uint64_t maps;
    uint64_t relocations;
    uint64_t bytes;
} buncoyew_answer;

/* Loads a deposit, and writes every lent element, the answer too. A length counts elements; a row of sections has 4, of programs 7, of maps 27, of
 * relocations 4. No pointer is null, also where its length is 0, and nothing that is written overlaps anything else. */
void buncoyew_load(
    const uint8_t *deposit, size_t deposit_length,
    const uint64_t *entries, size_t entries_length,
    const uint8_t *patches, size_t patches_length,
    bool rewrite,
    uint64_t *sections, size_t sections_length,
    uint64_t *programs, size_t programs_length,
    buncoyew_function *functions, size_t functions_length,
    uint64_t *maps, size_t maps_length,
    uint64_t *relocations, size_t relocations_length,
    uint8_t *bytes, size_t bytes_length,
    buncoyew_answer *answer);

/* The same of an ELF file: a 64-bit relocatable object for BPF, of either byte order, as a compiler writes it. What is not one is 25. */
void buncoyew_load_elf(
    const uint8_t *file, size_t file_length,
    const uint64_t *entries, size_t entries_length,
    const uint8_t *patches, size_t patches_length,
    bool rewrite,
    uint64_t *sections, size_t sections_length,
    uint64_t *programs, size_t programs_length,
    buncoyew_function *functions, size_t functions_length,
    uint64_t *maps, size_t maps_length,
    uint64_t *relocations, size_t relocations_length,
    uint8_t *bytes, size_t bytes_length,
    buncoyew_answer *answer);

/* The row of the function that starts at an address of a section, among the first `count` rows of a loaded table; UINT64_MAX where none does. */
uint64_t buncoyew_find(
    const buncoyew_function *functions, size_t functions_length,
    size_t count, uint32_t section, uint64_t address);

#ifdef __cplusplus
}
#endif

#endif
