/* What the examples about addresses share: the file, the addresses of the command line, and the lines of a frame. */
#ifndef ADDRESSES_H
#define ADDRESSES_H
#include "pdb.h"
#include "text.h"
#include <stdio.h>
#include <stdlib.h>
#include <string.h>

static inline void *room(size_t n) {
    void *p = malloc(n ? n : 1);
    if (!p) exit(5);
    return p;
}

static inline void name(const uint8_t *names, uint32_t has, size_t at, size_t size) {
    if (has) put(names + at, size);
    else PUT("??");
}

/* The two lines of a frame. */
static inline void frame(const pdb_frame *row, const uint8_t *names) {
    name(names, row->has_name, row->name_at, row->name_size);
    PUT("\n");
    name(names, row->has_file, row->file_at, row->file_size);
    PUT(":");
    decimal(row->line);
    PUT(":");
    decimal(row->column);
    PUT("\n");
}

/* Whether an argument is an address, and which. */
static inline _Bool asked(const char *word, pdb_address *a) {
    const char *colon = strchr(word, ':');
    char section[5] = "";
    uint32_t number = 0;
    if (!colon) {
        *a = (pdb_address){0, 0, PDB_ADDRESS};
        return number_of(word + 2 * (word[0] == '0' && (word[1] | 32) == 'x'), 16, 8, &a->offset);
    }
    if (colon - word >= (long)sizeof section) return 0;
    memcpy(section, word, (size_t)(colon - word));
    *a = (pdb_address){0, 0, PDB_PLACE};
    if (!number_of(section, 16, 4, &number) || !number_of(colon + 1, 16, 8, &a->offset)) return 0;
    a->section = (uint16_t)number;
    return 1;
}

/* The addresses that arguments are; null where one is none, which is then told. */
static inline pdb_address *all_asked(const char *program, char **words, size_t count) {
    pdb_address *addresses = room(count * sizeof *addresses);
    for (size_t k = 0; k < count; k++) {
        if (asked(words[k], &addresses[k])) continue;
        fprintf(stderr, "%s: not an address: %s\n", program, words[k]);
        free(addresses);
        return 0;
    }
    return addresses;
}

/* The bytes of a file; null where it can't be read, which is then told. */
static inline uint8_t *read_file(const char *program, const char *path, size_t *size) {
    FILE *in = fopen(path, "rb");
    long end = !in || fseek(in, 0, SEEK_END) ? -1 : ftell(in);
    uint8_t *file = end < 0 ? 0 : room((size_t)end);
    if (in) rewind(in);
    if (file && fread(file, 1, (size_t)end, in) != (size_t)end) {
        free(file);
        file = 0;
    }
    if (in) fclose(in);
    if (!file) fprintf(stderr, "%s: %s: cannot read file\n", program, path);
    *size = (size_t)end;
    return file;
}

/* The status of an error, which is told where it isn't out of memory. */
static inline int status_of(pdb_code code) {
    if (code == PDB_OUT_OF_MEMORY) return 5;
    fprintf(stderr, "cannot open: %u\n", code);
    return 4;
}

/* What a call gave: rows, and the names in them. */
struct found {
    void *rows;
    uint8_t *names;
    size_t count;
};

/* Frees what a call gave. */
static inline void drop(struct found *found) {
    free(found->rows);
    free(found->names);
}

/* The frames of addresses. Room that isn't filled is none of the machine's: ask for much, so that the file is read once. */
static inline pdb_code frames_of(const uint8_t *file, size_t size, const pdb_address *addresses, size_t n, struct found *found) {
    size_t most = 16 * n + 16, most_bytes = 1024 * n + 1024, bytes;
    found->rows = room(most * sizeof(pdb_frame));
    found->names = room(most_bytes);
    pdb_code code = pdb_frames(file, size, addresses, n, found->rows, most, &found->count, found->names, most_bytes, &bytes);
    if (code != PDB_ROOM) return code;
    drop(found);
    found->rows = room(found->count * sizeof(pdb_frame));
    found->names = room(bytes);
    return pdb_frames(file, size, addresses, n, found->rows, found->count, &found->count, found->names, bytes, &bytes);
}

#endif
