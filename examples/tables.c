/* tables FILE COMMAND..: the lines that `pdb_list FILE COMMAND..` has for names, sections and contributions.
 *
 *     cc -Iinclude examples/tables.c c/out/libpdb.a -o tables
 */
#include "pdb.h"
#include "text.h"
#include <stdio.h>
#include <stdlib.h>
#include <string.h>

static uint8_t *file;
static size_t file_size;

static void out_of_memory(void) {
    fputs("out of memory\n", stderr);
    exit(5);
}

static void *room(size_t n) {
    void *p = malloc(n ? n : 1);
    if (!p) out_of_memory();
    return p;
}

static pdb_code memory(pdb_code code) {
    if (code == PDB_OUT_OF_MEMORY) out_of_memory();
    return code;
}

static void error(pdb_code code) {
    if (!code) return;
    PUT("error");
    field(code);
    PUT("\n");
}

static void spaced(uint32_t n) {
    hex(n, 8);
    PUT(" ");
}

/* A call with capacity 0 says how much there is. */
static void names(void) {
    pdb_stream_name none;
    size_t count, size;
    pdb_code code = memory(pdb_stream_names(file, file_size, &none, 0, &count, (uint8_t *)PDB_NOTHING, 0, &size));
    pdb_stream_name *rows = room(count * sizeof *rows);
    uint8_t *bytes = room(size);
    if (code == PDB_ROOM) code = memory(pdb_stream_names(file, file_size, rows, count, &count, bytes, size, &size));
    for (size_t i = 0; i < count; i++) {
        PUT("name");
        if (rows[i].number == PDB_NO_STREAM) PUT(" -");
        else field(rows[i].number);
        PUT(" ");
        put(bytes + rows[i].at, rows[i].size);
        PUT("\n");
    }
    error(code);
    free(bytes);
    free(rows);
}

static void sections(void) {
    pdb_section none;
    size_t count;
    pdb_code code = memory(pdb_sections(file, file_size, &none, 0, &count));
    pdb_section *rows = room(count * sizeof *rows);
    if (code == PDB_ROOM) code = memory(pdb_sections(file, file_size, rows, count, &count));
    for (size_t i = 0; i < count; i++) {
        PUT("section ");
        spaced(rows[i].virtual_size);
        spaced(rows[i].virtual_address);
        spaced(rows[i].size_of_raw_data);
        spaced(rows[i].pointer_to_raw_data);
        spaced(rows[i].characteristics);
        put(rows[i].name, rows[i].name_size);
        PUT("\n");
    }
    if (code == PDB_SECTIONS_NOT_FOUND) PUT("none\n");
    else error(code);
    free(rows);
}

static void contribution(const pdb_contribution *it) {
    PUT("contribution ");
    hex(it->section, 4);
    PUT(":");
    hex(it->offset, 8);
    field(it->size);
    PUT(" ");
    hex(it->characteristics, 8);
    field(it->module);
    PUT(" ");
    spaced(it->data_crc);
    hex(it->reloc_crc, 8);
    PUT("\n");
}

static void contributions(void) {
    uint16_t number = PDB_DBI_STREAM;
    pdb_stream row;
    size_t size, count = 0;
    pdb_code code = memory(pdb_streams(file, file_size, &number, 1, &row, 1, (uint8_t *)PDB_NOTHING, 0, &size));
    uint8_t *dbi = room(size);
    if (code == PDB_ROOM) code = memory(pdb_streams(file, file_size, &number, 1, &row, 1, dbi, size, &size));
    if (!code) code = row.code;
    size_t most = size / 28 + 1;
    pdb_contribution *rows = room(most * sizeof *rows);
    if (!code) code = pdb_contributions(dbi, size, rows, most, &count);
    for (size_t i = 0; i < count; i++) contribution(&rows[i]);
    error(code);
    free(rows);
    free(dbi);
}

/* What prints a command's lines; null for another word. */
static void (*lines_of(const char *word))(void) {
    if (!strcmp(word, "names")) return names;
    if (!strcmp(word, "sections")) return sections;
    return strcmp(word, "contributions") ? 0 : contributions;
}

static _Bool are_commands(int count, char **words) {
    for (int i = 2; i < count; i++)
        if (!lines_of(words[i])) {
            fprintf(stderr, "tables: no command: %s\n", words[i]);
            return 0;
        }
    return count > 2;
}

/* Reads the file; the exit status where it can't be read or opened, or 0. */
static int read_file(const char *path) {
    FILE *in = fopen(path, "rb");
    if (!in) {
        fprintf(stderr, "tables: %s: cannot read file\n", path);
        return 3;
    }
    fseek(in, 0, SEEK_END);
    file_size = (size_t)ftell(in);
    rewind(in);
    file = room(file_size);
    size_t size, got = fread(file, 1, file_size, in);
    fclose(in);
    if (got != file_size) return 3;
    uint16_t no_numbers[1];
    pdb_stream no_rows[1];
    pdb_code code = memory(pdb_streams(file, file_size, no_numbers, 0, no_rows, 0, (uint8_t *)PDB_NOTHING, 0, &size));
    if (code) fprintf(stderr, "cannot open: %u\n", code);
    return code ? 4 : 0;
}

int main(int count, char **words) {
    begin_text();
    if (!are_commands(count, words)) {
        fputs("usage: tables FILE COMMAND.., of names, sections, contributions\n", stderr);
        return 2;
    }
    int status = read_file(words[1]);
    for (int i = 2; i < count && !status; i++) lines_of(words[i])();
    flush();
    free(file);
    return status;
}
