/* layout FILE INDEX..: of each type its name and its size, and then the lines that `pdb_tool types FILE INDEX..` has for its
 * members. INDEX is hex.
 *
 *     cc -Iinclude examples/layout.c c/out/libpdb.a -o layout
 */
#include "pdb.h"
#include "text.h"
#include <stdio.h>
#include <stdlib.h>
#include <string.h>

static uint8_t *types;
static size_t types_size;

static void out_of_memory(void) {
    fputs("out of memory\n", stderr);
    exit(5);
}

static void *room(size_t n) {
    void *p = malloc(n ? n : 1);
    if (!p) out_of_memory();
    return p;
}

/* Ends the program where the types can't be read. */
static pdb_code known(pdb_code code) {
    pdb_bytes text;
    if (code == PDB_OUT_OF_MEMORY) out_of_memory();
    if (code == PDB_DONE || code == PDB_ROOM) return code;
    pdb_message(code, &text);
    fprintf(stderr, "layout: cannot read the types: %.*s\n", (int)text.size, (const char *)text.data);
    exit(4);
}

/* The names of many types: where each is, and their bytes. */
typedef struct names {
    pdb_type_name_t *rows;
    uint8_t *bytes;
} names;

static names names_of(const uint32_t *indices, size_t count) {
    size_t size;
    names it = {room(count * sizeof *it.rows), 0};
    known(pdb_type_name(types, types_size, indices, count, it.rows, count, (uint8_t *)PDB_NOTHING, 0, &size));
    it.bytes = room(size);
    known(pdb_type_name(types, types_size, indices, count, it.rows, count, it.bytes, size, &size));
    return it;
}

/* A name on one line. */
static void put_name(const uint8_t *bytes, size_t size) {
    for (size_t i = 0; i < size; i++) {
        if (bytes[i] == '\n' || bytes[i] == '\r') PUT(" ");
        else put(bytes + i, 1);
    }
}

static void put_type(const names *it, size_t k) { put_name(it->bytes + it->rows[k].at, it->rows[k].size); }

static void number(const char *name, uint64_t n) {
    word(name);
    decimal(n);
}

/* A number of at most 65 bits with its sign. */
static void value(const char *name, const pdb_member *m) {
    word(name);
    if (m->value_high) PUT("-");
    decimal(m->value_high ? 0 - m->value : m->value);
}

static void put_access(const pdb_member *m) {
    if (m->attributes % 4 == PDB_PRIVATE) PUT(" access=private");
    if (m->attributes % 4 == PDB_PROTECTED) PUT(" access=protected");
}

static void method(const pdb_member *m) {
    static const char *const kinds[] = {"", " kind=virtual", " kind=static", " kind=friend", " kind=virtual", " kind=pure", " kind=pure", ""};
    word(kinds[m->attributes / 4 % 8]);
    if (m->has_value) number(" entry=", m->value);
}

/* What stands before the name of a member, or before its type where it has no name. */
static void front(const pdb_member *m) {
    static const char *const words[] = {"",         "  base",   "  virtual_base", "  indirect_base", "  vftable", "  vftable", "  friend", "  friend",
                                        "  enumerator", "  member", "  static",       "  method",        "  method",  "  nested",  "  <...>",
                                        "  error the list of members continues in itself"};
    word(words[m->form]);
    if (m->form == PDB_BASE_CLASS || m->form == PDB_VIRTUAL_TABLE_OFFSET || m->form == PDB_DATA_MEMBER) value(" offset=", m);
    if (m->form == PDB_ENUMERATOR) value(" value=", m);
    if (m->form == PDB_VIRTUAL_BASE_CLASS || m->form == PDB_INDIRECT_VIRTUAL_BASE_CLASS) {
        value(" vbptr=", m);
        number(" entry=", m->entry);
    }
    if (m->has_bit) number(" bit=", m->bit);
    if (m->form == PDB_MEMBER_FUNCTION) method(m);
    if (m->form != PDB_ENUMERATOR) put_access(m);
}

static void error(const pdb_member *m) {
    pdb_bytes text;
    pdb_message(m->refused, &text);
    number("  error ", m->refused);
    PUT(" ");
    put(text.data, text.size);
    PUT("\n");
}

/* A member, and the name of its type. */
static void member(const pdb_member *m, const names *names, size_t k) {
    _Bool has_name = m->form >= PDB_FRIEND_FUNCTION && m->form < PDB_MORE_MEMBERS;
    _Bool has_type = m->form != PDB_ENUMERATOR && m->form != PDB_UNREAD_FUNCTIONS && m->form < PDB_MORE_MEMBERS;
    if (m->form == 0) {
        error(m);
        return;
    }
    front(m);
    if (has_name || has_type) PUT(" ");
    if (has_name) put_name(m->name.data, m->name.size);
    if (has_name && has_type) PUT(": ");
    if (has_type) put_type(names, k);
    PUT("\n");
}

/* All members in one call, and the names of their types in another. */
static void list(const uint32_t *indices, size_t count) {
    pdb_member none;
    size_t members;
    pdb_type_size_t *sizes = room(count * sizeof *sizes);
    known(pdb_type_size(types, types_size, indices, count, sizes, count));
    known(pdb_members(types, types_size, indices, count, &none, 0, &members));
    pdb_member *rows = room(members * sizeof *rows);
    known(pdb_members(types, types_size, indices, count, rows, members, &members));
    uint32_t *of_members = room(members * sizeof *of_members);
    for (size_t k = 0; k < members; k++) of_members[k] = rows[k].type_index;
    names own = names_of(indices, count), theirs = names_of(of_members, members);
    for (size_t i = 0, k = 0; i < count; i++) {
        put_type(&own, i);
        if (sizes[i].has_size) field(sizes[i].size);
        else PUT(" -");
        PUT("\n");
        for (; k < members && rows[k].owner == i; k++) member(&rows[k], &theirs, k);
    }
    free(own.rows), free(own.bytes), free(theirs.rows), free(theirs.bytes);
    free(of_members), free(rows), free(sizes);
}

/* The types of a file. */
static void read_types(const uint8_t *file, size_t file_size) {
    uint16_t number_of_types = PDB_TYPES_STREAM;
    pdb_stream row;
    known(pdb_streams(file, file_size, &number_of_types, 1, &row, 1, (uint8_t *)PDB_NOTHING, 0, &types_size));
    types = room(types_size);
    known(pdb_streams(file, file_size, &number_of_types, 1, &row, 1, types, types_size, &types_size));
    known(row.code);
}

/* Reads the file; the exit status where it can't be read, or 0. */
static int read_file(const char *path) {
    FILE *in = fopen(path, "rb");
    if (!in) {
        fprintf(stderr, "layout: %s: cannot read file\n", path);
        return 3;
    }
    fseek(in, 0, SEEK_END);
    size_t size = (size_t)ftell(in);
    rewind(in);
    uint8_t *file = room(size);
    size_t got = fread(file, 1, size, in);
    fclose(in);
    if (got == size) read_types(file, size);
    free(file);
    return got == size ? 0 : 3;
}

int main(int count, char **words) {
    size_t wanted = count > 2 ? (size_t)count - 2 : 0;
    uint32_t *indices = room(wanted * sizeof *indices);
    begin_text();
    for (size_t i = 0; i < wanted; i++)
        if (!number_of(words[i + 2], 16, 8, &indices[i])) {
            fprintf(stderr, "layout: no index: %s\n", words[i + 2]);
            wanted = 0;
        }
    if (!wanted) {
        fputs("usage: layout FILE INDEX..\n", stderr);
        return 2;
    }
    int status = read_file(words[1]);
    if (!status) list(indices, wanted);
    flush();
    free(indices);
    free(types);
    return status;
}
