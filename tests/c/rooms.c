/* rooms FILE: rooms of every size from 0 to what is needed, filled with 0xff before each call: what fits is put, what is
 * behind it stays, and the answer tells how much there is. Then eight threads that ask at once, of which each has the
 * sums that one has. */
#include "pdb.h"
#include <pthread.h>
#include <stdio.h>
#include <stdlib.h>
#include <string.h>

static uint8_t *file;
static size_t file_size;
static unsigned failed;

static void *filled(size_t n) {
    void *p = malloc(n ? n : 1);
    memset(p, 0xff, n ? n : 1);
    return p;
}

static void want(int ok, const char *what, size_t at) {
    if (!ok && failed++ < 20) printf("%s %zu\n", what, at);
}

/* What a call put in a room of so many rows of this width, of which it has more: the front of all, and 0xff behind it. */
static void front(const char *what, const void *got, const void *all, size_t room, size_t needed, size_t width, pdb_code code) {
    size_t fits = room < needed ? room : needed;
    want(!memcmp(got, all, fits * width), what, room);
    for (size_t i = fits * width; i < (room + 1) * width; i++) want(((const uint8_t *)got)[i] == 0xff, what, room);
    want(code == (room < needed ? PDB_ROOM : PDB_DONE), what, room);
}

static uint8_t *stream(uint16_t number, size_t *size) {
    pdb_stream row;
    pdb_streams(file, file_size, &number, 1, &row, 1, filled(1), 0, size);
    uint8_t *all = filled(*size);
    want(pdb_streams(file, file_size, &number, 1, &row, 1, all, *size, size) == 0, "stream", number);
    return all;
}

static void streams(void) {
    uint16_t numbers[] = {3, 0xffff, 1, 3, 0xfffe};
    size_t size, again;
    pdb_stream rows[5];
    pdb_streams(file, file_size, numbers, 5, rows, 5, filled(1), 0, &size);
    uint8_t *all = filled(size);
    want(pdb_streams(file, file_size, numbers, 5, rows, 5, all, size, &size) == 0, "streams", size);
    want(rows[4].code == PDB_STREAM_NOT_FOUND && rows[1].size == 0 && rows[1].code == 0 && rows[3].at == rows[0].size + rows[2].size, "rows", 5);
    for (size_t room = 0; room <= size; room += room < 64 || room + 64 > size ? 1 : 61) {
        uint8_t *got = filled(room + 1);
        front("room of streams", got, all, room, size, 1, pdb_streams(file, file_size, numbers, 5, rows, 5, got, room, &again));
        want(again == size, "size", room);
        free(got);
    }
    for (size_t room = 0; room <= 5; room++) {
        pdb_stream *got = filled((room + 1) * sizeof *got);
        front("rows of streams", got, rows, room, 5, sizeof *got, pdb_streams(file, file_size, numbers, 5, got, room, all, size, &again));
        free(got);
    }
    free(all);
}

/* One call of a list of a module, in rooms of each size. */
#define EACH_ROOM(name, row, width)                                                                                      \
    static void each_room_of_##name(const uint8_t *bytes, size_t n, const pdb_module *m) {                              \
        size_t count, again;                                                                                            \
        row *all = filled((n / width + 1) * sizeof *all);                                                               \
        want(name(bytes, n, m->symbols_size, m->lines_size, m->c13_lines_size, all, n / width, &count) == 0, #name, n); \
        for (size_t room = 0; room <= count; room++) {                                                                  \
            row *got = filled((room + 1) * sizeof *got);                                                                \
            pdb_code code = name(bytes, n, m->symbols_size, m->lines_size, m->c13_lines_size, got, room, &again);       \
            front(#name, got, all, room, count, sizeof *got, code);                                                     \
            want(again == count, "count of " #name, room);                                                              \
            free(got);                                                                                                  \
        }                                                                                                               \
        free(all);                                                                                                      \
    }

EACH_ROOM(pdb_files, pdb_file, 6)
EACH_ROOM(pdb_inlinees, pdb_inlinee, 12)
EACH_ROOM(pdb_exports, pdb_export, 8)

/* Imports as the others, but by their fields, since bytes of a row are none's. */
static void each_room_of_imports(const uint8_t *bytes, size_t n, const pdb_module *m) {
    size_t count, again;
    pdb_import *all = filled((n / 8 + 1) * sizeof *all);
    want(pdb_imports(bytes, n, m->symbols_size, m->lines_size, m->c13_lines_size, all, n / 8, &count) == 0, "imports", n);
    for (size_t room = 0; room <= count; room++) {
        pdb_import *got = filled((room + 1) * sizeof *got);
        pdb_code code = pdb_imports(bytes, n, m->symbols_size, m->lines_size, m->c13_lines_size, got, room, &again);
        for (size_t i = 0; i < room; i++)
            want(got[i].name == all[i].name && got[i].numbers.data == all[i].numbers.data && got[i].numbers.size == all[i].numbers.size, "imports", i);
        want(got[room].name == 0xffffffff && code == (room < count ? PDB_ROOM : PDB_DONE) && again == count, "imports", room);
        free(got);
    }
    free(all);
}

static void lists_of(const uint8_t *bytes, size_t n, const pdb_module *m) {
    each_room_of_pdb_files(bytes, n, m);
    each_room_of_pdb_inlinees(bytes, n, m);
    each_room_of_pdb_exports(bytes, n, m);
    each_room_of_imports(bytes, n, m);
}

/* The records of an inlined call, in rooms of each size. */
static void records_of(const pdb_symbol *y) {
    size_t n = y->annotations.size, count, again;
    pdb_line *all = filled((n + 1) * sizeof *all);
    want(pdb_inlined_lines(y->annotations.data, n, 1, 2, 3, 4, all, n, &count) == 0, "inlined lines", y->index);
    for (size_t room = 0; room <= count; room++) {
        pdb_line *got = filled((room + 1) * sizeof *got);
        front("inlined lines", got, all, room, count, sizeof *got, pdb_inlined_lines(y->annotations.data, n, 1, 2, 3, 4, got, room, &again));
        want(again == count, "count of inlined lines", room);
        free(got);
    }
    free(all);
}

/* The symbols that start a scope and those that end one are pairs. */
static void scopes(const pdb_symbol *symbols, size_t count) {
    size_t depth = 0;
    for (size_t i = 0; i < count; i++) {
        want(symbols[i].starts_scope + symbols[i].ends_scope <= 1, "scope", symbols[i].index);
        want(depth + symbols[i].starts_scope >= symbols[i].ends_scope, "end of a scope", symbols[i].index);
        depth += symbols[i].starts_scope;
        depth -= symbols[i].ends_scope;
    }
    want(depth == 0, "scopes", depth);
}

static void modules_and_lines(void) {
    size_t size, count, again;
    uint8_t *dbi = stream(3, &size);
    pdb_module *all = filled(64 * sizeof *all);
    want(pdb_modules(dbi, size, all, 64, &count) == 0, "modules", 64);
    for (size_t room = 0; room <= count; room++) {
        pdb_module *got = filled((room + 1) * sizeof *got);
        front("modules", got, all, room, count, sizeof *got, pdb_modules(dbi, size, got, room, &again));
        want(again == count, "count of modules", room);
        free(got);
    }
    for (size_t k = 0; k < count; k++) {
        if (all[k].stream == PDB_NO_STREAM) continue;
        size_t n, lines;
        uint8_t *bytes = stream((uint16_t)all[k].stream, &n);
        const pdb_module *m = &all[k];
        pdb_line *rows = filled((n / 8 + 1) * sizeof *rows);
        want(pdb_lines(bytes, n, m->symbols_size, m->lines_size, m->c13_lines_size, rows, n / 8, &lines) == 0, "lines", k);
        for (size_t room = 0; room <= lines; room++) {
            pdb_line *got = filled((room + 1) * sizeof *got);
            front("lines", got, rows, room, lines, sizeof *got, pdb_lines(bytes, n, m->symbols_size, m->lines_size, m->c13_lines_size, got, room, &again));
            free(got);
        }
        lists_of(bytes, n, m);
        uint32_t at = PDB_SYMBOLS_AT;
        pdb_symbol *symbols = filled((n / 4 + 1) * sizeof *symbols);
        want(pdb_symbols(bytes, n, m->symbols_size, &at, symbols, n / 4 + 1, &count) == PDB_END, "symbols", k);
        for (size_t room = 1; room <= count; room++) {
            pdb_symbol *got = filled((room + 1) * sizeof *got);
            size_t seen = 0;
            pdb_code code = PDB_DONE;
            for (at = PDB_SYMBOLS_AT; code == PDB_DONE; seen += again) {
                code = pdb_symbols(bytes, n, m->symbols_size, &at, got, room, &again);
                for (size_t i = 0; i < again; i++) want(got[i].index == symbols[seen + i].index && got[i].name.size == symbols[seen + i].name.size, "symbols", room);
            }
            want(code == PDB_END && seen == count, "symbols seen", room);
            free(got);
        }
        scopes(symbols, count);
        for (size_t i = 0; i < count; i++)
            if (symbols[i].form == PDB_INLINE_SITE) records_of(&symbols[i]);
        free(symbols);
        free(rows);
        free(bytes);
        size_t dbi_count;
        pdb_modules(dbi, size, all, 64, &dbi_count);
        count = dbi_count;
    }
    free(all);
    free(dbi);
}

/* Five records: a type's name, the end of a scope, a public, a procedure of four bytes, and a kind that isn't read. */
static const uint8_t made[] = {
    10, 0, 0x08, 0x11, 0x74, 0, 0, 0, 'a', 'b', 0, 0,
    2,  0, 0x06, 0x00,
    14, 0, 0x0e, 0x11, 2,    0, 0, 0, 0x30, 0, 0, 0, 2, 0, 'p', 0,
    6,  0, 0x10, 0x11, 1,    2, 3, 4,
    2,  0, 0x77, 0x77};

static int is_named(pdb_bytes name, const char *wanted) { return name.size == strlen(wanted) && !memcmp(name.data, wanted, name.size); }

/* Every field of a row but its record, its kind, its scopes and its error. */
static int holds(const pdb_symbol *y, int form, const char *name, uint32_t offset, int section, uint32_t type_index) {
    return y->form == form && y->has_name == (name != 0) && is_named(y->name, name ? name : "") && y->has_place == (section != 0) &&
           y->offset == offset && y->section == section && y->type_index == type_index && y->code_size == 0 && y->parent == 0 &&
           y->end == 0 && y->inlinee == 0 && y->annotations.size == 0;
}

static void made_symbols(void) {
    pdb_symbol rows[7];
    size_t count = 77;
    uint32_t at = PDB_GLOBALS_AT;
    memset(rows, 0xff, sizeof rows);
    want(pdb_global_symbols(made, sizeof made, &at, rows, 0, &count) == PDB_DONE && count == 0 && at == 0, "no rows", 0);
    want(pdb_global_symbols(made, sizeof made, &at, rows, 2, &count) == PDB_DONE && count == 2 && at == 16, "two rows", 2);
    want(((uint8_t *)&rows[2])[0] == 0xff, "behind two rows", 2);
    at = PDB_GLOBALS_AT;
    want(pdb_global_symbols(made, sizeof made, &at, rows, 7, &count) == PDB_END && count == 5, "made symbols", count);
    want(((uint8_t *)&rows[5])[0] == 0xff, "behind five rows", 5);
    want(pdb_global_symbols(made, sizeof made, &at, rows + 6, 1, &count) == PDB_END && count == 0, "behind the end", count);
    want(holds(&rows[0], PDB_USER_DEFINED_TYPE, "ab", 0, 0, 0x74) && rows[0].index == 0 && rows[0].record.size == 10 && !rows[0].refused, "a type's name", 0);
    want(holds(&rows[1], PDB_SCOPE_END, 0, 0, 0, 0) && rows[1].ends_scope == 1 && rows[1].starts_scope == 0 && !rows[1].refused, "an end", 1);
    want(holds(&rows[2], PDB_PUBLIC, "p", 0x30, 2, 0) && rows[2].kind == 0x110e && rows[2].index == 16, "a public", 2);
    want(holds(&rows[3], 0, 0, 0, 0, 0) && rows[3].refused == PDB_UNEXPECTED_EOF && rows[3].starts_scope == 1 && rows[3].record.size == 6, "a procedure that ends early", 3);
    want(holds(&rows[4], 0, 0, 0, 0, 0) && rows[4].refused == PDB_UNIMPLEMENTED_SYMBOL_KIND && rows[4].kind == 0x7777, "an unknown kind", 4);
}

/* A symbols part in error: where symbols are read stays. */
static void parts_in_error(void) {
    static const uint8_t bytes[] = {5, 0, 0, 0, 2, 0, 6, 0};
    pdb_symbol row;
    size_t count = 77;
    uint32_t at = PDB_SYMBOLS_AT;
    want(pdb_symbols(bytes, sizeof bytes, sizeof bytes, &at, &row, 1, &count) == PDB_UNIMPLEMENTED_FEATURE && count == 0 && at == 4, "a version", count);
    want(pdb_symbols(bytes, sizeof bytes, sizeof bytes + 1, &at, &row, 1, &count) == PDB_UNEXPECTED_EOF && count == 0 && at == 4, "a part's end", count);
}

/* A list with an error behind its items returns the error, whether or not they fit. */
static void lists_in_error(void) {
    static const uint8_t annotations[] = {0x0b, 0x23, 0x0b, 0x23, 0x20}; /* a line record, and an unknown annotation */
    pdb_line line;
    for (size_t room = 0; room <= 1; room++) {
        size_t count = 77;
        memset(&line, 0xff, sizeof line);
        pdb_code code = pdb_inlined_lines(annotations, sizeof annotations, 1, 0x100, 0, 10, &line, room, &count);
        want(code == PDB_UNKNOWN_BINARY_ANNOTATION && count == 1 && (line.section == 1) == (room == 1), "an error behind a record", room);
    }
}

/* Why a file can't be opened, and the number of the error. */
static void files_in_error(void) {
    enum { PAGE_SIZE_AT = 32 };
    uint32_t number = 77;
    uint8_t *bytes = malloc(file_size);
    memcpy(bytes, file, file_size);
    memcpy(bytes + PAGE_SIZE_AT, "\x39\x05\0", 4);
    want(pdb_opens(file, file_size, &number) == PDB_DONE && number == 0, "a file that can be opened", number);
    want(pdb_opens(bytes, file_size, &number) == PDB_INVALID_PAGE_SIZE && number == 0x539, "a page size", number);
    want(pdb_opens(file, 16, &number) == PDB_UNRECOGNIZED_FILE_FORMAT && number == 0, "no file", number);
    free(bytes);
}

/* A GUID as it is printed, and as the file has it. */
static void guids(void) {
    static const int order[] = {3, 2, 1, 0, 5, 4, 7, 6, 8, 9, 10, 11, 12, 13, 14, 15};
    pdb_information_t it;
    size_t size;
    uint8_t *bytes = stream(1, &size);
    want(pdb_information(file, file_size, &it) == 0 && size >= 28 && !memcmp(it.guid_bytes, bytes + 12, 16), "the bytes of the GUID", size);
    for (size_t k = 0; k < 16; k++) want(it.guid[k] == it.guid_bytes[order[k]], "the order of the GUID", k);
    free(bytes);
}

/* Section headers in buffers of each size. */
static void each_room_of_sections(void) {
    size_t count, again;
    pdb_section *all = filled(64 * sizeof *all);
    want(pdb_sections(file, file_size, all, 64, &count) == 0 && count > 0, "sections", count);
    for (size_t room = 0; room <= count; room++) {
        pdb_section *got = filled((room + 1) * sizeof *got);
        front("sections", got, all, room, count, sizeof *got, pdb_sections(file, file_size, got, room, &again));
        want(again == count, "count of sections", room);
        free(got);
    }
    free(all);
}

/* Contributions in buffers of each size, by their fields, since bytes of a row are none's. */
static void each_room_of_contributions(void) {
    size_t size, count, again;
    uint8_t *dbi = stream(PDB_DBI_STREAM, &size);
    pdb_contribution *all = filled((size / 28 + 1) * sizeof *all);
    want(pdb_contributions(dbi, size, all, size / 28 + 1, &count) == 0 && count > 0, "contributions", count);
    for (size_t room = 0; room <= count; room++) {
        pdb_contribution *got = filled((room + 1) * sizeof *got);
        pdb_code code = pdb_contributions(dbi, size, got, room, &again);
        for (size_t i = 0; i < room; i++) {
            const pdb_contribution *a = &all[i], *b = &got[i];
            want(a->module == b->module && a->offset == b->offset && a->section == b->section && a->size == b->size, "contribution", i);
            want(a->characteristics == b->characteristics && a->data_crc == b->data_crc && a->reloc_crc == b->reloc_crc, "contribution", i);
        }
        want(((uint8_t *)&got[room])[0] == 0xff && code == (room < count ? PDB_ROOM : PDB_DONE) && again == count, "contributions", room);
        free(got);
    }
    want(pdb_contributions(dbi, 63, all, 1, &count) == PDB_UNEXPECTED_EOF && count == 0, "a header's end", count);
    free(all);
    free(dbi);
}

/* Names of streams in buffers of each size. */
static void each_room_of_stream_names(void) {
    size_t count, size, again, bytes;
    pdb_stream_name *all = filled(64 * sizeof *all);
    uint8_t *names = filled(4096);
    want(pdb_stream_names(file, file_size, all, 64, &count, names, 4096, &size) == 0 && count > 0, "names", count);
    for (size_t room = 0; room <= count; room++) {
        size_t names_room = room == count ? size : room * size / count;
        pdb_stream_name *got = filled((room + 1) * sizeof *got);
        uint8_t *text = filled(names_room + 1);
        pdb_code code = pdb_stream_names(file, file_size, got, room, &again, text, names_room, &bytes);
        for (size_t i = 0; i < room; i++) want(all[i].at == got[i].at && all[i].size == got[i].size && all[i].number == got[i].number, "name", i);
        want(!memcmp(text, names, names_room) && text[names_room] == 0xff && ((uint8_t *)&got[room])[0] == 0xff, "behind names", room);
        want(code == (room < count ? PDB_ROOM : PDB_DONE) && again == count && bytes == size, "names", room);
        free(text);
        free(got);
    }
    for (size_t room = 0; room < size; room++) {
        want(pdb_stream_names(file, file_size, all, 64, &again, names, room, &bytes) == PDB_ROOM && again == count && bytes == size, "bytes of names", room);
    }
    free(names);
    free(all);
}

/* Names, sizes and members of the first types, in buffers of each size. */
#define TYPES 24
static void names_of_types(const uint8_t *types, size_t n, const uint32_t *asked) {
    size_t size, again;
    pdb_type_name_t rows[TYPES];
    uint8_t *all = filled(1 << 16);
    want(pdb_type_name(types, n, asked, TYPES, rows, TYPES, all, 1 << 16, &size) == 0 && size > TYPES, "names of types", size);
    for (size_t room = 0; room <= size; room++) {
        size_t rows_room = room * TYPES / size;
        pdb_type_name_t *got = filled((rows_room + 1) * sizeof *got);
        uint8_t *text = filled(room + 1);
        pdb_code code = pdb_type_name(types, n, asked, TYPES, got, rows_room, text, room, &again);
        front("rows of names of types", got, rows, rows_room, TYPES, sizeof *got, rows_room < TYPES ? PDB_ROOM : PDB_DONE);
        want(!memcmp(text, all, room) && text[room] == 0xff && again == size, "bytes of names of types", room);
        want(code == (room < size ? PDB_ROOM : PDB_DONE), "code of names of types", room);
        free(text);
        free(got);
    }
    free(all);
}

static void members_of_types(const uint8_t *types, size_t n, const uint32_t *asked) {
    size_t count, again;
    pdb_member *all = filled(4096 * sizeof *all);
    want(pdb_members(types, n, asked, TYPES, all, 4096, &count) == 0, "members", n);
    for (size_t room = 0; room <= count; room++) {
        pdb_member *got = filled((room + 1) * sizeof *got);
        pdb_code code = pdb_members(types, n, asked, TYPES, got, room, &again);
        for (size_t i = 0; i < room; i++)
            want(got[i].form == all[i].form && got[i].owner == all[i].owner && got[i].value == all[i].value && got[i].name.data == all[i].name.data, "member", i);
        want(got[room].form == 0xff && code == (room < count ? PDB_ROOM : PDB_DONE) && again == count, "members", room);
        free(got);
    }
    free(all);
}

static void each_room_of_types(void) {
    uint32_t asked[TYPES];
    size_t n, size = 77;
    uint8_t *types = stream(PDB_TYPES_STREAM, &n), text = 0xff;
    pdb_type_size_t all[TYPES];
    for (uint32_t k = 0; k < TYPES; k++) asked[k] = k < 2 ? 0x74 + k : 0x1000 + 3 * k;
    names_of_types(types, n, asked);
    members_of_types(types, n, asked);
    want(pdb_type_size(types, n, asked, TYPES, all, TYPES) == 0 && all[0].size == 4 && all[0].has_size == 1, "sizes of types", 0);
    for (size_t room = 0; room <= TYPES; room++) {
        pdb_type_size_t *got = filled((room + 1) * sizeof *got);
        front("sizes of types", got, all, room, TYPES, sizeof *got, pdb_type_size(types, n, asked, TYPES, got, room));
        free(got);
    }
    pdb_type_name_t *row = filled(sizeof *row);
    want(pdb_type_name(types, 55, asked, 1, row, 1, &text, 1, &size) == PDB_UNEXPECTED_EOF && size == 0 && text == 0xff && row->at == SIZE_MAX, "no types", size);
    free(row);
    free(types);
}

/* After an error nothing is written. */
static void calls_in_error(void) {
    size_t count = 77, size = 77;
    pdb_section section;
    pdb_stream_name name;
    pdb_image_t image;
    uint8_t text[4];
    memset(&section, 0xff, sizeof section);
    memset(&name, 0xff, sizeof name);
    memset(&image, 0xff, sizeof image);
    memset(text, 0xff, sizeof text);
    want(pdb_sections(file, 16, &section, 1, &count) == PDB_UNRECOGNIZED_FILE_FORMAT && count == 0 && section.name[0] == 0xff, "no sections", count);
    count = 77;
    want(pdb_stream_names(file, 16, &name, 1, &count, text, 4, &size) == PDB_UNRECOGNIZED_FILE_FORMAT && count == 0 && size == 0, "no names", count);
    want(name.number == 0xffffffff && text[0] == 0xff, "untouched names", 0);
    want(pdb_image(file, file_size, &image) == PDB_NOT_AN_IMAGE && image.has_pdb == 0xffffffff && image.guid[0] == 0xff, "no image", 0);
}

static uint64_t frames(size_t n, size_t room, size_t names_room) {
    pdb_address *asked = filled(n * sizeof *asked);
    for (size_t k = 0; k < n; k++) asked[k] = (pdb_address){(uint32_t)(0x1000 + 7 * k), 0, PDB_ADDRESS};
    size_t count, size;
    pdb_frame *rows = filled((room + 1) * sizeof *rows);
    uint8_t *names = filled(names_room + 1);
    pdb_code code = pdb_frames(file, file_size, asked, n, rows, room, &count, names, names_room, &size);
    want(code == (room < count || names_room < size ? PDB_ROOM : PDB_DONE), "frames", room);
    uint64_t sum = count * 31 + size;
    for (size_t i = 0; i < (room < count ? room : count) * sizeof *rows; i++) sum = sum * 33 + ((uint8_t *)rows)[i];
    for (size_t i = 0; i < (names_room < size ? names_room : size); i++) sum = sum * 33 + names[i];
    want(names[names_room] == 0xff && ((uint8_t *)(rows + room))[0] == 0xff, "behind frames", room);
    free(names);
    free(rows);
    free(asked);
    return sum;
}

/* The same of variables, whose rows are written whole. */
static void variables(size_t n, size_t room, size_t names_room) {
    pdb_address *asked = filled(n * sizeof *asked);
    for (size_t k = 0; k < n; k++) asked[k] = (pdb_address){(uint32_t)(0x1000 + 7 * k), 0, PDB_ADDRESS};
    size_t needed, needed_names, count, size;
    pdb_variable none;
    uint8_t nothing;
    pdb_variables(file, file_size, asked, n, &none, 0, &needed, &nothing, 0, &needed_names);
    pdb_variable *all = filled((needed + 1) * sizeof *all), *rows = filled((room + 1) * sizeof *rows);
    uint8_t *all_names = filled(needed_names + 1), *names = filled(names_room + 1);
    want(pdb_variables(file, file_size, asked, n, all, needed, &count, all_names, needed_names, &size) == 0, "all variables", n);
    pdb_code code = pdb_variables(file, file_size, asked, n, rows, room, &count, names, names_room, &size);
    want(count == needed && size == needed_names, "counts of variables", room);
    want(code == (room < count || names_room < size ? PDB_ROOM : PDB_DONE), "variables", room);
    want(!memcmp(rows, all, (room < count ? room : count) * sizeof *rows), "rows of variables", room);
    want(!memcmp(names, all_names, names_room < size ? names_room : size), "names of variables", room);
    want(names[names_room] == 0xff && ((uint8_t *)(rows + room))[0] == 0xff, "behind variables", room);
    free(all);
    free(rows);
    free(all_names);
    free(names);
    free(asked);
}

static void *ask(void *wanted) {
    for (int k = 0; k < 4; k++)
        if (frames(60, 4000, 400000) != *(uint64_t *)wanted) failed++;
    return 0;
}

int main(int count, char **words) {
    FILE *in = count > 1 ? fopen(words[1], "rb") : 0;
    if (!in) return 3;
    fseek(in, 0, SEEK_END);
    file_size = (size_t)ftell(in);
    rewind(in);
    file = malloc(file_size);
    if (fread(file, 1, file_size, in) != file_size) return 3;
    fclose(in);
    want(pdb_version() == PDB_VERSION, "version", pdb_version());
    pdb_bytes message;
    pdb_message(PDB_OUT_OF_MEMORY, &message);
    want(is_named(message, "out of memory"), "message", message.size);
    streams();
    modules_and_lines();
    made_symbols();
    parts_in_error();
    each_room_of_sections();
    each_room_of_contributions();
    each_room_of_stream_names();
    each_room_of_types();
    calls_in_error();
    lists_in_error();
    files_in_error();
    guids();
    for (size_t room = 0; room < 24; room++) frames(8, room, 5 * room);
    for (size_t room = 0; room < 40; room++) variables(8, room, 3 * room);
    uint64_t sum = frames(60, 4000, 400000);
    pthread_t threads[8];
    for (int k = 0; k < 8; k++) pthread_create(&threads[k], 0, ask, &sum);
    for (int k = 0; k < 8; k++) pthread_join(threads[k], 0);
    printf("failed %u\n", failed);
    return failed != 0;
}
