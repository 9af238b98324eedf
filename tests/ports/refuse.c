/* refuse FILE: memory refused in turn in pdb.dll. Its imports of malloc, realloc and free are replaced by functions that
 * count, and of which one call fails. Each call of the library that takes memory is then out of memory, frees all, and
 * returns the next time what it returned before. It prints how many times memory was refused. */
#include "pdb.h"
#include <stdio.h>
#include <stdlib.h>
#include <string.h>
#include <windows.h>

static size_t taken, wanted, live, refused;
static int failed;

static void want(int fine, const char *what, size_t at) {
    if (!fine && failed++ < 20) printf("%s %lu\n", what, (unsigned long)at);
}

static void *counted_malloc(size_t size) {
    void *made = ++taken == wanted ? NULL : malloc(size);
    live += made != NULL;
    return made;
}

static void *counted_realloc(void *old, size_t size) { return ++taken == wanted ? NULL : realloc(old, size); }

static void counted_free(void *old) {
    live--;
    free(old);
}

/* What the library calls by a name is another function from now on. */
static void replace(uint8_t *module, const char *name, void *by) {
    IMAGE_NT_HEADERS *head = (IMAGE_NT_HEADERS *)(module + ((IMAGE_DOS_HEADER *)module)->e_lfanew);
    DWORD at = head->OptionalHeader.DataDirectory[IMAGE_DIRECTORY_ENTRY_IMPORT].VirtualAddress, old;
    int found = 0;
    for (IMAGE_IMPORT_DESCRIPTOR *from = (IMAGE_IMPORT_DESCRIPTOR *)(module + at); from->Name; from++) {
        IMAGE_THUNK_DATA *names = (IMAGE_THUNK_DATA *)(module + from->OriginalFirstThunk), *called = (IMAGE_THUNK_DATA *)(module + from->FirstThunk);
        for (; names->u1.AddressOfData; names++, called++) {
            if (strcmp(((IMAGE_IMPORT_BY_NAME *)(module + names->u1.AddressOfData))->Name, name)) continue;
            VirtualProtect(&called->u1.Function, sizeof called->u1.Function, PAGE_READWRITE, &old);
            called->u1.Function = (ULONGLONG)by;
            found++;
        }
    }
    want(found == 1, name, (size_t)found);
}

/* ---- The calls, each over the file, the stream of types, the DBI stream or the stream of a module, into buffers that are large
 * enough. */
enum { LARGE = 1 << 20, OF_FILE = 9, OF_TYPES = 12, INDICES = 200 };
static uint8_t *file, *types, *stream, *out, *more;
static size_t file_size, types_size, stream_size, count, total;
static uint32_t indices[INDICES];
static pdb_module module;

static pdb_code opens(void) { return pdb_opens(file, file_size, (uint32_t *)out); }
static pdb_code information(void) { return pdb_information(file, file_size, (pdb_information_t *)out); }
static pdb_code debug_information(void) { return pdb_debug_information(file, file_size, (pdb_debug_information_t *)out); }
static pdb_code key(void) { return pdb_key(file, file_size, out, LARGE, &count); }
static pdb_code named_stream(void) { return pdb_named_stream(file, file_size, (const uint8_t *)"/names", 6, out, LARGE, &count); }
static pdb_code sections(void) { return pdb_sections(file, file_size, (pdb_section *)out, 99, &count); }
static pdb_code stream_names(void) { return pdb_stream_names(file, file_size, (pdb_stream_name *)out, 99, &count, more, LARGE, &total); }

static pdb_code streams(void) {
    static const uint16_t numbers[] = {1, 2, 3, 4, 0xffff};
    return pdb_streams(file, file_size, numbers, 5, (pdb_stream *)out, 5, more, LARGE, &total);
}

static pdb_code frames(void) {
    static pdb_address asked[40];
    for (uint32_t k = 0; k < 40; k++) asked[k] = (pdb_address){0x1000 + 23 * k, 0, PDB_ADDRESS};
    return pdb_frames(file, file_size, asked, 40, (pdb_frame *)out, 999, &count, more, LARGE, &total);
}

static pdb_code type_names(void) { return pdb_type_name(types, types_size, indices, INDICES, (pdb_type_name_t *)out, INDICES, more, LARGE, &total); }
static pdb_code type_sizes(void) { return pdb_type_size(types, types_size, indices, INDICES, (pdb_type_size_t *)out, INDICES); }
static pdb_code members(void) { return pdb_members(types, types_size, indices, INDICES, (pdb_member *)out, LARGE / sizeof(pdb_member), &count); }

#define OF_MODULE(name, row) \
    static pdb_code name(void) { \
        return pdb_##name(stream, stream_size, module.symbols_size, module.lines_size, module.c13_lines_size, (row *)out, 9999, &count); \
    }
OF_MODULE(lines, pdb_line)
OF_MODULE(files, pdb_file)
OF_MODULE(inlinees, pdb_inlinee)
OF_MODULE(imports, pdb_import)
OF_MODULE(exports, pdb_export)

static const struct { const char *name; pdb_code (*call)(void); int every; } calls[] = {
    {"opens", opens, 1}, {"information", information, 1}, {"debug_information", debug_information, 1}, {"key", key, 1}, {"streams", streams, 1},
    {"named_stream", named_stream, 1}, {"stream_names", stream_names, 1}, {"sections", sections, 1}, {"frames", frames, 1},
    {"type_names", type_names, 1}, {"type_sizes", type_sizes, 1}, {"members", members, 1},
    {"lines", lines, 0}, {"files", files, 0}, {"inlinees", inlinees, 0}, {"imports", imports, 0}, {"exports", exports, 0},
};

static uint64_t sum(void) {
    uint64_t it = count * 31 + total;
    for (size_t k = 0; k < LARGE; k++) it = it * 33 + out[k] * 7 + more[k];
    return it;
}

/* What a call returns and writes, by one number. */
static uint64_t called(size_t k, size_t refuse, pdb_code *code) {
    count = total = 0;
    memset(out, 0xff, LARGE);
    memset(more, 0xff, LARGE);
    taken = 0;
    wanted = refuse;
    *code = calls[k].call();
    wanted = 0;
    want(live == 0, calls[k].name, refuse);
    return *code == PDB_OUT_OF_MEMORY ? count + total : sum() + *code;
}

static void refuse_each(size_t k) {
    pdb_code code;
    uint64_t whole = called(k, 0, &code);
    size_t all = taken;
    want(code == PDB_DONE && (all > 0 || !calls[k].every), calls[k].name, code);
    for (size_t refuse = 1; refuse <= all; refuse++, refused++) {
        uint64_t none = called(k, refuse, &code);
        want(code == PDB_OUT_OF_MEMORY && none == 0, calls[k].name, refuse);
        want(called(k, 0, &code) == whole, calls[k].name, refuse);
    }
}

static void read_file(const char *path) {
    FILE *in = fopen(path, "rb");
    if (!in) exit(3);
    file = malloc(LARGE * 4);
    file_size = fread(file, 1, LARGE * 4, in);
    fclose(in);
}

/* The bytes of a stream; *size is 0 where there is none. */
static uint8_t *stream_of(uint16_t number, size_t *size) {
    pdb_stream row;
    uint8_t *bytes = malloc(LARGE * 4);
    pdb_code code = pdb_streams(file, file_size, &number, 1, &row, 1, bytes, LARGE * 4, size);
    want(code == PDB_DONE && (!row.code || row.code == PDB_STREAM_NOT_FOUND), "stream", number);
    return bytes;
}

int main(int words_count, char **words) {
    static pdb_module modules[999];
    size_t dbi_size, listed;
    if (words_count != 2) return 2;
    read_file(words[1]);
    out = malloc(LARGE);
    more = malloc(LARGE);
    uint8_t *dbi = stream_of(PDB_DBI_STREAM, &dbi_size), *loaded = (uint8_t *)GetModuleHandleA("pdb.dll");
    want(pdb_modules(dbi, dbi_size, modules, 999, &listed) == PDB_DONE && listed > 0, "modules", listed);
    types = stream_of(PDB_TYPES_STREAM, &types_size);
    for (uint32_t k = 0; k < INDICES; k++) indices[k] = 0x1000 + k;
    replace(loaded, "malloc", (void *)counted_malloc);
    replace(loaded, "realloc", (void *)counted_realloc);
    replace(loaded, "free", (void *)counted_free);
    for (size_t k = 0; k < (types_size ? OF_TYPES : OF_FILE); k++) refuse_each(k);
    for (size_t m = 0; m < listed; m++) {
        module = modules[m];
        if (module.stream == PDB_NO_STREAM) continue;
        stream = stream_of((uint16_t)module.stream, &stream_size);
        for (size_t k = OF_TYPES; k < sizeof calls / sizeof *calls; k++) refuse_each(k);
        free(stream);
    }
    printf("refused %lu, failed %d\n", (unsigned long)refused, failed);
    return failed != 0;
}
