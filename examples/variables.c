/* variables FILE ADDRESS..: the text that `pdb_tool variables FILE ADDRESS..` has for addresses as 0x1108 or 1108, and for
 * offsets in sections as 0001:00000108: of each frame its two lines, and a line for each of its variables, with where it is
 * while the code at the address runs. Registers are those of the machine that the file names.
 *
 *     cc -Iinclude examples/variables.c c/out/libpdb.a -o variables
 */
#include "addresses.h"

static uint16_t machine;

static void register_name(uint32_t number) {
    pdb_bytes found;
    pdb_register_name(machine, (uint16_t)number, &found);
    if (found.size) put(found.data, found.size);
    else hex(number, 4);
}

/* Memory at the value of a register, 0 where it isn't known, and a displacement. */
static void memory(uint32_t number, int32_t displacement) {
    PUT("[");
    if (number) register_name(number);
    else PUT("frame");
    if (displacement > 0) PUT("+");
    if (displacement < 0) PUT("-");
    if (displacement) decimal((uint64_t)llabs(displacement));
    PUT("]");
}

static uint32_t base_pointer(void) { return machine == 0x14c ? 22 : machine == 0x8664 ? 334 : 0; }

static void value(uint64_t low, uint64_t high) {
    if (high >> 63) PUT("-");
    decimal(high >> 63 ? 0 - low : low);
}

static void location(const pdb_variable *row) {
    if (row->is_part) {
        PUT("+");
        decimal(row->part);
        PUT(":");
    }
    switch (row->location) {
    case PDB_STORED_NOWHERE: PUT("-"); break;
    case PDB_STORED_IN_REGISTER: register_name(row->number); break;
    case PDB_STORED_BY_REGISTER: memory(row->number, row->displacement); break;
    case PDB_STORED_BY_BASE_POINTER: memory(base_pointer(), row->displacement); break;
    case PDB_STORED_BY_FRAME: memory(pdb_frame_register(machine, (uint8_t)row->number), row->displacement); break;
    case PDB_STORED_BY_PROGRAM:
        PUT("program:");
        decimal(row->number);
        break;
    case PDB_STORED_IN_SECTION:
        hex(row->section, 4);
        PUT(":");
        hex(row->offset, 8);
        break;
    case PDB_STORED_AS_VALUE: value(row->value, row->value_high); break;
    default: PUT("??");
    }
}

/* The line of a variable, by its rows. */
static void variable(const pdb_variable *rows, size_t count, const uint8_t *names) {
    static const char *const kinds[] = {"??", "param", "local", "static", "thread", "constant"};
    PUT("  ");
    word(kinds[rows->kind < 6 ? rows->kind : 0]);
    PUT(" ");
    for (size_t i = 0; i < count; i++) {
        if (i) PUT(",");
        location(&rows[i]);
    }
    if (rows->name_size) PUT(" ");
    put(names + rows->name_at, rows->name_size);
    PUT("\n");
}

/* The lines of those of an address's variables that belong to the function itself, or to an inlined call. */
static void owned(const pdb_variable *rows, size_t count, const uint8_t *names, _Bool is_inlined, size_t call) {
    for (size_t i = 0, n; i < count; i += n) {
        n = rows[i].parts ? rows[i].parts : 1;
        if (rows[i].is_inlined == is_inlined && rows[i].call == call) variable(rows + i, n, names);
    }
}

/* The lines of an address: of its frames the last one is the function's, and the one before it that of call 0. */
static void address(const pdb_frame *frames, size_t frames_count, const uint8_t *frame_names, const pdb_variable *variables,
                    size_t variables_count, const uint8_t *variable_names) {
    for (size_t i = 0; i < frames_count; i++) {
        _Bool is_inlined = i + 1 < frames_count;
        frame(&frames[i], frame_names);
        owned(variables, variables_count, variable_names, is_inlined, is_inlined ? frames_count - i - 2 : 0);
    }
    PUT("\n");
}

static void all(const struct found *frames, const struct found *variables, size_t addresses) {
    const pdb_frame *f = frames->rows;
    const pdb_variable *v = variables->rows;
    size_t i = 0, j = 0;
    for (size_t k = 0; k < addresses; k++) {
        size_t first = i, first_variable = j;
        while (i < frames->count && f[i].address == k) i++;
        while (j < variables->count && v[j].address == k) j++;
        address(f + first, i - first, frames->names, v + first_variable, j - first_variable, variables->names);
    }
    flush();
}

/* The variables of addresses, with as much room at first as is mostly enough. */
static pdb_code variables_of(const uint8_t *file, size_t size, const pdb_address *addresses, size_t n, struct found *found) {
    size_t most = 64 * n + 64, most_bytes = 512 * n + 512, bytes;
    found->rows = room(most * sizeof(pdb_variable));
    found->names = room(most_bytes);
    pdb_code code = pdb_variables(file, size, addresses, n, found->rows, most, &found->count, found->names, most_bytes, &bytes);
    if (code != PDB_ROOM) return code;
    drop(found);
    found->rows = room(found->count * sizeof(pdb_variable));
    found->names = room(bytes);
    return pdb_variables(file, size, addresses, n, found->rows, found->count, &found->count, found->names, bytes, &bytes);
}

static int usage(void) {
    fputs("usage: variables FILE ADDRESS.., each HEX, 0xHEX or SECTION:HEX\n", stderr);
    return 2;
}

int main(int words_count, char **words) {
    if (words_count < 2) return usage();
    size_t n = (size_t)words_count - 2, size;
    pdb_address *addresses = all_asked("variables", words + 2, n);
    if (!addresses) return usage();
    uint8_t *file = read_file("variables", words[1], &size);
    if (!file) return 3;
    pdb_debug_information_t information;
    pdb_code code = pdb_debug_information(file, size, &information);
    if (code == PDB_OUT_OF_MEMORY) return status_of(code);
    if (!code) machine = (uint16_t)information.machine;
    struct found frames, variables;
    code = frames_of(file, size, addresses, n, &frames);
    if (!code) code = variables_of(file, size, addresses, n, &variables);
    if (code) return status_of(code);
    begin_text();
    all(&frames, &variables, n);
    drop(&frames);
    drop(&variables);
    free(addresses);
    free(file);
    return 0;
}
