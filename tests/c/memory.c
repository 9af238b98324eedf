/* memory: the first taking of memory is refused (refuse.c, REFUSE=1). Symbols are then given up to the record that takes
 * memory, the buffer and the count tell no more, and the same call goes on there. */
#include "pdb.h"
#include <stdio.h>
#include <string.h>

static unsigned failed;

static void want(int ok, const char *what) {
    if (!ok && ++failed) printf("%s\n", what);
}

/* A type's name, a procedure of four bytes, a variable in two registers, and the end of a scope. */
static const uint8_t symbols[] = {
    10, 0, 0x08, 0x11, 0x74, 0, 0, 0, 'a',  'b', 0,   0,
    6,  0, 0x10, 0x11, 1,    2, 3, 4,
    15, 0, 0x0a, 0x11, 0x74, 0, 0, 0, 2,    0x12, 0, 'b', 0, 0x11, 0, 'a', 0,
    2,  0, 0x06, 0x00};

int main(void) {
    pdb_symbol rows[4];
    size_t count = 77;
    uint32_t at = PDB_GLOBALS_AT;
    memset(rows, 0xff, sizeof rows);
    want(pdb_global_symbols(symbols, sizeof symbols, &at, rows, 4, &count) == PDB_OUT_OF_MEMORY, "out of memory");
    want(count == 2 && at == 20, "symbols before the one that takes memory");
    want(rows[0].form == PDB_USER_DEFINED_TYPE && rows[1].refused == PDB_UNEXPECTED_EOF, "an error isn't out of memory");
    want(((uint8_t *)&rows[2])[0] == 0xff, "behind two rows");
    want(pdb_global_symbols(symbols, sizeof symbols, &at, rows, 4, &count) == PDB_END && count == 2, "the same call goes on");
    want(rows[0].form == PDB_MULTI_REGISTER_VARIABLE && rows[0].index == 20 && rows[0].type_index == 0x74, "a variable in registers");
    want(rows[1].form == PDB_SCOPE_END, "an end");
    return failed != 0;
}
