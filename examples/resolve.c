/* resolve FILE ADDRESS..: the text that `pdb_tool resolve FILE ADDRESS..` has for addresses as 0x1108 or 1108, and for
 * offsets in sections as 0001:00000108. All addresses are looked up in one call.
 *
 *     cc -Iinclude examples/resolve.c c/out/libpdb.a -o resolve
 */
#include "addresses.h"

static void frames(const struct found *found, size_t addresses) {
    const pdb_frame *rows = found->rows;
    size_t i = 0;
    for (size_t k = 0; k < addresses; k++) {
        for (; i < found->count && rows[i].address == k; i++) frame(&rows[i], found->names);
        PUT("\n");
    }
    flush();
}

static int usage(void) {
    fputs("usage: resolve FILE ADDRESS.., each HEX, 0xHEX or SECTION:HEX\n", stderr);
    return 2;
}

int main(int words_count, char **words) {
    if (words_count < 2) return usage();
    size_t n = (size_t)words_count - 2, size;
    pdb_address *addresses = all_asked("resolve", words + 2, n);
    if (!addresses) return usage();
    uint8_t *file = read_file("resolve", words[1], &size);
    if (!file) return 3;
    struct found found;
    pdb_code code = frames_of(file, size, addresses, n, &found);
    if (code) return status_of(code);
    frames(&found, n);
    drop(&found);
    free(addresses);
    free(file);
    return 0;
}
