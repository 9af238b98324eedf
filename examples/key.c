/* key FILE..: the lines that `pdb_tool key FILE..` has: of a PDB its key, of an image (EXE or DLL) its own key, and the key
 * and the path of the PDB that it names.
 *
 *     cc -Iinclude examples/key.c c/out/libpdb.a -o key
 */
#include "pdb.h"
#include "text.h"
#include <stdio.h>
#include <stdlib.h>

/* A number in upper hex digits, without zeros before it. */
static void upper(uint32_t n) {
    char digits[9];
    put(digits, (size_t)snprintf(digits, sizeof digits, "%X", n));
}

/* The path, in which each control character is a blank. */
static void path_of(pdb_bytes path) {
    for (size_t i = 0; i < path.size; i++) put(path.data[i] < 32 || path.data[i] == 127 ? (const uint8_t *)" " : path.data + i, 1);
}

static pdb_code key_of_image(const uint8_t *bytes, size_t size, const char *name) {
    pdb_image_t it;
    char own[20];
    pdb_code code = pdb_image(bytes, size, &it);
    if (code) return code;
    put(own, (size_t)snprintf(own, sizeof own, "%08X%x ", it.time_stamp, it.size));
    word(name);
    PUT(" ");
    if (it.has_pdb) {
        for (int i = 0; i < 16; i++) {
            upper(it.guid[i] >> 4);
            upper(it.guid[i] & 15);
        }
        upper(it.age);
        PUT(" ");
        path_of(it.path);
        PUT("\n");
    } else PUT("- -\n");
    return 0;
}

static pdb_code key_of_pdb(const uint8_t *bytes, size_t size, const char *name) {
    uint8_t key[40];
    size_t key_size;
    pdb_code code = pdb_key(bytes, size, key, sizeof key, &key_size);
    if (code) return code;
    put(key, key_size);
    PUT(" ");
    word(name);
    PUT("\n");
    return 0;
}

/* All bytes of a file; null where it can't be read. */
static uint8_t *bytes_of(const char *name, size_t *size) {
    FILE *in = fopen(name, "rb");
    if (!in) return 0;
    fseek(in, 0, SEEK_END);
    *size = (size_t)ftell(in);
    rewind(in);
    uint8_t *bytes = malloc(*size + 1);
    if (!bytes) exit(5);
    if (fread(bytes, 1, *size, in) != *size) {
        free(bytes);
        bytes = 0;
    }
    fclose(in);
    return bytes;
}

int main(int count, char **words) {
    int status = 0;
    if (count < 2) {
        fputs("usage: key FILE..\n", stderr);
        return 2;
    }
    for (int i = 1; i < count; i++) {
        size_t size;
        uint8_t *bytes = bytes_of(words[i], &size);
        if (!bytes) {
            fprintf(stderr, "key: %s: cannot read file\n", words[i]);
            status = 1;
            continue;
        }
        _Bool is_image = size >= 2 && bytes[0] == 'M' && bytes[1] == 'Z';
        pdb_code code = is_image ? key_of_image(bytes, size, words[i]) : key_of_pdb(bytes, size, words[i]);
        free(bytes);
        if (code == PDB_OUT_OF_MEMORY) {
            flush();
            fputs("out of memory\n", stderr);
            return 5;
        }
        if (!code) continue;
        fprintf(stderr, "key: %s: error %u\n", words[i], code);
        status = 1;
    }
    flush();
    return status;
}
