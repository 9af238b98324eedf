/* threads FILE FILE: eight threads, four over each file, which ask at once for its modules, their symbols and the frames of
 * addresses. Each has the sum that the file has where one thread asks. */
#include "pdb.h"
#include <pthread.h>
#include <stdio.h>
#include <stdlib.h>

typedef struct {
    const uint8_t *bytes;
    size_t size;
    uint64_t sum;
} input;

static uint64_t more(uint64_t sum, const void *bytes, size_t n) {
    for (size_t i = 0; i < n; i++) sum = sum * 33 + ((const uint8_t *)bytes)[i];
    return sum;
}

static uint64_t symbols(uint64_t sum, const input *of, const pdb_module *module) {
    uint16_t number = (uint16_t)module->stream;
    size_t size, count;
    pdb_stream row;
    if (pdb_streams(of->bytes, of->size, &number, 1, &row, 1, malloc(1), 0, &size) != PDB_ROOM) return sum;
    uint8_t *stream = malloc(size);
    pdb_streams(of->bytes, of->size, &number, 1, &row, 1, stream, size, &size);
    uint32_t at = PDB_SYMBOLS_AT;
    pdb_symbol some[16];
    for (pdb_code code = PDB_DONE; code == PDB_DONE;) {
        code = pdb_symbols(stream, size, module->symbols_size, &at, some, 16, &count);
        for (size_t i = 0; i < count; i++) sum = more(sum * 31 + some[i].index, some[i].name.data, some[i].name.size);
    }
    free(stream);
    return sum;
}

static uint64_t sum_of(const input *of) {
    uint64_t sum = 0;
    uint16_t dbi = PDB_DBI_STREAM;
    size_t size, count, bytes;
    pdb_stream row;
    pdb_streams(of->bytes, of->size, &dbi, 1, &row, 1, malloc(1), 0, &size);
    uint8_t *stream = malloc(size);
    pdb_streams(of->bytes, of->size, &dbi, 1, &row, 1, stream, size, &size);
    pdb_module modules[64];
    pdb_modules(stream, size, modules, 64, &count);
    for (size_t k = 0; k < count && k < 64; k++) sum = symbols(sum, of, &modules[k]);
    free(stream);
    pdb_address asked[20];
    for (uint32_t k = 0; k < 20; k++) asked[k] = (pdb_address){0x1000 + 37 * k, 0, PDB_ADDRESS};
    pdb_frame rows[256];
    uint8_t names[16384];
    pdb_frames(of->bytes, of->size, asked, 20, rows, 256, &count, names, sizeof names, &bytes);
    for (size_t i = 0; i < count && i < 256; i++) sum = sum * 31 + rows[i].line + rows[i].address;
    return more(sum, names, bytes < sizeof names ? bytes : sizeof names);
}

static void *ask(void *given) {
    const input *of = given;
    return sum_of(of) == of->sum ? 0 : given;
}

static input read(const char *name) {
    FILE *in = fopen(name, "rb");
    if (!in) exit(3);
    fseek(in, 0, SEEK_END);
    input all = {0, (size_t)ftell(in), 0};
    rewind(in);
    uint8_t *bytes = malloc(all.size);
    if (fread(bytes, 1, all.size, in) != all.size) exit(3);
    fclose(in);
    all.bytes = bytes;
    all.sum = sum_of(&all);
    return all;
}

int main(int count, char **words) {
    if (count < 3) return 2;
    input files[2] = {read(words[1]), read(words[2])};
    pthread_t threads[8];
    int failed = 0;
    for (int k = 0; k < 8; k++) pthread_create(&threads[k], 0, ask, &files[k % 2]);
    for (int k = 0; k < 8; k++) {
        void *other;
        pthread_join(threads[k], &other);
        failed += other != 0;
    }
    printf("failed %d\n", failed);
    return failed != 0 || files[0].sum == files[1].sum;
}
