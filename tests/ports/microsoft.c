/* A caller of pdb.dll by Microsoft's conventions, without a runtime of C: calls of the library, an argument of 16 bits whose
 * register has further bits, and a fault in the library, which the caller's handler catches. */
#include "pdb.h"

typedef void *handle;
__declspec(dllimport) handle GetStdHandle(unsigned long);
__declspec(dllimport) int WriteFile(handle, const void *, unsigned long, unsigned long *, void *);
__declspec(dllimport) int ReadFile(handle, void *, unsigned long, unsigned long *, void *);
__declspec(dllimport) handle CreateFileA(const char *, unsigned long, unsigned long, void *, unsigned long, unsigned long, handle);
__declspec(dllimport) void ExitProcess(unsigned);

int _fltused;
static uint8_t file[1 << 20];

static void put(const char *text) {
    unsigned long size = 0, done;
    while (text[size]) size++;
    WriteFile(GetStdHandle((unsigned long)-11), text, size, &done, 0);
}

static void put_field(uint32_t number) {
    char text[12];
    int at = 11;
    text[at] = 0;
    text[--at] = ' ';
    do text[--at] = (char)('0' + number % 10);
    while (number /= 10);
    put(text + at);
}

typedef pdb_code wide_call(const uint8_t *, size_t, uint32_t, uint32_t, uint32_t, uint32_t, pdb_line *, size_t, size_t *);

void start(void) {
    enum { READ = (int)0x80000000, SHARED = 1, EXISTING = 3 };
    static const uint8_t annotations[] = {0x0b, 0x23, 0x04, 0x05}; /* code and line move on; a length of code */
    static pdb_line lines[8];
    unsigned long size = 0;
    size_t count = 0;
    pdb_information_t information;
    handle in = CreateFileA("tour-lld.pdb", (unsigned long)READ, SHARED, 0, EXISTING, 0, 0);
    ReadFile(in, file, sizeof file, &size, 0);
    put_field(pdb_information(file, size, &information));
    put_field(((wide_call *)(void *)pdb_inlined_lines)(annotations, sizeof annotations, 0xabcd0007, 0x100, 0, 10, lines, 8, &count));
    put_field(information.version);
    put_field((uint32_t)count);
    put_field(lines[0].section);
    __try {
        pdb_information((const uint8_t *)16, 100000, &information);
        put("not caught\n");
    } __except (1) {
        put("caught\n");
    }
    ExitProcess(0);
}
