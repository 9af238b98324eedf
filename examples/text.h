/* Texts for the examples: bytes, words and numbers on standard output, and the numbers that arguments are. */
#ifndef TEXT_H
#define TEXT_H
#include <stdint.h>
#include <stdio.h>
#include <string.h>
#ifdef _WIN32
#include <fcntl.h>
#include <io.h>
#endif

/* What is written, in large pieces. */
static char out[1 << 16];
static size_t filled;

static inline void flush(void) {
#ifdef _WIN32
    _setmode(_fileno(stdout), _O_BINARY); /* otherwise each line feed is written as two bytes */
#endif
    fwrite(out, 1, filled, stdout);
    filled = 0;
}

/* Where the next bytes go, of which there are at most as many. */
static inline char *space(size_t n) {
    if (n > sizeof out - filled) flush();
    return out + filled;
}

static inline void put(const void *bytes, size_t n) {
    char *p = space(n);
    if (n > sizeof out) fwrite(bytes, 1, n, stdout);
    else {
        memcpy(p, bytes, n);
        filled += n;
    }
}

#define PUT(literal) put(literal, sizeof literal - 1)

static inline void word(const char *s) { put(s, strlen(s)); }

/* The two digits of each byte. */
static char pairs[256][2];

static inline void begin_text(void) {
    for (int n = 0; n < 256; n++) {
        pairs[n][0] = "0123456789abcdef"[n >> 4];
        pairs[n][1] = "0123456789abcdef"[n & 15];
    }
}

static inline char *hex_at(char *p, uint32_t n, int digits) {
    for (int at = digits - 2; at >= 0; at -= 2, n >>= 8) memcpy(p + at, pairs[n & 255], 2);
    return p + digits;
}

static inline void hex(uint32_t n, int digits) { filled = (size_t)(hex_at(space(8), n, digits) - out); }

static inline void decimal(uint64_t n) {
    char d[20];
    size_t at = sizeof d;
    do d[--at] = (char)('0' + n % 10);
    while (n /= 10);
    put(d + at, sizeof d - at);
}

static inline void field(uint64_t n) {
    PUT(" ");
    decimal(n);
}

/* Whether s is a number from its first byte to its last, of 1 to `most` digits of the base 10 or 16, below 2^32. */
static inline _Bool number_of(const char *s, unsigned base, size_t most, uint32_t *number) {
    static const char digits[] = "0123456789abcdef0123456789ABCDEF";
    uint64_t n = 0;
    size_t length = strlen(s);
    if (length == 0 || length > most) return 0;
    for (; *s; s++) {
        const char *digit = strchr(digits, *s);
        if (!digit || (unsigned)(digit - digits) % 16 >= base) return 0;
        n = n * base + (unsigned)(digit - digits) % 16;
    }
    *number = (uint32_t)n;
    return n <= UINT32_MAX;
}

#endif
