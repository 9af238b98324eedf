/* The three functions through which the library takes memory: malloc, realloc and free of the program. */
#include <stddef.h>
#include <stdlib.h>

struct tried {
    _Bool ok;
    void *p;
};

static const char nothing;

struct tried rattle_alloc(size_t n, size_t align) {
    void *p = malloc(n ? n : align);
    return (struct tried){p != 0, p ? p : (void *)&nothing};
}

struct tried rattle_realloc(void *at, size_t kept, size_t n, size_t align) {
    (void)kept;
    void *p = realloc(at, n ? n : align);
    return (struct tried){p != 0, p ? p : (void *)&nothing};
}

void rattle_dealloc(void *at) { free(at); }
