/* c/heap.c whose taking of memory number REFUSE is refused, and all before and behind it are granted. At the end it tells
 * on standard error how many there were, and how many blocks were not freed. */
#include <stddef.h>
#include <stdio.h>
#include <stdlib.h>

struct tried {
    _Bool ok;
    void *p;
};

static char nothing;
static long wanted, taken, live;

__attribute__((constructor)) static void start(void) {
    const char *word = getenv("REFUSE");
    wanted = word ? atol(word) : 0;
}

__attribute__((destructor)) static void told(void) { fprintf(stderr, "taken %ld live %ld\n", taken, live); }

static int refused(void) { return ++taken == wanted; }

struct tried rattle_alloc(size_t n, size_t align) {
    void *p = refused() ? 0 : malloc(n ? n : align);
    if (p) live++;
    return (struct tried){p != 0, p ? p : &nothing};
}

struct tried rattle_realloc(void *at, size_t kept, size_t n, size_t align) {
    (void)kept;
    void *p = refused() ? 0 : realloc(at, n ? n : align);
    return (struct tried){p != 0, p ? p : &nothing};
}

void rattle_dealloc(void *at) {
    live--;
    free(at);
}
