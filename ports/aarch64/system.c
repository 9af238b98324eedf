/* The functions of the kit that the proved programs call, and that it has for x86-64 alone: arguments, the environment and
 * errno. All others are those of the C library. Also the line that pdb_tool prints behind its version.
 *
 * Nothing here is proved. Each function keeps what the proofs state of the function of its name. rattle_arg and
 * rattle_env_at write what fits and return the size, -1 where there is nothing of this number, or -2 where it doesn't fit;
 * rattle_env does it by a name. */
#include <errno.h>
#include <stddef.h>
#include <stdint.h>
#include <stdlib.h>
#include <string.h>
#include <unistd.h>

extern char **environ;
static size_t count;
static char **arguments;

/* The object and the target, which a program prints behind its version; empty where it has no such option. */
extern const char pdb_about[];

static void print_about(void) {
    const char *rest = pdb_about;
    ssize_t done;
    while (*rest && (done = write(1, rest, strlen(rest))) > 0) rest += done;
}

static int is_version(const char *word) { return !strcmp(word, "--version") || !strcmp(word, "version") || !strcmp(word, "-V"); }

/* glibc passes the arguments of the program to what runs before `main`. */
__attribute__((constructor)) static void begin(int given, char **words) {
    count = (size_t)given;
    arguments = words;
    if (count == 2 && is_version(words[1])) atexit(print_about);
}

static int64_t put(const char *text, uint8_t *bytes, size_t capacity) {
    if (!text) return -1;
    size_t size = strlen(text);
    memcpy(bytes, text, size < capacity ? size : capacity);
    return size > capacity ? -2 : (int64_t)size;
}

int64_t rattle_arg(size_t number, uint8_t *bytes, size_t capacity) {
    return put(number < count ? arguments[number] : NULL, bytes, capacity);
}

int64_t rattle_env(const char *name, uint8_t *bytes, size_t capacity) { return put(getenv(name), bytes, capacity); }

int64_t rattle_env_at(size_t number, uint8_t *bytes, size_t capacity) {
    size_t size = 0;
    while (environ && environ[size]) size++;
    return put(number < size ? environ[number] : NULL, bytes, capacity);
}

int32_t rattle_errno(void) { return errno; }

void rattle_set_errno(int32_t number) { errno = number; }
