/* The memory of pdb.wasm: the three functions through which the library takes memory, and where its heap starts.
 *
 * Nothing here is proved. rattle_alloc returns 16-byte aligned bytes that no other block has, or that there are none.
 * rattle_realloc keeps the bytes that both blocks have, and where it fails it leaves the block as it was. rattle_dealloc
 * frees a block. The host sets the heap's bounds before each call, behind all that it keeps itself; the library frees each
 * block before a call returns, so the heap is empty between calls. Freed blocks are kept by their sizes, four to a power of
 * two; when the last one is freed, the heap is as at its start.
 */
typedef __UINT8_TYPE__ uint8_t;
typedef __UINT32_TYPE__ uint32_t;
typedef __UINT64_TYPE__ uint64_t;

enum { HEAD = 16, PAGE = 65536, SIZES = 256, LARGEST = 40 };

struct tried {
    _Bool ok;
    void *p;
};

/* What stands before the bytes of a block. */
struct block {
    uint64_t size_class;
    struct block *next; /* of a freed block */
};

static uint64_t start, end, limit, live;
static struct block *freed[SIZES];

static void clear(void) {
    end = start;
    for (int k = 0; k < SIZES; k++) freed[k] = 0;
}

/* Where the heap starts, and the address that no block crosses; 0 is the limit of the memory itself. */
void pdb_heap_bounds(uint64_t at, uint64_t most) {
    start = (at + HEAD - 1) / HEAD * HEAD;
    limit = most;
    live = 0;
    clear();
}

/* How many blocks are taken: 0 between calls. */
uint64_t pdb_heap_blocks(void) { return live; }

/* The bytes of a block with its head: 64, 80, 96, 112, 128, 160 and so on. */
static uint64_t size_of(uint64_t size_class) { return (4 + (size_class & 3)) << (size_class >> 2) << 4; }

/* The smallest class that has room for so many bytes and the head. */
static uint64_t class_of(uint64_t size) {
    uint64_t needed = size + HEAD;
    if (needed <= 64) return 0;
    uint64_t log = 63 - (uint64_t)__builtin_clzll(needed - 1);
    uint64_t size_class = (log - 6) << 2;
    while (size_of(size_class) < needed) size_class++;
    return size_class;
}

/* Whether the memory has all bytes before an address, after it grew where it must. */
static _Bool has_memory(uint64_t before) {
    uint64_t present = __builtin_wasm_memory_size(0) * PAGE;
    if (limit && before > limit) return 0;
    if (before <= present) return 1;
    /* In a memory of 32 bits a failure is the lower half of -1 alone. */
    return (uint32_t)__builtin_wasm_memory_grow(0, (before - present + PAGE - 1) / PAGE) != (uint32_t)-1;
}

static void *take(uint64_t size) {
    if (size >> LARGEST) return 0;
    uint64_t size_class = class_of(size);
    struct block *block = freed[size_class];
    if (block) freed[size_class] = block->next;
    else {
        if (!has_memory(end + size_of(size_class))) return 0;
        block = (struct block *)end;
        end += size_of(size_class);
        block->size_class = size_class;
    }
    live++;
    return (uint8_t *)block + HEAD;
}

static void give(void *bytes) {
    struct block *block = (struct block *)((uint8_t *)bytes - HEAD);
    block->next = freed[block->size_class];
    freed[block->size_class] = block;
    if (--live == 0) clear();
}

static struct tried tried(void *bytes) {
    static const uint8_t nothing;
    return (struct tried){bytes != 0, bytes ? bytes : (void *)&nothing};
}

struct tried rattle_alloc(uint64_t size, uint64_t align) {
    return align > HEAD ? tried(0) : tried(take(size));
}

struct tried rattle_realloc(void *bytes, uint64_t kept, uint64_t size, uint64_t align) {
    struct block *block = (struct block *)((uint8_t *)bytes - HEAD);
    uint64_t capacity = size_of(block->size_class) - HEAD;
    if (align > HEAD) return tried(0);
    if (size <= capacity && size >= capacity / 4) return tried(bytes);
    void *other = take(size);
    if (other) {
        __builtin_memcpy(other, bytes, kept < size ? kept : size);
        give(bytes);
    }
    return tried(other);
}

void rattle_dealloc(void *bytes) { give(bytes); }
