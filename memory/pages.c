/* The memory of the programs, in place of the C library's: on pages of 2 MB, of which the system makes one sooner
 * than 512 of 4 KB, and shared by all threads, so that what one gives back another takes. Where there are no such
 * pages, the memory is the same on small ones. A block of up to 2 KB is a part of a span, whose blocks have one size,
 * and stays one: a thread keeps up to 128 KB of a size that it gave back, and hands on the rest. A larger block is a
 * run of units of 1 KB in an area, or has a mapping of its own. Memory that was an area's is never given back to the
 * system.
 *
 * Spans and runs begin at multiples of 1 KB, sizes are multiples of 16, so each block is aligned to 16 bytes, the
 * most that std asks for. Sizes above PTRDIFF_MAX are refused, so no sum wraps. Without memory an answer is null, and
 * nothing has changed.
 *
 * Kinds and lengths are written under the lock, or before another thread knows the mapping. Each unit but an area's
 * first ones is of one span or run, whose first and last unit say so, and a neighbour's are read under the lock.
 * Without it a thread reads those of its own block's first unit: they were written before it had the block, and no
 * one else writes them while it has it. Each is a byte or a word of its own, so that writes beside it do not meet
 * the read. */
#define _GNU_SOURCE
#include <pthread.h>
#include <stdbool.h>
#include <stddef.h>
#include <stdint.h>
#include <string.h>
#include <sys/mman.h>

#define AREA ((size_t)8 << 20)
#define MANY ((size_t)64 << 10)

/* A span has at least LEAST units, and at most MOST. */
enum { UNIT = 1024, UNITS = AREA / UNIT, LEAST = 16, MOST = 64, SMALL = 2048, SIZES = 16 + 3 * 16 };

/* What a unit belongs to, if to no span of a size. */
enum { FREE = 255, RUN = 254, OWN = 253 };

/* What the first units of each area say. Of a run, free or a block, the first and the last unit have the kind and the
 * number of its units. The units of a span have the number of its size. */
struct area {
    size_t bytes; /* of a mapping of its own */
    uint16_t length[UNITS];
    uint8_t kind[UNITS];
};

enum { HEAD = (sizeof(struct area) + UNIT - 1) / UNIT };

/* Free runs of one number of units, and where the first one's address stands. */
struct run {
    struct run *next, **at;
};

/* A freed block of a span, and in the first one of many the first one of the next many. */
struct freed {
    struct freed *next, *others;
};

/* What a thread keeps of each size: some freed blocks, perhaps many others, and what is left of a span. */
struct cache {
    struct cache *next;
    struct freed *some[SIZES], *others[SIZES];
    size_t count[SIZES];
    char *at[SIZES], *end[SIZES];
};

/* The lock guards all that follows, and what areas say of runs. */
static pthread_mutex_t lock = PTHREAD_MUTEX_INITIALIZER;
static struct run *runs[UNITS];
static uint64_t there[UNITS / 64];
static struct freed *many[SIZES];
static struct cache *idle;

static pthread_once_t once = PTHREAD_ONCE_INIT;
static pthread_key_t ends;
static bool has_ends;
static __thread struct cache *own;

/* ---- Areas and runs ---- */

static struct area *area_of(void *at) { return (struct area *)((uintptr_t)at & ~(AREA - 1)); }

static size_t unit_of(void *at) { return ((uintptr_t)at & (AREA - 1)) / UNIT; }

static char *unit_at(struct area *area, size_t unit) { return (char *)area + unit * UNIT; }

/* Maps so many bytes, at a multiple of AREA. Null: no memory. */
static struct area *map(size_t bytes) {
    char *from = mmap(NULL, bytes + AREA, PROT_READ | PROT_WRITE, MAP_PRIVATE | MAP_ANONYMOUS | MAP_NORESERVE, -1, 0);
    if (from == MAP_FAILED) return NULL;
    char *area = (char *)(((uintptr_t)from + AREA - 1) & ~(AREA - 1));
    if (area != from) munmap(from, area - from);
    munmap(area + bytes, from + AREA - area);
    madvise(area, bytes, MADV_HUGEPAGE);
    return (struct area *)area;
}

static void mark(struct area *area, size_t unit, size_t count, uint8_t kind) {
    area->kind[unit] = area->kind[unit + count - 1] = kind;
    area->length[unit] = area->length[unit + count - 1] = count;
}

static void link_run(struct area *area, size_t unit, size_t count) {
    struct run *run = (struct run *)unit_at(area, unit);
    mark(area, unit, count, FREE);
    run->next = runs[count];
    run->at = &runs[count];
    if (run->next) run->next->at = &run->next;
    runs[count] = run;
    there[count / 64] |= (uint64_t)1 << count % 64;
}

static void unlink_run(struct area *area, size_t unit) {
    struct run *run = (struct run *)unit_at(area, unit);
    size_t count = area->length[unit];
    *run->at = run->next;
    if (run->next) run->next->at = run->at;
    if (!runs[count]) there[count / 64] &= ~((uint64_t)1 << count % 64);
}

/* Gives a run back, joined with the free ones beside it. */
static void give(struct area *area, size_t unit, size_t count) {
    if (unit > HEAD && area->kind[unit - 1] == FREE) {
        size_t before = area->length[unit - 1];
        unlink_run(area, unit - before);
        unit -= before;
        count += before;
    }
    if (unit + count < UNITS && area->kind[unit + count] == FREE) {
        size_t after = area->length[unit + count];
        unlink_run(area, unit + count);
        count += after;
    }
    link_run(area, unit, count);
}

/* Takes a run of `count` units, or a whole free one of more, but fewer than `most`. Says in `count` how many. Of
 * others it takes the end: what the lock's holder writes lies at the begin, whose pages are there. Null: no memory. */
static char *take(size_t *count, size_t most, uint8_t kind) {
    size_t word = *count / 64;
    uint64_t bits = there[word] & ~(uint64_t)0 << *count % 64;
    while (!bits && ++word < UNITS / 64) bits = there[word];
    struct area *area;
    size_t unit = HEAD, found = UNITS - HEAD;
    if (bits) {
        struct run *run = runs[word * 64 + __builtin_ctzll(bits)];
        area = area_of(run);
        unit = unit_of(run);
        found = area->length[unit];
        unlink_run(area, unit);
    } else if (!(area = map(AREA))) {
        return NULL;
    }
    if (found < most) *count = found;
    if (*count < found) link_run(area, unit, found - *count);
    unit += found - *count;
    if (kind == RUN)
        mark(area, unit, *count, RUN);
    else
        memset(area->kind + unit, kind, *count);
    return unit_at(area, unit);
}

/* Takes a run of so many units. */
static void *take_run(size_t count) {
    pthread_mutex_lock(&lock);
    void *run = take(&count, 0, RUN);
    pthread_mutex_unlock(&lock);
    return run;
}

/* Maps a block of its own. */
static void *map_block(size_t size) {
    struct area *area = map((HEAD * UNIT + size + 4095) & ~(size_t)4095);
    if (!area) return NULL;
    area->bytes = (HEAD * UNIT + size + 4095) & ~(size_t)4095;
    area->kind[HEAD] = OWN;
    return unit_at(area, HEAD);
}

/* ---- Blocks of spans ---- */

/* The number of the least size that holds so many bytes: multiples of 16 up to 256, then sixteen for each power of
 * two. */
static unsigned number_of(size_t size) {
    if (size <= 256) return (unsigned)((size + 15) / 16 - (size > 0));
    unsigned log = 63 - (unsigned)__builtin_clzll(size - 1);
    return (log - 7) * 16 + (unsigned)((size - 1) >> (log - 4)) % 16;
}

static size_t size_of(unsigned number) {
    if (number < 16) return (number + 1) * 16;
    return (size_t)(17 + number % 16) << (3 + number / 16);
}

/* Keeps what a thread had for the next one. */
static void leave(void *cache) {
    pthread_mutex_lock(&lock);
    ((struct cache *)cache)->next = idle;
    idle = cache;
    pthread_mutex_unlock(&lock);
    own = NULL;
}

static void begin(void) { has_ends = pthread_key_create(&ends, leave) == 0; }

/* Returns what this thread keeps. Null: no memory. */
static struct cache *join(void) {
    if (own) return own;
    pthread_once(&once, begin);
    pthread_mutex_lock(&lock);
    struct cache *cache = idle;
    size_t count = (sizeof *cache + UNIT - 1) / UNIT;
    if (cache)
        idle = cache->next;
    else if ((cache = (struct cache *)take(&count, 0, RUN)))
        memset(cache, 0, sizeof *cache);
    pthread_mutex_unlock(&lock);
    if (cache && has_ends) pthread_setspecific(ends, cache);
    own = cache;
    return cache;
}

/* How many freed blocks are many: 64 KB. */
static size_t many_of(unsigned number) { return MANY / size_of(number); }

/* Has the thread keep some freed blocks, or a part of a span. Whether there is memory. */
static bool refill(struct cache *cache, unsigned number) {
    struct freed *freed = cache->others[number];
    size_t count = LEAST;
    char *span = NULL;
    cache->others[number] = NULL;
    if (!freed) {
        pthread_mutex_lock(&lock);
        freed = many[number];
        if (freed)
            many[number] = freed->others;
        else
            span = take(&count, MOST, number);
        pthread_mutex_unlock(&lock);
    }
    cache->some[number] = freed;
    cache->count[number] = freed ? many_of(number) : 0;
    if (span) {
        cache->at[number] = span;
        cache->end[number] = span + count * UNIT;
    }
    return freed != NULL || span != NULL;
}

static void *take_block(unsigned number) {
    struct cache *cache = join();
    size_t size = size_of(number);
    if (!cache) return NULL;
    if (!cache->some[number] && (size_t)(cache->end[number] - cache->at[number]) < size && !refill(cache, number))
        return NULL;
    struct freed *freed = cache->some[number];
    if (freed) {
        cache->some[number] = freed->next;
        cache->count[number]--;
        return freed;
    }
    cache->at[number] += size;
    return cache->at[number] - size;
}

/* A thread that has no cache, nor memory for one, loses the block. */
static void give_block(struct freed *block, unsigned number) {
    struct cache *cache = join();
    if (!cache) return;
    block->next = cache->some[number];
    cache->some[number] = block;
    cache->count[number]++;
    if (cache->count[number] < many_of(number)) return;
    struct freed *others = cache->others[number];
    if (others) {
        pthread_mutex_lock(&lock);
        others->others = many[number];
        many[number] = others;
        pthread_mutex_unlock(&lock);
    }
    cache->others[number] = block;
    cache->some[number] = NULL;
    cache->count[number] = 0;
}

/* ---- All blocks ---- */

static void *get(size_t size) {
    if (size > PTRDIFF_MAX) return NULL;
    if (size <= SMALL) return take_block(number_of(size));
    size_t count = (size - 1) / UNIT + 1;
    return count <= UNITS - HEAD ? take_run(count) : map_block(size);
}

static void put(void *at) {
    struct area *area = area_of(at);
    size_t unit = unit_of(at);
    uint8_t kind = area->kind[unit];
    if (kind == OWN) {
        munmap(area, area->bytes);
    } else if (kind == RUN) {
        pthread_mutex_lock(&lock);
        give(area, unit, area->length[unit]);
        pthread_mutex_unlock(&lock);
    } else {
        give_block(at, kind);
    }
}

/* Has the run of `count` units at `unit` have `wanted` ones, where it lies. Whether that is done. */
static bool resize_run(struct area *area, size_t unit, size_t count, size_t wanted) {
    pthread_mutex_lock(&lock);
    size_t all = count;
    if (unit + count < UNITS && area->kind[unit + count] == FREE) all += area->length[unit + count];
    if (all >= wanted) {
        if (all > count) unlink_run(area, unit + count);
        if (all > wanted) link_run(area, unit + wanted, all - wanted);
        mark(area, unit, wanted, RUN);
    }
    pthread_mutex_unlock(&lock);
    return all >= wanted;
}

/* Returns a block of `size` bytes that begins with the first `kept` ones of the block, which it takes. Null: no
 * memory, and the block stays. */
static void *resize(void *at, size_t kept, size_t size) {
    struct area *area = area_of(at);
    size_t unit = unit_of(at);
    uint8_t kind = area->kind[unit];
    if (kind < SIZES && size <= SMALL && number_of(size) == kind) return at;
    if (kind == RUN && size > SMALL && (size - 1) / UNIT < UNITS - HEAD &&
        resize_run(area, unit, area->length[unit], (size - 1) / UNIT + 1))
        return at;
    void *to = get(size);
    if (!to) return NULL;
    memcpy(to, at, kept < size ? kept : size);
    put(at);
    return to;
}

/* Whether there is memory, and where. Without memory `at` is the address of a byte that nobody owns, not null. */
struct block {
    bool is_there;
    void *at;
};

struct block rattle_alloc(size_t size, size_t align);
struct block rattle_realloc(void *at, size_t kept, size_t size, size_t align);
void rattle_dealloc(void *at);

static struct block block_at(void *at) {
    static uint8_t nobodys;
    struct block block = {at != NULL, at != NULL ? at : &nobodys};
    return block;
}

struct block rattle_alloc(size_t size, size_t align) {
    (void)align;
    return block_at(get(size));
}

struct block rattle_realloc(void *at, size_t kept, size_t size, size_t align) {
    (void)align;
    return block_at(resize(at, kept, size));
}

void rattle_dealloc(void *at) { put(at); }
