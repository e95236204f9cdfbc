/* Threads take blocks of 0 bytes to 64 MB from the memory of pages.c, have them grow and shrink, and give back each
 * other's. Each block keeps its bytes, is aligned, and overlaps no other. Then memory is refused, but not under a
 * sanitizer, which needs its own. The last line is 'N passed, M failed'. */
#include "../../memory/pages.c"
#include <stdio.h>
#include <sys/resource.h>

#ifndef STEPS
#define STEPS 40000
#endif

enum { THREADS = 4, PLACES = 400 };

/* A block, and the byte that its bytes begin with. */
static struct place {
    pthread_mutex_t lock;
    uint8_t *at;
    size_t size;
    uint8_t first;
} places[PLACES];

static bool is_whole[THREADS];

/* A number that looks random, after the last one. */
static uint64_t next(uint64_t *state) {
    *state ^= *state << 13;
    *state ^= *state >> 7;
    return *state ^= *state << 17;
}

/* Mostly small sizes, some around the bounds, few large ones. */
static size_t size_after(uint64_t *state) {
    uint64_t n = next(state), kind = n % 64;
    n /= 64;
    if (kind == 0) return n % 4096 == 0 ? n % (64 << 20) : n % (2 << 20);
    if (kind < 4) return n % (100 << 10);
    if (kind < 8) return SMALL - 20 + n % 40;
    if (kind < 12) return (n % 30 + 1) * UNIT - 2 + n % 5;
    return n % 1500;
}

/* The step from one byte that is tried to the next one: of a large block not all are. */
static size_t step_of(size_t size) { return size < 10000 ? 1 : 509; }

static void fill(struct place *place) {
    for (size_t n = 0; n < place->size; n += step_of(place->size)) place->at[n] = (uint8_t)(place->first + n);
}

/* Whether the first bytes are those that were filled in. */
static bool has(const struct place *place, size_t count) {
    for (size_t n = 0; n < count; n += step_of(place->size))
        if (place->at[n] != (uint8_t)(place->first + n)) return false;
    return true;
}

/* Takes a block for the place, or changes its size, or gives it back. Whether all was well. */
static bool change(struct place *place, uint64_t *state) {
    size_t size = size_after(state);
    if (place->at && next(state) % 2) {
        bool is_same = has(place, place->size);
        rattle_dealloc(place->at);
        place->at = NULL;
        return is_same;
    }
    size_t kept = !place->at ? 0 : size < place->size ? size : place->size;
    struct block block = place->at ? rattle_realloc(place->at, kept, size, 16) : rattle_alloc(size, 16);
    if (!block.is_there) return place->at == NULL || has(place, place->size);
    place->at = block.at;
    bool is_same = has(place, kept);
    place->size = size;
    place->first = (uint8_t)next(state);
    fill(place);
    return is_same && (uintptr_t)block.at % 16 == 0;
}

static void *work(void *given) {
    size_t me = (size_t)given;
    uint64_t state = me + 1;
    is_whole[me] = true;
    for (size_t n = 0; n < STEPS; n++) {
        struct place *place = &places[next(&state) % PLACES];
        pthread_mutex_lock(&place->lock);
        is_whole[me] = change(place, &state) && is_whole[me];
        pthread_mutex_unlock(&place->lock);
    }
    return NULL;
}

/* Has threads change the places. Whether all was well. */
static bool do_round(void) {
    pthread_t threads[THREADS];
    bool is_done = true;
    for (size_t n = 0; n < THREADS; n++) is_done = pthread_create(&threads[n], NULL, work, (void *)n) == 0 && is_done;
    for (size_t n = 0; n < THREADS; n++) is_done = pthread_join(threads[n], NULL) == 0 && is_whole[n] && is_done;
    return is_done;
}

/* Whether each size that fits is the least one that does. */
static bool are_sizes_least(void) {
    for (size_t size = 0; size <= SMALL; size++) {
        unsigned number = number_of(size);
        if (number >= SIZES || size_of(number) < size || size_of(number) % 16 != 0) return false;
        if (number > 0 && size_of(number - 1) >= size) return false;
    }
    return true;
}

/* Gives all blocks back. Whether they had their bytes. */
static bool give_all(void) {
    bool is_same = true;
    for (size_t n = 0; n < PLACES; n++)
        if (places[n].at) {
            is_same = has(&places[n], places[n].size) && is_same;
            rattle_dealloc(places[n].at);
            places[n].at = NULL;
        }
    return is_same;
}

/* Whether blocks are refused once there is no memory, and those that were taken stay. */
static bool is_refused(void) {
    struct rlimit limit = {512 << 20, 512 << 20};
    if (setrlimit(RLIMIT_AS, &limit) != 0) return false;
    size_t count = 0;
    struct block blocks[100];
    for (; count < 100 && (blocks[count] = rattle_alloc(20 << 20, 16)).is_there; count++)
        memset(blocks[count].at, (int)count, 1000);
    if (count == 100 || rattle_alloc(SIZE_MAX, 1).is_there || rattle_alloc(PTRDIFF_MAX, 1).is_there) return false;
    if (count > 0 && rattle_realloc(blocks[0].at, 1000, 600 << 20, 16).is_there) return false;
    bool is_same = true;
    while (count-- > 0) {
        is_same = ((uint8_t *)blocks[count].at)[999] == (uint8_t)count && is_same;
        rattle_dealloc(blocks[count].at);
    }
    return is_same && rattle_alloc(20 << 20, 16).is_there;
}

int main(void) {
    unsigned passed = 0, failed = 0;
    for (size_t n = 0; n < PLACES; n++) pthread_mutex_init(&places[n].lock, NULL);
    bool (*const tests[])(void) = {are_sizes_least, do_round, do_round, give_all, is_refused};
#if defined __SANITIZE_THREAD__ || defined __SANITIZE_ADDRESS__
    size_t count = 4;
#else
    size_t count = 5;
#endif
    for (size_t n = 0; n < count; n++) {
        bool is_well = tests[n]();
        if (!is_well) printf("test %zu: FAILED\n", n + 1);
        *(is_well ? &passed : &failed) += 1;
    }
    printf("%u passed, %u failed\n", passed, failed);
    return failed != 0;
}
