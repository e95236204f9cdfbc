/* Threads recover one log, 1 to 8 of them, and four read its store, each by a place of its own. Four append to the logs of
 * one keeper, and all that one may acknowledge is recovered. The last line is 'N passed, M failed'. */
#include "mtrecover.h"
#include <pthread.h>
#include <stdio.h>
#include <string.h>

enum { THREADS = 4, MOST = 8, KEYS = 20000, KEY = 8 };

static uint8_t log_bytes[64 * KEYS];

/* Writes the key of a number, as which keys rise like numbers. Its column 0 has the same bytes. */
static size_t key_of(unsigned number, uint8_t *key) { return (size_t)sprintf((char *)key, "%05u", number); }

/* Puts all keys into a log, and feeds it. */
static bool feed_log(mtr_place *inputs) {
    mtr_place feed = {0};
    size_t length = 0, count = 0;
    bool is_done = mtr_log_header(1, 0, log_bytes, sizeof log_bytes, &count) == MTR_DONE;
    for (unsigned n = 1; is_done && n <= KEYS; n++) {
        uint8_t key[KEY];
        mtr_column column = {0, {key, key_of(n, key)}};
        length += count;
        is_done = mtr_put(1, n, n, key, column.value.length, &column, 1, log_bytes + length, sizeof log_bytes - length,
                          &count) == MTR_DONE;
    }
    length += count;
    is_done = is_done && mtr_mark(KEYS + 1, log_bytes + length, sizeof log_bytes - length, &count) == MTR_DONE;
    return is_done && mtr_feed_log(&feed) == MTR_DONE && mtr_feed(&feed, log_bytes, length + count) == MTR_DONE &&
           mtr_add(inputs, &feed) == MTR_DONE;
}

struct worker {
    pthread_t thread;
    mtr_place task;
    uint32_t status;
};

static void *work(void *given) {
    struct worker *me = given;
    me->status = mtr_work(&me->task);
    return NULL;
}

/* Does the tasks of a step, each on a thread of its own, and joins the last one first. */
static bool do_step(mtr_place *job) {
    static struct worker workers[2 * MOST];
    unsigned count = 0;
    bool is_done = true;
    while (count < 2 * MOST && mtr_hire(job, &workers[count].task) == MTR_DONE)
        count++;
    for (unsigned n = 0; n < count; n++)
        is_done = pthread_create(&workers[n].thread, NULL, work, &workers[n]) == 0 && is_done;
    for (unsigned n = 0; n < count; n++)
        is_done = pthread_join(workers[n].thread, NULL) == 0 && workers[n].status == MTR_DONE && is_done;
    while (count-- > 0)
        is_done = mtr_join(job, &workers[count].task) == MTR_DONE && is_done;
    return is_done;
}

/* Recovers the log on so many threads. */
static bool recover_on(mtr_place *store, unsigned threads) {
    mtr_fault fault;
    return feed_log(store) && mtr_prepare(store, threads, &fault) == MTR_DONE && do_step(store) &&
           mtr_replay(store) == MTR_DONE && do_step(store) && mtr_assemble(store) == MTR_DONE;
}

/* Whether the key is there with its value. */
static bool has(mtr_place *store, unsigned number) {
    uint8_t key[KEY], value[KEY];
    size_t length = key_of(number, key), count = 0;
    return mtr_get(store, key, length, 0, value, sizeof value, &count) == MTR_DONE && count == length &&
           memcmp(key, value, count) == 0;
}

/* Whether a range has all keys, in order. */
static bool walks(mtr_place *store) {
    mtr_place hits = {0};
    unsigned found = 0;
    size_t count = 0, columns = 0;
    uint8_t key[KEY], wanted[KEY];
    bool is_so = mtr_range(store, NULL, 0, KEYS + 1, &hits) == MTR_DONE;
    while (is_so && mtr_hit(&hits, found, &columns, key, sizeof key, &count) == MTR_DONE)
        is_so = key_of(++found, wanted) == count && memcmp(key, wanted, count) == 0 && columns == 1;
    mtr_free(&hits);
    return is_so && found == KEYS;
}

struct reader {
    pthread_t thread;
    mtr_place store;
    unsigned number, passed, failed;
};

/* Where range i of the readers' ranges begins: at a key that is shorter than these. No bytes: there are not so many. */
enum { CUT = KEY + 1 };

static size_t cut(mtr_place *store, unsigned i, uint8_t *key) {
    size_t count = 0;
    return mtr_cut_key(store, i, THREADS, key, CUT, &count) == MTR_DONE ? count : 0;
}

/* Whether the keys of range i are its part of all keys, in order. The flat form of a pair is its length, in 4 bytes, which stands
 * after it too, a version in 8, the length of the key in 2, and the key. */
static bool has_range(mtr_place *store, unsigned i) {
    uint8_t start[CUT], end[CUT], out[1 << 12], wanted[KEY];
    size_t start_length = cut(store, i, start), end_length = cut(store, i + 1, end), count, pairs;
    unsigned found = KEYS / THREADS * i;
    bool is_so = true;
    while (is_so && mtr_dump_until(store, start, start_length, end, end_length, out, sizeof out, &count, &pairs) == MTR_DONE) {
        for (size_t at = 0; is_so && at < count; at += 8u + out[at + 3]) {
            start_length = key_of(++found, wanted);
            is_so = out[at + 13] == start_length && memcmp(out + at + 14, wanted, start_length) == 0;
        }
        memcpy(start, wanted, start_length);
        start[start_length++] = 0;
    }
    return is_so && found == KEYS / THREADS * (i + 1);
}

/* Reads a range, then all keys, and shares and frees the store while others read. */
static void *read_all(void *given) {
    struct reader *me = given;
    mtr_place other = {0};
    has_range(&me->store, me->number) ? me->passed++ : me->failed++;
    for (unsigned n = 1; n <= KEYS; n++)
        has(&me->store, n) ? me->passed++ : me->failed++;
    bool is_so = mtr_share(&me->store, &other) == MTR_DONE;
    mtr_free(&me->store);
    is_so && walks(&other) ? me->passed++ : me->failed++;
    mtr_free(&other);
    return NULL;
}

struct writer {
    pthread_t thread;
    mtr_place worker, buffer;
    unsigned number;
    uint8_t file[64 * KEYS];
    size_t length;
    uint64_t last;
    bool is_done;
};

static struct writer writers[THREADS];

/* Appends all that the worker's log took to its file. */
static bool sync_log(struct writer *me) {
    mtr_lent lent;
    if (mtr_worker_take(&me->worker, &me->buffer, &lent) != MTR_DONE)
        return false;
    memcpy(me->file + me->length, lent.at, lent.length);
    me->length += lent.length;
    return mtr_worker_synced(&me->worker) == MTR_DONE;
}

/* Puts each fourth key, while others put theirs. Stamps rise. */
static void *write_keys(void *given) {
    struct writer *me = given;
    bool is_done = true;
    for (unsigned n = 1 + me->number; is_done && n <= KEYS; n += THREADS) {
        uint8_t key[KEY];
        uint64_t stamp = 0;
        mtr_column column = {0, {key, key_of(n, key)}};
        is_done = mtr_worker_put(&me->worker, key, column.value.length, &column, 1, &stamp) == MTR_DONE &&
                  stamp > me->last && (n % 25 != 0 || sync_log(me));
        me->last = stamp;
    }
    me->is_done = is_done && sync_log(me);
    return NULL;
}

/* Creates the log of this number, whose file the writer of this number keeps. */
static bool create(mtr_place *keeper, size_t log) {
    struct writer *writer = &writers[log];
    return mtr_log_bytes(keeper, log, writer->file, sizeof writer->file, &writer->length) == MTR_DONE &&
           mtr_log_created(keeper, log) == MTR_DONE;
}

/* Begins a keeper of a log for each writer, and lends them. */
static bool lend_logs(mtr_place *keeper) {
    size_t log = 0;
    bool is_done = mtr_keeper_begin(keeper, 7) == MTR_DONE && create(keeper, 0);
    while (is_done && log + 1 < THREADS)
        is_done = mtr_log_begin(keeper, &log) == MTR_DONE && create(keeper, log);
    is_done = is_done && mtr_keeper_lend(keeper) == MTR_DONE;
    for (unsigned n = 0; is_done && n < THREADS; n++) {
        mtr_place worker = {0};
        is_done = mtr_crew_hire(keeper, &worker) == MTR_DONE && mtr_worker_log(&worker, &log) == MTR_DONE;
        writers[log].worker = worker;
        writers[log].number = (unsigned)log;
    }
    return is_done;
}

/* Lets each writer's thread put its keys. */
static bool write_at_once(void) {
    bool is_done = true;
    for (unsigned n = 0; n < THREADS; n++)
        is_done = pthread_create(&writers[n].thread, NULL, write_keys, &writers[n]) == 0 && is_done;
    for (unsigned n = 0; n < THREADS; n++)
        is_done = pthread_join(writers[n].thread, NULL) == 0 && writers[n].is_done && is_done;
    return is_done;
}

/* Whether all may be acknowledged once each log has synced a mark. */
static bool is_acknowledged(void) {
    bool is_so = true;
    uint64_t below = 0;
    for (unsigned n = 0; n < THREADS; n++)
        is_so = mtr_worker_mark(&writers[n].worker) == MTR_DONE && sync_log(&writers[n]) && is_so;
    is_so = mtr_worker_acknowledged(&writers[0].worker, &below) == MTR_DONE && is_so;
    for (unsigned n = 0; n < THREADS; n++)
        is_so = below > writers[n].last && is_so;
    return is_so;
}

/* Takes the logs back. Meanwhile there is no keeper. */
static bool close_crew(mtr_place *keeper) {
    mtr_place other = {0};
    bool is_done = mtr_crew_hire(keeper, &other) == MTR_ABSENT && mtr_log_mark(keeper, 0) == MTR_WRONG &&
                   mtr_crew_join(keeper, &other) == MTR_WRONG && mtr_crew_close(keeper) == MTR_EARLY;
    for (unsigned n = 0; is_done && n < THREADS; n++)
        is_done = mtr_crew_join(keeper, &writers[n].worker) == MTR_DONE;
    return is_done && mtr_crew_close(keeper) == MTR_DONE && mtr_log_mark(keeper, 0) == MTR_DONE;
}

/* Recovers from the writers' files. */
static bool recover_files(mtr_place *store) {
    mtr_fault fault;
    bool is_done = true;
    for (unsigned n = 0; is_done && n < THREADS; n++) {
        mtr_place feed = {0};
        is_done = mtr_feed_log(&feed) == MTR_DONE && mtr_feed(&feed, writers[n].file, writers[n].length) == MTR_DONE &&
                  mtr_add(store, &feed) == MTR_DONE;
        mtr_free(&writers[n].buffer);
    }
    return is_done && mtr_recover(store, &fault) == MTR_DONE;
}

/* Lets threads put all keys into logs of one keeper, and recovers them. */
static void append_at_once(unsigned *passed, unsigned *failed) {
    mtr_place keeper = {0}, store = {0};
    lend_logs(&keeper) && write_at_once() && is_acknowledged() ? ++*passed : ++*failed;
    close_crew(&keeper) ? ++*passed : ++*failed;
    recover_files(&store) && walks(&store) ? ++*passed : ++*failed;
    mtr_free(&keeper);
    mtr_free(&store);
}

int main(void) {
    static struct reader readers[THREADS];
    mtr_place store = {0};
    unsigned passed = 0, failed = 0;
    for (unsigned threads = 1; threads <= MOST; threads *= 2) {
        mtr_free(&store);
        recover_on(&store, threads) && walks(&store) ? passed++ : failed++;
    }
    for (unsigned n = 0; n < THREADS; n++) {
        readers[n].number = n;
        mtr_share(&store, &readers[n].store) == MTR_DONE ? passed++ : failed++;
    }
    for (int n = 0; n < THREADS; n++)
        pthread_create(&readers[n].thread, NULL, read_all, &readers[n]) == 0 ? passed++ : failed++;
    for (int n = 0; n < THREADS; n++) {
        pthread_join(readers[n].thread, NULL);
        passed += readers[n].passed;
        failed += readers[n].failed;
    }
    mtr_free(&store);
    append_at_once(&passed, &failed);
    printf("%u passed, %u failed\n", passed, failed);
    return failed != 0;
}
