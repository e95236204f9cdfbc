/* Random calls over a few places, against a model of what each place holds: random [CALLS [SEED]]. Allocations are refused at
 * random. Logs have random puts and removes, and are fed up to anywhere; what the model recovers of them is worked out by the
 * rules alone. It links its own memory in place of malloc.c's. The last line is 'N passed, M failed'. */
#include "mtrecover.h"
#include <stdio.h>
#include <stdlib.h>
#include <string.h>

/* ---- Memory that is refused at random ---- */

struct block {
    bool is_there;
    void *at;
};
struct block rattle_alloc(size_t size, size_t align);
struct block rattle_realloc(void *at, size_t kept, size_t size, size_t align);
void rattle_dealloc(void *at);

static uint64_t state;
static size_t blocks;  /* in use */
static unsigned often; /* one allocation of so many is refused, or none if 0 */
static bool refused;   /* in this call */

static size_t below(size_t bound) {
    state ^= state << 13;
    state ^= state >> 7;
    state ^= state << 17;
    return state % bound;
}

static bool is_refused(void) { return often != 0 && below(often) == 0 && (refused = true); }

static struct block block_at(void *at) {
    static uint8_t nobodys;
    struct block block = {at != NULL, at != NULL ? at : &nobodys};
    return block;
}

struct block rattle_alloc(size_t size, size_t align) {
    return is_refused() ? block_at(NULL) : (blocks++, block_at(malloc(size + align)));
}

struct block rattle_realloc(void *at, size_t kept, size_t size, size_t align) {
    (void)kept;
    return is_refused() ? block_at(NULL) : block_at(realloc(at, size + align));
}

void rattle_dealloc(void *at) {
    blocks--;
    free(at);
}

/* ---- Logs ---- */

enum { LOGS = 8, RECORDS = 24, KEYS = 12, COLUMNS = 3, LENGTH = 4096, HEADER = 12 };

struct record {
    size_t end; /* where it ends in its log */
    uint64_t time;
    size_t key;
    bool is_remove, has[COLUMNS];
    char value[COLUMNS];
};

struct log {
    uint8_t bytes[LENGTH];
    size_t length;
    struct record records[RECORDS];
};
static struct log logs[LOGS];

/* In their order. */
static const char *const keys[KEYS] = {"",     "a",         "ab",         "abcdefgh",         "abcdefgh1",         "abcdefgh12",
                                       "abcd", "abcdefghi", "abcdefghij", "abcdefghabcdefgh", "abcdefghabcdefgh1", "b"};
static size_t order[KEYS];

static int by_key(const void *a, const void *b) { return strcmp(keys[*(const size_t *)a], keys[*(const size_t *)b]); }

static const uint8_t *text(const char *word) { return (const uint8_t *)word; }

static void must(uint32_t status) {
    if (status != MTR_DONE) {
        printf("a log cannot be made\n");
        exit(1);
    }
}

/* Deals updates with rising timestamps to the logs. A timestamp is a version too. */
static void make_logs(void) {
    uint64_t time = 1;
    size_t count, made[LOGS] = {0};
    for (size_t i = 0; i < KEYS; i++) {
        order[i] = i;
    }
    qsort(order, KEYS, sizeof order[0], by_key);
    for (size_t l = 0; l < LOGS; l++) {
        must(mtr_log_header(2, 0, logs[l].bytes, LENGTH, &logs[l].length));
    }
    for (size_t n = 0; n < (size_t)LOGS * RECORDS; n++) {
        size_t l = below(LOGS), columns = 0;
        while (made[l] == RECORDS) {
            l = (l + 1) % LOGS;
        }
        struct log *log = &logs[l];
        struct record *record = &log->records[made[l]++];
        mtr_column column[COLUMNS];
        record->time = time += 1 + below(3);
        record->key = below(KEYS);
        record->is_remove = below(5) == 0;
        for (uint8_t c = 0; c < COLUMNS; c++) {
            record->has[c] = !record->is_remove && (below(2) == 0 || (c == COLUMNS - 1 && columns == 0));
            record->value[c] = (char)('a' + below(26));
            if (record->has[c]) {
                column[columns].number = c;
                column[columns].value.at = text(&record->value[c]);
                column[columns++].value.length = 1;
            }
        }
        uint8_t *to = log->bytes + log->length;
        size_t room = LENGTH - log->length, length = strlen(keys[record->key]);
        must(record->is_remove ? mtr_remove(2, time, time, text(keys[record->key]), length, to, room, &count)
                               : mtr_put(2, time, time, text(keys[record->key]), length, column, columns, to, room, &count));
        record->end = log->length += count;
    }
}

/* ---- The model ---- */

enum feed { FED, FAILED, BAD, LOST };

/* A log up to somewhere, or a part that names no checkpoint. */
struct input {
    bool is_part;
    enum feed feed;
    size_t log, length;
};

enum { INPUTS = 10, PLACES = 8 };

struct inputs {
    size_t count;
    struct input inputs[INPUTS];
};

/* What the rules make of inputs. */
struct store {
    size_t keys, logs, parts;
    uint64_t cutoff, records, late;
    bool has[KEYS][COLUMNS];
    char value[KEYS][COLUMNS];
};

/* A log of a keeper: whether it is created, whether anything was appended, or taken and not synced, and the first stamps of
 * these, or 0. */
struct kept {
    bool is_created, has_more, is_taken;
    uint64_t first, taken;
};

enum { KEPT = 6 };

struct keeper {
    size_t logs;
    uint64_t stamp; /* the greatest so far */
    struct kept kept[KEPT];
};

enum kind { EMPTY, FEED, GIVEN, JOB, TASK, STORE, HITS, KEEPER, BYTES };

struct model {
    enum kind kind;
    struct input feed;
    struct inputs given;
    struct store store;
    size_t job; /* the number of a job, and of the one that a task is of */
    bool is_replaying, is_lost, has_no_more, is_done;
    size_t out;        /* tasks that are handed out */
    size_t hits, skip; /* of hits: their number, and how many of the store's keys precede them */
    struct keeper keeper;
};

static mtr_place places[PLACES];
static struct model models[PLACES];

static size_t complete(const struct input *input) {
    size_t n = 0;
    while (n < RECORDS && logs[input->log].records[n].end <= input->length) {
        n++;
    }
    return n;
}

static bool has_key(const struct store *store, size_t key) {
    return store->has[key][0] || store->has[key][1] || store->has[key][2];
}

static struct store recovered(const struct inputs *given) {
    struct store store = {0};
    uint64_t best[KEYS][COLUMNS] = {{0}}, reset[KEYS] = {0};
    store.cutoff = UINT64_MAX;
    for (size_t i = 0; i < given->count; i++) {
        const struct input *input = &given->inputs[i];
        if (input->is_part) {
            store.parts++;
            continue;
        }
        size_t n = complete(input);
        uint64_t last = n == 0 ? 0 : logs[input->log].records[n - 1].time;
        store.cutoff = last < store.cutoff ? last : store.cutoff;
        store.records += n;
        store.logs++;
    }
    for (size_t i = 0; i < given->count; i++) {
        const struct input *input = &given->inputs[i];
        for (size_t n = 0; !input->is_part && n < complete(input); n++) {
            const struct record *record = &logs[input->log].records[n];
            size_t key = record->key;
            if (record->time >= store.cutoff) {
                store.late++;
            } else if (record->is_remove) {
                reset[key] = record->time > reset[key] ? record->time : reset[key];
            } else {
                for (size_t c = 0; c < COLUMNS; c++) {
                    if (record->has[c] && record->time > best[key][c]) {
                        best[key][c] = record->time;
                        store.value[key][c] = record->value[c];
                    }
                }
            }
        }
    }
    for (size_t key = 0; key < KEYS; key++) {
        for (size_t c = 0; c < COLUMNS; c++) {
            store.has[key][c] = best[key][c] > reset[key];
        }
        store.keys += has_key(&store, key);
    }
    return store;
}

/* The store's key at this position, or KEYS. */
static size_t key_at(const struct store *store, size_t position) {
    for (size_t i = 0; i < KEYS; i++) {
        if (has_key(store, order[i]) && position-- == 0) {
            return order[i];
        }
    }
    return KEYS;
}

/* ---- Calls ---- */

static unsigned passed, failed;
static const char *call;

static void expect(const char *what, bool is_so) {
    if (is_so) {
        passed++;
    } else if (failed++ < 20) {
        printf("%s: not so: %s\n", call, what);
    }
}

/* Whether a call answered what the model says, or was refused memory and may say so. */
static bool is_done(uint32_t got, uint32_t wanted, bool may_lack) {
    bool lacks = got == MTR_MEMORY && refused && may_lack && wanted != MTR_WRONG;
    if (got != wanted && !lacks && failed < 20) {
        printf("%s: %u, and not %u%s\n", call, got, wanted, refused ? ", refused" : "");
    }
    expect("its status", got == wanted || lacks);
    return got == MTR_DONE && wanted == MTR_DONE;
}

static void empty(struct model *model) {
    struct model none = {0};
    *model = none;
}

/* What recovery or the first step answers, if there is a fault or bytes were lost. Else DONE. */
static uint32_t refusal(const struct inputs *given, uint32_t got, const mtr_fault *fault) {
    size_t index[2] = {0, 0}, faults = 0, known = 0, all = 0;
    bool lost = false;
    for (size_t i = 0; i < given->count; i++) {
        const struct input *input = &given->inputs[i];
        uint32_t kind = input->feed == FAILED              ? 4 + input->is_part
                        : input->is_part                   ? 0
                        : input->feed == BAD               ? 3
                        : input->length < HEADER           ? 2
                                                           : 0;
        lost = lost || input->feed == LOST;
        faults += kind != 0;
        known += got == MTR_FAULT && kind != 0 && fault->kind == kind && fault->index == index[input->is_part] &&
                 (kind != 3 || (fault->what == 1 && fault->record == complete(input)));
        index[input->is_part]++;
        all += !input->is_part;
    }
    if (all == 0) {
        faults++;
        known += got == MTR_FAULT && fault->kind == 1;
    }
    if (faults != 0 && !(lost && got == MTR_MEMORY)) {
        expect("its fault", got != MTR_FAULT || known == 1);
        return MTR_FAULT;
    }
    return lost ? MTR_MEMORY : MTR_DONE;
}

static void feed(size_t p) {
    struct model *model = &models[p];
    bool is_fed = model->kind == FEED && model->feed.feed != FAILED;
    const struct log *log = &logs[model->feed.log];
    static const uint8_t bad[8] = {255, 255, 255, 255, 255, 255, 255, 255};
    uint32_t got;
    if (!is_fed) {
        is_done(mtr_feed(&places[p], bad, 1), MTR_WRONG, false);
    } else if (model->feed.is_part) {
        got = mtr_feed(&places[p], bad, 1 + below(8));
        expect("a part of no header", got == MTR_DONE || got == MTR_FAULT || (got == MTR_MEMORY && refused));
        model->feed.feed = got == MTR_MEMORY ? LOST : model->feed.feed;
    } else if (model->feed.feed == FED) {
        size_t n = complete(&model->feed), end = n == 0 ? HEADER : log->records[n - 1].end;
        if (model->feed.length == end && below(40) == 0) {
            got = mtr_feed(&places[p], bad, sizeof bad);
            is_done(got, MTR_FAULT, true);
            model->feed.feed = got == MTR_MEMORY ? LOST : BAD;
        } else {
            size_t rest = log->length - model->feed.length, more = below(4) != 0 ? rest : below(rest + 1);
            more = n == RECORDS || below(4) != 0 ? more : log->records[n].end - model->feed.length;
            if (is_done(mtr_feed(&places[p], log->bytes + model->feed.length, more), MTR_DONE, true)) {
                model->feed.length += more;
            } else {
                model->feed.feed = LOST;
            }
        }
    }
}

static void recover(size_t p, bool by_tasks) {
    struct model *model = &models[p];
    mtr_fault fault = {0, 0, 0, 0};
    uint32_t threads = (uint32_t)below(6);
    uint32_t got = by_tasks ? mtr_prepare(&places[p], threads, &fault) : mtr_recover(&places[p], &fault);
    if ((model->kind != EMPTY && model->kind != GIVEN) || (by_tasks && threads == 0)) {
        is_done(got, MTR_WRONG, false);
        return;
    }
    struct store store = recovered(&model->given);
    bool is_there = is_done(got, refusal(&model->given, got, &fault), true);
    empty(model);
    if (is_there) {
        static size_t jobs;
        model->kind = by_tasks ? JOB : STORE;
        model->store = store;
        model->job = jobs++;
    } else {
        expect("the place is empty", !places[p].full);
    }
}

/* The second step, or the store, once all tasks are back. */
static void go_on(size_t p, bool is_end) {
    struct model *model = &models[p];
    uint32_t got = is_end ? mtr_assemble(&places[p]) : mtr_replay(&places[p]);
    if (model->kind != JOB || model->is_replaying != is_end || model->out != 0 || model->is_lost) {
        is_done(got, MTR_WRONG, false);
    } else if (got == MTR_WRONG) {
        expect("not all tasks are handed out", !model->has_no_more);
    } else if (is_done(got, MTR_DONE, true)) {
        model->kind = is_end ? STORE : JOB;
        model->is_replaying = true;
        model->has_no_more = false;
    } else {
        empty(model);
    }
}

static void hire(size_t p, size_t q) {
    struct model *job = &models[p], *task = &models[q];
    uint32_t got = mtr_hire(&places[p], &places[q]);
    if (job->kind != JOB || task->kind != EMPTY) {
        is_done(got, MTR_WRONG, false);
    } else if (got == MTR_ABSENT) {
        job->has_no_more = true;
    } else if (is_done(got, MTR_DONE, true)) {
        expect("there are more tasks", !job->has_no_more);
        task->kind = TASK;
        task->job = job->job;
        job->out++;
    }
}

static void work(size_t p) {
    struct model *task = &models[p];
    uint32_t got = mtr_work(&places[p]);
    if (is_done(got, task->kind == TASK ? MTR_DONE : MTR_WRONG, true)) {
        task->is_done = true;
    } else if (got == MTR_MEMORY) {
        for (size_t q = 0; q < PLACES; q++) {
            models[q].is_lost |= models[q].kind == JOB && models[q].job == task->job;
        }
        empty(task);
    }
}

static void join(size_t p, size_t q) {
    struct model *job = &models[p], *task = &models[q];
    bool is_own = job->kind == JOB && task->kind == TASK && job->job == task->job;
    if (job->kind == JOB && task->kind == TASK && !is_own) {
        return; /* the caller's fault */
    }
    if (is_done(mtr_join(&places[p], &places[q]), is_own && task->is_done ? MTR_DONE : MTR_WRONG, false)) {
        job->out--;
        empty(task);
    }
}

static void add(size_t p, size_t q) {
    struct model *to = &models[p], *from = &models[q];
    bool is_right = (to->kind == EMPTY || to->kind == GIVEN) && from->kind == FEED;
    if (to->given.count < INPUTS && is_done(mtr_add(&places[p], &places[q]), is_right ? MTR_DONE : MTR_WRONG, true)) {
        to->kind = GIVEN;
        to->given.inputs[to->given.count++] = from->feed;
        empty(from);
    }
}

static void begin(size_t p) {
    struct model *model = &models[p];
    bool is_part = below(12) == 0;
    uint32_t got = is_part ? mtr_feed_part(&places[p]) : mtr_feed_log(&places[p]);
    if (is_done(got, model->kind == EMPTY ? MTR_DONE : MTR_WRONG, true)) {
        model->kind = FEED;
        model->feed.is_part = is_part;
        model->feed.log = below(LOGS);
    }
}

static void fail(size_t p) {
    struct model *model = &models[p];
    bool is_right = model->kind == FEED && model->feed.feed != FAILED;
    if (is_done(mtr_feed_failed(&places[p]), is_right ? MTR_DONE : MTR_WRONG, false)) {
        model->feed.feed = FAILED;
    }
}

static void report(size_t p) {
    const struct store *store = &models[p].store;
    mtr_report told;
    if (is_done(mtr_get_report(&places[p], &told), models[p].kind == STORE ? MTR_DONE : MTR_WRONG, false)) {
        expect("the report", told.cutoff == store->cutoff && told.records == store->records && told.late == store->late &&
                                 told.logs == store->logs && told.nameless == store->parts && told.keys == store->keys &&
                                 told.survivors == store->records - store->late && told.checkpoint == UINT64_MAX);
    }
}

static void get(size_t p) {
    const struct store *store = &models[p].store;
    size_t key = below(KEYS), count = 99, room = below(2);
    uint8_t column = (uint8_t)below(COLUMNS), out[1] = {0};
    bool is_store = models[p].kind == STORE, has = is_store && store->has[key][column];
    is_done(mtr_exists(&places[p], text(keys[key]), strlen(keys[key])),
            !is_store ? MTR_WRONG : has_key(store, key) ? MTR_DONE : MTR_ABSENT, false);
    uint32_t wanted = !is_store ? MTR_WRONG : !has ? MTR_ABSENT : room == 0 ? MTR_SHORT : MTR_DONE;
    if (is_done(mtr_get(&places[p], text(keys[key]), strlen(keys[key]), column, out, room, &count), wanted, false)) {
        expect("the value", out[0] == (uint8_t)store->value[key][column]);
    }
    expect("its length", wanted == MTR_DONE || wanted == MTR_SHORT ? count == 1 : count == 99);
}

/* How many of the store's keys are below these bytes. */
static size_t skipped(const struct store *store, const void *start, size_t start_length) {
    size_t n = 0;
    for (size_t i = 0; i < KEYS; i++) {
        size_t length = strlen(keys[i]);
        int order = memcmp(keys[i], start, length < start_length ? length : start_length);
        n += has_key(store, i) && (order < 0 || (order == 0 && length < start_length));
    }
    return n;
}

static void range(size_t p, size_t q) {
    struct model *hits = &models[q];
    const char *start = keys[below(KEYS)];
    size_t most = below(KEYS);
    bool is_right = models[p].kind == STORE && hits->kind == EMPTY;
    if (is_done(mtr_range(&places[p], text(start), strlen(start), most, &places[q]), is_right ? MTR_DONE : MTR_WRONG, true)) {
        hits->kind = HITS;
        hits->store = models[p].store;
        hits->skip = skipped(&hits->store, start, strlen(start));
        hits->hits = hits->store.keys - hits->skip < most ? hits->store.keys - hits->skip : most;
    }
}

static void hit(size_t p) {
    const struct model *hits = &models[p];
    size_t i = below(KEYS), columns = 0, count = 0, n = 0;
    uint8_t out[32], number = 0;
    uint32_t wanted = hits->kind != HITS ? MTR_WRONG : i < hits->hits ? MTR_DONE : MTR_ABSENT;
    if (is_done(mtr_hit(&places[p], i, &columns, out, sizeof out, &count), wanted, false)) {
        size_t key = key_at(&hits->store, hits->skip + i);
        expect("the key", count == strlen(keys[key]) && memcmp(out, keys[key], count) == 0);
        for (uint8_t c = 0; c < COLUMNS; c++) {
            if (hits->store.has[key][c]) {
                bool is_there = is_done(mtr_hit_column(&places[p], i, n++, &number, out, sizeof out, &count), MTR_DONE, false);
                expect("the column", is_there && number == c && count == 1 && out[0] == (uint8_t)hits->store.value[key][c]);
            }
        }
        expect("its columns", columns == n);
    }
    is_done(mtr_hit_column(&places[p], i, COLUMNS, &number, out, sizeof out, &count), hits->kind == HITS ? MTR_ABSENT : MTR_WRONG,
            false);
}

/* Pairs from a key on are told, now and then up to another, as many as a buffer has room for. */
static void dump(size_t p) {
    const struct model *model = &models[p];
    const char *start = keys[below(KEYS)], *end = below(2) == 0 ? keys[below(KEYS)] : "";
    size_t count = 0, pairs = 0, start_length = strlen(start), end_length = strlen(end), room = 64 + below(336);
    uint8_t out[400];
    uint32_t got = end_length == 0 ? mtr_dump(&places[p], text(start), start_length, out, room, &count, &pairs)
                                   : mtr_dump_until(&places[p], text(start), start_length, text(end), end_length, out, room,
                                                    &count, &pairs);
    if (model->kind != STORE) {
        is_done(got, MTR_WRONG, false);
        return;
    }
    size_t skip = skipped(&model->store, start, start_length);
    size_t stop = end_length == 0 ? model->store.keys : skipped(&model->store, end, end_length);
    if (is_done(got, skip < stop ? MTR_DONE : MTR_ABSENT, false)) {
        size_t at = 0;
        for (size_t n = 0; n < pairs; n++) {
            const char *key = keys[key_at(&model->store, skip + n)];
            uint8_t pair[64];
            size_t length = 0;
            is_done(mtr_pair(&places[p], text(key), strlen(key), pair, sizeof pair, &length), MTR_DONE, false);
            expect("a pair of the dump", at + length <= count && memcmp(out + at, pair, length) == 0);
            at += length;
        }
        expect("no more bytes", at == count && pairs <= stop - skip);
    }
}

/* Where a range of some begins. */
static void cut(size_t p) {
    const struct model *model = &models[p];
    size_t i = below(6), n = below(6), count = 99;
    uint8_t out[32];
    uint32_t wanted = model->kind != STORE ? MTR_WRONG : i < n ? MTR_DONE : MTR_ABSENT;
    if (is_done(mtr_cut_key(&places[p], i, n, out, sizeof out, &count), wanted, false)) {
        size_t all = model->store.keys, more = all % n;
        expect("the first begins at no bytes", (i == 0) == (count == 0));
        expect("the pairs before it", skipped(&model->store, out, count) == i * (all / n) + (i < more ? i : more));
    }
}

static void share(size_t p, size_t q) {
    bool is_right = models[p].kind == STORE && models[q].kind == EMPTY;
    if (is_done(mtr_share(&places[p], &places[q]), is_right ? MTR_DONE : MTR_WRONG, true)) {
        models[q] = models[p];
    }
}

static void keep(size_t p) {
    if (is_done(mtr_keeper_begin(&places[p], below(1000)), models[p].kind == EMPTY ? MTR_DONE : MTR_WRONG, true)) {
        models[p].kind = KEEPER;
        models[p].keeper.logs = 1;
    }
}

/* The log of this number, if the keeper has it, created or not. */
static struct kept *kept(size_t p, size_t log, bool is_created) {
    struct keeper *keeper = &models[p].keeper;
    bool is_there = models[p].kind == KEEPER && log < keeper->logs && keeper->kept[log].is_created == is_created;
    return is_there ? &keeper->kept[log] : NULL;
}

/* A log is begun or created: a keeper's first one is created before another is begun. */
static void create(size_t p) {
    struct keeper *keeper = &models[p].keeper;
    size_t log = below(KEPT), next = 0, count = 0;
    uint8_t out[77];
    if (models[p].kind == KEEPER && keeper->logs < KEPT && below(4) == 0) {
        bool is_right = keeper->kept[0].is_created;
        if (is_done(mtr_log_begin(&places[p], &next), is_right ? MTR_DONE : MTR_WRONG, true)) {
            expect("its number", next == keeper->logs);
            keeper->logs++;
        }
        return;
    }
    struct kept *making = kept(p, log, false);
    uint32_t wanted = making != NULL ? MTR_DONE : MTR_WRONG;
    if (is_done(mtr_log_bytes(&places[p], log, out, sizeof out, &count), wanted, true)) {
        expect("its bytes", count == 77 && memcmp(out, "MTL4", 4) == 0);
    }
    if (is_done(mtr_log_created(&places[p], log), wanted, true)) {
        making->is_created = true;
    }
}

static void update(size_t p) {
    static const mtr_column column = {0, {(const uint8_t *)"x", 1}};
    size_t log = below(KEPT), key = below(KEYS), length = strlen(keys[key]), kind = below(4);
    struct kept *open = kept(p, log, true);
    uint32_t wanted = open != NULL ? MTR_DONE : MTR_WRONG;
    uint64_t stamp = 0;
    uint32_t got = kind == 0   ? mtr_log_mark(&places[p], log)
                   : kind == 1 ? mtr_log_remove(&places[p], log, text(keys[key]), length, &stamp)
                   : kind == 2 ? mtr_log_erase(&places[p], log, text(keys[key]), length, &column.number, 1, &stamp)
                               : mtr_log_put(&places[p], log, text(keys[key]), length, &column, 1, &stamp);
    if (is_done(got, wanted, true)) {
        open->has_more = true;
        if (kind != 0) {
            expect("stamps rise", stamp > models[p].keeper.stamp);
            models[p].keeper.stamp = stamp;
            open->first = open->first != 0 ? open->first : stamp;
        }
    }
}

static void take(size_t p, size_t q) {
    size_t log = below(KEPT);
    struct kept *open = kept(p, log, true);
    bool is_right = open != NULL && (models[q].kind == EMPTY || models[q].kind == BYTES);
    mtr_lent lent = {NULL, 0};
    uint32_t got = mtr_log_take(&places[p], log, &places[q], &lent);
    if (got == MTR_MEMORY && models[q].kind == EMPTY) {
        expect("memory is refused", refused);
    } else if (is_done(got, !is_right ? MTR_WRONG : open->is_taken ? MTR_EARLY : MTR_DONE, true)) {
        expect("what was appended", (lent.length != 0) == open->has_more);
        models[q].kind = BYTES;
        open->is_taken = open->has_more;
        open->taken = open->first;
        open->has_more = false;
        open->first = 0;
    }
}

static void sync(size_t p) {
    size_t log = below(KEPT);
    struct kept *open = kept(p, log, true);
    if (is_done(mtr_log_synced(&places[p], log), open != NULL ? MTR_DONE : MTR_WRONG, true)) {
        open->is_taken = false;
        open->taken = 0;
    }
}

static void acknowledge(size_t p) {
    uint64_t until = 0;
    bool is_right = models[p].kind == KEEPER && models[p].keeper.kept[0].is_created;
    if (is_done(mtr_keeper_acknowledged(&places[p], &until), is_right ? MTR_DONE : MTR_WRONG, false)) {
        for (size_t l = 0; l < models[p].keeper.logs; l++) {
            const struct kept *log = &models[p].keeper.kept[l];
            uint64_t first = log->taken != 0 ? log->taken : log->first;
            expect("only what is synced", first == 0 || until <= first);
        }
    }
}

static void release(size_t p) {
    mtr_free(&places[p]);
    expect("the place is empty", !places[p].full);
    empty(&models[p]);
}

/* A place of this kind, if there is one; now and then any, and of two places another one. */
static size_t place(enum kind kind, size_t other) {
    size_t p, tries = 0;
    do {
        p = below(PLACES);
    } while (p == other || (models[p].kind != kind && tries++ < 20 && below(40) != 0));
    return p;
}

static void call_any(void) {
    size_t p;
    refused = false;
    often = below(3) == 0 ? 1 + (unsigned)below(40) : 0;
#define CALL(name, ...)                                                                                                          \
    call = #name;                                                                                                                \
    name(__VA_ARGS__);                                                                                                           \
    break
    switch (below(32)) {
        case 0: case 1: CALL(begin, place(EMPTY, PLACES));
        case 2: case 3: case 4: case 5: CALL(feed, place(FEED, PLACES));
        case 6: if (below(20) != 0) return; CALL(fail, place(FEED, PLACES));
        case 7: case 8: p = place(below(3) == 0 ? EMPTY : GIVEN, PLACES); CALL(add, p, place(FEED, p));
        case 9: CALL(recover, place(GIVEN, PLACES), false);
        case 10: CALL(recover, place(GIVEN, PLACES), true);
        case 11: case 12: p = place(JOB, PLACES); CALL(hire, p, place(EMPTY, p));
        case 13: case 14: CALL(work, place(TASK, PLACES));
        case 15: case 16: p = place(JOB, PLACES); CALL(join, p, place(TASK, p));
        case 17: p = place(JOB, PLACES); CALL(go_on, p, models[p].is_replaying);
        case 18: CALL(report, place(STORE, PLACES));
        case 19: if (below(2) == 0) { CALL(cut, place(STORE, PLACES)); } CALL(get, place(STORE, PLACES));
        case 20: p = place(STORE, PLACES); CALL(range, p, place(EMPTY, p));
        case 21: CALL(hit, place(HITS, PLACES));
        case 22: if (below(3) == 0) { p = place(STORE, PLACES); CALL(share, p, place(EMPTY, p)); } CALL(dump, place(STORE, PLACES));
        case 23: if (below(4) != 0) return; CALL(keep, place(EMPTY, PLACES));
        case 24: CALL(create, place(KEEPER, PLACES));
        case 25: case 26: CALL(update, place(KEEPER, PLACES));
        case 27: p = place(KEEPER, PLACES); CALL(take, p, place(below(2) == 0 ? BYTES : EMPTY, p));
        case 28: case 29: CALL(sync, place(KEEPER, PLACES));
        case 30: CALL(acknowledge, place(KEEPER, PLACES));
        case 31: CALL(release, below(4) != 0 ? place(below(2) == 0 ? STORE : HITS, PLACES) : below(PLACES));
    }
}

int main(int count, char **arguments) {
    unsigned calls = count > 1 ? (unsigned)atoi(arguments[1]) : 100000;
    state = count > 2 ? strtoull(arguments[2], NULL, 10) : 20120410;
    make_logs();
    for (unsigned n = 0; n < calls; n++) {
        call_any();
    }
    for (size_t p = 0; p < PLACES; p++) {
        release(p);
    }
    call = "the end";
    expect("all memory is given back", blocks == 0);
    printf("%u passed, %u failed\n", passed, failed);
    return failed != 0;
}
