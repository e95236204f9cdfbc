/* Encodes the two files that docs/FORMATS.md shows, recovers the store of examples, whose report and keys README.md and
 * docs/COMMANDS.md show, tries what is refused, and fails each allocation in turn. Its argument is the folder of the
 * examples. The last line is 'N passed, M failed'. It is linked with -Wl,--wrap=malloc,--wrap=realloc,--wrap=free. */
#include "mtrecover.h"
#include <stdio.h>
#include <string.h>

/* How many allocations still succeed, and how many blocks are in use. */
static size_t left = SIZE_MAX, blocks;

void *__real_malloc(size_t size);
void *__real_realloc(void *at, size_t size);
void __real_free(void *at);
void *__wrap_malloc(size_t size);
void *__wrap_realloc(void *at, size_t size);
void __wrap_free(void *at);

void *__wrap_malloc(size_t size) { return left == 0 ? NULL : (left--, blocks++, __real_malloc(size)); }
void *__wrap_realloc(void *at, size_t size) { return left == 0 ? NULL : (left--, __real_realloc(at, size)); }
void __wrap_free(void *at) {
    blocks -= at != NULL;
    __real_free(at);
}

static unsigned passed, failed;

static void expect(const char *what, int is_so) {
    if (is_so) {
        passed++;
    } else {
        failed++;
        printf("not so: %s\n", what);
    }
}

static const uint8_t *text(const char *word) { return (const uint8_t *)word; }

/* A file under construction. */
static uint8_t file[128];
static size_t length;

static uint8_t *rest(void) { return file + length; }
static size_t room(void) { return sizeof file - length; }

/* Appends what was just written, which must be `count` bytes. */
static void append(uint32_t status, const size_t *wrote, size_t count) {
    expect("a call is done", status == MTR_DONE);
    expect("it tells its bytes", *wrote == count);
    length += *wrote;
}

static void test_log(void) {
    static const uint8_t expected[] =
        "MTL1\0\0\0\0\0\0\0\0"
        "\0\0\0\x19\x01\0\0\0\0\0\0\0\x03\0\0\0\0\0\0\0\x01\0\x01" "a\x01\0\0\x01x\0\0\0\x19"
        "\0\0\0\x09\x03\0\0\0\0\0\0\0\x05\0\0\0\x09";
    mtr_column column = {0, {text("x"), 1}};
    size_t count = 0;
    length = 0;
    append(mtr_log_header(1, 0, rest(), room(), &count), &count, 12);
    append(mtr_put(1, 3, 1, text("a"), 1, &column, 1, rest(), room(), &count), &count, 33);
    append(mtr_mark(5, rest(), room(), &count), &count, 17);
    expect("a log", length == sizeof expected - 1 && memcmp(file, expected, length) == 0);
}

static void test_part(void) {
    static const uint8_t expected[] =
        "MTC1\0\0\0\x01\0\0\0\0\0\0\0\x02\0\0\0\x01"
        "\0\0\0\x14\0\0\0\0\0\0\0\x01\0\x01" "a\x02\0\0\x01o\x01\0\x01p\0\0\0\x14"
        "\0\0\0\0\0\0\0\0\0\0\0\x04\0\0\0\x01";
    mtr_column columns[] = {{0, {text("o"), 1}}, {1, {text("p"), 1}}};
    size_t count = 0;
    length = 0;
    append(mtr_part_header(1, 1, 2, 0, 1, rest(), room(), &count), &count, 20);
    append(mtr_entry(1, 1, text("a"), 1, columns, 2, rest(), room(), &count), &count, 28);
    append(mtr_part_footer(4, 1, rest(), room(), &count), &count, 16);
    expect("a part", length == sizeof expected - 1 && memcmp(file, expected, length) == 0);
}

static void test_others(void) {
    static const uint8_t expected[] =
        "MTL3\0\0\0\0\0\0\0\x07\0\0\0\x02\0\0\0\x01"
        "\0\0\0\x14\x02\0\0\0\0\0\0\0\x08\0\0\0\0\0\0\0\x04\0\x01" "b\0\0\0\x14"
        "\0\0\0\x16\x04\0\0\0\0\0\0\0\x09\0\0\0\0\0\0\0\x05\0\x01" "b\x01\x03\0\0\0\x16";
    uint8_t number = 3;
    size_t count = 0;
    length = 0;
    append(mtr_segment_header(7, 2, 1, rest(), room(), &count), &count, 20);
    append(mtr_remove(3, 8, 4, text("b"), 1, rest(), room(), &count), &count, 28);
    append(mtr_erase(3, 9, 5, text("b"), 1, &number, 1, rest(), room(), &count), &count, 30);
    expect("a segment", length == sizeof expected - 1 && memcmp(file, expected, length) == 0);
    length = 0;
    append(mtr_log_header(2, 0, rest(), room(), &count), &count, 12);
    expect("a log of format 2", memcmp(file, "MTL2", 4) == 0);
    length = 0;
    append(mtr_part_header(2, 1, 2, 0, 1, rest(), room(), &count), &count, 20);
    expect("a part of format 2", memcmp(file, "MTC2", 4) == 0);
}

/* Files of format 4: the checksums are worked out apart. */
static void test_blocks(void) {
    static const uint8_t log[] =
        "MTL4\0\0\0\0\0\0\0\x07\0\0\0\0\0\0\0\x02\0\0\0\0\0\0\0\x01\0\0\0\x03\0\0\0\0\0\0\0\x07\xee\x08\x97\x2f"
        "\xee\x08\x97\x2f\0\0\0\x11\x44\x84\x9b\xde\0\0\0\x09\x03\0\0\0\0\0\0\0\x08\0\0\0\x09\x96\x44\x24\x7d";
    static const uint8_t part[] =
        "MTC4\0\0\0\0\0\0\0\x07\0\0\0\x01\0\0\0\x01\0\0\0\x01\0\0\0\0\0\0\0\x02\xb9\x86\x42\xd1";
    static uint8_t body[(1 << 23) + 1], out[(1 << 23) + 16];
    uint8_t record[17];
    uint32_t mark = 0;
    size_t count = 0;
    length = 0;
    append(mtr_log_header_4(7, 2, 1, 3, 7, rest(), room(), &count, &mark), &count, 44);
    expect("its mark", mark == 798427374 && mtr_mark(8, record, sizeof record, &count) == MTR_DONE);
    append(mtr_seal(mark, record, sizeof record, rest(), room(), &count), &count, 33);
    expect("a log of format 4", length == sizeof log - 1 && memcmp(file, log, length) == 0);
    length = 0;
    append(mtr_part_header_4(7, 1, 2, 0, 1, rest(), room(), &count, &mark), &count, 36);
    expect("a part's header", length == sizeof part - 1 && memcmp(file, part, length) == 0 && mark == 3510798009);
    left = 0;
    expect("no memory", mtr_log_header_4(7, 2, 1, 3, 7, out, 43, &count, &mark) == MTR_MEMORY && mark == 3510798009);
    expect("a block needs none", mtr_seal(mark, body, sizeof body - 1, out, sizeof out, &count) == MTR_DONE &&
                                     count == sizeof out);
    left = SIZE_MAX;
    expect("a short header", mtr_log_header_4(7, 2, 1, 3, 7, out, 43, &count, &mark) == MTR_SHORT && count == 44 &&
                                 mark == 798427374);
    expect("a short block", mtr_seal(mark, NULL, 0, out, 15, &count) == MTR_SHORT && count == 16);
    expect("a long body", mtr_seal(mark, body, sizeof body, out, sizeof out, &count) == MTR_WRONG && count == 16);
}

static void test_refusals(void) {
    uint8_t out[] = {9, 9, 9, 9};
    mtr_column columns[] = {{1, {text("p"), 1}}, {1, {text("o"), 1}}};
    size_t count = 0;
    expect("a short buffer is told", mtr_mark(1, out, sizeof out, &count) == MTR_SHORT && count == 17);
    expect("no buffer is short", mtr_mark(1, NULL, 0, &count) == MTR_SHORT && count == 17);
    expect("version 0 is refused", mtr_remove(1, 1, 0, text("k"), 1, out, sizeof out, &count) == MTR_WRONG);
    expect("no columns are refused", mtr_put(1, 1, 1, text("k"), 1, NULL, 0, out, sizeof out, &count) == MTR_WRONG);
    expect("one number twice is refused",
           mtr_entry(1, 1, text("k"), 1, columns, 2, out, sizeof out, &count) == MTR_WRONG);
    expect("nothing is written", out[0] == 9 && out[1] == 9 && out[2] == 9 && out[3] == 9);
}

/* Whether this is refused, and told nothing. */
static int refuses(uint32_t status, const size_t *count) { return status == MTR_WRONG && *count == 7; }

/* What a log of each format, and what a part of each, refuses. */
static void test_formats(void) {
    static const uint8_t key[4097], value[65536];
    static uint8_t out[70000];
    mtr_column column = {15, {value, 65535}}, longer = {0, {value, 65536}};
    uint32_t format;
    size_t count = 0;
    for (format = 1; format <= 4; format++) {
        size_t most = format == 1 ? 1024 : 4096;
        column.number = format == 1 ? 15 : 63;
        expect("a greatest put", mtr_put(format, 1, 1, key, most, &column, 1, out, sizeof out, &count) == MTR_DONE);
        expect("an erase", mtr_erase(format, 1, 1, key, most, &column.number, 1, out, sizeof out, &count) ==
                               (format == 1 ? MTR_WRONG : MTR_DONE));
        expect("a greatest entry", mtr_entry(format, 1, key, most, &column, 1, out, sizeof out, &count) ==
                                       (format == 3 ? MTR_WRONG : MTR_DONE));
        count = 7;
        expect("a longer key",
               refuses(mtr_remove(format, 1, 1, key, most + 1, out, sizeof out, &count), &count) &&
                   refuses(mtr_entry(format, 1, key, most + 1, &column, 1, out, sizeof out, &count), &count));
        expect("a longer value", refuses(mtr_put(format, 1, 1, key, 1, &longer, 1, out, sizeof out, &count), &count));
        column.number++;
        expect("a greater column",
               refuses(mtr_put(format, 1, 1, key, 1, &column, 1, out, sizeof out, &count), &count) &&
                   refuses(mtr_erase(format, 1, 1, key, 1, &column.number, 1, out, sizeof out, &count), &count) &&
                   refuses(mtr_entry(format, 1, key, 1, &column, 1, out, sizeof out, &count), &count));
    }
    for (format = 0; format <= 5; format++) {
        count = 7;
        expect("a header of another format",
               (format == 1 || format == 2) ||
                   (refuses(mtr_log_header(format, 0, out, sizeof out, &count), &count) &&
                    refuses(mtr_part_header(format, 1, 2, 0, 1, out, sizeof out, &count), &count)));
        expect("a record of another format",
               (format >= 1 && format <= 4) ||
                   refuses(mtr_remove(format, 1, 1, key, 1, out, sizeof out, &count), &count));
    }
}

/* Records and entries are encoded without memory. */
static void test_memory(void) {
    uint8_t out[64];
    mtr_column columns[] = {{1, {text("o"), 1}}, {2, {text("p"), 1}}};
    uint8_t numbers[] = {1, 2};
    size_t count = 0;
    left = 0;
    expect("a put", mtr_put(1, 1, 1, text("k"), 1, columns, 2, out, sizeof out, &count) == MTR_DONE && count == 37);
    expect("a remove", mtr_remove(1, 1, 1, text("k"), 1, out, sizeof out, &count) == MTR_DONE && count == 28);
    expect("an erase", mtr_erase(2, 1, 1, text("k"), 1, numbers, 2, out, sizeof out, &count) == MTR_DONE && count == 31);
    expect("an entry", mtr_entry(1, 1, text("k"), 1, columns, 2, out, sizeof out, &count) == MTR_DONE && count == 28);
    left = SIZE_MAX;
}

/* The files of the store of the examples: its logs, and then its parts. */
static struct example {
    const char *name;
    uint8_t bytes[256];
    size_t length;
} examples[] = {{"store/worker-0.mtl", {0}, 0}, {"store/worker-1.mtl", {0}, 0}, {"store/7-0.mtc", {0}, 0},
                {"store/7-1.mtc", {0}, 0},      {"store/8-0.mtc", {0}, 0},      {"store/9-0.mtc", {0}, 0},
                {"gap.mtl", {0}, 0}};

enum { LOGS = 2, FILES = 6, GAP = 6 };

static void read_examples(const char *folder) {
    char name[4096];
    size_t i;
    for (i = 0; i < sizeof examples / sizeof *examples; i++) {
        FILE *from;
        snprintf(name, sizeof name, "%s/%s", folder, examples[i].name);
        from = fopen(name, "rb");
        if (from != NULL) {
            examples[i].length = fread(examples[i].bytes, 1, sizeof examples[i].bytes, from);
            fclose(from);
        }
        expect(examples[i].name, examples[i].length > 0);
    }
}

static uint32_t begin(mtr_place *feed, int is_part) { return is_part ? mtr_feed_part(feed) : mtr_feed_log(feed); }

/* Feeds the bytes in chunks of this size, and adds them. A fault of the bytes shows in recovery. */
static uint32_t add_bytes(mtr_place *inputs, int is_part, const uint8_t *bytes, size_t length, size_t chunk) {
    mtr_place feed = {0};
    size_t at, size;
    uint32_t status = begin(&feed, is_part);
    for (at = 0; status == MTR_DONE && at < length; at += size) {
        size = length - at < chunk ? length - at : chunk;
        status = mtr_feed(&feed, bytes + at, size);
    }
    if (status == MTR_DONE || status == MTR_FAULT) status = mtr_add(inputs, &feed);
    mtr_free(&feed);
    return status;
}

/* Feeds the logs and parts of the examples. */
static uint32_t feed_examples(mtr_place *inputs, size_t chunk) {
    uint32_t status = MTR_DONE;
    size_t i;
    for (i = 0; status == MTR_DONE && i < FILES; i++)
        status = add_bytes(inputs, i >= LOGS, examples[i].bytes, examples[i].length, chunk);
    return status;
}

/* Feeds and recovers the store of the examples. */
static uint32_t recover_examples(mtr_place *store, size_t chunk, mtr_fault *fault) {
    uint32_t status = feed_examples(store, chunk);
    return status == MTR_DONE ? mtr_recover(store, fault) : status;
}

/* Does the tasks of a step of the job, one after the other. */
static uint32_t do_step(mtr_place *job) {
    uint32_t status = MTR_DONE;
    while (status == MTR_DONE) {
        mtr_place worker = {0};
        status = mtr_hire(job, &worker);
        if (status == MTR_DONE) status = mtr_work(&worker);
        if (status == MTR_DONE) status = mtr_join(job, &worker);
        mtr_free(&worker);
    }
    return status == MTR_ABSENT ? MTR_DONE : status;
}

/* Does the same as recover_examples, by the tasks of a job for so many threads. */
static uint32_t recover_by_tasks(mtr_place *store, uint32_t workers, mtr_fault *fault) {
    uint32_t status = feed_examples(store, 64);
    if (status == MTR_DONE) status = mtr_prepare(store, workers, fault);
    if (status == MTR_DONE) status = do_step(store);
    if (status == MTR_DONE) status = mtr_replay(store);
    if (status == MTR_DONE) status = do_step(store);
    return status == MTR_DONE ? mtr_assemble(store) : status;
}

static int has(mtr_place *store, const char *key, uint8_t column, const char *value) {
    uint8_t out[16];
    size_t count = 0;
    return mtr_get(store, text(key), strlen(key), column, out, sizeof out, &count) == MTR_DONE &&
           count == strlen(value) && memcmp(out, value, count) == 0;
}

static void test_recovery(void) {
    static const size_t chunks[] = {1, 7, 4096};
    uint8_t out[2] = {9, 9};
    size_t i, count = 0;
    for (i = 0; i < sizeof chunks / sizeof *chunks; i++) {
        mtr_place store = {0};
        mtr_fault fault = {0};
        expect("the examples are recovered", recover_examples(&store, chunks[i], &fault) == MTR_DONE);
        expect("fig", has(&store, "fig", 0, "green") && has(&store, "fig", 1, "ripe"));
        expect("kiwi", has(&store, "kiwi", 1, "soft") && has(&store, "lime", 0, "sour") && has(&store, "pear", 0, "green"));
        expect("no column", mtr_get(&store, text("kiwi"), 4, 0, out, 2, &count) == MTR_ABSENT);
        expect("no key", mtr_get(&store, text("plum"), 4, 0, out, 2, &count) == MTR_ABSENT);
        expect("short", mtr_get(&store, text("fig"), 3, 0, out, 2, &count) == MTR_SHORT && count == 5 && out[0] == 9);
        mtr_free(&store);
        expect("it is freed", !store.full && blocks == 0);
    }
}

/* Recovers the store of the examples, in chunks of 64 bytes. */
static mtr_place example_store(void) {
    mtr_place store = {0};
    mtr_fault fault = {0};
    expect("a store", recover_examples(&store, 64, &fault) == MTR_DONE);
    return store;
}

/* A log of format 1 is asked to take what only format 2 has: it is refused, and the log is read to its end. */
static void test_one_format(void) {
    mtr_place store = {0};
    mtr_fault fault = {0};
    mtr_column column = {0, {text("x"), 1}};
    uint8_t number = 0;
    size_t count = 0;
    length = 0;
    append(mtr_log_header(1, 0, rest(), room(), &count), &count, 12);
    append(mtr_put(1, 3, 1, text("a"), 1, &column, 1, rest(), room(), &count), &count, 33);
    expect("no erase", mtr_erase(1, 4, 2, text("a"), 1, &number, 1, rest(), room(), &count) == MTR_WRONG);
    append(mtr_mark(5, rest(), room(), &count), &count, 17);
    expect("a log", add_bytes(&store, 0, file, length, 64) == MTR_DONE && mtr_recover(&store, &fault) == MTR_DONE);
    expect("the put", has(&store, "a", 0, "x"));
    mtr_free(&store);
}

static void test_report(void) {
    static const mtr_report expected = {40, 42, 8, 7, 10, 4, 2, 2, 9, 2, 1, 0, 1, 1, 1, 1, 9, 4, 1};
    mtr_place store = example_store(), empty = {0};
    mtr_report report = {0};
    uint64_t told = 9;
    expect("a report", mtr_get_report(&store, &report) == MTR_DONE && memcmp(&report, &expected, sizeof report) == 0);
    expect("the first end", mtr_report_end(&store, 0, &told) == MTR_DONE && told == 138);
    expect("the second end", mtr_report_end(&store, 1, &told) == MTR_DONE && told == 177);
    expect("no third end", mtr_report_end(&store, 2, &told) == MTR_ABSENT && told == 177);
    expect("a skipped checkpoint", mtr_report_skipped(&store, 0, &told) == MTR_DONE && told == 8);
    expect("no second one", mtr_report_skipped(&store, 1, &told) == MTR_ABSENT);
    expect("a nameless part", mtr_report_nameless(&store, 0, &told) == MTR_DONE && told == 3);
    expect("no second one", mtr_report_nameless(&store, SIZE_MAX, &told) == MTR_ABSENT && told == 3);
    expect("an empty place has no report", mtr_get_report(&empty, &report) == MTR_WRONG && report.cutoff == 40);
    expect("an empty place has no ends", mtr_report_end(&empty, 0, &told) == MTR_WRONG && told == 3);
    mtr_free(&store);
}

/* Whether hit i has this key, and this column alone. */
static int is_hit(mtr_place *hits, size_t i, const char *key, uint8_t column, const char *value) {
    uint8_t out[16], number = 99;
    size_t count = 0, columns = 0;
    int is_key = mtr_hit(hits, i, &columns, out, sizeof out, &count) == MTR_DONE && columns == 1 && count == strlen(key) &&
                 memcmp(out, key, count) == 0;
    return is_key && mtr_hit_column(hits, i, 0, &number, out, sizeof out, &count) == MTR_DONE && number == column &&
           count == strlen(value) && memcmp(out, value, count) == 0;
}

static void test_tasks(void) {
    static const uint32_t workers[] = {1, 2, 64};
    size_t i;
    for (i = 0; i < sizeof workers / sizeof *workers; i++) {
        mtr_place store = {0};
        mtr_fault fault = {0};
        mtr_report report = {0};
        expect("the examples are recovered by tasks", recover_by_tasks(&store, workers[i], &fault) == MTR_DONE);
        expect("they have their keys", has(&store, "fig", 0, "green") && has(&store, "kiwi", 1, "soft"));
        expect("they have a report", mtr_get_report(&store, &report) == MTR_DONE && report.survivors == 9);
        mtr_free(&store);
        expect("a job is freed", blocks == 0);
    }
}

static void test_job(void) {
    mtr_place job = {0}, first = {0}, other = {0};
    mtr_fault fault = {0};
    expect("inputs", feed_examples(&job, 64) == MTR_DONE);
    expect("no threads", mtr_prepare(&job, 0, &fault) == MTR_WRONG && job.full);
    expect("too many threads", mtr_prepare(&job, 65, &fault) == MTR_WRONG && job.full);
    expect("inputs have no tasks", mtr_hire(&job, &first) == MTR_WRONG && mtr_work(&job) == MTR_WRONG);
    expect("a job", mtr_prepare(&job, 1, &fault) == MTR_DONE);
    expect("not prepared twice", mtr_prepare(&job, 1, &fault) == MTR_WRONG && job.full);
    expect("a task is wanted", mtr_replay(&job) == MTR_WRONG && mtr_assemble(&job) == MTR_WRONG);
    expect("a task", mtr_hire(&job, &first) == MTR_DONE && first.full);
    expect("a full place", mtr_hire(&job, &first) == MTR_WRONG && first.full);
    expect("no second task", mtr_hire(&job, &other) == MTR_ABSENT && !other.full);
    expect("it is not done", mtr_join(&job, &first) == MTR_WRONG && first.full);
    expect("it is done, once or more", mtr_work(&first) == MTR_DONE && mtr_work(&first) == MTR_DONE);
    expect("it is still wanted", mtr_replay(&job) == MTR_WRONG);
    expect("no task", mtr_join(&job, &other) == MTR_WRONG && mtr_join(&other, &first) == MTR_WRONG && first.full);
    expect("it is back", mtr_join(&job, &first) == MTR_DONE && !first.full);
    expect("it replays first", mtr_assemble(&job) == MTR_WRONG && mtr_replay(&job) == MTR_DONE);
    expect("it replays once", mtr_replay(&job) == MTR_WRONG);
    expect("a task to replay", mtr_hire(&job, &first) == MTR_DONE && mtr_work(&first) == MTR_DONE);
    expect("it is wanted", mtr_assemble(&job) == MTR_WRONG && mtr_join(&job, &first) == MTR_DONE);
    expect("a store", mtr_assemble(&job) == MTR_DONE && has(&job, "fig", 0, "green"));
    expect("no job any more", mtr_hire(&job, &first) == MTR_WRONG && mtr_assemble(&job) == MTR_WRONG);
    mtr_free(&job);
    expect("a fault", mtr_prepare(&job, 1, &fault) == MTR_FAULT && fault.kind == 1 && !job.full);
    expect("nothing is left", blocks == 0);
}

static void test_range(void) {
    mtr_place store = example_store(), hits = {0}, empty = {0};
    uint8_t out[8] = {9}, number = 99;
    size_t count = 0, columns = 99;
    expect("fig is there", mtr_exists(&store, text("fig"), 3) == MTR_DONE);
    expect("plum is not", mtr_exists(&store, text("plum"), 4) == MTR_ABSENT);
    expect("nor is any part of a key", mtr_exists(&store, NULL, 0) == MTR_ABSENT);
    expect("two from g on", mtr_range(&store, text("g"), 1, 2, &hits) == MTR_DONE);
    expect("kiwi and lime", is_hit(&hits, 0, "kiwi", 1, "soft") && is_hit(&hits, 1, "lime", 0, "sour"));
    expect("no third one", mtr_hit(&hits, 2, &columns, out, 8, &count) == MTR_ABSENT && columns == 99);
    expect("no second column", mtr_hit_column(&hits, 0, 1, &number, out, 8, &count) == MTR_ABSENT && number == 99);
    expect("no third one's", mtr_hit_column(&hits, 2, 0, &number, out, 8, &count) == MTR_ABSENT);
    expect("a full place", mtr_range(&store, NULL, 0, 9, &hits) == MTR_WRONG && is_hit(&hits, 0, "kiwi", 1, "soft"));
    mtr_free(&hits);
    expect("all", mtr_range(&store, NULL, 0, SIZE_MAX, &hits) == MTR_DONE && is_hit(&hits, 3, "pear", 0, "green"));
    expect("fig", mtr_hit(&hits, 0, &columns, out, 2, &count) == MTR_SHORT && columns == 2 && count == 3 && out[0] == 9);
    expect("ripe", mtr_hit_column(&hits, 0, 1, &number, out, 8, &count) == MTR_DONE && memcmp(out, "ripe", 4) == 0);
    mtr_free(&hits);
    expect("none", mtr_range(&store, text("pearl"), 5, 9, &hits) == MTR_DONE);
    expect("no first one", mtr_hit(&hits, 0, &columns, out, 8, &count) == MTR_ABSENT);
    expect("hits have no keys", mtr_exists(&hits, text("fig"), 3) == MTR_WRONG);
    expect("nor a range", mtr_range(&hits, NULL, 0, 9, &empty) == MTR_WRONG && !empty.full);
    expect("a store is no hits", mtr_hit(&store, 0, &columns, out, 8, &count) == MTR_WRONG);
    mtr_free(&hits);
    mtr_free(&store);
    expect("a store and its hits are freed", blocks == 0);
}

/* Writes the flat form of hit i, of fewer than 256 bytes, and returns its length. */
static size_t flat(mtr_place *hits, size_t i, uint8_t *out) {
    size_t columns = 0, count = 0, at = 14, nth;
    memset(out, 0, at);
    expect("a hit", mtr_hit(hits, i, &columns, out + at, 64, &count) == MTR_DONE);
    out[13] = (uint8_t)count;
    at += count;
    out[at++] = (uint8_t)columns;
    for (nth = 0; nth < columns; nth++) {
        expect("a column", mtr_hit_column(hits, i, nth, out + at, out + at + 3, 64, &count) == MTR_DONE);
        out[at + 1] = 0;
        out[at + 2] = (uint8_t)count;
        at += 3 + count;
    }
    out[3] = (uint8_t)(at - 4);
    memcpy(out + at, out, 4);
    return at + 4;
}

enum { PAIRS = 4, WHOLE = 256 };

/* The flat forms of all pairs of the examples, and where each ends. */
static uint8_t whole[WHOLE];
static size_t ends[PAIRS];

static void flatten(mtr_place *store) {
    mtr_place hits = {0};
    size_t i, at = 0;
    expect("all", mtr_range(store, NULL, 0, PAIRS, &hits) == MTR_DONE);
    for (i = 0; i < PAIRS; i++) ends[i] = at += flat(&hits, i, whole + at);
    mtr_free(&hits);
}

static void test_pair(void) {
    static const uint8_t kiwi[] = "\0\0\0\x16\0\0\0\0\0\0\0\0\0\x04kiwi\x01\x01\0\x04soft\0\0\0\x16";
    mtr_place store = example_store(), empty = {0};
    uint8_t out[64] = {9};
    size_t count = 0;
    flatten(&store);
    left = 0;
    expect("kiwi", mtr_pair(&store, text("kiwi"), 4, out, 64, &count) == MTR_DONE && count == sizeof kiwi - 1 &&
                       memcmp(out, kiwi, count) == 0);
    out[0] = 9;
    expect("short", mtr_pair(&store, text("fig"), 3, out, ends[0] - 1, &count) == MTR_SHORT && count == ends[0] &&
                        out[0] == 9);
    expect("fig", mtr_pair(&store, text("fig"), 3, out, ends[0], &count) == MTR_DONE && memcmp(out, whole, ends[0]) == 0);
    expect("no plum", mtr_pair(&store, text("plum"), 4, out, 64, &count) == MTR_ABSENT && count == ends[0]);
    expect("no store", mtr_pair(&empty, text("fig"), 3, out, 64, &count) == MTR_WRONG);
    left = SIZE_MAX;
    mtr_free(&store);
}

/* As many pairs as have room are written, at each room, without memory. */
static void test_dump(void) {
    mtr_place store = example_store(), empty = {0};
    uint8_t out[WHOLE + 1];
    size_t room, count, pairs, fitting = 0;
    flatten(&store);
    left = 0;
    for (room = 0; room <= ends[PAIRS - 1] + 1; room++) {
        uint32_t status;
        if (fitting < PAIRS && ends[fitting] == room) fitting++;
        memset(out, 9, sizeof out);
        count = pairs = 99;
        status = mtr_dump(&store, NULL, 0, out, room, &count, &pairs);
        if (fitting == 0)
            expect("short", status == MTR_SHORT && count == ends[0] && pairs == 99 && out[0] == 9);
        else
            expect("pairs", status == MTR_DONE && pairs == fitting && count == ends[fitting - 1] &&
                                memcmp(out, whole, count) == 0 && out[count] == 9);
    }
    expect("from g on", mtr_dump(&store, text("g"), 1, out, WHOLE, &count, &pairs) == MTR_DONE && pairs == 3 &&
                            count == ends[3] - ends[0] && memcmp(out, whole + ends[0], count) == 0);
    expect("none", mtr_dump(&store, text("pearl"), 5, out, WHOLE, &count, &pairs) == MTR_ABSENT && pairs == 3);
    expect("no store", mtr_dump(&empty, NULL, 0, out, WHOLE, &count, &pairs) == MTR_WRONG && pairs == 3);
    left = SIZE_MAX;
    mtr_free(&store);
}

/* The whole store, in a buffer with room for one pair or two: the length behind each pair says where it begins. */
static void test_dump_on(void) {
    mtr_place store = example_store();
    uint8_t out[64], start[16];
    size_t count = 0, pairs = 0, length = 0, at = 0;
    uint32_t status;
    flatten(&store);
    while ((status = mtr_dump(&store, start, length, out, sizeof out, &count, &pairs)) == MTR_DONE) {
        const uint8_t *last = out + count - out[count - 1] - 8;
        expect("the next pairs", memcmp(out, whole + at, count) == 0);
        at += count;
        length = last[13];
        memcpy(start, last + 14, length);
        start[length++] = 0;
    }
    expect("all of them", status == MTR_ABSENT && at == ends[PAIRS - 1]);
    mtr_free(&store);
    expect("it is freed", blocks == 0);
}

/* The pairs from g on and below an end. No bytes are no end. */
static void test_dump_until(void) {
    mtr_place store = example_store(), empty = {0};
    uint8_t out[WHOLE];
    size_t count = 0, pairs = 0;
    flatten(&store);
    left = 0;
    expect("below m", mtr_dump_until(&store, text("g"), 1, text("m"), 1, out, WHOLE, &count, &pairs) == MTR_DONE && pairs >= 1 &&
                          memcmp(out, whole + ends[0], count) == 0 && out[13] < 'm');
    expect("no end", mtr_dump_until(&store, text("g"), 1, NULL, 0, out, WHOLE, &count, &pairs) == MTR_DONE && pairs == 3);
    expect("the end is left out", mtr_dump_until(&store, text("fig"), 3, text("fig"), 3, out, WHOLE, &count, &pairs) == MTR_ABSENT);
    expect("no store", mtr_dump_until(&empty, NULL, 0, NULL, 0, out, WHOLE, &count, &pairs) == MTR_WRONG);
    left = SIZE_MAX;
    mtr_free(&store);
}

/* The ranges between cut keys, one after the other, are the whole store. */
static void test_cut_keys(void) {
    mtr_place store = example_store(), empty = {0};
    uint8_t out[WHOLE], start[16], end[16];
    size_t n, i, count = 0, pairs = 0;
    flatten(&store);
    left = 0;
    for (n = 1; n <= PAIRS + 2; n++) {
        size_t at = 0, from = 0, to = 0;
        for (i = 0; i < n; i++) {
            uint32_t status;
            expect("it begins", mtr_cut_key(&store, i, n, start, sizeof start, &from) == MTR_DONE && (from == 0) == (i == 0));
            to = 0;
            expect("it ends", mtr_cut_key(&store, i + 1, n, end, sizeof end, &to) == (i + 1 < n ? MTR_DONE : MTR_ABSENT));
            status = mtr_dump_until(&store, start, from, end, to, out, WHOLE, &count, &pairs);
            if (status == MTR_ABSENT) continue;
            expect("the next pairs", status == MTR_DONE && memcmp(out, whole + at, count) == 0);
            expect("as many as others", pairs == PAIRS / n + (i < PAIRS % n));
            at += count;
        }
        expect("all of them", at == ends[PAIRS - 1]);
    }
    expect("short", mtr_cut_key(&store, 1, 2, out, 1, &count) == MTR_SHORT && count > 1);
    expect("no range", mtr_cut_key(&store, 0, 0, out, WHOLE, &count) == MTR_ABSENT);
    expect("no store", mtr_cut_key(&empty, 0, 1, out, WHOLE, &count) == MTR_WRONG);
    left = SIZE_MAX;
    mtr_free(&store);
}

static void test_status_text(void) {
    uint8_t out[100];
    size_t count = 0;
    uint32_t status;
    left = 0;
    for (status = MTR_DONE; status <= MTR_FAILED; status++)
        expect("words", mtr_status_text(status, out, sizeof out, &count) == MTR_DONE && count >= 4);
    expect("done", mtr_status_text(MTR_DONE, out, sizeof out, &count) == MTR_DONE && count == 4 && memcmp(out, "done", 4) == 0);
    expect("short", mtr_status_text(MTR_DONE, out, 3, &count) == MTR_SHORT && count == 4);
    expect("no status", mtr_status_text(9, out, sizeof out, &count) == MTR_WRONG);
    left = SIZE_MAX;
}

/* Headers are read as they were written. */
static void test_read_headers(void) {
    mtr_log_front log = {0};
    mtr_part_front part = {0};
    uint8_t out[64];
    size_t count = 0;
    uint32_t mark = 0;
    mtr_log_header(1, 7, out, sizeof out, &count);
    expect("format 1", mtr_read_log_header(out, count, &log) == MTR_DONE && log.format == 1 && log.from == 7 && log.length == 12);
    mtr_segment_header(8, 2, 3, out, sizeof out, &count);
    expect("format 3", mtr_read_log_header(out, count, &log) == MTR_DONE && log.format == 3 && log.worker == 2 && log.segment == 3 &&
                           log.from == 8 && log.length == 20);
    expect("no part", mtr_read_part_header(out, count, &part) == MTR_FAULT && part.format == 0);
    mtr_log_header_4(5, 2, 3, 4, 9, out, sizeof out, &count, &mark);
    expect("format 4", mtr_read_log_header(out, count, &log) == MTR_DONE && log.format == 4 && log.salt == 5 && log.worker == 2 &&
                           log.segment == 3 && log.workers == 4 && log.from == 9 && log.length == 44);
    expect("cut", mtr_read_log_header(out, count - 1, &log) == MTR_FAULT && log.from == 9);
    mtr_part_header(2, 6, 9, 1, 2, out, sizeof out, &count);
    expect("a part", mtr_read_part_header(out, count, &part) == MTR_DONE && part.format == 2 && part.number == 6 && part.begin == 9 &&
                         part.part == 1 && part.parts == 2 && part.length == 20);
    mtr_part_header_4(5, 6, 9, 1, 2, out, sizeof out, &count, &mark);
    expect("of format 4", mtr_read_part_header(out, count, &part) == MTR_DONE && part.format == 4 && part.salt == 5 && part.number == 6 &&
                              part.length == 36);
}

static void test_share(void) {
    mtr_place store = example_store(), other = {0}, third = {0};
    expect("one more", mtr_share(&store, &other) == MTR_DONE);
    expect("a full place", mtr_share(&store, &other) == MTR_WRONG && has(&other, "fig", 0, "green"));
    mtr_free(&store);
    expect("an empty place", mtr_share(&store, &third) == MTR_WRONG && !third.full);
    expect("the other goes on", has(&other, "fig", 0, "green") && mtr_share(&other, &third) == MTR_DONE);
    mtr_free(&third);
    mtr_free(&other);
    expect("the last place frees it", blocks == 0);
}

static void test_resume(void) {
    static const uint8_t mark[] = "\0\0\0\x09\x03\0\0\0\0\0\0\0\x29\0\0\0\x09";
    mtr_resumed resumed = {9, 9, 9, true, true};
    uint8_t out[256] = {9};
    size_t count = 0;
    expect("a log is as it was", mtr_resume_log(examples[0].bytes, examples[0].length, 40, 8, 3, &resumed, out, 256, &count) ==
                                     MTR_DONE && count == 138 && resumed.dropped == 0 && resumed.late_marks == 1 && !resumed.changed &&
                                     resumed.format == 1 && !resumed.ended && memcmp(out, examples[0].bytes, count) == 0);
    expect("a log is replaced", mtr_resume_log(examples[1].bytes, examples[1].length, 41, 8, 3, &resumed, out, 256, &count) ==
                                    MTR_DONE && count == 139 && resumed.dropped == 1 && resumed.late_marks == 1 && resumed.changed &&
                                    memcmp(out, examples[1].bytes, 122) == 0 && memcmp(out + 122, mark, 17) == 0);
    out[0] = 9;
    resumed.dropped = 9;
    expect("short", mtr_resume_log(examples[1].bytes, examples[1].length, 40, 8, 3, &resumed, out, 138, &count) == MTR_SHORT &&
                        count == 139 && resumed.dropped == 1 && out[0] == 9);
    expect("no log", mtr_resume_log(text("x"), 1, 40, 8, 3, &resumed, out, 256, &count) == MTR_FAULT && resumed.dropped == 1);
    length = 0;
    append(mtr_segment_header(7, 2, 1, rest(), room(), &count), &count, 20);
    append(mtr_mark(UINT64_MAX, rest(), room(), &count), &count, 17);
    expect("an ended segment", mtr_resume_log(file, length, 40, 8, 3, &resumed, out, 256, &count) == MTR_DONE && count == 54 &&
                                   resumed.format == 3 && resumed.ended && resumed.late_marks == 0);
}

/* Log 0 ends with a mark at 40; log 1 with one at 42, and a torn tail. */
static void test_endings(void) {
    static const uint8_t torn[] = "\0\0\x40\0\x07torn";
    mtr_log_ending ending = {9, 9, true, true};
    uint32_t mark = 0;
    size_t count = 0;
    expect("a whole log", mtr_read_log_ending(examples[0].bytes, examples[0].length, &ending) == MTR_DONE && ending.from == 0 &&
                              ending.last == 40 && !ending.torn && !ending.goes_on);
    expect("a torn tail", mtr_read_log_ending(examples[1].bytes, examples[1].length, &ending) == MTR_DONE && ending.last == 42 &&
                              ending.torn && !ending.goes_on);
    length = 0;
    append(mtr_segment_header(7, 2, 1, rest(), room(), &count), &count, 20);
    append(mtr_mark(8, rest(), room(), &count), &count, 17);
    memcpy(rest(), torn, sizeof torn - 1);
    length += sizeof torn - 1;
    expect("one of format 3", mtr_read_log_ending(file, length, &ending) == MTR_DONE && ending.from == 7 && ending.last == 8 &&
                                  ending.torn && !ending.goes_on);
    append(mtr_mark(9, rest(), room(), &count), &count, 17);
    expect("a record behind it", mtr_read_log_ending(file, length, &ending) == MTR_DONE && ending.last == 8 && ending.torn &&
                                     ending.goes_on);
    expect("no log", mtr_read_log_ending(text("x"), 1, &ending) == MTR_FAULT && ending.last == 8);
    length = 0;
    append(mtr_log_header_4(7, 2, 1, 3, 9, rest(), room(), &count, &mark), &count, 44);
    length++;
    expect("one of format 4", mtr_read_log_ending(file, length, &ending) == MTR_DONE && ending.from == 9 && ending.last == 9 &&
                                  ending.torn && !ending.goes_on);
}

/* Returns the number at these four bytes. */
static size_t number_at(const uint8_t *at) {
    return (size_t)at[0] << 24 | (size_t)at[1] << 16 | (size_t)at[2] << 8 | at[3];
}

/* Whether these bytes are whole records, one after the other. */
static int are_records(const uint8_t *bytes, size_t size) {
    size_t at = 0;
    while (at + 8 <= size)
        at += number_at(bytes + at) + 8;
    return at == size;
}

/* Forty puts of 6,032 bytes, and a mark at their end, in one block: what replaces the log has five puts in a block. */
static void test_resume_small(void) {
    static uint8_t body[250000], big[250100], out[250100 + 250100 / 1024 + 33];
    static const uint8_t value[6000];
    mtr_column column = {0, {value, sizeof value}};
    mtr_resumed resumed;
    uint32_t mark = 0;
    size_t count = 0, size = 0, at = 44, blocks = 0;
    uint64_t version;
    for (version = 1; version <= 40; version++, size += count)
        expect("a put", mtr_put(4, version, version, text("k"), 1, &column, 1, body + size, sizeof body - size, &count) ==
                                MTR_DONE &&
                            count == 6032);
    expect("a mark", mtr_mark(41, body + size, sizeof body - size, &count) == MTR_DONE);
    size += count;
    expect("a header", mtr_log_header_4(7, 0, 0, 1, 0, big, sizeof big, &count, &mark) == MTR_DONE && count == 44);
    expect("a block", mtr_seal(mark, body, size, big + 44, sizeof big - 44, &count) == MTR_DONE);
    size = 44 + count;
    expect("it is replaced", mtr_resume_log(big, size, 41, 8, 3, &resumed, out, size + size / 1024 + 33, &count) == MTR_DONE &&
                                 count == 44 + 40 * 6032 + 17 + 9 * 16);
    for (; at < count; at += 16 + number_at(out + at + 4), blocks++)
        expect("a small block", number_at(out + at + 4) <= 32768 && are_records(out + at + 12, number_at(out + at + 4)));
    expect("nine blocks", at == count && blocks == 9);
}

/* A log of format 4 goes on with another salt: one of this segment that begins at 7, with a block that ends it. */
static void test_resume_blocks(void) {
    mtr_resumed resumed = {9, 9, 9, false, false};
    uint8_t out[128], again[128], record[17];
    uint32_t mark = 0;
    size_t count = 0, most;
    length = 0;
    append(mtr_log_header_4(7, 2, 1, 3, 7, rest(), room(), &count, &mark), &count, 44);
    mtr_mark(UINT64_MAX, record, sizeof record, &count);
    append(mtr_seal(mark, record, sizeof record, rest(), room(), &count), &count, 33);
    expect("it is replaced", mtr_resume_log(file, length, 5, 8, 3, &resumed, out, sizeof out, &count) == MTR_DONE &&
                                 count == 44 + 16 + 34 && resumed.dropped == 0 && resumed.format == 4 && resumed.changed &&
                                 resumed.ended);
    expect("its header", mtr_log_header_4(8, 2, 1, 3, 5, again, sizeof again, &most, &mark) == MTR_DONE &&
                             memcmp(out, again, 44) == 0);
    expect("fewer workers", mtr_resume_log(file, length, 5, 8, 2, &resumed, out, sizeof out, &count) == MTR_DONE &&
                                mtr_log_header_4(8, 2, 1, 2, 5, again, sizeof again, &most, &mark) == MTR_DONE &&
                                memcmp(out, again, 44) == 0);
    most = count;
    expect("room", mtr_resume_log(file, length, 5, 8, 2, &resumed, again, most - 1, &count) == MTR_SHORT && count == most &&
                       mtr_resume_log(file, length, 5, 8, 2, &resumed, again, most, &count) == MTR_DONE &&
                       memcmp(out, again, most) == 0);
    file[60] ^= 1;
    expect("a torn block", mtr_resume_log(file, length, 5, 8, 3, &resumed, out, sizeof out, &count) == MTR_DONE &&
                               count == 44 + 16 + 17 && !resumed.ended);
    file[12]++;
    expect("no header", mtr_resume_log(file, length, 5, 8, 3, &resumed, out, sizeof out, &count) == MTR_FAULT);
}

/* A keeper of one log that may be written. */
static mtr_place example_keeper(void) {
    mtr_place keeper = {0};
    expect("a keeper", mtr_keeper_begin(&keeper, 7) == MTR_DONE && mtr_log_created(&keeper, 0) == MTR_DONE);
    return keeper;
}

/* Puts a column under a key into the log, and returns the stamp. */
static uint64_t put_stamp(mtr_place *keeper, size_t log) {
    mtr_column column = {0, {text("x"), 1}};
    uint64_t stamp = 0;
    expect("a put", mtr_log_put(keeper, log, text("a"), 1, &column, 1, &stamp) == MTR_DONE);
    return stamp;
}

/* Writes all that was appended to the log, and a mark. */
static void sync_log(mtr_place *keeper, size_t log) {
    mtr_place buffer = {0};
    mtr_lent lent;
    expect("a mark", mtr_log_mark(keeper, log) == MTR_DONE);
    expect("it is synced", mtr_log_take(keeper, log, &buffer, &lent) == MTR_DONE && mtr_log_synced(keeper, log) == MTR_DONE);
    mtr_free(&buffer);
}

static void test_keeper(void) {
    mtr_place keeper = {0};
    uint8_t out[128], record[17];
    uint32_t mark = 0;
    uint64_t below = 0, stamp = 9;
    uint32_t worker = 9, segment = 9;
    size_t count = 0, log = 9;
    expect("no keeper", mtr_log_mark(&keeper, 0) == MTR_WRONG && mtr_keeper_failed(&keeper) == MTR_WRONG);
    expect("a keeper", mtr_keeper_begin(&keeper, 7) == MTR_DONE && mtr_keeper_begin(&keeper, 7) == MTR_WRONG);
    length = 0;
    append(mtr_log_header_4(7, 0, 0, 1, 0, rest(), room(), &count, &mark), &count, 44);
    mtr_mark(1, record, sizeof record, &count);
    append(mtr_seal(mark, record, sizeof record, rest(), room(), &count), &count, 33);
    expect("its log is to be created", mtr_log_bytes(&keeper, 0, out, sizeof out, &count) == MTR_DONE && count == length &&
                                           memcmp(out, file, count) == 0);
    expect("its segment", mtr_log_segment(&keeper, 0, &worker, &segment) == MTR_DONE && worker == 0 && segment == 0);
    expect("no record yet", mtr_log_remove(&keeper, 0, text("a"), 1, &stamp) == MTR_WRONG && stamp == 9);
    expect("no second log yet", mtr_log_begin(&keeper, &log) == MTR_WRONG && log == 9);
    expect("it is created", mtr_log_created(&keeper, 1) == MTR_WRONG && mtr_log_created(&keeper, 0) == MTR_DONE &&
                                mtr_log_created(&keeper, 0) == MTR_WRONG);
    expect("no bytes any more", mtr_log_bytes(&keeper, 0, out, sizeof out, &count) == MTR_WRONG);
    expect("stamps", put_stamp(&keeper, 0) == 2 && mtr_log_remove(&keeper, 0, text("a"), 1, &stamp) == MTR_DONE && stamp == 3);
    expect("no such log", mtr_log_mark(&keeper, 1) == MTR_WRONG);
    expect("nothing is synced", mtr_keeper_acknowledged(&keeper, &below) == MTR_DONE && below == 1);
    sync_log(&keeper, 0);
    expect("all is synced", mtr_keeper_acknowledged(&keeper, &below) == MTR_DONE && below == 4);
    expect("a second log", mtr_log_begin(&keeper, &log) == MTR_DONE && log == 1 && put_stamp(&keeper, 0) == 4);
    sync_log(&keeper, 0);
    expect("it holds back", mtr_keeper_acknowledged(&keeper, &below) == MTR_DONE && below == 4);
    expect("a failure", mtr_keeper_failed(&keeper) == MTR_DONE && mtr_log_mark(&keeper, 0) == MTR_FAILED &&
                            mtr_checkpoint_abandon(&keeper) == MTR_FAILED);
    mtr_free(&keeper);
    expect("it is freed", blocks == 0);
}

/* What is taken is lent until the next call with its place. */
static void test_take(void) {
    mtr_place keeper = example_keeper(), buffer = {0}, other = {0};
    mtr_lent lent = {NULL, 0};
    uint8_t number = 0;
    uint64_t stamp = 0;
    size_t count = 0;
    mtr_column column = {0, {text("x"), 1}};
    put_stamp(&keeper, 0);
    expect("an erase", mtr_log_erase(&keeper, 0, text("b"), 1, &number, 1, &stamp) == MTR_DONE && stamp == 3);
    length = 0;
    append(mtr_put(4, 2, 2, text("a"), 1, &column, 1, rest(), room(), &count), &count, 33);
    append(mtr_erase(4, 3, 3, text("b"), 1, &number, 1, rest(), room(), &count), &count, 30);
    expect("no place for bytes", mtr_feed_log(&other) == MTR_DONE && mtr_log_take(&keeper, 0, &other, &lent) == MTR_WRONG);
    mtr_free(&other);
    expect("a block of records", mtr_log_take(&keeper, 0, &buffer, &lent) == MTR_DONE && lent.length == 16 + length &&
                                     memcmp(lent.at + 12, file, length) == 0);
    put_stamp(&keeper, 0);
    expect("one write at a time", mtr_log_take(&keeper, 0, &buffer, &lent) == MTR_EARLY &&
                                      mtr_log_take(&keeper, 0, &other, &lent) == MTR_EARLY && !other.full);
    expect("the bytes are as before", lent.length == 16 + length && memcmp(lent.at + 12, file, length) == 0);
    expect("the next ones", mtr_log_synced(&keeper, 0) == MTR_DONE &&
                                mtr_log_take(&keeper, 0, &buffer, &lent) == MTR_DONE && lent.length == 16 + 33);
    mtr_free(&buffer);
    mtr_free(&keeper);
    expect("all is freed", blocks == 0);
}

static uint32_t enter(mtr_place *part, const char *key) {
    mtr_column column = {0, {text("z"), 1}};
    return mtr_part_entry(part, 9, text(key), strlen(key), &column, 1);
}

/* A part that is written: the same bytes as those of the test of the crate mt_checkpoint, and recovery reads them. */
static void test_written_part(void) {
    static const uint8_t expected[] =
        "MTC4\0\0\0\0\0\0\0\x01\0\0\0\x07\0\x01\0\x02\0\0\0\x01\0\0\0\0\0\0\0\x64\xc0\xf4\x56\x4b"
        "\xc0\xf4\x56\x4b\0\0\0\x28\x23\xa1\0\x9e\0\0\0\x10\0\0\0\0\0\0\0\x09\0\x01" "c\x01\0\0\x01z\0\0\0\x10"
        "\0\0\0\0\0\0\0\0\0\0\0\x64\0\0\0\x01\xc4\xe4\xde\x78";
    mtr_place part = {0}, buffer = {0}, keeper = example_keeper(), inputs = {0}, feed = {0};
    mtr_column column = {0, {text("z"), 1}};
    mtr_fault fault = {0};
    mtr_lent lent = {NULL, 0};
    uint8_t log[128];
    size_t count = 0;
    uint32_t mark = 0;
    expect("no part takes an entry", enter(&part, "c") == MTR_WRONG && mtr_part_end(&part, 100) == MTR_WRONG &&
                                         mtr_part_take(&part, &buffer, &lent) == MTR_WRONG && !buffer.full);
    expect("a keeper is no part", enter(&keeper, "c") == MTR_WRONG && mtr_part_begin(&keeper, 1, 7, 100, 1, 2) == MTR_WRONG);
    expect("a second part", mtr_part_begin_above(&part, 1, 7, 100, 1, 2, text("b"), 1) == MTR_DONE);
    expect("the last key of the first one", enter(&part, "b") == MTR_WRONG);
    expect("a key above it", enter(&part, "c") == MTR_DONE);
    expect("no version", mtr_part_entry(&part, 0, text("d"), 1, &column, 1) == MTR_WRONG);
    expect("no column", mtr_part_entry(&part, 9, text("d"), 1, NULL, 0) == MTR_WRONG);
    expect("a header is taken", mtr_part_take(&part, &buffer, &lent) == MTR_DONE && lent.length == 36 &&
                                    memcmp(lent.at, expected, 36) == 0);
    expect("nothing more", mtr_part_take(&part, &buffer, &lent) == MTR_DONE && lent.length == 0);
    expect("a low end", mtr_part_end(&part, 99) == MTR_WRONG && mtr_part_end(&part, 100) == MTR_DONE);
    expect("it has ended", mtr_part_end(&part, 100) == MTR_WRONG && enter(&part, "d") == MTR_WRONG);
    expect("a block is taken", mtr_part_take(&part, &buffer, &lent) == MTR_DONE && lent.length == sizeof expected - 1 - 36 &&
                                   memcmp(lent.at, expected + 36, lent.length) == 0);
    mtr_free(&part);
    expect("a whole checkpoint", mtr_part_begin(&part, 1, 7, 100, 0, 1) == MTR_DONE && enter(&part, "k") == MTR_DONE);
    expect("an equal key", enter(&part, "k") == MTR_WRONG);
    expect("a lower key", enter(&part, "a") == MTR_WRONG && enter(&part, "") == MTR_WRONG);
    expect("a longer one", enter(&part, "ka") == MTR_DONE && mtr_part_end(&part, 100) == MTR_DONE);
    expect("all of it", mtr_part_take(&part, &buffer, &lent) == MTR_DONE && lent.length > 36);
    expect("it is fed", mtr_feed_part(&feed) == MTR_DONE && mtr_feed(&feed, lent.at, lent.length) == MTR_DONE &&
                            mtr_add(&inputs, &feed) == MTR_DONE);
    length = 0;
    append(mtr_mark(101, rest(), room(), &count), &count, 17);
    expect("a log from its begin", mtr_log_header_4(2, 0, 0, 1, 100, log, sizeof log, &count, &mark) == MTR_DONE && count == 44);
    expect("a mark above its end", mtr_seal(mark, file, length, log + 44, sizeof log - 44, &count) == MTR_DONE);
    expect("it is recovered", mtr_feed_log(&feed) == MTR_DONE && mtr_feed(&feed, log, 44 + count) == MTR_DONE &&
                                  mtr_add(&inputs, &feed) == MTR_DONE && mtr_recover(&inputs, &fault) == MTR_DONE);
    expect("its keys", has(&inputs, "k", 0, "z") && has(&inputs, "ka", 0, "z"));
    mtr_free(&inputs);
    mtr_free(&buffer);
    mtr_free(&part);
    mtr_free(&keeper);
    expect("all is freed", blocks == 0);
}

/* A part takes no entry, and does not end, if memory fails; and then it does. */
static void test_part_memory(void) {
    static const uint8_t value[4000];
    mtr_column column = {0, {value, sizeof value}};
    mtr_place part = {0}, buffer = {0};
    mtr_lent lent = {NULL, 0};
    uint32_t status = MTR_MEMORY;
    size_t allowed, key;
    expect("a part", mtr_part_begin(&part, 1, 7, 100, 0, 1) == MTR_DONE);
    for (key = 0; key < 3; key++, status = MTR_MEMORY) {
        for (allowed = 0; status == MTR_MEMORY && allowed < 64; allowed++) {
            left = allowed;
            status = mtr_part_entry(&part, 9, text("abc") + key, 1, &column, 1);
            left = SIZE_MAX;
        }
        expect("an entry", status == MTR_DONE);
    }
    for (allowed = 0; status == MTR_MEMORY && allowed < 64; allowed++) {
        left = allowed;
        status = mtr_part_end(&part, 100);
        left = SIZE_MAX;
    }
    expect("it ends", status == MTR_DONE);
    status = MTR_MEMORY;
    for (allowed = 0; status == MTR_MEMORY && allowed < 64; allowed++) {
        left = allowed;
        status = mtr_part_take(&part, &buffer, &lent);
        left = SIZE_MAX;
    }
    expect("three blocks and a footer", status == MTR_DONE && lent.length == 36 + 3 * (16 + 23 + sizeof value) + 16);
    mtr_free(&buffer);
    mtr_free(&part);
    expect("all is freed", blocks == 0);
}

/* A log takes no record that would make its block larger than 32,768 bytes until those it holds are taken. A put of one column
 * has 31 bytes, its key and its value, a mark 17. */
static void test_early(void) {
    static const uint8_t value[65535];
    mtr_place keeper = example_keeper(), buffer = {0};
    mtr_lent lent = {NULL, 0};
    mtr_column column = {0, {value, 16384 - 32}}, long_column = {0, {value, sizeof value}};
    uint64_t stamp = 0;
    expect("half a block", mtr_log_put(&keeper, 0, text("a"), 1, &column, 1, &stamp) == MTR_DONE && stamp == 2);
    column.value.length++;
    expect("a byte too many", mtr_log_put(&keeper, 0, text("a"), 1, &column, 1, &stamp) == MTR_EARLY && stamp == 2);
    column.value.length--;
    expect("the other half", mtr_log_put(&keeper, 0, text("a"), 1, &column, 1, &stamp) == MTR_DONE && stamp == 3);
    expect("a mark is early", mtr_log_mark(&keeper, 0) == MTR_EARLY);
    expect("a block of both", mtr_log_take(&keeper, 0, &buffer, &lent) == MTR_DONE && lent.length == 32768 + 16);
    expect("a long record alone", mtr_log_put(&keeper, 0, text("a"), 1, &long_column, 1, &stamp) == MTR_DONE && stamp == 4);
    expect("nothing stands with it", mtr_log_mark(&keeper, 0) == MTR_EARLY && mtr_log_synced(&keeper, 0) == MTR_DONE);
    expect("it is a block", mtr_log_take(&keeper, 0, &buffer, &lent) == MTR_DONE && lent.length == 32 + sizeof value + 16);
    expect("then a mark", mtr_log_mark(&keeper, 0) == MTR_DONE);
    mtr_free(&buffer);
    mtr_free(&keeper);
    expect("all is freed", blocks == 0);
}

static void test_segments(void) {
    mtr_place keeper = example_keeper();
    uint32_t worker = 9, segment = 9, number = 0;
    uint64_t begin = 0, end = 0;
    size_t next = 9, old = 9;
    put_stamp(&keeper, 0);
    expect("it is not synced", mtr_log_rotate(&keeper, 0, &next) == MTR_EARLY && next == 9);
    sync_log(&keeper, 0);
    expect("the next one", mtr_log_rotate(&keeper, 0, &next) == MTR_DONE && next == 1);
    expect("its name", mtr_log_segment(&keeper, 1, &worker, &segment) == MTR_DONE && worker == 0 && segment == 1);
    expect("the old one takes nothing", mtr_log_mark(&keeper, 0) == MTR_WRONG && mtr_log_created(&keeper, 1) == MTR_DONE);
    expect("nothing is old", mtr_log_delete(&keeper, &old) == MTR_ABSENT);
    expect("no checkpoint", mtr_checkpoint_end(&keeper, &end) == MTR_EARLY && mtr_checkpoint_stand(&keeper) == MTR_EARLY);
    expect("one", mtr_checkpoint_begin(&keeper, &number, &begin) == MTR_DONE && number == 1 && begin == 3);
    expect("one at a time", mtr_checkpoint_begin(&keeper, &number, &begin) == MTR_EARLY);
    expect("it is given up", mtr_checkpoint_abandon(&keeper) == MTR_DONE &&
                                 mtr_checkpoint_begin(&keeper, &number, &begin) == MTR_DONE && number == 2 && begin == 4);
    expect("it ends", put_stamp(&keeper, 1) == 5 && mtr_checkpoint_end(&keeper, &end) == MTR_DONE && end == 5);
    expect("it waits for the log", mtr_checkpoint_stand(&keeper) == MTR_EARLY);
    sync_log(&keeper, 1);
    expect("it stands", mtr_checkpoint_stand(&keeper) == MTR_DONE);
    expect("the old one goes", mtr_log_delete(&keeper, &old) == MTR_DONE && old == 0);
    expect("it is gone", mtr_log_deleted(&keeper, 1) == MTR_WRONG && mtr_log_deleted(&keeper, 0) == MTR_DONE &&
                             mtr_log_segment(&keeper, 0, &worker, &segment) == MTR_WRONG);
    expect("no other one", mtr_log_delete(&keeper, &old) == MTR_ABSENT);
    mtr_free(&keeper);
    expect("all is freed", blocks == 0);
}

/* A keeper goes on with the log of this format that an earlier one left. */
static void test_restart(uint32_t format) {
    mtr_place keeper = {0}, store = {0};
    mtr_column column = {0, {text("x"), 1}};
    mtr_resumed resumed;
    mtr_fault fault = {0};
    uint8_t out[256], body[50];
    uint32_t checkpoint = 0, mark = 0;
    uint64_t begin = 0;
    size_t count = 0, number = 9;
    length = 0;
    if (format == 3) {
        append(mtr_segment_header(0, 0, 0, rest(), room(), &count), &count, 20);
        append(mtr_put(3, 2, 2, text("a"), 1, &column, 1, rest(), room(), &count), &count, 33);
        append(mtr_mark(3, rest(), room(), &count), &count, 17);
    } else {
        append(mtr_log_header_4(7, 0, 0, 1, 0, rest(), room(), &count, &mark), &count, 44);
        expect("a body", mtr_put(4, 2, 2, text("a"), 1, &column, 1, body, sizeof body, &count) == MTR_DONE && count == 33 &&
                             mtr_mark(3, body + 33, 17, &count) == MTR_DONE);
        append(mtr_seal(mark, body, sizeof body, rest(), room(), &count), &count, 66);
    }
    expect("a store", add_bytes(&store, 0, file, length, 64) == MTR_DONE && mtr_recover(&store, &fault) == MTR_DONE);
    expect("it goes on", mtr_keeper_resume(&keeper, &store, 4, 9) == MTR_DONE &&
                             mtr_keeper_resume(&keeper, &store, 4, 9) == MTR_WRONG);
    expect("what replaces the log", mtr_resume_log(file, length, 3, 8, 3, &resumed, out, sizeof out, &count) == MTR_DONE);
    expect("no log", mtr_keeper_add(&keeper, text("x"), 1, &number) == MTR_WRONG && number == 9);
    expect("its log", mtr_keeper_add(&keeper, out, count, &number) == MTR_DONE && number == 0);
    expect("only once", mtr_keeper_add(&keeper, out, count, &number) == MTR_WRONG);
    expect("no record yet", mtr_log_mark(&keeper, 0) == MTR_WRONG);
    expect("it is written", mtr_keeper_resumed(&keeper) == MTR_DONE && mtr_keeper_resumed(&keeper) == MTR_WRONG);
    expect("a stamp from the cutoff on", put_stamp(&keeper, 0) == 3);
    expect("the next checkpoint", mtr_checkpoint_begin(&keeper, &checkpoint, &begin) == MTR_DONE && checkpoint == 5);
    mtr_free(&keeper);
    mtr_free(&store);
    expect("all is freed", blocks == 0);
}

/* A keeper does not go on with the number of a checkpoint that recovery knew, or without a log that recovery had. */
static void test_restart_lacks(void) {
    mtr_place keeper = {0}, store = example_store();
    expect("less than the chosen checkpoint's", mtr_keeper_resume(&keeper, &store, 6, 9) == MTR_WRONG && !keeper.full);
    expect("less than a skipped checkpoint's", mtr_keeper_resume(&keeper, &store, 7, 9) == MTR_WRONG && !keeper.full);
    expect("a number", mtr_keeper_resume(&keeper, &store, 8, 9) == MTR_DONE);
    expect("its logs are not there", mtr_keeper_resumed(&keeper) == MTR_EARLY && mtr_keeper_resumed(&keeper) == MTR_EARLY);
    mtr_free(&keeper);
    mtr_free(&store);
    expect("all is freed", blocks == 0);
}

/* Adds what replaces this log at cutoff 3 to the keeper. */
static uint32_t add_resumed(mtr_place *keeper, const uint8_t *log, size_t size, size_t *number) {
    mtr_resumed resumed;
    uint8_t out[64];
    size_t count = 0;
    uint32_t status = mtr_resume_log(log, size, 3, 8, 3, &resumed, out, sizeof out, &count);
    return status == MTR_DONE ? mtr_keeper_add(keeper, out, count, number) : status;
}

/* Two logs, of which the second has an update past the cutoff, 3: both are added, and stamps are above its version, 20. */
static void test_restart_late(void) {
    mtr_place keeper = {0}, store = {0};
    mtr_column column = {0, {text("x"), 1}};
    mtr_fault fault = {0};
    size_t count = 0, first, number = 9;
    length = 0;
    append(mtr_segment_header(0, 0, 0, rest(), room(), &count), &count, 20);
    append(mtr_mark(3, rest(), room(), &count), &count, 17);
    first = length;
    append(mtr_segment_header(0, 1, 0, rest(), room(), &count), &count, 20);
    append(mtr_put(3, 20, 20, text("a"), 1, &column, 1, rest(), room(), &count), &count, 33);
    expect("a store", add_bytes(&store, 0, file, first, 64) == MTR_DONE &&
                          add_bytes(&store, 0, file + first, length - first, 64) == MTR_DONE &&
                          mtr_recover(&store, &fault) == MTR_DONE);
    expect("it goes on", mtr_keeper_resume(&keeper, &store, 0, 9) == MTR_DONE);
    expect("one log", add_resumed(&keeper, file, first, &number) == MTR_DONE && number == 0);
    expect("the other is not there", mtr_keeper_resumed(&keeper) == MTR_EARLY && mtr_log_mark(&keeper, 0) == MTR_WRONG);
    expect("the other", add_resumed(&keeper, file + first, length - first, &number) == MTR_DONE && number == 1);
    expect("both are there", mtr_keeper_resumed(&keeper) == MTR_DONE);
    expect("a stamp above the version", put_stamp(&keeper, 0) == 21);
    mtr_free(&keeper);
    mtr_free(&store);
    expect("all is freed", blocks == 0);
}

static int says(uint32_t kind, uint32_t what, uint64_t index, uint64_t record, const char *words) {
    mtr_fault fault = {kind, what, index, record};
    uint8_t out[64];
    size_t count = 0;
    return mtr_fault_text(&fault, out, sizeof out, &count) == MTR_DONE && count == strlen(words) &&
           memcmp(out, words, count) == 0;
}

static void test_words(void) {
    mtr_fault fault = {7, 0, 0, 0};
    mtr_versions versions = {0};
    uint8_t out[64];
    size_t count = 0;
    expect("words", says(1, 0, 0, 0, "no logs") && says(3, 3, 0, 3, "log 0: record 3: kind") && says(6, 0, 1, 0, "log 1: gap") &&
                        says(4, 0, 0, 0, "log 0: source failed") && says(5, 0, 0, 0, "part 0: source failed"));
    expect("no such fault", mtr_fault_text(&fault, out, sizeof out, &count) == MTR_WRONG);
    fault.kind = 6;
    expect("short words", mtr_fault_text(&fault, out, 5, &count) == MTR_SHORT && count == 10);
    fault.what = 1;
    expect("no record's", mtr_fault_text(&fault, out, sizeof out, &count) == MTR_WRONG);
    mtr_version(&versions);
    expect("versions", versions.library == 3 && versions.log_format == 4 && versions.part_format == 4);
}

static int is_fault(const mtr_fault *fault, uint32_t kind, uint32_t what, uint64_t index, uint64_t record) {
    return fault->kind == kind && fault->what == what && fault->index == index && fault->record == record;
}

/* Recovery of one more log or part beside the first log of the examples: its device fails, or it has these bytes. */
static uint32_t recover_with(int is_part, const uint8_t *bytes, size_t length, mtr_fault *fault) {
    mtr_place inputs = {0}, feed = {0};
    uint32_t status = add_bytes(&inputs, 0, examples[0].bytes, examples[0].length, 64);
    if (bytes != NULL) {
        if (status == MTR_DONE) status = add_bytes(&inputs, is_part, bytes, length, 3);
    } else {
        if (status == MTR_DONE) status = begin(&feed, is_part);
        if (status == MTR_DONE) status = mtr_feed_failed(&feed);
        if (status == MTR_DONE) status = mtr_add(&inputs, &feed);
    }
    if (status == MTR_DONE) status = mtr_recover(&inputs, fault);
    expect("no store is left", !inputs.full || status == MTR_DONE);
    mtr_free(&inputs);
    return status;
}

static void test_faults(void) {
    static const uint8_t wrong[] = "MTL1\0\0\0\0\0\0\0\0\0\0\0\x09\x63\0\0\0\0\0\0\0\x05\0\0\0\x09";
    mtr_place place = {0}, other = {0};
    mtr_fault fault = {0};
    uint8_t out[4];
    size_t count = 0;
    expect("no logs", mtr_recover(&place, &fault) == MTR_FAULT && is_fault(&fault, 1, 0, 0, 0));
    expect("header", recover_with(0, text("x"), 1, &fault) == MTR_FAULT && is_fault(&fault, 2, 0, 1, 0));
    expect("record", recover_with(0, wrong, sizeof wrong - 1, &fault) == MTR_FAULT && is_fault(&fault, 3, 3, 1, 0));
    expect("source", recover_with(0, NULL, 0, &fault) == MTR_FAULT && is_fault(&fault, 4, 0, 1, 0));
    expect("source of a part", recover_with(1, NULL, 0, &fault) == MTR_FAULT && is_fault(&fault, 5, 0, 0, 0));
    expect("gap", recover_with(0, examples[GAP].bytes, examples[GAP].length, &fault) == MTR_FAULT && is_fault(&fault, 6, 0, 1, 0));
    expect("an empty place feeds nothing", mtr_feed(&place, text("x"), 1) == MTR_WRONG);
    expect("an empty place fails nothing", mtr_feed_failed(&place) == MTR_WRONG);
    expect("an empty place has no keys", mtr_get(&place, text("x"), 1, 0, out, sizeof out, &count) == MTR_WRONG);
    expect("an empty place adds nothing", mtr_add(&other, &place) == MTR_WRONG && !other.full);
    expect("a log", mtr_feed_log(&place) == MTR_DONE && mtr_feed_part(&place) == MTR_WRONG);
    expect("a log has no keys", mtr_get(&place, text("x"), 1, 0, out, sizeof out, &count) == MTR_WRONG);
    expect("a log is not recovered", mtr_recover(&place, &fault) == MTR_WRONG && place.full);
    expect("a log has no inputs", mtr_feed_part(&other) == MTR_DONE && mtr_add(&place, &other) == MTR_WRONG && other.full);
    mtr_free(&place);
    mtr_free(&other);
    expect("all is freed", blocks == 0);
}

/* Adds a log with each allocation failed, and then with none. */
static void test_add_memory(void) {
    mtr_place inputs = {0}, feed = {0};
    mtr_fault fault = {0};
    uint32_t status = MTR_MEMORY;
    size_t allowed;
    expect("a feed", mtr_feed_log(&feed) == MTR_DONE &&
                         mtr_feed(&feed, examples[0].bytes, examples[0].length) == MTR_DONE);
    for (allowed = 0; status == MTR_MEMORY && allowed < 64; allowed++) {
        left = allowed;
        status = mtr_add(&inputs, &feed);
        left = SIZE_MAX;
        expect("a failed call adds nothing", status == MTR_DONE || (!inputs.full && feed.full));
    }
    expect("it fails, and then it is done", allowed > 2 && status == MTR_DONE && !feed.full);
    expect("the log is whole", mtr_recover(&inputs, &fault) == MTR_DONE && has(&inputs, "fig", 0, "green"));
    mtr_free(&inputs);
    expect("it is freed", blocks == 0);
}

static void test_recovery_memory(void) {
    mtr_fault fault = {0};
    uint32_t status = MTR_MEMORY;
    size_t allowed;
    for (allowed = 0; status == MTR_MEMORY && allowed < 4096; allowed++) {
        mtr_place store = {0};
        left = allowed;
        status = recover_examples(&store, 7, &fault);
        left = SIZE_MAX;
        mtr_free(&store);
        expect("nothing leaks", blocks == 0);
    }
    expect("some allocations of a recovery failed", allowed > 8);
    expect("then it is done", status == MTR_DONE);
}

static void test_tasks_memory(void) {
    mtr_fault fault = {0};
    uint32_t status = MTR_MEMORY;
    size_t allowed;
    for (allowed = 0; status == MTR_MEMORY && allowed < 4096; allowed++) {
        mtr_place store = {0};
        left = allowed;
        status = recover_by_tasks(&store, 2, &fault);
        left = SIZE_MAX;
        mtr_free(&store);
        expect("no task leaks", blocks == 0);
    }
    expect("some allocations of a job failed", allowed > 8);
    expect("then it is done", status == MTR_DONE);
}

/* A call that allocates, over the store of the examples. */
static uint32_t allocate(unsigned call, mtr_place *store, mtr_place *other) {
    mtr_resumed resumed;
    mtr_fault fault = {6, 0, 1, 0};
    uint8_t out[256];
    size_t count;
    switch (call) {
    case 0:
        return mtr_range(store, NULL, 0, 9, other);
    case 1:
        return mtr_share(store, other);
    case 2:
        return mtr_resume_log(examples[1].bytes, examples[1].length, 40, 8, 3, &resumed, out, sizeof out, &count);
    default:
        return mtr_fault_text(&fault, out, sizeof out, &count);
    }
}

static void test_calls_memory(void) {
    mtr_place store = example_store();
    unsigned call;
    for (call = 0; call < 4; call++) {
        size_t allowed, held = blocks;
        uint32_t status = MTR_MEMORY;
        for (allowed = 0; status == MTR_MEMORY && allowed < 64; allowed++) {
            mtr_place other = {0};
            left = allowed;
            status = allocate(call, &store, &other);
            left = SIZE_MAX;
            expect("a failed call puts nothing", status == MTR_DONE || !other.full);
            mtr_free(&other);
            expect("nor does it leak", blocks == held);
        }
        expect("it fails, and then it is done", allowed > 1 && status == MTR_DONE);
    }
    expect("the store is as before", has(&store, "fig", 0, "green"));
    mtr_free(&store);
}

int main(int argc, char **argv) {
    test_log();
    test_part();
    test_others();
    test_blocks();
    test_refusals();
    test_formats();
    test_memory();
    read_examples(argc > 1 ? argv[1] : ".");
    test_recovery();
    test_one_format();
    test_report();
    test_tasks();
    test_job();
    test_range();
    test_pair();
    test_dump();
    test_dump_on();
    test_dump_until();
    test_cut_keys();
    test_status_text();
    test_read_headers();
    test_share();
    test_resume();
    test_endings();
    test_resume_blocks();
    test_resume_small();
    test_keeper();
    test_take();
    test_written_part();
    test_part_memory();
    test_early();
    test_segments();
    test_restart(3);
    test_restart(4);
    test_restart_lacks();
    test_restart_late();
    test_words();
    test_faults();
    test_add_memory();
    test_recovery_memory();
    test_tasks_memory();
    test_calls_memory();
    printf("%u passed, %u failed\n", passed, failed);
    return failed != 0;
}
