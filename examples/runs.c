/* Counts its runs in the folder `data`, and no crash takes back a count that it printed: a small program over hosts/host.c.
 * examples/server.c is a server with clients. */
#define _POSIX_C_SOURCE 200809L
#include "mtrecover_host.h"
#include <fcntl.h>
#include <pthread.h>
#include <stdio.h>
#include <stdlib.h>
#include <string.h>
#include <sys/stat.h>
#include <unistd.h>

enum { ROWS = 100, LENGTH = 64 };

/* The server's own table, in the order of keys: each key with the version of its last update, and its value. */
struct row {
    char key[LENGTH], value[LENGTH];
    uint64_t version;
};
static struct row table[ROWS];
static size_t count;
static pthread_mutex_t lock = PTHREAD_MUTEX_INITIALIZER; /* guards the table */
static mtr_host *host;

/* Ends the program unless this is so. */
static void must(bool is_so, const char *what) {
    if (!is_so) {
        fprintf(stderr, "runs: %s\n", what);
        exit(1);
    }
}

static const uint8_t *bytes(const char *text) { return (const uint8_t *)text; }

/* The place of the first row whose key is not below this one. */
static size_t find(const char *key) {
    size_t at = 0;
    while (at < count && strcmp(table[at].key, key) < 0)
        at++;
    return at;
}

static bool has(const char *key) { return find(key) < count && strcmp(table[find(key)].key, key) == 0; }

static void set(const struct row *row) {
    size_t at = find(row->key);
    if (!has(row->key)) {
        must(count < ROWS, "the table is full");
        memmove(&table[at + 1], &table[at], (count++ - at) * sizeof *row);
    }
    table[at] = *row;
}

/* Changes the table and appends the change to a log in one step. Then waits until no crash can lose it. */
static void put(const char *key, const char *value) {
    struct row row = {.version = 0};
    mtr_column column = {0, {bytes(value), strlen(value)}};
    snprintf(row.key, LENGTH, "%s", key);
    snprintf(row.value, LENGTH, "%s", value);
    pthread_mutex_lock(&lock);
    must(mtr_host_put(host, 0, bytes(key), strlen(key), &column, 1, &row.version) == MTR_DONE, "no put");
    set(&row);
    pthread_mutex_unlock(&lock);
    must(mtr_host_wait(host, row.version), "the host failed");
}

/* Gives a checkpoint all keys, in order. */
static bool entries(void *server, mtr_host_part *part) {
    bool is_given = true;
    (void)server;
    pthread_mutex_lock(&lock);
    for (size_t at = 0; is_given && at < count; at++) {
        const struct row *row = &table[at];
        mtr_column column = {0, {bytes(row->value), strlen(row->value)}};
        is_given = mtr_host_entry(part, row->version, bytes(row->key), strlen(row->key), &column, 1);
    }
    pthread_mutex_unlock(&lock);
    return is_given;
}

/* Copies the recovered store into the table. No key has a version above this one. */
static void fill(mtr_place *store, uint64_t version) {
    mtr_place hits = {0};
    size_t length = 0, columns = 0;
    uint8_t number;
    must(!store->full || mtr_range(store, NULL, 0, ROWS, &hits) == MTR_DONE, "no memory");
    for (size_t n = 0;; n++) {
        struct row row = {.version = version}; /* its bytes 0 end the key and the value */
        if (mtr_hit(&hits, n, &columns, (uint8_t *)row.key, LENGTH - 1, &length) != MTR_DONE)
            break;
        must(mtr_hit_column(&hits, n, 0, &number, (uint8_t *)row.value, LENGTH - 1, &length) == MTR_DONE, "a long value");
        set(&row);
    }
    mtr_free(&hits);
    mtr_free(store);
}

int main(void) {
    /* Recover the store that the last run left, and copy it into the table. */
    mtr_host_settings settings = {
        .folder = "data",
        .logs = 2,             /* two threads of the host write a log each */
        .segment = 64 << 20,   /* a log's file is followed by the next one after 64 MiB */
        .checkpoint = 1 << 30, /* a checkpoint follows 1 GiB of logs */
        .entries = entries,
    };
    mtr_place store = {0};
    uint64_t last = 0;
    char runs[LENGTH];
    mkdir("data", 0777);
    int here = open(".", O_RDONLY);
    must(here >= 0 && fsync(here) == 0 && close(here) == 0, "a crash may take the new folder back");
    must((host = mtr_host_open(&settings, &store, &last)) != NULL, "the folder does not open");
    fill(&store, last);

    /* Start the threads that write the logs, count this run, and print the count once it is durable. */
    must(mtr_host_start(host), "no start");
    snprintf(runs, sizeof runs, "%ld", (has("runs") ? atol(table[find("runs")].value) : 0) + 1);
    put("runs", runs);
    printf("runs so far: %s\n", runs);
    return mtr_host_close(host) ? 0 : 1;
}
