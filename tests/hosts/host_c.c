/* The host of hosts/host.c, for lives.c. */
#include "mtrecover_host.h"
#include "lives.h"
#include <string.h>

static mtr_host *host;

static bool entries(void *server, mtr_host_part *part) {
    struct entry entry;
    (void)server;
    for (unsigned n = 0; entry_at(n, &entry); n++) {
        mtr_column column = {0, {(const uint8_t *)entry.value, strlen(entry.value)}};
        if (*entry.value &&
            !mtr_host_entry(part, entry.version, (const uint8_t *)entry.key, strlen(entry.key), &column, 1))
            return false;
    }
    return true;
}

static mtr_host *open_host(unsigned logs, uint64_t segment, uint64_t checkpoint, bool accepts_loss, mtr_place *store, uint64_t *last) {
    mtr_host_settings settings = {"/sim", logs, segment, checkpoint, entries, NULL, 0, accepts_loss};
    return mtr_host_open(&settings, store, last);
}

bool host_open(unsigned logs, uint64_t segment, uint64_t checkpoint, bool accepts_loss, uint64_t *last) {
    mtr_place store = {0}, hits = {0};
    uint8_t key[8], value[200], number;
    size_t columns, key_length, length;
    host = open_host(logs, segment, checkpoint, accepts_loss, &store, last);
    if (host == NULL)
        return false;
    spare_memory();
    must(!store.full || mtr_range(&store, NULL, 0, SIZE_MAX, &hits) == MTR_DONE, "no range");
    for (size_t n = 0; mtr_hit(&hits, n, &columns, key, sizeof key, &key_length) == MTR_DONE; n++) {
        must(mtr_hit_column(&hits, n, 0, &number, value, sizeof value, &length) == MTR_DONE && columns == 1 && number == 0, "a column");
        recovered((const char *)key, key_length, (const char *)value, length);
    }
    mtr_free(&hits);
    mtr_free(&store);
    spare_memory();
    return true;
}

bool host_start(void) { return mtr_host_start(host); }

bool host_put(unsigned log, struct entry *entry) {
    mtr_column column = {0, {(const uint8_t *)entry->value, strlen(entry->value)}};
    return mtr_host_put(host, log, (const uint8_t *)entry->key, strlen(entry->key), &column, *entry->value ? 1 : 0,
                        &entry->version) == MTR_DONE;
}

bool host_wait(uint64_t stamp) { return mtr_host_wait(host, stamp); }

bool host_close(void) { return mtr_host_close(host); }

bool host_shares(void) {
    mtr_place store = {0};
    uint64_t last;
    return open_host(1, 1000, 1000, false, &store, &last) != NULL;
}
