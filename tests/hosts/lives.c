/* Lives of a server over a host: `lives FIRST COUNT` plays those of COUNT seeds from FIRST on, up to one that goes wrong. In the
 * machine of disk.c and threads.c clients put, remove, read and wait, until it crashes, or calls fail. Then the server starts
 * again over what is left, and in the end once more without either. In some lives there is a log of format 3 at first.
 *
 * What a start recovers must be what the updates up to the stamp that it tells have made, and no later stamp was acknowledged.
 * Stamps rise. While no call fails, each call of the host succeeds, and it closes each file. */
#define _GNU_SOURCE
#include "lives.h"
#include <inttypes.h>
#include <pthread.h>
#include <stdio.h>
#include <stdlib.h>
#include <string.h>
#include <sys/mman.h>
#include <sys/wait.h>
#include <unistd.h>

enum { KEYS = 8, UPDATES = 1024, CLIENTS = 4 };

/* A value is a number, and 0 none. */
struct update {
    unsigned key, value;
    uint64_t stamp;
};

/* What the clients remember. */
static struct life {
    unsigned base[KEYS]; /* what the last start recovered */
    struct update since[UPDATES]; /* in the order of their stamps; then one that may be made and has no stamp yet */
    unsigned count;
    bool is_under_way;
    uint64_t acknowledged; /* the greatest stamp */
    unsigned values;       /* so many were sent */
    bool has_opened;
    unsigned long starts, opens, crashes, twice, restarts, updates, acknowledgements; /* of all lives */
} *life;

/* The server's table. */
static struct {
    unsigned value;
    uint64_t version;
} table[KEYS];
static pthread_mutex_t lock;
static unsigned logs, requests;

/* ---- Keys and values ---- */

static void show(unsigned key, unsigned value, uint64_t version, struct entry *entry) {
    snprintf(entry->key, sizeof entry->key, "key%u", key);
    *entry->value = 0;
    if (value != 0)
        snprintf(entry->value, sizeof entry->value, "%u%.*s", value, value % 4 == 0 ? 100 : (int)(value % 4),
                 "....................................................................................................");
    entry->version = version;
}

void recovered(const char *key, size_t key_length, const char *value, size_t value_length) {
    struct entry wanted = {.version = 0};
    unsigned number = key_length == 4 ? (unsigned)key[3] - '0' : KEYS;
    must(number < KEYS && value_length < sizeof wanted.value, "there is a key %.*s", (int)key_length, key);
    show(number, table[number].value = (unsigned)atoi(value), 0, &wanted);
    must(memcmp(key, wanted.key, key_length) == 0 && strlen(wanted.value) == value_length &&
             memcmp(value, wanted.value, value_length) == 0,
         "key%u has %.*s, which was never sent", number, (int)value_length, value);
}

bool entry_at(unsigned number, struct entry *entry) {
    if (number == KEYS)
        return false;
    pthread_mutex_lock(&lock);
    show(number, table[number].value, table[number].version, entry);
    pthread_mutex_unlock(&lock);
    return true;
}

/* ---- Clients ---- */

/* Puts a value, or removes the key, in one step. Returns whether that is done. */
static bool update(unsigned key, bool is_put) {
    struct entry entry;
    pthread_mutex_lock(&lock);
    struct update *update = &life->since[life->count];
    *update = (struct update){key, is_put ? ++life->values : 0, 0};
    life->is_under_way = true;
    show(key, update->value, 0, &entry);
    bool is_made = host_put((unsigned)any_below(logs), &entry);
    life->is_under_way = false;
    must(is_made || machine->failures > 0, "an update fails");
    if (is_made) {
        must(entry.version > life->acknowledged && (life->count == 0 || entry.version > update[-1].stamp), "a stamp does not rise");
        must(++life->count < UPDATES, "too many updates");
        life->updates++;
        update->stamp = table[key].version = entry.version;
        table[key].value = update->value;
    }
    pthread_mutex_unlock(&lock);
    return is_made;
}

/* Waits until what the key has is durable. Returns whether it is. */
static bool await(unsigned key) {
    pthread_mutex_lock(&lock);
    uint64_t stamp = table[key].version;
    pthread_mutex_unlock(&lock);
    bool is_durable = host_wait(stamp);
    must(is_durable || machine->failures > 0, "an acknowledgement fails");
    life->acknowledgements += is_durable;
    if (is_durable && stamp > life->acknowledged)
        life->acknowledged = stamp;
    return is_durable;
}

static void *ask(void *given) {
    bool goes_on = true;
    for (unsigned n = 0; n < requests && goes_on; n++) {
        unsigned key = (unsigned)any_below(KEYS), what = (unsigned)any_below(8);
        goes_on = what == 0 || update(key, what > 1);
        if (what < 6)
            goes_on = await(key) && goes_on;
    }
    return given;
}

/* ---- A start ---- */

/* Checks what was recovered, which the updates up to the last stamp made, and notes it. */
static void check(uint64_t last) {
    const struct update *more = &life->since[life->count];
    must(last >= life->acknowledged, "recovered up to %" PRIu64 ", and acknowledged was %" PRIu64, last, life->acknowledged);
    for (unsigned n = 0; n < life->count; n++)
        if (life->since[n].stamp <= last)
            life->base[life->since[n].key] = life->since[n].value;
    for (unsigned key = 0; key < KEYS; key++) {
        bool is_made = life->is_under_way && more->key == key && more->value == table[key].value;
        must(table[key].value == life->base[key] || is_made, "key%u has %u, not %u, up to %" PRIu64, key, table[key].value,
             life->base[key], last);
        life->base[key] = table[key].value;
        table[key].version = last;
    }
    life->count = 0;
    life->is_under_way = false;
    life->acknowledged = last;
    life->has_opened = true;
    life->opens++;
}

static void start(void) {
    pthread_t clients[CLIENTS];
    unsigned count = 0, wanted = 1 + (unsigned)any_below(CLIENTS);
    uint64_t last = 0, segment = UINT64_C(100) << any_below(5), checkpoint = UINT64_C(300) << any_below(6);
    logs = 1 + (unsigned)any_below(3);
    requests = 1 + (unsigned)any_below(UINT64_C(1) << any_below(8));
    bool is_open = host_open(logs, segment, checkpoint, false, &last);
    must(is_open || machine->failures > 0, "the folder does not open");
    must(is_open || open_files() == 0, "%u files stay open after a refusal", open_files());
    if (!is_open)
        return;
    check(last);
    must(any_below(16) > 0 || !host_shares(), "two hosts share the folder");
    bool is_started = host_start();
    must(is_started || machine->failures > 0, "no start");
    while (is_started && count < wanted && pthread_create(&clients[count], NULL, ask, NULL) == 0)
        count++;
    for (unsigned n = 0; n < count; n++)
        pthread_join(clients[n], NULL);
    bool is_closed = host_close();
    must(is_closed || machine->failures > 0, "the host fails");
    must(open_files() == 0, "%u files stay open", open_files());
    must(names_with(".mtc") < 3 || machine->failures > 0, "%u parts stay", names_with(".mtc"));
    if (is_started && is_closed && life->count > 0)
        life->acknowledged = life->since[life->count - 1].stamp;
}

/* Something that happens at one of the first calls of a kind. */
static struct event choose_event(enum call call, uint64_t most) {
    static const char *const names[] = {"", "", "mtl", "mtc"};
    struct event event = {call, "", 0, 0};
    if (call != MEMORY)
        strcpy(event.of, names[any_below(4)]);
    uint64_t more = call == MEMORY || (call == ANY && *event.of == 0) ? 4 : 0;
    event.left = 1 + any_below(UINT64_C(1) << (more + any_below(most)));
    return event;
}

/* Chooses what happens in a start: in each life's first ones the machine crashes, and a call fails, at its own call. */
static void choose(uint64_t seed, unsigned number, bool is_last) {
    unsigned what = is_last ? 0 : (unsigned)any_below(8);
    struct event never = {ANY, "", 0, 0}, own = {ANY, "", 1 + seed % 256, 0};
    machine->loyalty = any_below(8);
    strcpy(machine->slow, any_below(2) == 0 ? "0-" : "1-");
    machine->slowness = any_below(8) == 0 ? 100 : 0;
    machine->crash = what > 2 ? choose_event(any_below(2) == 0 ? ANY : (enum call)any_below(MEMORY), 8) : never;
    machine->crash.delay = what > 2 ? any_below(10) * any_below(2) : 0;
    machine->failure = what == 1 || what == 2 || what == 7 ? choose_event((enum call)any_below(ANY), 6) : never;
    machine->fails_on = any_below(4) == 0;
    if (number == 1 && !is_last)
        machine->crash = own;
    if (number == 2 && !is_last)
        machine->failure = own;
    machine->failures = 0;
    machine->needs_restart = false;
}

/* Runs a start as a process. Returns how it ended. */
static int run(void) {
    int status = 0;
    pid_t process = fork();
    if (process == 0) {
        start();
        _exit(ENDED);
    }
    if (process < 0 || waitpid(process, &status, 0) != process)
        abort();
    if (WIFEXITED(status))
        return WEXITSTATUS(status);
    snprintf(machine->why, sizeof machine->why, "a process ends by signal %d", WTERMSIG(status));
    return WRONG;
}

/* Plays the life of this seed. Returns whether all is well. */
static bool play(uint64_t seed) {
    static const uint8_t old[] = "MTL3\0\0\0\0\0\0\0\0\0\0\0\0\0\0\0\0" "\0\0\0\x09\x03\0\0\0\0\0\0\0\x01\0\0\0\x09";
    bool was_cut = false;
    begin_machine(seed);
    if (any_below(4) == 0)
        lay("0-0.mtl", old, sizeof old - 1);
    memset(life, 0, offsetof(struct life, starts));
    uint64_t starts = 3 + any_below(6);
    for (unsigned number = 0; number < starts; number++) {
        life->has_opened = false;
        life->starts++;
        choose(seed, number, number + 1 == starts);
        int end = run();
        if (end == WRONG) {
            printf("seed %" PRIu64 ", start %u: %s\n", seed, number + 1, machine->why);
            return false;
        }
        bool is_cut = end == CRASHED && !life->has_opened, restarts = machine->needs_restart || any_below(2) > 0;
        life->crashes += end == CRASHED;
        life->twice += is_cut && was_cut;
        life->restarts += restarts;
        was_cut = is_cut;
        restart_machine(restarts);
    }
    return true;
}

int main(int argc, char **argv) {
    uint64_t first = argc > 1 ? strtoull(argv[1], NULL, 10) : 1, count = argc > 2 ? strtoull(argv[2], NULL, 10) : 1;
    bool is_well = true;
    create_machine();
    life = mmap(NULL, sizeof *life, PROT_READ | PROT_WRITE, MAP_SHARED | MAP_ANONYMOUS, -1, 0);
    for (uint64_t n = 0; n < count && is_well; n++)
        is_well = play(first + n);
    printf("%lu starts, %lu recoveries, %lu crashes, %lu in a start after one in a start, %lu restarts of the machine, ", life->starts,
           life->opens, life->crashes, life->twice, life->restarts);
    printf("%lu updates, %lu acknowledgements, %lu calls, %lu failed calls, %lu segments, %lu checkpoints, %lu deletions\n", life->updates,
           life->acknowledgements, machine->calls, machine->failed, machine->segments, machine->checkpoints, machine->deletions);
    return is_well ? 0 : 1;
}
