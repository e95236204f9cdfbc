/* What a host does once more is lost than a crash loses, over the machine of disk.c and threads.c: `losses`. The last line is
 * 'N passed, M failed'. */
#include "lives.h"
#include <inttypes.h>
#include <stdio.h>
#include <stdlib.h>
#include <string.h>
#include <sys/mman.h>
#include <sys/wait.h>
#include <unistd.h>

enum { KEYS = 60, MANY = 1 << 20 };

/* What the steps of a trial share. */
static struct trial {
    unsigned logs;                   /* of a server */
    unsigned updates;                /* that it puts, one after the other */
    uint64_t segment, checkpoint;
    bool waits, falls, accepts_loss; /* each update; the keys of checkpoints; the host */
    unsigned recovered;              /* so many keys */
    uint64_t last;
} *trial;

/* The server's table. */
static struct entry table[KEYS];
static unsigned passed, failed;

/* ---- The server ---- */

void recovered(const char *key, size_t key_length, const char *value, size_t value_length) {
    (void)key, (void)key_length, (void)value, (void)value_length;
    trial->recovered++;
}

bool entry_at(unsigned number, struct entry *entry) {
    if (number < KEYS)
        *entry = table[trial->falls ? KEYS - 1 - number : number];
    return number < KEYS;
}

/* Puts updates to its logs by turns, and ends. Half of the keys are put once, so that after a while they stand in checkpoints
 * alone. Its values are long, but for a server that does not make checkpoints. */
static bool serve(void) {
    uint64_t last = 0;
    bool is_done = host_open(trial->logs, trial->segment, trial->checkpoint, false, &last) && host_start();
    for (unsigned n = 0; n < trial->updates && is_done; n++) {
        unsigned number = n < KEYS ? n : n % (KEYS / 2);
        struct entry *entry = &table[number];
        snprintf(entry->key, sizeof entry->key, "key%02u", number);
        snprintf(entry->value, sizeof entry->value, "%0*u", trial->checkpoint < MANY ? 199 : 10, n);
        is_done = host_put(n % trial->logs, entry) && (!trial->waits || host_wait(entry->version));
        for (int turn = 0; turn < 100 && !trial->waits; turn++)
            pass();
    }
    if (!trial->waits)
        _exit(CRASHED);
    return is_done && host_close();
}

/* Starts with two logs, or more if there are more, and ends. */
static bool open_it(void) {
    trial->recovered = 0;
    return host_open(2, trial->segment, trial->checkpoint, trial->accepts_loss, &trial->last) && host_start() && host_close();
}

/* Runs it as a process. Returns whether it is done. */
static bool run(bool (*step)(void)) {
    int status = 0;
    pid_t process = fork();
    if (process == 0)
        _exit(step() ? ENDED : WRONG);
    if (process < 0 || waitpid(process, &status, 0) != process)
        abort();
    restart_machine(WEXITSTATUS(status) == CRASHED);
    return WIFEXITED(status) && WEXITSTATUS(status) != WRONG;
}

/* ---- The trials ---- */

static void check(const char *what, bool is_so) {
    passed += is_so;
    failed += !is_so;
    if (!is_so)
        printf("%s: FAILED\n", what);
}

/* Begins with an empty disk, and a server that makes neither segments nor checkpoints. */
static void begin(void) {
    begin_machine(1);
    machine->loyalty = 4;
    machine->slowness = 0;
    *trial = (struct trial){.logs = 2, .segment = MANY, .checkpoint = MANY, .waits = true};
}

static bool serves(unsigned updates) {
    trial->updates = updates;
    return run(serve);
}

static bool has(const char *name, const char *text) {
    size_t length = 0;
    const uint8_t *bytes = bytes_of(name, &length);
    return bytes != NULL && length == strlen(text) && memcmp(bytes, text, length) == 0;
}

/* A start is refused, and no byte is changed. If the loss is accepted, it goes on, and these lines are noted. */
static void check_loss(const char *what, const char *lines) {
    char title[100];
    uint64_t before = sum_of_disk();
    snprintf(title, sizeof title, "%s is refused", what);
    check(title, !run(open_it));
    snprintf(title, sizeof title, "nothing is changed over %s", what);
    check(title, sum_of_disk() == before);
    trial->accepts_loss = true;
    snprintf(title, sizeof title, "%s that is accepted", what);
    check(title, run(open_it));
    snprintf(title, sizeof title, "%s is noted", what);
    check(title, has("LOSS", lines));
    trial->accepts_loss = false;
    snprintf(title, sizeof title, "a start after %s", what);
    check(title, run(open_it));
}

/* The first log begins with a mark at 1. So the first server puts the stamps 2 to 41, and leaves marks at 42. After the second
 * start both logs have a mark at 42, and the server puts 42 to 441, of which each is a take in each log: so the log that is whole
 * has marks at 42 to 442. */
static void try_older_copy(void) {
    static uint8_t copy[1 << 16];
    size_t length = 0;
    begin();
    check("a first server", serves(40));
    const uint8_t *bytes = bytes_of("1-0.mtl", &length);
    memcpy(copy, bytes, length);
    check("a second server", serves(400));
    lay("1-0.mtl", copy, length);
    check_loss("an older copy of a log", "0-0.mtl: 401 marks at or past the cutoff; 1-0.mtl ends at 42\n");
    check("its cutoff", trial->last == 41);
}

/* All segments of a worker are gone, and those of two others are there. These two go on: their next segments count them alone. */
static void try_lost_worker(const char *worker, uint64_t segment) {
    begin();
    trial->segment = segment;
    trial->logs = 3;
    check("a server of three workers", serves(12) && run(open_it));
    lose(worker);
    check_loss("the loss of a worker", "2 writers, but a header says 3\n");
    trial->logs = 2;
    check("a server of the two that are left", serves(12));
    check("a start after it", run(open_it) && has("LOSS", "2 writers, but a header says 3\n"));
}

/* A crash while the first file of a worker is made, at one of the first calls for it, or at the call after that. */
static void try_begun_log(void) {
    for (uint64_t seed = 1; seed <= 32; seed++) {
        begin();
        machine->random = seed;
        machine->crash = (struct event){ANY, "1-0.mtl", 1 + seed % 8, seed / 8 % 2};
        check("a server that crashes as it begins a log", serves(4));
        machine->crash.left = 0;
        check("a start after a log was being begun", run(open_it));
    }
}

/* A segment has two takes. Those of segment 0 are for the stamps 2 and 3, so segment 1 begins at its last mark, 4. */
static void try_hole(void) {
    static const uint8_t shorter[] = "MTL3\0\0\0\0\0\0\0\0\0\0\0\1\0\0\0\0" "\0\0\0\x09\x03\0\0\0\0\0\0\0\x01\0\0\0\x09";
    begin();
    trial->segment = 1;
    check("a server of small segments", serves(4));
    lay("1-0.mtl", shorter, sizeof shorter - 1);
    check_loss("a hole", "1-1.mtl: a hole from 1 to 4 is before it\n");
}

/* The header of a part of checkpoint 7, from 1000 on, up to 2000, without entries. */
static const uint8_t part[] = "MTC2\0\0\0\x07\0\0\0\0\0\0\x03\xe8\0\0\0\1\0\0\0\0\0\0\0\0\0\0\x07\xd0\0\0\0";

static void try_parts(void) {
    begin();
    check("a server", serves(4));
    lay("7-0.mtc", part, sizeof part);
    check("a whole part that is too new is no loss", run(open_it) && names_with(".mtc") == 0 && !has("LOSS", ""));
    lay("7-0.mtc", part, sizeof part - 1);
    check_loss("a broken part", "checkpoint 7 skipped: it is damaged\n");
    lay("8-0.mtc", part, 3);
    check_loss("a part without a header", "checkpoint 7 skipped: it is damaged\ncheckpoint 8 skipped: it is damaged\n");
}

/* A log of format 3 with a mark at 1, the length of a record that is not whole, and further marks. */
static void try_records_behind(void) {
    static const uint8_t head[] = "MTL3\0\0\0\0\0\0\0\0\0\0\0\0\0\0\0\0" "\0\0\0\x09\x03\0\0\0\0\0\0\0\x01\0\0\0\x09";
    static const uint8_t torn[] = "\0\0\x40\0\x07torn", mark[] = "\0\0\0\x09\x03\0\0\0\0\0\0\0\x02\0\0\0\x09";
    uint8_t log[1000];
    size_t length = sizeof head - 1 + sizeof torn - 1;
    begin();
    memcpy(log, head, sizeof head - 1);
    memcpy(log + sizeof head - 1, torn, sizeof torn - 1);
    lay("0-0.mtl", log, length);
    check("a torn tail is no loss", run(open_it));
    for (int n = 0; n < 8; n++, length += sizeof mark - 1)
        memcpy(log + length, mark, sizeof mark - 1);
    begin();
    lay("0-0.mtl", log, length);
    check_loss("a log with records behind a torn tail", "0-0.mtl: records follow its torn tail\n");
}

/* The bytes of the longest body of a block of a part, or 0 if the file is not blocks alone. */
static size_t longest_body(const char *name) {
    size_t length = 0, longest = 0, at = 36;
    const uint8_t *bytes = bytes_of(name, &length);
    while (bytes != NULL && at + 16 <= length) {
        size_t body = (size_t)bytes[at + 4] << 24 | (size_t)bytes[at + 5] << 16 | (size_t)bytes[at + 6] << 8 | bytes[at + 7];
        longest = body > longest ? body : longest;
        at += body + 16;
    }
    return at == length ? longest : 0;
}

/* Checkpoints of up to 60 keys with values of 199 bytes: some 13,000 bytes. */
static void try_checkpoints(void) {
    begin();
    trial->segment = 3000;
    trial->checkpoint = 30000;
    check("a server with checkpoints", serves(400));
    check("a part", names_with(".mtc") == 1 && names_with("0-0.mtl") == 0);
    size_t longest = longest_body("1-0.mtc") + longest_body("2-0.mtc") + longest_body("3-0.mtc") + longest_body("4-0.mtc");
    check("blocks of parts are small", longest > 3000 && longest <= 4096 + 16);
    check("a start from it", run(open_it) && trial->recovered == KEYS);
    begin();
    trial->segment = 3000;
    trial->checkpoint = 30000;
    trial->falls = true;
    check("a server whose checkpoints have keys that fall", serves(400));
    check("its checkpoints are given up", names_with(".mtc") == 0 && names_with("0-0.mtl") == 1);
    check("nothing is lost by it", run(open_it) && trial->recovered == KEYS);
}

/* A server that does not wait, while syncs of one log are slow, and a crash: no start is refused. */
static void try_haste(void) {
    for (uint64_t seed = 1; seed <= 10; seed++) {
        begin();
        machine->random = seed;
        strcpy(machine->slow, "1-");
        machine->slowness = 4000;
        trial->waits = false;
        check("a server that does not wait", serves(100));
        trial->waits = true;
        check("a start after a server that did not wait", run(open_it));
    }
}

int main(void) {
    create_machine();
    trial = mmap(NULL, sizeof *trial, PROT_READ | PROT_WRITE, MAP_SHARED | MAP_ANONYMOUS, -1, 0);
    try_older_copy();
    try_lost_worker("0-", 1);
    try_lost_worker("1-", 1);
    try_lost_worker("2-", MANY);
    try_begun_log();
    try_hole();
    try_parts();
    try_records_behind();
    try_checkpoints();
    try_haste();
    printf("%u passed, %u failed\n", passed, failed);
    return failed > 0;
}
