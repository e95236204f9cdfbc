/* What the parts of a life give each other. */
#ifndef LIVES_H
#define LIVES_H

#include <stdbool.h>
#include <stddef.h>
#include <stdint.h>

/* ---- disk.c: the machine, and the calls on its disk ---- */

enum call { OPENS, CREATES, READS, WRITES, SYNCS, NAMES, OTHER, MEMORY, ANY };

/* Something happens at one of the calls of a kind on files whose names have this in them, or so many calls later: `left`
 * counts down to it. */
struct event {
    enum call call;
    char of[8];
    uint64_t left, delay; /* 0, 0: never */
};

/* What the machine does with the next process, and what that has done. */
struct machine {
    uint64_t random;  /* the state of its random numbers */
    uint64_t loyalty; /* of 8: how often the thread that runs goes on */
    struct event crash, failure;
    bool fails_on;      /* also the next calls of this kind fail */
    uint64_t failures;  /* calls of this process that failed, but for those that are to be made again */
    bool needs_restart; /* one of them was a write or a sync */
    char slow[8];       /* a sync of a file whose name has this in it lasts so many turns */
    unsigned slowness;
    unsigned long calls, failed, segments, checkpoints, deletions; /* in all */
    char why[200];      /* what was wrong */
};
extern struct machine *machine;

/* How a process ends. */
enum { ENDED = 0, WRONG = 1, CRASHED = 2 };

void create_machine(void);
/* Gives it an empty disk, and the random numbers of this seed. */
void begin_machine(uint64_t seed);
/* Puts a file there, in place of the one of this name. */
void lay(const char *name, const void *bytes, size_t length);
/* Takes the files away whose names begin so. */
void lose(const char *begin);
/* The bytes of a file, or NULL if there is none. */
const uint8_t *bytes_of(const char *name, size_t *length);
/* A number that another disk hardly has. */
uint64_t sum_of_disk(void);
/* Keeps what the last process left: all, or what a crash of the machine leaves. */
void restart_machine(bool is_crash);
uint64_t any_below(uint64_t most);
/* Ends the process unless this is so. */
void must(bool is_so, const char *format, ...);
/* Memory is there until it is called again, as while the test reads a store. */
void spare_memory(void);
unsigned open_files(void);
/* So many names end so. */
unsigned names_with(const char *end);
/* Begins a call: others may run, the machine may crash, or the call fails. Returns how, or 0. */
int fails(enum call call, const char *what);

/* ---- threads.c: threads of which one runs at a time ---- */

/* Others may run. */
void pass(void);

/* ---- host_c.c or host_rust.rs: a host ---- */

/* A key of the server. The value is empty if it has none. */
struct entry {
    char key[8], value[200];
    uint64_t version;
};

/* Each returns false if the host refuses or has failed. */
bool host_open(unsigned logs, uint64_t segment, uint64_t checkpoint, bool accepts_loss, uint64_t *last);
bool host_start(void);
bool host_put(unsigned log, struct entry *entry); /* sets its version */
bool host_wait(uint64_t stamp);
bool host_close(void);
/* Whether another host opens the folder too. */
bool host_shares(void);

/* ---- lives.c or losses.c: the server ---- */

/* The host has recovered this key. */
void recovered(const char *key, size_t key_length, const char *value, size_t value_length);
/* Copies the key of this number, in one step. False: there is none. */
bool entry_at(unsigned number, struct entry *entry);

#endif
