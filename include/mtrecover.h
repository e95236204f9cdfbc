/* A server uses these functions to recover its store after a crash, and to write its logs and checkpoints. A log is a file of
 * updates. A checkpoint has all keys of the store with their columns, in one file or several, which are called its parts. The
 * functions come in this order:
 *
 * - Recovery, from mtr_feed_log on. The server reads its logs and parts itself, and feeds their bytes in chunks of any size.
 *   Recovery makes a store of them, with a report of what it found, or it names the one fault why there is no store.
 * - The report, from mtr_get_report on, and the bytes that replace each log before the server goes on (mtr_resume_log).
 * - The keys of the store, from mtr_exists on.
 * - A keeper, from mtr_keeper_begin on. While the server runs, its keeper says which bytes to append to which file, which
 *   updates may be acknowledged, and which files may be deleted.
 * - Encodings, from mtr_log_header_4 on. They write single records, entries, headers and blocks into buffers of the server.
 *
 * For each function it is proved what the function answers and writes, if the caller keeps the duties below.
 *
 * Each function except mtr_free and mtr_version returns a status, which is a value of enum mtr_status. The comments leave out
 * the prefix of a status: DONE stands for MTR_DONE. A function may return DONE, MEMORY, SHORT if it has the parameter `room`,
 * and each status that its comment or the comment of its group names. A function that gets a place returns WRONG exactly for
 * the reasons that these comments name; then nothing changed. No function ends the program, prints, waits, starts a thread,
 * or keeps state of its own. Any thread may call any function. The library takes its memory from rattle_alloc, rattle_realloc
 * and rattle_dealloc (malloc.c).
 *
 * A function with the parameters `out`, `room` and `count` writes bytes to the beginning of the caller's buffer `out`, which
 * has room for `room` bytes. If the function returns DONE, these bytes stand there, the rest of `out` is as before, and
 * *count is the number of the bytes. If it returns SHORT, the room is too small, and *count is the number of bytes that the
 * function needs: call it again with that much room. Whenever it does not return DONE, `out` is as before.
 *
 * Duties of the caller:
 * - Places, and all else that a call writes to, must overlap nothing else that this call gets.
 * - A pointer may be null only if the length that belongs to it is 0.
 * - A place may be moved, but never copied. Only one call at a time may get the same place. At the end, mtr_free empties it.
 * - A task goes back to the job that handed it out.
 * - The processor has x86-64-v2.
 *
 * Versions: MTR_VERSION_MAJOR, MTR_VERSION_MINOR and MTR_VERSION_PATCH are the version of this header, and of all that is
 * released with it. A program that was built with this header runs with each library that has the same MAJOR, and the same
 * MINOR or a higher one. A new MINOR may add functions, constants and kinds of faults. It changes none and removes none, and
 * no struct grows. Such a change needs a new MAJOR, and a new soname of the shared library, which is libmtrecover.so.1 now. */
#ifndef MTRECOVER_H
#define MTRECOVER_H

#include <stdbool.h>
#include <stddef.h>
#include <stdint.h>

#define MTR_VERSION_MAJOR 3
#define MTR_VERSION_MINOR 0
#define MTR_VERSION_PATCH 0

#ifdef __cplusplus
extern "C" {
#endif

/* The status that a function returns. */
enum mtr_status {
    MTR_DONE = 0,   /* the call did what its comment says */
    MTR_MEMORY = 1, /* out of memory */
    MTR_WRONG = 2,  /* an argument is not lawful, or a place does not hold what the call needs; nothing changed */
    MTR_ABSENT = 3, /* there is no such key, column, pair or item */
    MTR_SHORT = 4,  /* the buffer is too short, and *count is the number of bytes that the call needs */
    MTR_FAULT = 5,  /* the bytes have a fault */
    MTR_EARLY = 6,  /* something that must happen before this call did not happen yet; nothing changed */
    MTR_FULL = 7,   /* the log has no room, or no stamp or number is left; nothing changed */
    MTR_FAILED = 8  /* a write or a sync failed before; nothing changed */
};

/* The kind of a fault: why recovery makes no store (docs/RULES.md has the exact rules). */
enum mtr_fault_kind {
    MTR_NO_LOGS = 1,     /* there are no logs */
    MTR_HEADER = 2,      /* a log has no whole header */
    MTR_RECORD = 3,      /* a record of a log is not lawful */
    MTR_LOG_DEVICE = 4,  /* a log could not be read */
    MTR_PART_DEVICE = 5, /* a part could not be read */
    MTR_GAP = 6,         /* something before a log is missing */
    MTR_DOUBLED = 9,     /* a log is the same segment as an earlier log */
    MTR_TORN = 10        /* a log is cut off, although a later segment of its worker is there */
};

/* What is wrong with a record (docs/FORMATS.md has the exact rules). */
enum mtr_fault_what {
    MTR_LENGTH = 1,  /* the format does not allow its length */
    MTR_TRAILER = 2, /* the number after its body is not its length */
    MTR_KIND = 3,    /* the format has no kind of this byte */
    MTR_FRAME = 4,   /* its fields do not end with its body */
    MTR_VERSION = 5, /* its version is 0 */
    MTR_KEY = 6,     /* its key is longer than the format allows */
    MTR_COLUMNS = 7, /* it has no columns or too many, or the number of a column is too great or does not rise */
    MTR_CLOCK = 8,   /* its timestamp is below the timestamp of the record before it */
    MTR_CHECKSUM = 9 /* its block is damaged */
};

/* A place holds one value of the library: for example a feed, the inputs, a job, a store or a keeper. {0} is an empty place.
 * The caller owns the place, the library owns the value in it, and mtr_free frees the value. */
typedef struct mtr_place {
    void *at;
    bool full;
} mtr_place;

/* The fault why there is no store. Logs and parts are counted from 0, each in the order in which mtr_add added them. */
typedef struct mtr_fault {
    uint32_t kind;   /* the kind of the fault, an mtr_fault_kind */
    uint32_t what;   /* if the kind is MTR_RECORD, what is wrong with the record, an mtr_fault_what; otherwise 0 */
    uint64_t index;  /* the number of the log or part, or 0 */
    uint64_t record; /* if the kind is MTR_RECORD, how many complete records precede the record in its log; otherwise 0 */
} mtr_fault;

/* A feed takes the bytes of one log or one part. mtr_feed_log puts a feed for a log into the empty place `feed`, and
 * mtr_feed_part puts a feed for a part there. The new feed has no bytes. WRONG: the place is not empty. */
uint32_t mtr_feed_log(mtr_place *feed);
uint32_t mtr_feed_part(mtr_place *feed);

/* Feeds the next chunk of the file: the `length` bytes at `chunk`. A chunk may have any size. The caller may reuse its buffer
 * after the call.
 * - DONE: the bytes so far show no fault.
 * - FAULT: the bytes so far are no log, or no part, and more bytes cannot change that. Feed no more, but do add the feed to
 *   the inputs, because recovery takes its fault into account.
 * - MEMORY: the feed has lost bytes, and recovery from it would return MEMORY. Free it.
 * - WRONG: the place holds no log or part that is being fed. */
uint32_t mtr_feed(mtr_place *feed, const uint8_t *chunk, size_t length);

/* Notes in the feed that its log or part could not be read, because the device failed, and frees the bytes of the feed. Add
 * the feed to the inputs all the same, so that recovery knows of it. WRONG: the place holds no log or part that is being fed.
 * Never MEMORY. */
uint32_t mtr_feed_failed(mtr_place *feed);

/* Appends the log or part in the place `feed` to the logs and parts in the place `inputs`, and empties `feed`. For the first
 * log or part, `inputs` is an empty place. Logs are numbered from 0 in the order in which they are added. Parts are numbered
 * in the same way, apart from the logs. If the call does not return DONE, both places are as before. WRONG: `inputs` holds
 * something other than logs and parts, or `feed` holds no log or part. */
uint32_t mtr_add(mtr_place *inputs, mtr_place *feed);

/* Recovers the store from the logs and parts in the place `inputs`, on the thread of the caller. An empty place stands for no
 * logs and no parts.
 * - DONE: the place now holds the store that the rules (docs/RULES.md) define for exactly these bytes, and its report.
 * - FAULT: *fault is the one fault that the rules define for these bytes. The place is empty.
 * - MEMORY: the place is empty.
 * - WRONG: the place holds something other than logs and parts, for example a store. It is as before. */
uint32_t mtr_recover(mtr_place *inputs, mtr_fault *fault);

/* The next six functions recover on threads of the server, since no call of the library starts a thread. Recovery is then a
 * job of two steps, and each step hands out tasks:
 *
 * - mtr_prepare makes the job. The tasks of its first step divide the updates.
 * - mtr_hire hands out a task, any thread does the task by mtr_work, and mtr_join gives it back to its job.
 * - After all tasks of the first step are back, mtr_replay begins the second step. Its tasks replay the updates. They are
 *   handed out, done and given back in the same way.
 * - After all tasks of the second step are back, mtr_assemble makes the store.
 *
 * Neither the number of the tasks nor their order changes the store.
 *
 * mtr_prepare begins recovery from the logs and parts in the place `inputs`. `threads` is the number of threads that are to
 * do tasks, from 1 to 64. Each step has about as many tasks, or fewer.
 * - DONE: the place now holds the job.
 * - FAULT: *fault is the one fault that the rules define, as for mtr_recover. The place is empty.
 * - MEMORY: the place is empty.
 * - WRONG: the place holds something other than logs and parts, for example a store, or the number of threads is not from 1
 *   to 64. The place is as before. */
uint32_t mtr_prepare(mtr_place *inputs, uint32_t threads, mtr_fault *fault);

/* Hands out the next task of the job in the place `job`, into the empty place `worker`. If the call does not return DONE,
 * both places are as before. ABSENT: all tasks of this step are handed out. WRONG: `job` holds no job, or `worker` is not
 * empty. */
uint32_t mtr_hire(mtr_place *job, mtr_place *worker);

/* Does the task in the place `worker`, unless the task is done already. MEMORY: the task is lost, and the place is empty.
 * Then the job cannot go on: free its place too. WRONG: the place holds no task. */
uint32_t mtr_work(mtr_place *worker);

/* Gives a task that is done back to its job, and empties the place `worker`. Tasks may come back in any order. A task must go
 * back to the job that handed it out. This is a duty of the caller, because the call does not always notice a task of another
 * job. If the call does not return DONE, both places are as before. WRONG: `job` holds no job that waits for a task of this
 * number, or `worker` holds no task that is done. Never MEMORY. */
uint32_t mtr_join(mtr_place *job, mtr_place *worker);

/* Begins the second step of the job, after all tasks of the first step are back. Then hire, do and join the tasks of the
 * second step. MEMORY: the place is empty. WRONG: the place holds no job whose first step is complete. */
uint32_t mtr_replay(mtr_place *job);

/* Replaces the job in the place by the store with its report, after all tasks of the second step are back. The store and the
 * report are those that mtr_recover would make from the same logs and parts. MEMORY: the place is empty. WRONG: the place
 * holds no job whose second step is complete. */
uint32_t mtr_assemble(mtr_place *job);

/* The report of a recovery. A number above 2^64 - 1 is given as 2^64 - 1. */
typedef struct mtr_report {
    uint64_t cutoff;     /* updates survive only if their timestamps are below this; new updates get this timestamp or later */
    uint64_t last;       /* the greatest timestamp in the logs: of their headers and their complete records */
    uint64_t version;    /* the greatest version of their complete records and of the checkpoint's entries, or 0 */
    uint64_t checkpoint; /* the number of the checkpoint that recovery chose, or 2^64 - 1 if it chose none */
    uint64_t begin;      /* the timestamp from which updates survive: where the chosen checkpoint begins, or 0 */
    uint64_t entries;    /* how many entries the chosen checkpoint has */
    uint64_t logs;       /* how many log files there are */
    uint64_t writers;    /* how many logs there are if all segments of a worker are counted as one log */
    uint64_t records;    /* how many complete records the logs have, marks included */
    uint64_t marks;      /* how many of these records are marks */
    uint64_t torn;       /* how many log files end in a torn tail: in bytes that are no whole record, as a crash leaves them */
    uint64_t holes;      /* before how many log files updates may be missing */
    uint64_t skipped;    /* how many checkpoints are invalid */
    uint64_t nameless;   /* how many parts have no header, so that they belong to no checkpoint */
    uint64_t early;      /* how many updates are below `begin` */
    uint64_t late;       /* how many updates are at or after the cutoff */
    uint64_t survivors;  /* how many updates and entries survive */
    uint64_t keys;       /* how many keys the store has */
    uint64_t layers;     /* how many layers the tree of the store has */
} mtr_report;

/* Writes the report of the store to *report. If the call does not return DONE, *report is as before. WRONG: the place holds
 * no store. Never MEMORY. */
uint32_t mtr_get_report(mtr_place *store, mtr_report *report);

/* Finds out where the complete records of a log end. `log` is the number of the log. *end is the number of bytes of its
 * header and its complete records, or 2^64 - 1 if that number is greater. For a log of format 4, the bytes of the log of
 * format 3 that stands in its blocks are counted. If the call does not return DONE, *end is as before. ABSENT: there is no
 * log of this number. WRONG: the place holds no store. Never MEMORY. */
uint32_t mtr_report_end(mtr_place *store, size_t log, uint64_t *end);

/* These two functions read lists of the report, whose items are counted from 0. mtr_report_skipped writes item i of the
 * numbers of invalid checkpoints to *number. mtr_report_nameless writes item i of the parts without a header to *part: the
 * number that the part has among all parts. The items of both lists rise. If the call does not return DONE, *number or *part
 * is as before. ABSENT: the list has no item i. WRONG: the place holds no store. Never MEMORY. */
uint32_t mtr_report_skipped(mtr_place *store, size_t i, uint64_t *number);
uint32_t mtr_report_nameless(mtr_place *store, size_t i, uint64_t *part);

/* What happens to a log when a server resumes, that is, goes on after a crash. The cutoff is the cutoff of the report. */
typedef struct mtr_resumed {
    uint64_t dropped;    /* how many updates at or past the cutoff are dropped */
    uint64_t late_marks; /* how many marks at or past the cutoff are dropped, apart from one at 2^64 - 1; a crash leaves few */
    uint32_t format;     /* the format of the log, 1 to 4, in which its further records are written */
    bool changed;        /* whether the new bytes differ from the bytes of the log; always true for format 4 */
    bool ended;          /* whether a mark at 2^64 - 1 ends the new bytes; then write further records to another log */
} mtr_resumed;

/* Writes the bytes that must replace a log before a server goes on after a recovery. Otherwise a later recovery could bring
 * back updates that this recovery drops. The `length` bytes at `log` are the log, and `cutoff` is the cutoff of the report.
 * The new bytes have, in this order: the header of the log, with a `from` of at most the cutoff; the records of the log below
 * the cutoff; a mark at the cutoff; and, if the log was ended, the mark at 2^64 - 1 that ends it.
 *
 * A log of format 4 is replaced by a file of format 4 with the salt `salt`, a random number that must be new for each file
 * (see the comment on formats, before mtr_log_header_4). Each block of this file has whole records: at most 32,768 bytes of
 * records, or one longer record. Its header says `workers`, the number of writers of the report. So later starts miss each
 * worker whose logs are all lost, but not a worker without which the server went on already. A server that deletes all files
 * of a worker once its log has ended gives a lower number, such as 0.
 *
 * Room for length + length / 1024 + 33 bytes is always enough: a mark has 17 bytes, a block has 16 bytes more than its
 * records, and two neighbouring blocks together have more than 32,768 bytes of records. If the server needs a new log as
 * well, that log begins with a header whose `from` is 0, and with mtr_mark(cutoff, ..).
 *
 * If the call returns DONE or SHORT, *resumed says what happens to the log. Otherwise *resumed is as before. FAULT: the bytes
 * are no log. Never WRONG. */
uint32_t mtr_resume_log(const uint8_t *log, size_t length, uint64_t cutoff, uint64_t salt, uint32_t workers,
                        mtr_resumed *resumed, uint8_t *out, size_t room, size_t *count);

/* Where a log ends. A server compares these facts of all its logs to find out whether more was lost than a crash loses. */
typedef struct mtr_log_ending {
    uint64_t from; /* the timestamp in the header of the log; updates below it may be missing from the log */
    uint64_t last; /* the greatest timestamp of the header and of the complete records */
    bool torn;     /* whether a torn tail follows the complete records */
    bool goes_on;  /* whether more records follow the torn tail; no crash leaves such records; never true for format 4 */
} mtr_log_ending;

/* Finds out where the log in the `length` bytes at `log` ends, and writes that to *ending. If the call does not return DONE,
 * *ending is as before. FAULT: the bytes are no log. Never WRONG. */
uint32_t mtr_read_log_ending(const uint8_t *log, size_t length, mtr_log_ending *ending);

/* Answers whether the store has this key. DONE: it has the key. ABSENT: it does not have the key. WRONG: the place holds no
 * store. Never MEMORY. */
uint32_t mtr_exists(mtr_place *store, const uint8_t *key, size_t key_length);

/* Writes the value of one column of a key. `column` is the number of the column. ABSENT: the store does not have the key, or
 * the key does not have this column. WRONG: the place holds no store. Never MEMORY. */
uint32_t mtr_get(mtr_place *store, const uint8_t *key, size_t key_length, uint8_t column, uint8_t *out, size_t room,
                 size_t *count);

/* Copies a range of pairs into the empty place `hits`. A pair is a key with its columns. The range has the first n pairs of
 * the store whose keys are at or after `start`, in the order of keys. It has fewer if the store has fewer. All the copies are
 * in memory at once, so ask for a limited number of pairs at a time.
 *
 * Keys are compared byte by byte. A `start` of no bytes is therefore at or before all keys. To go on after a key, let `start`
 * be this key with one byte 0 appended.
 *
 * If the call does not return DONE, `hits` is as before. WRONG: `store` holds no store, or `hits` is not empty. */
uint32_t mtr_range(mtr_place *store, const uint8_t *start, size_t start_length, size_t n, mtr_place *hits);

/* Writes the key of the pair at position i of the hits, and writes the number of its columns to *columns. Positions are
 * counted from 0. Each pair has at least one column. If the call returns DONE or SHORT, *columns is written. Otherwise
 * *columns is as before. ABSENT: there are no more than i hits. WRONG: the place holds no hits. Never MEMORY. */
uint32_t mtr_hit(mtr_place *hits, size_t i, size_t *columns, uint8_t *out, size_t room, size_t *count);

/* Writes the value of one column of the pair at position i of the hits, and writes the number of the column to *number. `nth`
 * is the position of the column in its pair, counted from 0. The numbers of the columns rise with their positions. If the
 * call returns DONE or SHORT, *number is written. Otherwise *number is as before. ABSENT: there are no more than i hits, or
 * the pair has no more than `nth` columns. WRONG: the place holds no hits. Never MEMORY. */
uint32_t mtr_hit_column(mtr_place *hits, size_t i, size_t nth, uint8_t *number, uint8_t *out, size_t room,
                        size_t *count);

/* Writes the pair of this key in its flat form. The flat form of a pair is the entry that it would have in a part, with
 * version 0 (docs/FORMATS.md). ABSENT: the store does not have the key. WRONG: the place holds no store. Never MEMORY. */
uint32_t mtr_pair(mtr_place *store, const uint8_t *key, size_t key_length, uint8_t *out, size_t room, size_t *count);

/* Writes the first pairs of the store whose keys are at or after `start`, in the order of keys, each in its flat form, one
 * after the other. It writes as many whole pairs as have room, at least one. *count is the number of bytes. To read the pairs
 * that follow, call it again with a `start` that is the last key that was written with one byte 0 appended.
 * - DONE: *pairs is the number of pairs that were written. Otherwise *pairs is as before.
 * - SHORT: not even the first pair has room.
 * - ABSENT: there is no such pair.
 * - WRONG: the place holds no store.
 *
 * Never MEMORY. */
uint32_t mtr_dump(mtr_place *store, const uint8_t *start, size_t start_length, uint8_t *out, size_t room, size_t *count,
                  size_t *pairs);

/* Does what mtr_dump does, for the pairs whose keys are at or after `start` and below `end`. If `end` has no bytes, the pairs
 * go on to the last one of the store. ABSENT: there is no such pair. */
uint32_t mtr_dump_until(mtr_place *store, const uint8_t *start, size_t start_length, const uint8_t *end,
                        size_t end_length, uint8_t *out, size_t room, size_t *count, size_t *pairs);

/* Cuts the store into n ranges of keys, so that each of n threads can read one range. The call writes the key at which range
 * i begins; ranges are counted from 0. Range i goes on up to the key that the call gives for i + 1, or to the end of the
 * store if the call returns ABSENT for i + 1. So these two keys can be the `start` and the `end` of mtr_dump_until.
 *
 * Range 0 begins at a key of no bytes, and no other range does. The ranges together have all pairs, each pair once. Each
 * range has the same number of pairs, except that the first ones may have one pair more. A key that the call writes need not
 * be in the store, and has at most 4,097 bytes. To find the key, the call walks through the store up to this key.
 *
 * ABSENT: i is n or more. WRONG: the place holds no store. Never MEMORY. */
uint32_t mtr_cut_key(mtr_place *store, size_t i, size_t n, uint8_t *out, size_t room, size_t *count);

/* Puts the same store into the empty place `other`, so that another thread can read the store at the same time. Each thread
 * gives a place of its own to its calls. Nothing is copied. The store is freed with the last of its places. If the call does
 * not return DONE, `other` is as before. WRONG: `store` holds no store, or `other` is not empty. */
uint32_t mtr_share(mtr_place *store, mtr_place *other);

/* Frees the value that the place holds, if it holds one, and leaves the place empty. */
void mtr_free(mtr_place *place);

/* Writes the words for a fault, as the program mtrecover prints them. No zero byte ends the words. WRONG: *fault is no fault
 * that mtr_recover can give. */
uint32_t mtr_fault_text(const mtr_fault *fault, uint8_t *out, size_t room, size_t *count);

/* Writes the words for a status. No zero byte ends the words. WRONG: there is no such status. Never MEMORY. */
uint32_t mtr_status_text(uint32_t status, uint8_t *out, size_t room, size_t *count);

/* The version of a library, and the formats that it knows. */
typedef struct mtr_versions {
    uint32_t library;     /* the MTR_VERSION_MAJOR of the library: 3 */
    uint32_t log_format;  /* the greatest format of logs that the library knows: 4 */
    uint32_t part_format; /* the greatest format of parts that the library knows: 4 */
} mtr_versions;

/* Writes the versions of the library that the program is linked with to *versions. */
void mtr_version(mtr_versions *versions);

/* A column: its number and its value. The bytes of the value belong to the caller, and must stay until the call returns. */
typedef struct mtr_column {
    uint8_t number;
    struct {
        const uint8_t *at;
        size_t length;
    } value;
} mtr_column;

/* A keeper keeps the logs of a running server, so that a crash loses nothing that the server acknowledged
 * (docs/DURABILITY.md). A keeper owns no file. It gives the server bytes, and the server tells the keeper what became of
 * them. A host does this file work: hosts/host.c is one, and mtrecover_host.h declares its functions. If several threads of
 * a server call one keeper, they must hold a lock for each call.
 *
 * - A number names a log in these calls, and never changes. The log of one worker is a row of files, which are called
 *   segments. Each segment is a log of its own here, with a number of its own.
 * - A stamp is the number that the keeper gives to an update. It is both the timestamp and the version of the update.
 * - A take is a call of mtr_log_take, which gives the next bytes for the file of a log.
 *
 * Each call that gets a keeper returns WRONG if the place holds no keeper, or if no log has this number and is in the state
 * that the call needs. After the first mtr_keeper_failed, each call that would change the keeper returns FAILED, or ABSENT.
 * If a keeper call returns neither DONE nor SHORT, nothing changed.
 *
 * mtr_keeper_begin puts the keeper of an empty folder into the empty place `keeper`. This keeper has one log, whose number is
 * 0 and whose file must be created first. Until mtr_log_created notes that, all calls except mtr_log_segment, mtr_log_bytes
 * and mtr_log_created return WRONG. The logs are of format 4.
 *
 * `salt` is a random number. The first file has this salt, and each further file has the next number. The salt is needed
 * because a crash may leave bytes of another file in a file: by the salt, recovery knows that they belong to another file.
 * WRONG: the place is not empty. */
uint32_t mtr_keeper_begin(mtr_place *keeper, uint64_t salt);

/* Begins the log of a new worker, and writes the number of this log to *log. Its file must then be created (mtr_log_bytes).
 * From now on, acknowledgements wait for this log too. FULL: no stamp is left, or no number for a worker. */
uint32_t mtr_log_begin(mtr_place *keeper, size_t *log);

/* Seals the log `log`, so that it takes no more records, and begins the next segment of its worker. *next is the number of
 * that segment, whose file must then be created (mtr_log_bytes). EARLY: not all records of the log are synced. FULL: no
 * number is left for a segment. */
uint32_t mtr_log_rotate(mtr_place *keeper, size_t log, size_t *next);

/* Writes the number of the worker of a log to *worker, and the number of the segment to *segment. The server makes the name
 * of the log's file of these two numbers. */
uint32_t mtr_log_segment(mtr_place *keeper, size_t log, uint32_t *worker, uint32_t *segment);

/* The server creates the file of a log by these two calls. mtr_log_bytes writes the first 77 bytes of the file: a header, and
 * a block with a mark. Write these bytes to a file with another name, sync the file, rename it to its own name, and sync the
 * folder. Then call mtr_log_created. Before that the log takes no record. */
uint32_t mtr_log_bytes(mtr_place *keeper, size_t log, uint8_t *out, size_t room, size_t *count);
uint32_t mtr_log_created(mtr_place *keeper, size_t log);

/* These three calls append an update to a log: mtr_log_put a put of these columns of the key, mtr_log_remove a remove of the
 * key, and mtr_log_erase an erase of the columns that have these numbers. The numbers of columns must rise. *stamp is the
 * stamp of the update, which is above all stamps before. The updates of a key must take effect in the order of their stamps.
 * So make no other update of the same key at the same time: hold one lock while you make the call and change the key in the
 * server's own table.
 * - WRONG: the reasons of all keeper calls; or a log of format 2 may not have this record (see the table of formats below).
 * - FULL: the log has no room for the record, or no stamp is left. If the log has no room, rotate it.
 * - EARLY: the log holds records that were not taken, and together with this one they would have more than 32,768 bytes. Take
 *   them, write them and sync them first. */
uint32_t mtr_log_put(mtr_place *keeper, size_t log, const uint8_t *key, size_t key_length, const mtr_column *columns,
                     size_t column_count, uint64_t *stamp);
uint32_t mtr_log_remove(mtr_place *keeper, size_t log, const uint8_t *key, size_t key_length, uint64_t *stamp);
uint32_t mtr_log_erase(mtr_place *keeper, size_t log, const uint8_t *key, size_t key_length, const uint8_t *numbers,
                       size_t number_count, uint64_t *stamp);

/* Appends a mark to a log. The mark is above all stamps so far. After each log has synced a mark of this call, all updates
 * from before these marks may be acknowledged. FULL and EARLY: as for mtr_log_put. */
uint32_t mtr_log_mark(mtr_place *keeper, size_t log);

/* Bytes that a place owns and lends to the caller. They stay until the next call that gets this place. */
typedef struct mtr_lent {
    const uint8_t *at;
    size_t length;
} mtr_lent;

/* Takes all that was appended to the log since its last take. Append these bytes to the file of the log by one write, and
 * sync the file. Then call mtr_log_synced. In a file of format 4 the bytes are one block, which has at most 32,768 bytes of
 * records, or one longer record. From now on the place `buffer` holds the bytes, and *lent says where they are. `buffer` is
 * an empty place, or a place that holds the bytes of an earlier take.
 *
 * No log may run more than 16 takes ahead of what is acknowledged, because a start refuses a log that has more than 16 marks
 * at or past the cutoff. So wait before a take, as long as the mark of the take 16 takes ago is not below the number that
 * mtr_keeper_acknowledged gives.
 * - EARLY: the bytes of the last take are not synced.
 * - WRONG: the reasons of all keeper calls; or `buffer` is not empty and holds something other than bytes.
 * - MEMORY: out of memory. If `buffer` is empty, the call may return MEMORY although WRONG would be right for the log. */
uint32_t mtr_log_take(mtr_place *keeper, size_t log, mtr_place *buffer, mtr_lent *lent);

/* Notes that the file of the log has all bytes that were taken, and that it was synced after they were written. */
uint32_t mtr_log_synced(mtr_place *keeper, size_t log);

/* Notes that a write or a sync failed. Then restart the machine, and recover from what is on its disk, because a later sync
 * may succeed although bytes are lost. */
uint32_t mtr_keeper_failed(mtr_place *keeper);

/* Finds out what may be acknowledged: all updates whose stamps are below *below may be acknowledged, or shown to clients. */
uint32_t mtr_keeper_acknowledged(mtr_place *keeper, uint64_t *below);

/* Begins a checkpoint. *number is the number of the checkpoint, and *begin is its begin. Both stand in the headers of its
 * parts. Then read each key that has columns, and write its entry to a part:
 *
 * - Read the columns and the version of a key in one step, between two of its updates.
 * - The version of the entry is the stamp of the last update of the key. If the key was not updated since mtr_keeper_resume,
 *   the version is instead the cutoff of the report minus 1.
 * - The keys must strictly rise, compared byte by byte, within each part and from each part to the next. Otherwise the
 *   checkpoint is not valid.
 *
 * EARLY: another checkpoint is being made. FULL: no stamp is left, or no number for a checkpoint. */
uint32_t mtr_checkpoint_begin(mtr_place *keeper, uint32_t *number, uint64_t *begin);

/* Notes that all keys of the checkpoint are read. *end is its end, which stands in the footers of its parts. Then write the
 * footers, sync the parts, rename them, and sync the folder. EARLY: no checkpoint is being read. */
uint32_t mtr_checkpoint_end(mtr_place *keeper, uint64_t *end);

/* Notes that the parts of the checkpoint have their names, and that the parts and the folder are synced. From now on the
 * server stands on this checkpoint, that is, relies on it. The parts of earlier checkpoints may then be deleted. EARLY: no
 * checkpoint was read, or some log is not synced past the end of the checkpoint. */
uint32_t mtr_checkpoint_stand(mtr_place *keeper);

/* Gives up the checkpoint that is being made. If no checkpoint is being made, the call does nothing. */
uint32_t mtr_checkpoint_abandon(mtr_place *keeper);

/* The next five functions write one part of a checkpoint, in format 4. The place `writer` holds a writer, which ensures the
 * rules of a part: the keys rise, the entries are lawful, and the footer has the number of the entries. Therefore recovery
 * can read the part if its file has all bytes that were taken. A call that does not return DONE changes nothing. Then give
 * the checkpoint up (mtr_checkpoint_abandon), and delete nothing for it.
 *
 * mtr_part_begin begins a part in the empty place `writer`. `number` and `begin` are the numbers that mtr_checkpoint_begin
 * gave. The checkpoint has `parts` parts, and this is part `part` of them, counted from 0. `salt` is a random number that is
 * new for each file. mtr_part_begin_above does the same, and demands in addition that all keys of the part are above the key
 * `above`. Give it the last key of the part before. WRONG: the place is not empty. */
uint32_t mtr_part_begin(mtr_place *writer, uint64_t salt, uint32_t number, uint64_t begin, uint16_t part, uint16_t parts);
uint32_t mtr_part_begin_above(mtr_place *writer, uint64_t salt, uint32_t number, uint64_t begin, uint16_t part,
                              uint16_t parts, const uint8_t *above, size_t above_length);

/* Appends the entry of a key with these columns to the part. The keys must rise, compared byte by byte as unsigned numbers. A
 * key that is the beginning of another key comes before that key.
 * - WRONG: the key is not above the last one; or a part of format 4 may not have the entry (see the table of formats below);
 *   or the part has ended; or the place holds no writer of a part.
 * - FULL: the part has 2^32 - 1 entries already. */
uint32_t mtr_part_entry(mtr_place *writer, uint64_t version, const uint8_t *key, size_t key_length,
                        const mtr_column *columns, size_t column_count);

/* Ends the part, after its last entry. `end` is the number that mtr_checkpoint_end gave. WRONG: `end` is below the begin of
 * the checkpoint, or the part has ended already, or the place holds no writer of a part. */
uint32_t mtr_part_end(mtr_place *writer, uint64_t end);

/* Takes the bytes that are ready to be appended to the file of the part: first the header, then whole blocks. Each block has
 * at most 4,096 bytes of entries, or one longer entry. There may be no bytes. After mtr_part_end, the call gives all bytes
 * that are left. From now on the place `buffer` holds the bytes, and *lent says where they are, as for mtr_log_take. WRONG:
 * the place `writer` holds no writer of a part, or `buffer` is not empty and holds something other than bytes. */
uint32_t mtr_part_take(mtr_place *writer, mtr_place *buffer, mtr_lent *lent);

/* The server deletes old logs by these two calls. mtr_log_delete finds the next file that must be deleted, and writes the
 * number of its log to *log. The file is the lowest segment of a worker, and it has no updates at or after the begin of the
 * checkpoint on which the server stands. Delete the file, sync the folder, and then call mtr_log_deleted. ABSENT: there is no
 * file to delete. */
uint32_t mtr_log_delete(mtr_place *keeper, size_t *log);
uint32_t mtr_log_deleted(mtr_place *keeper, size_t log);

/* The next three calls begin a keeper after a crash. All files of the folder must be files that a keeper made. First sync
 * these files and the folder. Then delete the parts of all checkpoints except the one that the report names, because a later
 * recovery could choose another checkpoint.
 *
 * mtr_keeper_resume puts a keeper that goes on from the store in the place `store` into the empty place `keeper`. Until
 * mtr_keeper_resumed, this keeper only takes the logs that the last server left (mtr_keeper_add), and other keeper calls
 * return WRONG. `number` is the greatest checkpoint number of all parts that the folder had before the deletion, or 0 if it
 * had none. `salt` is a random number as for mtr_keeper_begin, and no file that mtr_resume_log made may have this salt. The
 * stamps go on from the cutoff of the report, and are above the version of the report. WRONG: `keeper` is not empty; or
 * `store` holds no store; or the number of the checkpoint that recovery chose, or of one that it skipped, is greater than
 * `number`. */
uint32_t mtr_keeper_resume(mtr_place *keeper, mtr_place *store, uint32_t number, uint64_t salt);

/* Adds one log that the last server left. The `length` bytes at `log` are the bytes that mtr_resume_log wrote. Make this call
 * only after the file of the log has these bytes. *number is the number of the log. WRONG: the reasons of all keeper calls;
 * or the log is ended; or it is a segment that was added already; or the bytes are no log of formats 2 to 4 that was resumed
 * with the cutoff of the store. FULL: no number is left for another worker. */
uint32_t mtr_keeper_add(mtr_place *keeper, const uint8_t *log, size_t length, size_t *number);

/* Notes that all logs are added, and that all files and the folder are synced. From now on the place holds a keeper that
 * takes all calls. The newest segment of each worker takes records. EARLY: the number of logs that were added is not the
 * number of logs that recovery had. Then the place is as before. */
uint32_t mtr_keeper_resumed(mtr_place *keeper);

/* The next functions let threads append to their logs at the same time, without a lock. A keeper lends its logs to a crew.
 * The crew hands out each log to one thread, as a worker: a place that one thread at a time uses. As long as the logs are
 * lent, the place `keeper` holds the crew and no keeper, so keeper calls with it return WRONG. To create, rotate or delete
 * logs, or to make a checkpoint, join all workers and close the crew. A write that is under way need not end before that.
 * Then lend the logs again.
 *
 * mtr_keeper_lend lends all logs that take records. DONE: the place now holds the crew. FULL: there are more than 65,536
 * logs, or the last stamp is 2^63 or above. If the call does not return DONE, the place is as before. */
uint32_t mtr_keeper_lend(mtr_place *keeper);

/* Hands out the next log of the crew, into the empty place `worker`. If the call does not return DONE, both places are as
 * before. ABSENT: all logs are handed out. WRONG: `crew` holds no crew, or `worker` is not empty. */
uint32_t mtr_crew_hire(mtr_place *crew, mtr_place *worker);

/* The calls that a thread makes for the log of its worker. mtr_worker_log writes the number of that log to *log. The other
 * calls do what the calls of a keeper do: mtr_worker_put is like mtr_log_put, and so on. The stamps of all threads rise in
 * one order. After mtr_worker_failed the worker takes nothing more, and the keeper fails as soon as the log is back.
 * - WRONG: as for the call of the keeper, or the place holds no worker.
 * - FULL: as for the call of the keeper, or the worker has drawn 2^44 stamps.
 *
 * If a put, a remove or an erase does not return DONE, a stamp may be lost: no update gets it. */
uint32_t mtr_worker_log(mtr_place *worker, size_t *log);
uint32_t mtr_worker_put(mtr_place *worker, const uint8_t *key, size_t key_length, const mtr_column *columns,
                        size_t column_count, uint64_t *stamp);
uint32_t mtr_worker_remove(mtr_place *worker, const uint8_t *key, size_t key_length, uint64_t *stamp);
uint32_t mtr_worker_erase(mtr_place *worker, const uint8_t *key, size_t key_length, const uint8_t *numbers,
                          size_t number_count, uint64_t *stamp);
uint32_t mtr_worker_mark(mtr_place *worker);
uint32_t mtr_worker_take(mtr_place *worker, mtr_place *buffer, mtr_lent *lent);
uint32_t mtr_worker_synced(mtr_place *worker);
uint32_t mtr_worker_failed(mtr_place *worker);
uint32_t mtr_worker_acknowledged(mtr_place *worker, uint64_t *below);

/* Takes a log back into its crew, and empties the place `worker`. The log that was handed out last must come back first. A
 * worker must go back to its own crew. This is a duty of the caller, because the call does not always notice a worker of
 * another crew. If the call does not return DONE, both places are as before. WRONG: `crew` holds no crew, or `worker` does
 * not hold the log that must come back next. Never MEMORY. */
uint32_t mtr_crew_join(mtr_place *crew, mtr_place *worker);

/* Replaces the crew in the place by its keeper. If the call does not return DONE, the place is as before. EARLY: a log is
 * still handed out. WRONG: the place holds no crew. */
uint32_t mtr_crew_close(mtr_place *crew);

/* Each of the following functions writes one encoding into a buffer of the caller. The parameter `format` is the format of
 * the file for which the bytes are. The header of the file says this format. The formats differ as follows:
 *
 *   format | of                     | keys, up to | columns | values, up to | erases
 *        1 | logs, parts            | 1,024 bytes | 0 to 15 | 65,535 bytes  | no
 *        2 | logs, parts            | 4,096 bytes | 0 to 63 | 65,535 bytes  | yes
 *        3 | logs (segments)        | as 2
 *        4 | logs (segments), parts | as 2
 *
 * A file of format 4 is a header followed by blocks, which have checksums. The blocks of a log have its records, encoded as
 * they are after the header of a log of format 3. The blocks of a part have its entries and its footer, encoded as they are
 * after the header of a part of format 2. These bytes may be cut into blocks anywhere (mtr_seal). After the last block of a
 * part, its file ends.
 *
 * The salt in the header is a random number, which must be new for each file that is written. The functions that write a
 * header of format 4 also give the mark of the file's blocks, a number with which each block of this file begins. If they
 * return DONE or SHORT, *mark is this number. It has nothing to do with the records that are called marks. */

/* Writes the header of a log of format 4, which has 44 bytes. Such a log is a segment. `worker` is the number of the worker
 * whose log it is, and `segment` is the number of the segment among the segments of this worker. `workers` is the number of
 * workers that have a file in the folder, this worker included: if a later start finds files of fewer workers, all files of
 * a worker are lost. Updates below the timestamp `from` may be missing from the log. Never WRONG. */
uint32_t mtr_log_header_4(uint64_t salt, uint32_t worker, uint32_t segment, uint32_t workers, uint64_t from, uint8_t *out,
                          size_t room, size_t *count, uint32_t *mark);

/* Writes the header of a part of format 4, which has 36 bytes. The other parameters are those of mtr_part_header. Never
 * WRONG. */
uint32_t mtr_part_header_4(uint64_t salt, uint32_t number, uint64_t begin, uint16_t part, uint16_t parts, uint8_t *out,
                           size_t room, size_t *count, uint32_t *mark);

/* Writes one block for the file whose blocks have the mark `mark`. The `length` bytes at `body` are the body of the block.
 * The block has 16 bytes more than its body. WRONG: the body has more than 2^23 bytes. Never MEMORY. */
uint32_t mtr_seal(uint32_t mark, const uint8_t *body, size_t length, uint8_t *out, size_t room, size_t *count);

/* The header of a log, of any format. */
typedef struct mtr_log_front {
    uint32_t format;
    uint32_t worker;  /* in formats 3 and 4, the number of the worker; otherwise 0 */
    uint32_t segment; /* in formats 3 and 4, the number of the segment; otherwise 0 */
    uint32_t workers; /* in format 4, how many workers had a file when the log began, its own included; otherwise 0 */
    uint64_t from;    /* updates below this timestamp may be missing from the log */
    uint64_t salt;    /* in format 4, the salt; otherwise 0 */
    size_t length;    /* how many bytes the header has */
} mtr_log_front;

/* The header of a part, of any format. */
typedef struct mtr_part_front {
    uint32_t format;
    uint32_t number; /* the number of the checkpoint */
    uint32_t part;   /* the number of this part in its checkpoint, counted from 0 */
    uint32_t parts;  /* how many parts the checkpoint has */
    uint64_t begin;  /* the timestamp at which the checkpoint begins */
    uint64_t salt;   /* in format 4, the salt; otherwise 0 */
    size_t length;   /* how many bytes the header has */
} mtr_part_front;

/* These two calls read the header with which the `length` bytes at `bytes` begin, and write the fields of the header to
 * *front. FAULT: the bytes do not begin with a header of a log, or of a part. Then *front is as before. Never MEMORY or
 * WRONG. */
uint32_t mtr_read_log_header(const uint8_t *bytes, size_t length, mtr_log_front *front);
uint32_t mtr_read_part_header(const uint8_t *bytes, size_t length, mtr_part_front *front);

/* Writes the header of a log of format 1 or 2. Updates below the timestamp `from` may be missing from the log. WRONG:
 * `format` is neither 1 nor 2. */
uint32_t mtr_log_header(uint32_t format, uint64_t from, uint8_t *out, size_t room, size_t *count);

/* Writes the header of a segment of format 3. `worker` is the number of the worker whose log it is, and `segment` is the
 * number of the segment. Updates below the timestamp `from` may be missing from the segment. Never WRONG. */
uint32_t mtr_segment_header(uint64_t from, uint32_t worker, uint32_t segment, uint8_t *out, size_t room, size_t *count);

/* Writes a mark: a record that has only the timestamp `time`, and says that its log reaches up to there. Never WRONG or
 * MEMORY. */
uint32_t mtr_mark(uint64_t time, uint8_t *out, size_t room, size_t *count);

/* Writes a put of these columns of the key. `time` is the timestamp of the update, and `version` is its version. WRONG: no
 * log has the format `format`; or the version is 0; or there is no column; or the numbers of the columns do not rise; or the
 * format does not allow the key or a column. Never MEMORY. */
uint32_t mtr_put(uint32_t format, uint64_t time, uint64_t version, const uint8_t *key, size_t key_length,
                 const mtr_column *columns, size_t column_count, uint8_t *out, size_t room, size_t *count);

/* Writes a remove of the key: the update that takes all columns from the key. WRONG: the reasons of mtr_put that can hold for
 * a remove. Never MEMORY. */
uint32_t mtr_remove(uint32_t format, uint64_t time, uint64_t version, const uint8_t *key, size_t key_length,
                    uint8_t *out, size_t room, size_t *count);

/* Writes an erase: the update that takes the columns with these numbers from the key. WRONG: the reasons of mtr_put, or the
 * format has no erases. Never MEMORY. */
uint32_t mtr_erase(uint32_t format, uint64_t time, uint64_t version, const uint8_t *key, size_t key_length,
                   const uint8_t *numbers, size_t number_count, uint8_t *out, size_t room, size_t *count);

/* Writes the header of a part of format 1 or 2. The part is part `part`, counted from 0, of the `parts` parts of the
 * checkpoint with the number `number`. This checkpoint begins at the timestamp `begin`. WRONG: `format` is neither 1 nor 2. */
uint32_t mtr_part_header(uint32_t format, uint32_t number, uint64_t begin, uint16_t part, uint16_t parts, uint8_t *out,
                         size_t room, size_t *count);

/* Writes the entry of a key with these columns. The keys of a part must rise, compared byte by byte. Ensure this yourself,
 * because this call does not know the key before (mtr_part_entry does). WRONG: the reasons of mtr_put, with the formats of
 * parts in place of the formats of logs. Never MEMORY. */
uint32_t mtr_entry(uint32_t format, uint64_t version, const uint8_t *key, size_t key_length, const mtr_column *columns,
                   size_t column_count, uint8_t *out, size_t room, size_t *count);

/* Writes the footer of a part. `entries` is the number of entries of the part. `end` is the timestamp at which its checkpoint
 * ends. Never WRONG. */
uint32_t mtr_part_footer(uint64_t end, uint32_t entries, uint8_t *out, size_t room, size_t *count);

#ifdef __cplusplus
}
#endif

#endif
