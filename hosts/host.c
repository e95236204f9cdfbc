/* The host's half over POSIX, by the duties of docs/DURABILITY.md. The folder has the files
 *
 *     WORKER-SEGMENT.mtl   a segment of a worker's log
 *     NUMBER-0.mtc         a checkpoint, which has one part
 *     LOSS                 what was lost in starts that accepted it, a line each
 *     NAME.new             a file that is not whole: it takes its name once it is synced
 *
 * One lock guards the keeper and all that threads share. It is free while a thread writes or syncs. After a failed write or
 * sync nothing is acknowledged any more: only a restart of the machine shows what the disk has. */
#define _GNU_SOURCE
#include "mtrecover_host.h"
#include <dirent.h>
#include <errno.h>
#include <fcntl.h>
#include <inttypes.h>
#include <pthread.h>
#include <semaphore.h>
#include <stdio.h>
#include <stdlib.h>
#include <string.h>
#include <sys/file.h>
#include <sys/random.h>
#include <sys/stat.h>
#include <unistd.h>

/* NEW is room for the bytes of a new log, or for what a resume adds to one, beside a 1,024th of it. */
enum { NAME = 32, NEW = 128 };

/* Entries of a part are written once they have about WRITTEN_AT_ONCE bytes. An entry has ENTRY bytes beside its key and its
 * columns, and a column COLUMN bytes beside its value. */
enum { WRITTEN_AT_ONCE = 1 << 18, ENTRY = 19, COLUMN = 3 };

/* A log runs at most so many takes ahead of what is acknowledged. Each take ends with a mark: so a crash leaves no more marks
 * of a log at or past the cutoff, and a start takes more of them for a loss. */
enum { AHEAD = 16 };

/* The file in which losses are noted. */
static const char NOTES[] = "LOSS";

/* A worker's log: its newest file, and the thread that writes it. */
struct log {
    struct mtr_host *host;
    pthread_t thread;
    bool has_thread;
    size_t number; /* of the file */
    int file;
    uint64_t size;
    bool is_full;     /* it takes no record until the next file follows */
    uint64_t covered; /* the last stamp when the bytes that are synced were taken */
    uint64_t marks[AHEAD]; /* of the last takes, of which the mark that the file begins with is one */
    size_t takes;
    mtr_place buffer;
};

/* A thread that waits until an update is durable, or the host failed. */
struct waiter {
    uint64_t stamp;
    bool is_durable;
    sem_t told;
    struct waiter *next;
};

struct mtr_host {
    mtr_host_settings settings;
    int folder; /* locked while it is open */
    mtr_place keeper;
    pthread_mutex_t lock;
    pthread_cond_t work, done; /* there may be something to write; something was synced, or a log takes records again */
    struct waiter *waiters;
    struct log *logs;
    unsigned count;
    uint64_t last;    /* the last stamp */
    uint64_t below;   /* updates below it may be acknowledged */
    uint64_t written; /* bytes of logs since the last checkpoint began */
    bool has_failed, is_closing;
    pthread_t checkpoints;
    bool has_checkpoints;
    uint64_t standing; /* the number of the checkpoint that it stands on, or 2^64 - 1 */
    uint64_t salt;     /* a random number: no file of another start has it, or one that follows it */
};

struct mtr_host_part {
    int file;
    bool has_failed; /* an entry is not written */
    size_t waiting;  /* about so many bytes of entries are not written yet */
    mtr_place writer, buffer;
};

/* Says what failed. Returns false. */
static bool says(const char *what, const char *why) {
    fprintf(stderr, "host: %s: %s\n", what, why);
    return false;
}

/* Whether it is done. If not, says why: by errno. */
static bool did(bool is_done, const char *what) { return is_done || says(what, strerror(errno)); }

/* Whether a call of the library is done. */
static bool is_done(uint32_t status, const char *what) {
    static const char *const words[] = {"", "no memory", "wrong", "absent", "short", "fault", "early", "full", "failed"};
    return status == MTR_DONE || says(what, words[status]);
}

/* Draws a random number. */
static bool draw(uint64_t *number) { return did(getrandom(number, sizeof *number, 0) == sizeof *number, "a random number"); }

/* ---- Files ---- */

static void name_log(uint32_t worker, uint32_t segment, char *name) {
    snprintf(name, NAME, "%" PRIu32 "-%" PRIu32 ".mtl", worker, segment);
}

static void name_part(uint32_t number, char *name) { snprintf(name, NAME, "%" PRIu32 "-0.mtc", number); }

/* The name of a file that is not whole. */
static void name_new(const char *name, char *new) { snprintf(new, NAME + 8, "%s.new", name); }

static bool write_all(int file, const uint8_t *bytes, size_t length) {
    while (length > 0) {
        ssize_t wrote = write(file, bytes, length);
        if (wrote < 0 && errno != EINTR)
            return false;
        bytes += wrote > 0 ? wrote : 0;
        length -= wrote > 0 ? (size_t)wrote : 0;
    }
    return true;
}

/* Creates the file NAME.new. */
static int create(const mtr_host *host, const char *name) {
    char new[NAME + 8];
    name_new(name, new);
    return openat(host->folder, new, O_WRONLY | O_CREAT | O_TRUNC | O_APPEND | O_CLOEXEC, 0666);
}

/* Gives the file NAME.new, which is whole, its name, which a crash takes back no more. */
static bool place(const mtr_host *host, int file, const char *name) {
    char new[NAME + 8];
    name_new(name, new);
    return did(fsync(file) == 0 && renameat(host->folder, new, host->folder, name) == 0 && fsync(host->folder) == 0, name);
}

/* Deletes the file NAME.new. If that fails, it is in nobody's way. */
static void discard(const mtr_host *host, const char *name) {
    char new[NAME + 8];
    name_new(name, new);
    unlinkat(host->folder, new, 0);
}

/* Writes a file whole. Returns it open, or -1. */
static int write_file(const mtr_host *host, const char *name, const uint8_t *bytes, size_t length) {
    int file = create(host, name);
    if (did(file >= 0 && write_all(file, bytes, length), name) && place(host, file, name))
        return file;
    if (file >= 0)
        close(file);
    return -1;
}

/* Deletes a file, which a crash brings back no more. */
static bool delete_file(const mtr_host *host, const char *name) {
    return did(unlinkat(host->folder, name, 0) == 0 && fsync(host->folder) == 0, name);
}

/* ---- Logs ---- */

/* Tells all threads that wait what is so now. A waiter is gone once it is told. */
static void tell(mtr_host *host) {
    for (struct waiter **link = &host->waiters, *waiter; (waiter = *link) != NULL;) {
        waiter->is_durable = waiter->stamp < host->below;
        if (waiter->is_durable || host->has_failed) {
            *link = waiter->next;
            sem_post(&waiter->told);
        } else {
            link = &waiter->next;
        }
    }
    pthread_cond_broadcast(&host->done);
}

/* The host fails: nothing is acknowledged any more. */
static void fail(mtr_host *host) {
    host->has_failed = true;
    mtr_keeper_failed(&host->keeper);
    pthread_cond_broadcast(&host->work);
    tell(host);
}

/* Creates the file of a log that the keeper has begun, under the lock. Returns it open, or -1. */
static int create_log(mtr_host *host, size_t number) {
    char name[NAME];
    uint8_t bytes[NEW];
    uint32_t worker = 0, segment = 0;
    size_t length = 0;
    if (!is_done(mtr_log_segment(&host->keeper, number, &worker, &segment), "a log") ||
        !is_done(mtr_log_bytes(&host->keeper, number, bytes, sizeof bytes, &length), "a log"))
        return -1;
    name_log(worker, segment, name);
    pthread_mutex_unlock(&host->lock);
    int file = write_file(host, name, bytes, length);
    pthread_mutex_lock(&host->lock);
    if (file >= 0 && !is_done(mtr_log_created(&host->keeper, number), name)) {
        close(file);
        return -1;
    }
    return file;
}

/* Writes and syncs all that was appended to the log, and a mark beyond it, if there is room for one, under the lock. */
static bool commit(struct log *log) {
    mtr_host *host = log->host;
    mtr_lent lent;
    uint64_t last = host->last;
    uint32_t marked = mtr_log_mark(&host->keeper, log->number);
    if ((marked != MTR_EARLY && !is_done(marked, "a mark")) ||
        !is_done(mtr_log_take(&host->keeper, log->number, &log->buffer, &lent), "records"))
        return false;
    for (size_t n = log->takes == 0 ? 2 : 1; n > 0; n--) /* the first mark is not above that of the first take */
        log->marks[log->takes++ % AHEAD] = last + 1;
    pthread_mutex_unlock(&host->lock);
    bool is_synced = did(write_all(log->file, lent.at, lent.length) && fdatasync(log->file) == 0, "a log");
    pthread_mutex_lock(&host->lock);
    if (!is_synced || host->has_failed || !is_done(mtr_log_synced(&host->keeper, log->number), "a sync"))
        return false;
    log->covered = marked == MTR_DONE ? last : log->covered;
    log->size += lent.length;
    host->written += lent.length;
    mtr_keeper_acknowledged(&host->keeper, &host->below);
    tell(host);
    return true;
}

/* Begins the next file of the log, under the lock. */
static bool rotate(struct log *log) {
    size_t next = 0;
    if (!is_done(mtr_log_rotate(&log->host->keeper, log->number, &next), "a segment"))
        return false;
    int file = create_log(log->host, next);
    if (file < 0)
        return false;
    close(log->file);
    log->number = next;
    log->file = file;
    log->size = 0;
    return true;
}

/* Whether the log has to wait for the others: the mark of the take that was AHEAD takes ago is not below what is acknowledged.
 * The log that is behind all others never waits. */
static bool is_ahead(const struct log *log) {
    return log->takes >= AHEAD && log->marks[log->takes % AHEAD] >= log->host->below;
}

/* The thread of a log. Each update waits for all logs, so each log is synced after each. */
static void *write_log(void *given) {
    struct log *log = given;
    mtr_host *host = log->host;
    pthread_mutex_lock(&host->lock);
    while (!host->has_failed) {
        if (log->covered < host->last && is_ahead(log)) {
            pthread_cond_wait(&host->done, &host->lock);
        } else if (log->covered < host->last) {
            log->is_full = log->size >= host->settings.segment;
            if (!commit(log) || (log->is_full && !rotate(log)))
                fail(host);
            if (log->is_full)
                pthread_cond_broadcast(&host->done);
            log->is_full = false;
        } else if (host->is_closing) {
            break;
        } else {
            pthread_cond_wait(&host->work, &host->lock);
        }
    }
    pthread_mutex_unlock(&host->lock);
    return NULL;
}

/* ---- Checkpoints ---- */

/* Writes what the part has ready for its file. */
static bool write_ready(mtr_host_part *part) {
    mtr_lent lent;
    part->waiting = 0;
    return is_done(mtr_part_take(&part->writer, &part->buffer, &lent), "a part") &&
           did(write_all(part->file, lent.at, lent.length), "a part");
}

/* Appends an entry. */
static bool append_entry(mtr_host_part *part, uint64_t version, const uint8_t *key, size_t key_length, const mtr_column *columns,
                         size_t column_count) {
    uint32_t status = mtr_part_entry(&part->writer, version, key, key_length, columns, column_count);
    if (status == MTR_WRONG)
        return says("an entry", "its key is not above the last one, or no part may have it");
    part->waiting += ENTRY + key_length;
    for (size_t n = 0; n < column_count; n++)
        part->waiting += COLUMN + columns[n].value.length;
    return is_done(status, "an entry") && (part->waiting < WRITTEN_AT_ONCE || write_ready(part));
}

bool mtr_host_entry(mtr_host_part *part, uint64_t version, const uint8_t *key, size_t key_length, const mtr_column *columns,
                size_t column_count) {
    if (!part->has_failed)
        part->has_failed = !append_entry(part, version, key, key_length, columns, column_count);
    return !part->has_failed;
}

/* Reads all keys into the part, and ends it. */
static bool write_part(mtr_host *host, mtr_host_part *part, uint32_t number, uint64_t begin, uint64_t *end) {
    uint64_t salt = 0;
    if (!draw(&salt) || !is_done(mtr_part_begin(&part->writer, salt, number, begin, 0, 1), "a part") ||
        !host->settings.entries(host->settings.server, part) || part->has_failed)
        return false;
    pthread_mutex_lock(&host->lock);
    uint32_t status = mtr_checkpoint_end(&host->keeper, end);
    pthread_mutex_unlock(&host->lock);
    return is_done(status, "a checkpoint") && is_done(mtr_part_end(&part->writer, *end), "a part") && write_ready(part);
}

/* Writes the part of a checkpoint to the file NAME.new. Returns it open, or -1, and then it is gone. */
static int make_part(mtr_host *host, const char *name, uint32_t number, uint64_t begin, uint64_t *end) {
    mtr_host_part part = {.file = create(host, name)};
    if (did(part.file >= 0, name) && !write_part(host, &part, number, begin, end)) {
        close(part.file);
        discard(host, name);
        part.file = -1;
    }
    mtr_free(&part.writer);
    mtr_free(&part.buffer);
    return part.file;
}

/* Deletes a file while the lock is free. */
static bool delete_freely(mtr_host *host, const char *name) {
    pthread_mutex_unlock(&host->lock);
    bool is_deleted = delete_file(host, name);
    pthread_mutex_lock(&host->lock);
    return is_deleted;
}

/* Deletes what the checkpoint on which the server stands makes old, under the lock: the part before it, and segments. */
static bool delete_old(mtr_host *host, uint32_t number) {
    char name[NAME];
    uint64_t older = host->standing;
    uint32_t worker = 0, segment = 0, status;
    size_t log = 0;
    host->standing = number;
    name_part((uint32_t)older, name);
    if (older != UINT64_MAX && !delete_freely(host, name))
        return false;
    while ((status = mtr_log_delete(&host->keeper, &log)) == MTR_DONE) {
        if (!is_done(mtr_log_segment(&host->keeper, log, &worker, &segment), "a segment"))
            return false;
        name_log(worker, segment, name);
        if (!delete_freely(host, name) || !is_done(mtr_log_deleted(&host->keeper, log), name))
            return false;
    }
    return status == MTR_ABSENT || is_done(status, "a segment");
}

/* Makes a checkpoint, under the lock. One that can't be written is given up. False: the host fails. */
static bool make_checkpoint(mtr_host *host) {
    char name[NAME];
    uint32_t number = 0;
    uint64_t begin = 0, end = 0;
    if (!is_done(mtr_checkpoint_begin(&host->keeper, &number, &begin), "a checkpoint"))
        return false;
    host->last = begin;
    host->written = 0;
    pthread_cond_broadcast(&host->work);
    pthread_mutex_unlock(&host->lock);
    name_part(number, name);
    int file = make_part(host, name, number, begin, &end);
    bool is_placed = file >= 0 && place(host, file, name);
    if (file >= 0)
        close(file);
    pthread_mutex_lock(&host->lock);
    if (file < 0)
        return is_done(mtr_checkpoint_abandon(&host->keeper), "a checkpoint");
    while (is_placed && !host->has_failed && host->below <= end)
        pthread_cond_wait(&host->done, &host->lock);
    return is_placed && !host->has_failed && is_done(mtr_checkpoint_stand(&host->keeper), "a checkpoint") &&
           delete_old(host, number);
}

/* The thread of checkpoints. */
static void *write_checkpoints(void *given) {
    mtr_host *host = given;
    pthread_mutex_lock(&host->lock);
    while (!host->has_failed && !host->is_closing) {
        if (host->written < host->settings.checkpoint)
            pthread_cond_wait(&host->done, &host->lock);
        else if (!make_checkpoint(host))
            fail(host);
    }
    pthread_mutex_unlock(&host->lock);
    return NULL;
}

/* ---- A start ---- */

/* A log that the last server left. */
struct left {
    uint32_t worker, segment;
    uint32_t workers; /* that its header says */
    uint8_t *bytes;   /* then those that replace it */
    size_t length;
    mode_t mode;
    mtr_resumed resumed;
    mtr_log_ending ending; /* once a loss is suspected */
};

/* What the folder has. */
struct found {
    struct left *logs;
    size_t log_count;
    uint32_t *parts; /* their checkpoints */
    size_t part_count;
    bool has_notes; /* of losses */
};

/* Finds a log, a part, or the notes of losses. False: it is not of this host, or there is no memory. */
static bool find(struct found *found, const char *name) {
    char own[NAME] = "";
    uint32_t number = 0, segment = 0;
    found->has_notes |= strcmp(name, NOTES) == 0;
    const char *end = strrchr(name, '.');
    if (end == NULL || (strcmp(end, ".mtl") != 0 && strcmp(end, ".mtc") != 0))
        return true;
    if (sscanf(name, "%" SCNu32 "-%" SCNu32, &number, &segment) == 2)
        strcmp(end, ".mtl") == 0 ? name_log(number, segment, own) : name_part(number, own);
    if (strcmp(own, name) != 0)
        return says(name, "is of another server");
    if (strcmp(end, ".mtl") == 0) {
        struct left *logs = realloc(found->logs, (found->log_count + 1) * sizeof *logs);
        if (!did(logs != NULL, name))
            return false;
        found->logs = logs;
        logs[found->log_count++] = (struct left){.worker = number, .segment = segment};
        return true;
    }
    uint32_t *parts = realloc(found->parts, (found->part_count + 1) * sizeof *parts);
    if (!did(parts != NULL, name))
        return false;
    found->parts = parts;
    parts[found->part_count++] = number;
    return true;
}

static int by_segments(const void *a, const void *b) {
    const struct left *one = a, *other = b;
    if (one->worker != other->worker)
        return one->worker < other->worker ? -1 : 1;
    return one->segment < other->segment ? -1 : one->segment > other->segment;
}

static int by_numbers(const void *a, const void *b) {
    uint32_t one = *(const uint32_t *)a, other = *(const uint32_t *)b;
    return one < other ? -1 : one > other;
}

/* Locks the folder, and finds its logs, in the order of their segments, and its parts, in that of their numbers. */
static bool search(mtr_host *host, struct found *found) {
    struct dirent *entry;
    bool is_own = true;
    if (flock(host->folder, LOCK_EX | LOCK_NB) != 0)
        return says(host->settings.folder, errno == EWOULDBLOCK ? "is locked" : strerror(errno));
    DIR *entries = opendir(host->settings.folder);
    if (!did(entries != NULL, host->settings.folder))
        return false;
    for (errno = 0; is_own && (entry = readdir(entries)) != NULL; errno = 0)
        is_own = find(found, entry->d_name);
    is_own = is_own && did(errno == 0, host->settings.folder);
    closedir(entries);
    if (found->log_count > 0)
        qsort(found->logs, found->log_count, sizeof *found->logs, by_segments);
    if (found->part_count > 0)
        qsort(found->parts, found->part_count, sizeof *found->parts, by_numbers);
    return is_own;
}

/* Reads a file whole, once it is synced: no crash may take back what recovery reads. */
static uint8_t *read_file(const mtr_host *host, const char *name, size_t *length, mode_t *mode) {
    struct stat about;
    uint8_t *bytes = NULL;
    ssize_t got = 1;
    int file = openat(host->folder, name, O_RDONLY | O_CLOEXEC);
    if (did(file >= 0 && fsync(file) == 0 && fstat(file, &about) == 0, name)) {
        *mode = about.st_mode & 07777;
        bytes = malloc((size_t)about.st_size + 1);
        for (*length = 0; bytes != NULL && got != 0; *length += got > 0 ? (size_t)got : 0) {
            got = read(file, bytes + *length, (size_t)about.st_size - *length);
            if (got < 0 && errno != EINTR)
                break;
        }
        if (!did(bytes != NULL && got == 0, name)) {
            free(bytes);
            bytes = NULL;
        }
    }
    if (file >= 0)
        close(file);
    return bytes;
}

static uint32_t number_at(const uint8_t *bytes) {
    return (uint32_t)bytes[0] << 24 | (uint32_t)bytes[1] << 16 | (uint32_t)bytes[2] << 8 | bytes[3];
}

/* Whether the file has the name that its header says, since files are deleted by their names. One without a whole header is
 * no log, and as a part is not chosen. */
static bool is_named(const uint8_t *bytes, size_t length, const struct left *log, uint32_t part, const char *name) {
    bool is_sealed = length > 3 && bytes[3] == '4', is_own;
    if (log == NULL)
        is_own = length < (is_sealed ? 36 : 20) || number_at(bytes + (is_sealed ? 12 : 4)) == part;
    else
        is_own = length < (is_sealed ? 44 : 20) ||
                 ((is_sealed || bytes[3] == '3') && number_at(bytes + (is_sealed ? 16 : 12)) == log->worker &&
                  number_at(bytes + (is_sealed ? 24 : 16)) == log->segment);
    return is_own || says(name, "is not the file of this name");
}

/* Adds a log or a part to the inputs. Recovery tells what is wrong with its bytes. */
static bool add(mtr_place *inputs, mtr_place *feed, const uint8_t *bytes, size_t length, const char *name) {
    uint32_t status = mtr_feed(feed, bytes, length);
    bool is_added = (status == MTR_FAULT || is_done(status, name)) && is_done(mtr_add(inputs, feed), name);
    mtr_free(feed);
    return is_added;
}

static bool read_all(const mtr_host *host, struct found *found, mtr_place *inputs) {
    char name[NAME];
    mode_t mode = 0;
    for (size_t n = 0; n < found->log_count; n++) {
        mtr_place feed = {0};
        mtr_log_front front = {0};
        struct left *log = &found->logs[n];
        name_log(log->worker, log->segment, name);
        log->bytes = read_file(host, name, &log->length, &log->mode);
        if (log->bytes == NULL || !is_named(log->bytes, log->length, log, 0, name) || !is_done(mtr_feed_log(&feed), name) ||
            !add(inputs, &feed, log->bytes, log->length, name))
            return false;
        mtr_read_log_header(log->bytes, log->length, &front);
        log->workers = front.workers;
    }
    for (size_t n = 0; n < found->part_count; n++) {
        mtr_place feed = {0};
        size_t length = 0;
        name_part(found->parts[n], name);
        uint8_t *bytes = read_file(host, name, &length, &mode);
        bool is_added = bytes != NULL && is_named(bytes, length, NULL, found->parts[n], name) &&
                        is_done(mtr_feed_part(&feed), name) && add(inputs, &feed, bytes, length, name);
        free(bytes);
        if (!is_added)
            return false;
    }
    return did(fsync(host->folder) == 0, host->settings.folder);
}

/* Recovers the store from what was found. */
static bool recover(const mtr_host *host, struct found *found, mtr_place *store, mtr_report *report) {
    mtr_fault fault = {0};
    char words[128];
    size_t count = 0;
    if (!read_all(host, found, store))
        return false;
    uint32_t status = mtr_recover(store, &fault);
    if (status == MTR_FAULT && mtr_fault_text(&fault, (uint8_t *)words, sizeof words - 1, &count) == MTR_DONE) {
        words[count] = 0;
        return says(host->settings.folder, words);
    }
    return is_done(status, "recovery") && is_done(mtr_get_report(store, report), "recovery");
}

/* Adds a worker's log with this newest file, to which no record may go if it is full, or closes it. */
static bool add_log(mtr_host *host, size_t number, int file, uint64_t size, bool is_full) {
    struct log *logs = realloc(host->logs, (host->count + 1) * sizeof *logs);
    if (!did(logs != NULL, "a log")) {
        close(file);
        return false;
    }
    host->logs = logs;
    logs[host->count++] =
        (struct log){.host = host, .number = number, .file = file, .size = size, .is_full = is_full, .covered = host->last};
    return true;
}

/* Makes the bytes that replace a log, in place of its own. No file is changed. */
static bool resume(struct left *log, const mtr_report *report, uint64_t salt) {
    char name[NAME];
    size_t room = log->length + log->length / 1024 + NEW, size = 0;
    uint8_t *bytes = malloc(room);
    name_log(log->worker, log->segment, name);
    if (!did(bytes != NULL, name))
        return false;
    uint32_t workers = (uint32_t)report->writers, status;
    status = mtr_resume_log(log->bytes, log->length, report->cutoff, salt, workers, &log->resumed, bytes, room, &size);
    free(log->bytes);
    log->bytes = bytes;
    log->length = size;
    return is_done(status, name) && (!log->resumed.ended || says(name, "is ended"));
}

static bool resume_all(const mtr_host *host, struct found *found, const mtr_report *report) {
    for (size_t n = 0; n < found->log_count; n++)
        if (!resume(&found->logs[n], report, host->salt + n))
            return false;
    return true;
}

/* Replaces a log by what goes on. Returns the file open, or -1. */
static int replace(mtr_host *host, const struct left *log, size_t *number) {
    char name[NAME];
    name_log(log->worker, log->segment, name);
    int file = create(host, name);
    if (did(file >= 0 && fchmod(file, log->mode) == 0 && write_all(file, log->bytes, log->length), name) &&
        place(host, file, name) && is_done(mtr_keeper_add(&host->keeper, log->bytes, log->length, number), name))
        return file;
    if (file >= 0)
        close(file);
    return -1;
}

/* ---- Losses ---- */

/* Reads a log once more, for where it ends. */
static bool read_ending(const mtr_host *host, struct left *log) {
    char name[NAME];
    size_t length = 0;
    mode_t mode = 0;
    name_log(log->worker, log->segment, name);
    uint8_t *bytes = read_file(host, name, &length, &mode);
    bool is_read = bytes != NULL && is_done(mtr_read_log_ending(bytes, length, &log->ending), name);
    free(bytes);
    return is_read;
}

static bool is_newest(const struct found *found, size_t log) {
    return log + 1 == found->log_count || found->logs[log + 1].worker != found->logs[log].worker;
}

static bool has_many_late(const mtr_host *host, const mtr_report *report) {
    return host->settings.max_late > 0 && report->late > host->settings.max_late;
}

/* Whether recovery lost more of the logs than a crash loses, or may have: then they are read once more. */
static bool is_suspect(const mtr_host *host, const struct found *found, const mtr_report *report) {
    bool is_suspect = has_many_late(host, report) || report->holes > 0;
    for (size_t n = 0; n < found->log_count; n++) {
        const mtr_resumed *resumed = &found->logs[n].resumed;
        is_suspect |= resumed->late_marks > AHEAD || (report->torn > 0 && resumed->format != 4);
    }
    return is_suspect;
}

/* Writes the first log that ends at the cutoff, and where. */
static void write_end(const struct found *found, uint64_t cutoff, FILE *lines) {
    char name[NAME] = "";
    for (size_t n = found->log_count; n-- > 0;)
        if (is_newest(found, n) && found->logs[n].ending.last == cutoff)
            name_log(found->logs[n].worker, found->logs[n].segment, name);
    fprintf(lines, "%s ends at %" PRIu64 "\n", name, cutoff);
}

/* Writes that there are fewer writers than a header says. A header counts workers whose files have their names, and a worker's
 * last file is never deleted. So no crash leaves fewer. */
static void write_fewer(const struct found *found, const mtr_report *report, FILE *lines) {
    uint32_t most = 0;
    for (size_t n = 0; n < found->log_count; n++)
        if (found->logs[n].workers > most)
            most = found->logs[n].workers;
    const char *s = report->writers == 1 ? "" : "s";
    if (report->writers < most)
        fprintf(lines, "%" PRIu64 " writer%s, but a header says %" PRIu32 "\n", report->writers, s, most);
}

/* Writes a line for each loss of the logs. */
static bool write_log_losses(const mtr_host *host, struct found *found, const mtr_report *report, FILE *lines) {
    const char *advice = host->settings.accept_loss ? "" : " (run mtrecover resume first)";
    char name[NAME];
    for (size_t n = 0; n < found->log_count; n++)
        if (!read_ending(host, &found->logs[n]))
            return false;
    if (has_many_late(host, report)) {
        fprintf(lines, "%" PRIu64 " update%s late: ", report->late, report->late == 1 ? "" : "s");
        write_end(found, report->cutoff, lines);
    }
    for (size_t n = 0; n < found->log_count; n++) {
        const struct left *log = &found->logs[n];
        name_log(log->worker, log->segment, name);
        if (log->resumed.late_marks > AHEAD && log->ending.last > report->cutoff) {
            fprintf(lines, "%s: %" PRIu64 " marks at or past the cutoff; ", name, log->resumed.late_marks);
            write_end(found, report->cutoff, lines);
        }
    }
    for (size_t n = 0; n < found->log_count; n++) {
        const struct left *log = &found->logs[n];
        name_log(log->worker, log->segment, name);
        bool follows = n > 0 && log[-1].worker == log->worker && log[-1].segment + 1 == log->segment;
        uint64_t from = log->ending.from, end = follows ? log[-1].ending.last : UINT64_MAX;
        if (from > report->begin && end < from && end < report->cutoff)
            fprintf(lines, "%s: a hole from %" PRIu64 " to %" PRIu64 " is before it\n", name, end, from);
        if (log->ending.goes_on) /* perhaps bytes of a value in a torn record of format 3: resume knows these */
            fprintf(lines, "%s: records follow its torn tail%s\n", name, advice);
    }
    return true;
}

/* Whether recovery takes the part at this position for a broken one: then a crash did not leave it, since it got its name whole. */
static bool is_broken(const struct found *found, size_t part, mtr_place *store) {
    uint64_t number = 0;
    bool is_broken = false;
    for (size_t n = 0; mtr_report_skipped(store, n, &number) == MTR_DONE; n++)
        is_broken |= number == found->parts[part];
    for (size_t n = 0; mtr_report_nameless(store, n, &number) == MTR_DONE; n++)
        is_broken |= number == part;
    return is_broken;
}

/* Writes a line for each loss that no crash explains. */
static bool write_losses(const mtr_host *host, struct found *found, mtr_place *store, const mtr_report *report, FILE *lines) {
    write_fewer(found, report, lines);
    if (is_suspect(host, found, report) && !write_log_losses(host, found, report, lines))
        return false;
    for (size_t n = 0; n < found->part_count; n++)
        if ((report->checkpoint == UINT64_MAX || found->parts[n] > report->checkpoint) && is_broken(found, n, store))
            fprintf(lines, "checkpoint %" PRIu32 " skipped: it is damaged\n", found->parts[n]);
    return true;
}

/* The line after this one. */
static const char *next_line(const char *line) {
    line += strcspn(line, "\n");
    return *line == 0 ? line : line + 1;
}

static bool has_line(const char *text, const char *line) {
    size_t length = strcspn(line, "\n");
    while (*text != 0 && (strcspn(text, "\n") != length || memcmp(text, line, length) != 0))
        text = next_line(text);
    return *text != 0;
}

/* Writes the file of losses: the text that it had, and each of these lines that it had not. */
static bool note(const mtr_host *host, mode_t mode, const char *had, const char *lines) {
    int file = create(host, NOTES);
    size_t length = strlen(had);
    bool is_written = file >= 0 && fchmod(file, mode) == 0 && write_all(file, (const uint8_t *)had, length);
    if (is_written && length > 0 && had[length - 1] != '\n')
        is_written = write_all(file, (const uint8_t *)"\n", 1);
    for (; is_written && *lines != 0; lines = next_line(lines))
        if (!has_line(had, lines))
            is_written = write_all(file, (const uint8_t *)lines, (size_t)(next_line(lines) - lines));
    is_written = did(is_written, NOTES) && place(host, file, NOTES);
    if (file >= 0)
        close(file);
    return is_written;
}

/* Notes these losses, of which nothing else will tell once the logs are replaced. The notes get the mode of a log. */
static bool note_losses(const mtr_host *host, const struct found *found, const char *lines) {
    size_t length = 0;
    mode_t mode = 0;
    char *had = found->has_notes ? (char *)read_file(host, NOTES, &length, &mode) : calloc(1, 1);
    if (had == NULL)
        return false;
    had[length] = 0;
    bool is_noted = note(host, found->logs[0].mode, had, lines);
    free(had);
    return is_noted;
}

/* Whether the server may go on: recovery lost no more than a crash loses, or the loss is accepted, and noted. Before that no
 * file is changed, so that what was lost may be put back. */
static bool may_go_on(const mtr_host *host, struct found *found, mtr_place *store, const mtr_report *report) {
    char *text = NULL;
    size_t length = 0;
    FILE *lines = open_memstream(&text, &length);
    bool is_known = did(lines != NULL, "losses") && write_losses(host, found, store, report, lines);
    if (lines != NULL)
        is_known = did(fclose(lines) == 0, "losses") && is_known;
    for (const char *line = text; is_known && *line != 0; line = next_line(line))
        fprintf(stderr, "host: loss: %.*s\n", (int)strcspn(line, "\n"), line);
    bool goes_on = is_known && (length == 0 || (host->settings.accept_loss && note_losses(host, found, text)));
    free(text);
    return goes_on;
}

/* Goes on with what was found, after recovery with this report. */
static bool go_on(mtr_host *host, const struct found *found, mtr_place *store, const mtr_report *report) {
    uint32_t greatest = 0;
    char name[NAME];
    for (size_t n = 0; n < found->part_count; n++) {
        greatest = found->parts[n];
        name_part(found->parts[n], name);
        if (found->parts[n] != report->checkpoint && !delete_file(host, name))
            return false;
    }
    host->standing = report->checkpoint;
    host->last = report->cutoff > 0 ? report->cutoff - 1 : 0;
    if (!is_done(mtr_keeper_resume(&host->keeper, store, greatest, host->salt + found->log_count), "the keeper"))
        return false;
    for (size_t n = 0; n < found->log_count; n++) {
        const struct left *log = &found->logs[n];
        size_t number = 0;
        int file = replace(host, log, &number);
        if (file < 0 || (is_newest(found, n) && !add_log(host, number, file, log->length, log->resumed.format != 4)))
            return false;
        if (!is_newest(found, n))
            close(file);
    }
    return is_done(mtr_keeper_resumed(&host->keeper), "the keeper");
}

/* Begins the next files of those logs that are full, and logs until there are as many as wanted, under the lock. */
static bool begin_logs(mtr_host *host) {
    for (unsigned n = 0; n < host->count; n++) {
        if (host->logs[n].is_full && !rotate(&host->logs[n]))
            return false;
        host->logs[n].is_full = false;
    }
    while (host->count < host->settings.logs) {
        size_t number = 0;
        bool is_first = !host->keeper.full;
        if (!is_done(is_first ? mtr_keeper_begin(&host->keeper, host->salt) : mtr_log_begin(&host->keeper, &number), "a log"))
            return false;
        int file = create_log(host, number);
        if (file < 0 || !add_log(host, number, file, 0, false))
            return false;
    }
    return true;
}

mtr_host *mtr_host_open(const mtr_host_settings *settings, mtr_place *store, uint64_t *last) {
    struct found found = {0};
    mtr_report report = {0};
    mtr_host *host = calloc(1, sizeof *host);
    if (!did(host != NULL, settings->folder))
        return NULL;
    host->settings = *settings;
    host->standing = UINT64_MAX;
    pthread_mutex_init(&host->lock, NULL);
    pthread_cond_init(&host->work, NULL);
    pthread_cond_init(&host->done, NULL);
    host->folder = open(settings->folder, O_RDONLY | O_DIRECTORY | O_CLOEXEC);
    bool is_open = did(host->folder >= 0, settings->folder) && draw(&host->salt) && search(host, &found);
    if (is_open && found.log_count + found.part_count > 0)
        is_open = recover(host, &found, store, &report) && resume_all(host, &found, &report) &&
                  may_go_on(host, &found, store, &report) && go_on(host, &found, store, &report);
    pthread_mutex_lock(&host->lock);
    is_open = is_open && begin_logs(host) && is_done(mtr_keeper_acknowledged(&host->keeper, &host->below), "the keeper");
    pthread_mutex_unlock(&host->lock);
    for (size_t n = 0; n < found.log_count; n++)
        free(found.logs[n].bytes);
    free(found.logs);
    free(found.parts);
    *last = host->last;
    if (is_open)
        return host;
    mtr_free(store);
    mtr_host_close(host);
    return NULL;
}

bool mtr_host_start(mtr_host *host) {
    for (unsigned n = 0; n < host->count; n++) {
        struct log *log = &host->logs[n];
        errno = pthread_create(&log->thread, NULL, write_log, log);
        log->has_thread = did(errno == 0, "a thread");
        if (!log->has_thread)
            return false;
    }
    errno = pthread_create(&host->checkpoints, NULL, write_checkpoints, host);
    host->has_checkpoints = did(errno == 0, "a thread");
    return host->has_checkpoints;
}

/* ---- Updates ---- */

/* Appends a put or a remove to the log, under the lock. EARLY: its thread has to write first. */
static uint32_t append(struct log *log, const uint8_t *key, size_t key_length, const mtr_column *columns, size_t column_count,
                       uint64_t *stamp) {
    mtr_place *keeper = &log->host->keeper;
    if (log->is_full && !log->host->has_failed)
        return MTR_EARLY;
    return column_count > 0 ? mtr_log_put(keeper, log->number, key, key_length, columns, column_count, stamp)
                            : mtr_log_remove(keeper, log->number, key, key_length, stamp);
}

uint32_t mtr_host_put(mtr_host *host, unsigned log, const uint8_t *key, size_t key_length, const mtr_column *columns,
                      size_t column_count, uint64_t *stamp) {
    uint32_t status;
    if (log >= host->count)
        return MTR_WRONG;
    pthread_mutex_lock(&host->lock);
    while ((status = append(&host->logs[log], key, key_length, columns, column_count, stamp)) == MTR_EARLY)
        pthread_cond_wait(&host->done, &host->lock);
    if (status == MTR_DONE) {
        host->last = *stamp;
        pthread_cond_broadcast(&host->work);
    }
    pthread_mutex_unlock(&host->lock);
    return status;
}

bool mtr_host_wait(mtr_host *host, uint64_t stamp) {
    struct waiter waiter = {.stamp = stamp};
    pthread_mutex_lock(&host->lock);
    bool waits = stamp >= host->below && !host->has_failed;
    waiter.is_durable = stamp < host->below;
    if (waits) {
        sem_init(&waiter.told, 0, 0);
        waiter.next = host->waiters;
        host->waiters = &waiter;
    }
    pthread_mutex_unlock(&host->lock);
    while (waits && sem_wait(&waiter.told) != 0)
        continue;
    return waiter.is_durable;
}

bool mtr_host_close(mtr_host *host) {
    pthread_mutex_lock(&host->lock);
    host->is_closing = true;
    pthread_cond_broadcast(&host->work);
    pthread_cond_broadcast(&host->done);
    pthread_mutex_unlock(&host->lock);
    for (unsigned n = 0; n < host->count; n++) {
        if (host->logs[n].has_thread)
            pthread_join(host->logs[n].thread, NULL);
        close(host->logs[n].file);
        mtr_free(&host->logs[n].buffer);
    }
    if (host->has_checkpoints)
        pthread_join(host->checkpoints, NULL);
    if (host->folder >= 0)
        close(host->folder);
    mtr_free(&host->keeper);
    bool is_whole = !host->has_failed;
    free(host->logs);
    free(host);
    return is_whole;
}
