/* A host for a server in C, over POSIX. A host owns the files of one folder: the logs of the server and its checkpoints.
 * Threads of the host write, sync, rename and delete these files, while threads of the server put updates and wait until the
 * updates are durable. The server itself opens no file. The functions rest on mtrecover.h, whose functions are proved. The
 * host itself, hosts/host.c, is tested and not proved: read it before you rely on it.
 *
 * A server calls mtr_host_open, copies the recovered store into its own table, and calls mtr_host_start. Then its threads
 * call mtr_host_put and mtr_host_wait. At the end it calls mtr_host_close. */
#ifndef MTRECOVER_HOST_H
#define MTRECOVER_HOST_H

#include "mtrecover.h"

#ifdef __cplusplus
extern "C" {
#endif

/* A host, and a checkpoint that it is making. Both belong to the host's own code, and a server only passes their pointers
 * on. */
typedef struct mtr_host mtr_host;
typedef struct mtr_host_part mtr_host_part;

/* What a host works on, and how. */
typedef struct mtr_host_settings {
    const char *folder;  /* the path of the folder; it must exist, and its name must be synced */
    unsigned logs;       /* how many logs the host writes, each on a thread of its own */
    uint64_t segment;    /* once the file of a log has this many bytes, the next file follows */
    uint64_t checkpoint; /* once this many bytes of logs were written since the last checkpoint began, make the next one */
    /* The host calls this function on a thread of its own, when it makes a checkpoint. The function must give mtr_host_entry
     * each key of the server that has columns, in the order of keys, compared byte by byte. It must read each key after this
     * call began. It returns true if it gave all these keys. If it returns false, the host gives the checkpoint up. */
    bool (*entries)(void *server, mtr_host_part *part);
    void *server;      /* the first argument of `entries`; the host does nothing else with it */
    uint64_t max_late; /* mtr_host_open refuses to lose more late updates than this; if this is 0, it does not count them */
    bool accept_loss;  /* if true, mtr_host_open goes on although updates are lost that no crash loses */
} mtr_host_settings;

/* Opens the folder of the settings, and locks it against other servers. Only hosts may have written this folder. If the
 * folder has logs, the call recovers their store into the empty place `store`, and makes the logs ready for more records.
 * Otherwise `store` stays empty. The server owns the store, and frees it by mtr_free.
 *
 * Returns the host, which has no threads yet. *last is then the last stamp: no recovered key has a greater version. Returns
 * NULL if that fails, and writes the reason to standard error.
 *
 * The call refuses the losses that `mtrecover resume` refuses, before it changes any file:
 *
 * - a log with more than 16 marks at or past the cutoff; and, if max_late is not 0, more than max_late updates at or past
 *   the cutoff. A log that was put back from a copy, or was cut short, leaves such marks and updates in the other logs.
 * - fewer writers than a header of format 4 says: all files of a worker are missing;
 * - a hole before a segment;
 * - records behind a torn tail. If another server wrote segments of format 3, perhaps nothing is lost: run `mtrecover resume`
 *   before the first start of a host over them;
 * - a broken part of a checkpoint that is newer than the chosen checkpoint.
 *
 * If the call refuses, put the lost bytes back. If accept_loss is true, the host goes on without them, and notes in the file
 * LOSS of the folder what is lost. */
mtr_host *mtr_host_open(const mtr_host_settings *settings, mtr_place *store, uint64_t *last);

/* Starts the threads of the host. Call it after the server has copied the store into its own table. Returns true if the
 * threads run. Otherwise it returns false, and writes the reason to standard error. Then close the host. */
bool mtr_host_start(mtr_host *host);

/* Appends a put of these columns of the key to a log, or a remove of the key if `column_count` is 0. `log` is the number of
 * the log, from 0 on and below `logs` of the settings. The numbers of the columns must rise. *stamp is the stamp of the
 * update.
 *
 * Hold one lock while you make this call and change the key in the server's own table, so that the stamps of a key rise in
 * the order of its changes. If the thread of the log has to write earlier records first, the call waits for it. Returns the
 * status of mtr_log_put, but never EARLY. WRONG: also if there is no such log. */
uint32_t mtr_host_put(mtr_host *host, unsigned log, const uint8_t *key, size_t key_length, const mtr_column *columns,
                      size_t column_count, uint64_t *stamp);

/* Waits until the update with this stamp and all earlier updates may be acknowledged, or shown to clients. Returns true
 * then. Returns false if the host failed, because then the update may be lost. If the host failed because of a write or a
 * sync, restart the machine before you open the folder again. */
bool mtr_host_wait(mtr_host *host, uint64_t stamp);

/* Writes the entry of one key to the checkpoint that the host is making. Only the function `entries` of the settings calls
 * it. The columns are all columns that the key has, and their numbers must rise. `version` is the stamp of the last update
 * of the key, or *last of mtr_host_open if the key was not updated since. Read the columns and the version in one step,
 * between two updates of the key. Write no entry for a key without columns. Each key must be above the last one, compared
 * byte by byte.
 *
 * Returns true if the entry is written. Returns false if the key is not above the last one, or the entry could not be
 * written. Then the host gives the checkpoint up, and deletes nothing for it. */
bool mtr_host_entry(mtr_host_part *part, uint64_t version, const uint8_t *key, size_t key_length, const mtr_column *columns,
                size_t column_count);

/* Syncs all updates that were put, ends the threads, and frees the host. Returns false if the host failed before. While this
 * call runs, no other call may use the host. */
bool mtr_host_close(mtr_host *host);

#ifdef __cplusplus
}
#endif

#endif
