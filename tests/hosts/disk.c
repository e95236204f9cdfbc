/* A machine in memory: a program that is linked with this file makes these calls in place of the C library's, those of C and
 * those of std of Rust. Its disk has the one folder /sim. A crash leaves of each file a beginning, with what was synced, and
 * some of the changes of names since the folder was synced. Behind what was synced a file of format 4 may have anything: zeros,
 * bytes of other files, parts of what was written. */
#define _GNU_SOURCE
#undef malloc /* test_malloc elsewhere, and so on */
#undef calloc
#undef realloc
#include "lives.h"
#include <dirent.h>
#include <errno.h>
#include <fcntl.h>
#include <stdarg.h>
#include <stdio.h>
#include <stdlib.h>
#include <string.h>
#include <sys/file.h>
#include <sys/mman.h>
#include <sys/random.h>
#include <sys/stat.h>
#include <sys/syscall.h>
#include <unistd.h>

/* FIRST is the least number of an open file of the folder. */
enum { ROOM = 1 << 16, FILES = 1024, COUNT = 512, NAME = 40, CHANGES = 512, OPEN = 64, FIRST = 1000, SHORT = -1 };

struct file {
    bool is_used, is_lost; /* lost: a sync failed, and no later one keeps its bytes */
    mode_t mode;
    size_t length, synced;
    size_t had; /* so many bytes are not zeros alone: those behind `length` are of files that were here before */
    uint8_t bytes[ROOM];
};

struct names {
    unsigned count;
    struct {
        char text[NAME];
        int file;
    } at[COUNT];
};

/* A name goes, and another one comes; "" is none. */
struct change {
    char from[NAME], to[NAME];
    int file;
};

/* What is shared with the processes that the machine runs. */
static struct shared {
    struct machine machine;
    struct names now, kept; /* kept: when the folder was last synced */
    struct change changes[CHANGES];
    unsigned change_count;
    bool is_folder_lost;
    unsigned had; /* so many files were ever used */
    struct file files[FILES];
} *disk;
struct machine *machine;

/* The open files of this process. */
static struct opened {
    char name[NAME];
    bool is_open, is_locked;
    int file; /* -1 is the folder */
    size_t at;
} opened[OPEN];
static bool is_memory_spared;

void must(bool is_so, const char *format, ...) {
    va_list args;
    if (is_so)
        return;
    va_start(args, format);
    vsnprintf(machine->why, sizeof machine->why, format, args);
    va_end(args);
    _exit(WRONG);
}

uint64_t any_below(uint64_t most) {
    uint64_t mixed = machine->random += 0x9e3779b97f4a7c15;
    mixed = (mixed ^ mixed >> 30) * 0xbf58476d1ce4e5b9;
    mixed = (mixed ^ mixed >> 27) * 0x94d049bb133111eb;
    return (mixed ^ mixed >> 31) % most;
}

/* ---- Calls ---- */

/* Whether the event happens at this call. */
static bool happens(struct event *event, enum call call, const char *what) {
    if (event->left == 0 || (event->call != ANY && event->call != call) || strstr(what, event->of) == NULL || --event->left > 0)
        return false;
    if (event->delay == 0)
        return true;
    *event = (struct event){.call = ANY, .left = event->delay};
    return false;
}

int fails(enum call call, const char *what) {
    static const int errors[][4] = {
        [OPENS] = {EMFILE, ENOMEM, EIO, EINTR}, [CREATES] = {ENOSPC, EMFILE, EIO, EINTR},
        [READS] = {EIO, EIO, EINTR, SHORT},     [WRITES] = {EIO, ENOSPC, EINTR, SHORT},
        [SYNCS] = {EIO, ENOSPC, EIO, ENOSPC},   [NAMES] = {EIO, ENOSPC, EROFS, EIO},
        [OTHER] = {EIO, ENOMEM, EAGAIN, EINTR},
    };
    static const char *const words[] = {"opens", "creates", "reads", "writes", "syncs", "names", "asks"};
    pass();
    machine->calls++;
    bool is_crash = happens(&machine->crash, call, what);
    int error = happens(&machine->failure, call, what) ? errors[call][any_below(4)] : 0;
    if (getenv("TRACE"))
        fprintf(stderr, "%s %s%s\n", words[call], what, is_crash ? ": crash" : error != 0 ? ": fails" : "");
    if (is_crash)
        _exit(CRASHED);
    if (error == 0)
        return 0;
    machine->failed++;
    bool is_for_again = (call == READS || call == WRITES) && (error == EINTR || error == SHORT);
    machine->failures += !is_for_again;
    machine->failure.left = !is_for_again && machine->fails_on;
    machine->needs_restart |= !is_for_again && (call == WRITES || call == SYNCS);
    return error;
}

/* The answer of a call that fails so, if it does. */
static int answer(int error) {
    errno = error;
    return error != 0 ? -1 : 0;
}

static int find(const struct names *names, const char *name) {
    for (unsigned n = 0; n < names->count; n++)
        if (strcmp(names->at[n].text, name) == 0)
            return (int)n;
    return -1;
}

static void remove_name(struct names *names, const char *name) {
    int at = find(names, name);
    if (at >= 0)
        names->at[at] = names->at[--names->count];
}

static void apply(struct names *names, const struct change *change) {
    remove_name(names, change->from);
    if (*change->to == 0)
        return;
    remove_name(names, change->to);
    must(names->count < COUNT, "too many names");
    strcpy(names->at[names->count].text, change->to);
    names->at[names->count++].file = change->file;
}

static void change(const char *from, const char *to, int file) {
    struct change *it = &disk->changes[disk->change_count++];
    must(disk->change_count < CHANGES && strlen(from) < NAME && strlen(to) < NAME, "too many changes");
    strcpy(it->from, from);
    strcpy(it->to, to);
    it->file = file;
    apply(&disk->now, it);
}

/* The name of a file in the folder, or "" of the folder. */
static const char *name_of(const char *path) {
    must(strncmp(path, "/sim", 4) == 0, "the host opens %s", path);
    return path[4] == '/' ? path + 5 : "";
}

/* An unused file, without bytes. */
static int new_file(mode_t mode) {
    int file = 0;
    while (file < FILES && disk->files[file].is_used)
        file++;
    must(file < FILES, "too many files");
    memset(&disk->files[file], 0, offsetof(struct file, had));
    disk->files[file].is_used = true;
    disk->files[file].mode = mode;
    disk->had = file < (int)disk->had ? disk->had : (unsigned)file + 1;
    return file;
}

/* ---- Memory ---- */

void spare_memory(void) { is_memory_spared = !is_memory_spared; }

/* Whether there is none: no other thread runs before such a call, and the machine does not crash there. */
static bool lacks_memory(void) {
    bool lacks = !is_memory_spared && happens(&machine->failure, MEMORY, "");
    machine->failed += lacks;
    machine->failures += lacks;
    errno = lacks ? ENOMEM : errno;
    return lacks;
}

void *test_malloc(size_t size) { return lacks_memory() ? NULL : malloc(size); }

void *test_calloc(size_t count, size_t size) { return lacks_memory() ? NULL : calloc(count, size); }

void *test_realloc(void *at, size_t size) { return lacks_memory() ? NULL : realloc(at, size); }

/* ---- The calls on the disk ---- */

static int open_it(const char *name, int flags, mode_t mode) {
    int error = fails(flags & O_CREAT ? CREATES : OPENS, name), at = find(&disk->now, name), number = 0;
    if (error == 0 && *name && at < 0 && !(flags & O_CREAT))
        error = ENOENT;
    if (error != 0)
        return answer(error);
    while (number < OPEN && opened[number].is_open)
        number++;
    must(number < OPEN, "too many open files");
    int file = at < 0 ? -1 : disk->now.at[at].file;
    if (flags & O_CREAT) { /* one that is there is not cut: another file takes its name */
        file = new_file(mode & 0755);
        change("", name, file);
    }
    opened[number] = (struct opened){.is_open = true, .file = file};
    snprintf(opened[number].name, NAME, "%s", name);
    return FIRST + number;
}

int open(const char *path, int flags, ...) {
    va_list args;
    va_start(args, flags);
    mode_t mode = flags & O_CREAT ? va_arg(args, mode_t) : 0;
    va_end(args);
    return open_it(name_of(path), flags, mode);
}

int open64(const char *path, int flags, ...) __attribute__((alias("open")));

int openat(int folder, const char *name, int flags, ...) {
    va_list args;
    va_start(args, flags);
    mode_t mode = flags & O_CREAT ? va_arg(args, mode_t) : 0;
    va_end(args);
    must(folder >= FIRST, "openat of another folder");
    return open_it(name, flags, mode);
}

/* The file that is open under this number, or NULL if that is the folder. */
static struct file *file_of(int number) {
    must(number >= FIRST && number < FIRST + OPEN && opened[number - FIRST].is_open, "%d is not open", number);
    int file = opened[number - FIRST].file;
    return file < 0 ? NULL : &disk->files[file];
}

int close(int number) {
    if (number < FIRST)
        return (int)syscall(SYS_close, number);
    file_of(number);
    opened[number - FIRST].is_open = false;
    return 0;
}

/* As Rust asks whether a file is open. */
int fcntl(int number, int what, ...) {
    if (number >= FIRST)
        file_of(number);
    must(what == F_GETFD, "another fcntl");
    return 0;
}

unsigned open_files(void) {
    unsigned count = 0;
    for (int n = 0; n < OPEN; n++)
        count += opened[n].is_open;
    return count;
}

ssize_t read(int number, void *bytes, size_t size) {
    if (number < FIRST)
        return syscall(SYS_read, number, bytes, size);
    struct file *file = file_of(number);
    int error = fails(READS, opened[number - FIRST].name);
    if (error > 0)
        return answer(error);
    size_t *at = &opened[number - FIRST].at, count = file->length - *at < size ? file->length - *at : size;
    if (error == SHORT && count > 1)
        count = 1 + any_below(count - 1);
    memcpy(bytes, file->bytes + *at, count);
    *at += count;
    return (ssize_t)count;
}

/* Part of the bytes may be written although it fails. */
ssize_t write(int number, const void *bytes, size_t size) {
    if (number < FIRST)
        return syscall(SYS_write, number, bytes, size);
    struct file *file = file_of(number);
    int error = fails(WRITES, opened[number - FIRST].name);
    size_t count = error == 0 || size == 0 ? size : error == EINTR ? 0 : any_below(size) + (error == SHORT);
    must(file->length + count <= ROOM && opened[number - FIRST].at == file->length, "a file is too long");
    memcpy(file->bytes + file->length, bytes, count);
    opened[number - FIRST].at = file->length += count;
    file->had = file->had > file->length ? file->had : file->length;
    return error > 0 ? answer(error) : (ssize_t)count;
}

int fsync(int number) {
    struct file *file = file_of(number);
    bool *is_lost = file != NULL ? &file->is_lost : &disk->is_folder_lost;
    int error = fails(SYNCS, opened[number - FIRST].name);
    for (unsigned n = 0; n < machine->slowness && strstr(opened[number - FIRST].name, machine->slow) != NULL; n++)
        pass();
    *is_lost |= error != 0;
    if (!*is_lost && file != NULL) {
        file->synced = file->length;
    } else if (!*is_lost) {
        disk->kept = disk->now;
        disk->change_count = 0;
    }
    return answer(error);
}

int fdatasync(int number) { return fsync(number); }

static bool ends(const char *name, const char *with) {
    size_t length = strlen(name), end = strlen(with);
    return length >= end && strcmp(name + length - end, with) == 0;
}

unsigned names_with(const char *end) {
    unsigned count = 0;
    for (unsigned n = 0; n < disk->now.count; n++)
        count += ends(disk->now.at[n].text, end);
    return count;
}

/* Renames a file, or deletes it if the other name is "". The change may be made although it fails. */
static int name_it(const char *from, const char *to) {
    int error = fails(NAMES, *to ? to : from), at = find(&disk->now, from);
    if (error == 0 && at < 0)
        error = ENOENT;
    if (at >= 0 && (error == 0 || any_below(2) == 0))
        change(from, to, disk->now.at[at].file);
    machine->segments += ends(to, ".mtl") && !ends(to, "-0.mtl");
    machine->checkpoints += ends(to, ".mtc");
    machine->deletions += *to == 0 && ends(from, ".mtl");
    return answer(error);
}

int rename(const char *from, const char *to) { return name_it(name_of(from), name_of(to)); }

int renameat(int old, const char *from, int new, const char *to) {
    must(old >= FIRST && new >= FIRST, "renameat in another folder");
    return name_it(from, to);
}

int unlink(const char *path) { return name_it(name_of(path), ""); }

int unlinkat(int folder, const char *name, int flags) {
    must(folder >= FIRST && flags == 0, "unlinkat in another folder");
    return name_it(name, "");
}

int flock(int number, int what) {
    must(file_of(number) == NULL && what == (LOCK_EX | LOCK_NB), "a lock of something else");
    int error = fails(OTHER, "for the lock");
    for (int n = 0; error == 0 && n < OPEN; n++)
        if (opened[n].is_open && opened[n].is_locked)
            error = EWOULDBLOCK;
    opened[number - FIRST].is_locked = error == 0;
    return answer(error);
}

int fchmod(int number, mode_t mode) {
    int error = fails(OTHER, "for a mode");
    if (error == 0)
        file_of(number)->mode = mode;
    return answer(error);
}

int fstat(int number, struct stat *about) {
    struct file *file = file_of(number);
    *about = (struct stat){.st_mode = S_IFREG | file->mode, .st_size = (off_t)file->length};
    return answer(fails(OTHER, "for the size"));
}

int statx(int number, const char *path, int flags, unsigned mask, struct statx *about) {
    if (number < FIRST)
        return (int)syscall(SYS_statx, number, path, flags, mask, about);
    struct file *file = file_of(number);
    *about = (struct statx){.stx_mask = STATX_BASIC_STATS, .stx_mode = (uint16_t)(S_IFREG | file->mode), .stx_size = file->length};
    return answer(fails(OTHER, "for the size"));
}

off_t lseek64(int number, off_t by, int from) {
    must(file_of(number) != NULL && by == 0 && from == SEEK_CUR, "a seek");
    return (off_t)opened[number - FIRST].at;
}

/* A folder that is read, from any of its names on. */
struct listing {
    struct names names;
    unsigned first, at;
    struct dirent entry;
};

DIR *opendir(const char *path) {
    must(*name_of(path) == 0, "opendir of %s", path);
    struct listing *listing = calloc(1, sizeof *listing);
    if (answer(fails(OPENS, path)) != 0 || listing == NULL) {
        free(listing);
        return NULL;
    }
    listing->names = disk->now;
    listing->first = listing->names.count > 0 ? (unsigned)any_below(listing->names.count) : 0;
    return (DIR *)listing;
}

struct dirent *readdir(DIR *folder) {
    struct listing *listing = (struct listing *)folder;
    int error = fails(OTHER, "for a name");
    if (error != 0 || listing->at == listing->names.count) {
        errno = error != 0 ? error : errno;
        return NULL;
    }
    listing->entry.d_reclen = sizeof listing->entry;
    strcpy(listing->entry.d_name, listing->names.at[(listing->first + listing->at++) % listing->names.count].text);
    return &listing->entry;
}

struct dirent64 *readdir64(DIR *folder) { return (struct dirent64 *)readdir(folder); }

int closedir(DIR *folder) {
    free(folder);
    return 0;
}

ssize_t getrandom(void *bytes, size_t size, unsigned flags) {
    (void)flags;
    for (size_t n = 0; n < size; n++)
        ((uint8_t *)bytes)[n] = (uint8_t)any_below(256);
    return (ssize_t)size;
}

/* ---- The machine ---- */

void create_machine(void) {
    disk = mmap(NULL, sizeof *disk, PROT_READ | PROT_WRITE, MAP_SHARED | MAP_ANONYMOUS, -1, 0);
    machine = &disk->machine;
}

void begin_machine(uint64_t seed) {
    machine->random = seed;
    disk->now.count = disk->kept.count = disk->change_count = 0;
    disk->is_folder_lost = false;
    for (unsigned n = 0; n < disk->had; n++)
        memset(&disk->files[n], 0, offsetof(struct file, bytes) + disk->files[n].had);
    disk->had = 0;
}

void lay(const char *name, const void *bytes, size_t length) {
    struct change change = {.file = new_file(0644)};
    struct file *file = &disk->files[change.file];
    memcpy(file->bytes, bytes, length);
    file->length = file->synced = file->had = length;
    strcpy(change.to, name);
    apply(&disk->now, &change);
    disk->kept = disk->now;
}

void lose(const char *begin) {
    for (unsigned n = disk->now.count; n-- > 0;)
        if (strncmp(disk->now.at[n].text, begin, strlen(begin)) == 0)
            remove_name(&disk->now, disk->now.at[n].text);
    disk->kept = disk->now;
}

const uint8_t *bytes_of(const char *name, size_t *length) {
    int at = find(&disk->now, name);
    if (at < 0)
        return NULL;
    *length = disk->files[disk->now.at[at].file].length;
    return disk->files[disk->now.at[at].file].bytes;
}

/* The same in whatever order the names are. */
uint64_t sum_of_disk(void) {
    uint64_t all = 0;
    for (unsigned n = 0; n < disk->now.count; n++) {
        const struct file *file = &disk->files[disk->now.at[n].file];
        uint64_t sum = file->length;
        for (const char *name = disk->now.at[n].text; *name; name++)
            sum = (sum ^ (uint8_t)*name) * 0x100000001b3;
        for (size_t at = 0; at < file->length; at++)
            sum = (sum ^ file->bytes[at]) * 0x100000001b3;
        all += sum;
    }
    return all;
}

/* Any file that the disk has or had: often another one whose header has the same worker and segment. */
static const struct file *any_file(const struct file *file) {
    const struct file *other = file;
    for (uint64_t tries = any_below(64) + 1; tries > 0; tries--)
        if (other == file || memcmp(other->bytes + 12, file->bytes + 12, 16) != 0)
            other = &disk->files[any_below(disk->had)];
    return other;
}

/* Leaves behind these bytes of a file, and further, what is there, zeros, or bytes of other files, by turns. */
static void spoil(struct file *file, size_t at) {
    file->length += any_below(UINT64_C(1) << any_below(10));
    file->length = file->length < ROOM ? file->length : ROOM;
    file->had = file->had > file->length ? file->had : file->length;
    for (size_t size, what; at < file->length; at += size) {
        const struct file *other = any_file(file);
        size = 1 + any_below(UINT64_C(1) << any_below(10));
        size = size < file->length - at ? size : file->length - at;
        what = any_below(3);
        if (what == 0)
            memset(file->bytes + at, 0, size);
        else if (what == 1 && other != file && other->had >= size)
            memcpy(file->bytes + at, other->bytes + any_below(other->had - size + 1), size);
    }
}

/* Keeps of a file what is synced, all, or more or less. */
static void crash_file(struct file *file) {
    size_t synced = file->synced, more = file->length - synced;
    uint64_t how = any_below(3);
    file->length = synced + (how == 0 ? 0 : how == 1 ? more : any_below(more + 1));
    if (more > 0 && file->bytes[3] == '4' && any_below(2) == 0)
        spoil(file, synced);
    file->synced = file->length;
    file->is_lost = false;
}

static void crash(void) {
    uint64_t kept = any_below(3); /* no change of a name, some, or all */
    for (unsigned n = 0; n < disk->change_count; n++)
        if (any_below(2) < kept)
            apply(&disk->kept, &disk->changes[n]);
    disk->now = disk->kept;
    disk->change_count = 0;
    disk->is_folder_lost = false;
    for (unsigned n = 0; n < disk->now.count; n++)
        crash_file(&disk->files[disk->now.at[n].file]);
}

void restart_machine(bool is_crash) {
    if (is_crash)
        crash();
    for (int n = 0; n < FILES; n++)
        disk->files[n].is_used = false;
    for (unsigned n = 0; n < disk->now.count; n++)
        disk->files[disk->now.at[n].file].is_used = true;
    for (unsigned n = 0; n < disk->kept.count; n++)
        disk->files[disk->kept.at[n].file].is_used = true;
    for (unsigned n = 0; n < disk->change_count; n++)
        disk->files[disk->changes[n].file].is_used = true;
}
