/* Loaded into a program by mtrecover-torture, sees the calls that change files of the folder TORTURE_FOLDER, a real path: those
 * of its functions of the C library that create, write, cut, sync, name or delete them. Each variable that is not set does
 * nothing:
 *
 *   TORTURE_LIST    a file, to which each call is appended once it succeeded, a line each; also what is written to the
 *                   program's output, the file that has the number TORTURE_LINES
 *   TORTURE_DELAY   a sync begins up to so many microseconds late, by the numbers that TORTURE_SEED begins
 *   TORTURE_KILL    the process group is killed before this call, from 1 on, and amid no other one
 *   TORTURE_FULL    from this call on that may need room, from 1 on, the disk is full
 *
 * The lines: create NAME; cut NAME SIZE; write NAME AT BYTES, hexadecimal; syncing NAME THREAD, synced NAME THREAD; rename NAME
 * NAME; link NAME NAME; delete NAME; line BYTES; full. The folder's own name is `.`, and all files' `*`. */
#define _GNU_SOURCE
#include <dlfcn.h>
#include <errno.h>
#include <fcntl.h>
#include <limits.h>
#include <signal.h>
#include <stdarg.h>
#include <stdatomic.h>
#include <stdbool.h>
#include <stdint.h>
#include <stdio.h>
#include <stdlib.h>
#include <string.h>
#include <sys/stat.h>
#include <sys/syscall.h>
#include <sys/uio.h>
#include <time.h>
#include <unistd.h>

/* The function of this name that the program would call without this file. */
#define NEXT(type, name) ((type)dlsym(RTLD_NEXT, name))

static atomic_long calls, growths, syncs, under_way;
static atomic_bool is_stopping;

static long setting(const char *name) { return getenv(name) ? atol(getenv(name)) : 0; }

/* ---- Names ---- */

/* A file's name in the folder, `.` of the folder itself, or empty if it is elsewhere. */
struct name {
    char text[PATH_MAX];
};

static struct name name_of_path(const char *path) {
    const char *folder = getenv("TORTURE_FOLDER");
    size_t length = folder ? strlen(folder) : 0;
    struct name name = {""};
    if (length > 0 && strncmp(path, folder, length) == 0 && path[length] == '/')
        strcpy(name.text, path + length + 1);
    else if (length > 0 && strcmp(path, folder) == 0)
        strcpy(name.text, ".");
    return name;
}

static struct name name_of_file(int file) {
    char link[64], path[PATH_MAX];
    snprintf(link, sizeof link, "/proc/self/fd/%d", file);
    long length = syscall(SYS_readlinkat, AT_FDCWD, link, path, sizeof path - 1);
    path[length < 0 ? 0 : length] = 0;
    return name_of_path(path);
}

/* The name of this path, whose last step need not be there. */
static struct name name_at(int folder, const char *path) {
    char front[PATH_MAX], whole[PATH_MAX];
    const char *last = strrchr(path, '/');
    snprintf(front, sizeof front, "%.*s", last == NULL ? 1 : last == path ? 1 : (int)(last - path), last == NULL ? "." : path);
    int opened = syscall(SYS_openat, folder, front, O_PATH | O_DIRECTORY | O_CLOEXEC);
    struct name name = opened < 0 ? (struct name){""} : name_of_file(opened);
    if (opened >= 0)
        syscall(SYS_close, opened);
    last = last == NULL ? path : last + 1;
    if (strcmp(name.text, ".") == 0)
        snprintf(name.text, sizeof name.text, "%s", last);
    else if (*name.text && snprintf(whole, sizeof whole, "%s/%s", name.text, last) < (int)sizeof whole)
        strcpy(name.text, whole);
    return name;
}

/* ---- The list ---- */

/* Appends a line in one write, so that lines of threads and processes do not mix. */
static void tell(const char *words, const void *bytes, size_t size) {
    const char *path = getenv("TORTURE_LIST");
    if (path == NULL)
        return;
    char *line = malloc(strlen(words) + 2 * size + 2);
    if (line == NULL)
        abort();
    long length = sprintf(line, "%s", words);
    for (size_t at = 0; at < size; at++)
        length += sprintf(line + length, "%02x", ((const unsigned char *)bytes)[at]);
    line[length++] = '\n';
    int list = syscall(SYS_openat, AT_FDCWD, path, O_WRONLY | O_APPEND | O_CREAT | O_CLOEXEC, 0600);
    if (list < 0 || syscall(SYS_write, list, line, length) != length)
        abort();
    syscall(SYS_close, list);
    free(line);
}

static void tell_words(const char *format, ...) {
    char words[2 * PATH_MAX + 64];
    va_list args;
    va_start(args, format);
    vsnprintf(words, sizeof words, format, args);
    va_end(args);
    tell(words, NULL, 0);
}

static long thread(void) { return syscall(SYS_gettid); }

/* Whether the file is the program's output. */
static bool is_output(int file) {
    struct stat found;
    const char *lines = getenv("TORTURE_LINES");
    return lines != NULL && fstat(file, &found) == 0 && S_ISFIFO(found.st_mode) && found.st_ino == strtoull(lines, NULL, 10);
}

/* ---- Before and after a call ---- */

static void begin(void) {
    long call = atomic_fetch_add(&calls, 1) + 1;
    if (call == setting("TORTURE_KILL")) {
        atomic_store(&is_stopping, true);
        while (atomic_load(&under_way) > 0)
            syscall(SYS_nanosleep, &(struct timespec){0, 20000}, NULL);
        kill(0, SIGKILL);
    }
    atomic_fetch_add(&under_way, 1);
    if (atomic_load(&is_stopping)) {
        atomic_fetch_sub(&under_way, 1);
        for (;;)
            pause();
    }
}

/* Ends it, and returns what it answered. */
static long end(long answer) {
    int error = errno;
    atomic_fetch_sub(&under_way, 1);
    errno = error;
    return answer;
}

/* Whether a call that may need room finds the disk full. */
static bool is_full(void) {
    long first = setting("TORTURE_FULL"), growth = atomic_fetch_add(&growths, 1) + 1;
    if (first == 0 || growth < first)
        return false;
    if (growth == first)
        tell_words("full");
    errno = ENOSPC;
    return true;
}

/* Waits for a time that the number of the sync decides. */
static void delay(void) {
    long most = setting("TORTURE_DELAY");
    uint64_t number = (uint64_t)setting("TORTURE_SEED") + (uint64_t)atomic_fetch_add(&syncs, 1);
    number = (number + 1) * 0x9e3779b97f4a7c15;
    number = (number ^ number >> 30) * 0xbf58476d1ce4e5b9;
    number ^= number >> 31;
    if (most > 0)
        syscall(SYS_nanosleep, &(struct timespec){0, (long)(number % (uint64_t)most) * 1000}, NULL);
}

/* ---- Calls of files ---- */

static int open_at(int folder, const char *path, int flags, mode_t mode, const char *called) {
    typedef int (*openat_call)(int, const char *, int, ...);
    bool changes = (flags & (O_CREAT | O_TRUNC)) != 0;
    struct name name = changes ? name_at(folder, path) : (struct name){""};
    if (*name.text == 0)
        return NEXT(openat_call, called)(folder, path, flags, mode);
    begin();
    bool was_there = syscall(SYS_faccessat, folder, path, F_OK) == 0;
    if (!was_there && is_full())
        return end(-1);
    int file = NEXT(openat_call, called)(folder, path, flags, mode);
    if (file >= 0 && !was_there)
        tell_words("create %s", name.text);
    else if (file >= 0 && flags & O_TRUNC)
        tell_words("cut %s 0", name.text);
    return end(file);
}

#define MODE(flags, mode)                       \
    mode_t mode = 0;                            \
    if (flags & (O_CREAT | O_TMPFILE)) {        \
        va_list args;                           \
        va_start(args, flags);                  \
        mode = (mode_t)va_arg(args, unsigned);  \
        va_end(args);                           \
    }

int openat(int folder, const char *path, int flags, ...) {
    MODE(flags, mode)
    return open_at(folder, path, flags, mode, "openat");
}

int open(const char *path, int flags, ...) {
    MODE(flags, mode)
    return open_at(AT_FDCWD, path, flags, mode, "openat");
}

int creat(const char *path, mode_t mode) { return open_at(AT_FDCWD, path, O_CREAT | O_WRONLY | O_TRUNC, mode, "openat"); }

/* The names by which programs with 64-bit offsets call them. */
int openat64(int, const char *, int, ...) __attribute__((alias("openat")));
int open64(const char *, int, ...) __attribute__((alias("open")));
int creat64(const char *, mode_t) __attribute__((alias("creat")));

/* Writes these bytes at this place, or where the file is at -1. On a full disk half of them find room at first. */
static ssize_t write_at(int file, const struct iovec *parts, int count, off_t at) {
    typedef ssize_t (*pwritev_call)(int, const struct iovec *, int, off_t);
    typedef ssize_t (*writev_call)(int, const struct iovec *, int);
    struct name name = is_output(file) ? (struct name){""} : name_of_file(file);
    bool counts = *name.text != 0, is_durable = false;
    char words[PATH_MAX + 64], *bytes = NULL;
    size_t size = 0;
    if (counts) {
        begin();
        if (is_full())
            return end(-1);
        is_durable = (fcntl(file, F_GETFL) & O_DSYNC) != 0;
        if (is_durable)
            delay();
    }
    ssize_t written = at < 0 ? NEXT(writev_call, "writev")(file, parts, count) : NEXT(pwritev_call, "pwritev")(file, parts, count, at);
    int error = errno;
    if (written > 0 && (counts || is_output(file)) && getenv("TORTURE_LIST")) {
        if ((bytes = malloc((size_t)written)) == NULL)
            abort();
        for (int part = 0; part < count && size < (size_t)written; part++) {
            size_t rest = (size_t)written - size, length = parts[part].iov_len < rest ? parts[part].iov_len : rest;
            memcpy(bytes + size, parts[part].iov_base, length);
            size += length;
        }
        if (counts)
            snprintf(words, sizeof words, "write %s %lld ", name.text, (long long)(at < 0 ? lseek(file, 0, SEEK_CUR) - written : at));
        tell(counts ? words : "line ", bytes, size);
        free(bytes);
        if (is_durable)
            tell_words("synced %s %ld", name.text, thread());
    }
    errno = error;
    return counts ? end(written) : written;
}

ssize_t write(int file, const void *bytes, size_t size) { return write_at(file, &(struct iovec){(void *)bytes, size}, 1, -1); }

ssize_t writev(int file, const struct iovec *parts, int count) { return write_at(file, parts, count, -1); }

ssize_t pwrite(int file, const void *bytes, size_t size, off_t at) {
    return write_at(file, &(struct iovec){(void *)bytes, size}, 1, at);
}

ssize_t pwritev(int file, const struct iovec *parts, int count, off_t at) { return write_at(file, parts, count, at); }

ssize_t pwrite64(int, const void *, size_t, off_t) __attribute__((alias("pwrite")));
ssize_t pwritev64(int, const struct iovec *, int, off_t) __attribute__((alias("pwritev")));

/* Gives a file a size. */
static int resize(int file, off_t size, bool is_growth, const char *called) {
    struct name name = name_of_file(file);
    typedef int (*resize_call)(int, off_t);
    typedef int (*allocate_call)(int, off_t, off_t);
    bool counts = *name.text != 0;
    if (counts)
        begin();
    if (counts && is_growth && is_full())
        return (int)end(strcmp(called, "posix_fallocate") == 0 ? ENOSPC : -1);
    int failed = strcmp(called, "ftruncate") == 0 ? NEXT(resize_call, called)(file, size) : NEXT(allocate_call, called)(file, 0, size);
    if (counts && failed == 0)
        tell_words("cut %s %lld", name.text, (long long)size);
    return counts ? (int)end(failed) : failed;
}

int ftruncate(int file, off_t size) {
    struct stat found;
    return resize(file, size, fstat(file, &found) == 0 && found.st_size < size, "ftruncate");
}

int posix_fallocate(int file, off_t at, off_t size) {
    struct stat found;
    return resize(file, fstat(file, &found) == 0 && found.st_size > at + size ? found.st_size : at + size, true, "posix_fallocate");
}

int ftruncate64(int, off_t) __attribute__((alias("ftruncate")));
int posix_fallocate64(int, off_t, off_t) __attribute__((alias("posix_fallocate")));

/* Syncs the file of this name. */
static int sync_named(int file, const char *name, const char *called) {
    if (*name == 0)
        return NEXT(int (*)(int), called)(file);
    begin();
    tell_words("syncing %s %ld", name, thread());
    delay();
    int failed = NEXT(int (*)(int), called)(file);
    if (failed == 0)
        tell_words("synced %s %ld", name, thread());
    return (int)end(failed);
}

int fsync(int file) { return sync_named(file, name_of_file(file).text, "fsync"); }

int fdatasync(int file) { return sync_named(file, name_of_file(file).text, "fdatasync"); }

int syncfs(int file) { return sync_named(file, "*", "syncfs"); }

void sync(void) {
    begin();
    tell_words("syncing * %ld", thread());
    NEXT(void (*)(void), "sync")();
    tell_words("synced * %ld", thread());
    end(0);
}

/* ---- Calls of names ---- */

static int rename_named(int from, const char *old, int to, const char *new, unsigned flags) {
    struct name left = name_at(from, old), right = name_at(to, new);
    bool counts = *left.text || *right.text;
    if (counts)
        begin();
    int failed = (int)syscall(SYS_renameat2, from, old, to, new, flags);
    if (counts && failed == 0 && *left.text && *right.text)
        tell_words("rename %s %s", left.text, right.text);
    else if (counts && failed == 0 && *left.text)
        tell_words("delete %s", left.text);
    return counts ? (int)end(failed) : failed;
}

int rename(const char *old, const char *new) { return rename_named(AT_FDCWD, old, AT_FDCWD, new, 0); }

int renameat(int from, const char *old, int to, const char *new) { return rename_named(from, old, to, new, 0); }

int renameat2(int from, const char *old, int to, const char *new, unsigned flags) { return rename_named(from, old, to, new, flags); }

int linkat(int from, const char *old, int to, const char *new, int flags) {
    struct name left = name_at(from, old), right = name_at(to, new);
    bool counts = *right.text != 0;
    if (counts)
        begin();
    int failed = (int)syscall(SYS_linkat, from, old, to, new, flags);
    if (counts && failed == 0)
        tell_words("link %s %s", left.text, right.text);
    return counts ? (int)end(failed) : failed;
}

int link(const char *old, const char *new) { return linkat(AT_FDCWD, old, AT_FDCWD, new, 0); }

int unlinkat(int folder, const char *path, int flags) {
    struct name name = name_at(folder, path);
    bool counts = *name.text != 0;
    if (counts)
        begin();
    int failed = (int)syscall(SYS_unlinkat, folder, path, flags);
    if (counts && failed == 0 && !(flags & AT_REMOVEDIR))
        tell_words("delete %s", name.text);
    return counts ? (int)end(failed) : failed;
}

int unlink(const char *path) { return unlinkat(AT_FDCWD, path, 0); }

int remove(const char *path) {
    struct stat found;
    return unlinkat(AT_FDCWD, path, lstat(path, &found) == 0 && S_ISDIR(found.st_mode) ? AT_REMOVEDIR : 0);
}
