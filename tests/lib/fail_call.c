/* Loaded into a program, fails one of its calls, and says so on standard error. FAIL is the kind of call: growth (malloc,
   realloc, mmap), thread, open, list, stat, read, write, sync, rename, delete, make (mkdir), mode (fchmod) or owner (chown). AT is
   its number among the program's calls of that kind, from 1. With OF, only reads or writes of the file OF count, and those after
   it fail too. WITH is the errno, or 0 for a read or write of one byte. The kind change fails no read: before it, the file TO
   gets the bytes of the file FROM in place. */
#define _GNU_SOURCE
#include <dlfcn.h>
#include <errno.h>
#include <fcntl.h>
#include <pthread.h>
#include <stdarg.h>
#include <stdatomic.h>
#include <stdlib.h>
#include <string.h>
#include <sys/mman.h>
#include <sys/sendfile.h>
#include <sys/stat.h>
#include <sys/syscall.h>
#include <unistd.h>

static atomic_long calls;

/* The function of this name that the program would call without this file. */
#define NEXT(type, name) ((type)dlsym(RTLD_NEXT, name))

/* Whether this call is the one, or with OF after it. Then errno is set. */
static int fails(const char *kind)
{
    const char *wanted = getenv("FAIL");
    if (!wanted || strcmp(wanted, kind))
        return 0;
    long call = atomic_fetch_add(&calls, 1) + 1, at = atol(getenv("AT"));
    if (call < at || (call > at && !getenv("OF")))
        return 0;
    static const char text[] = "call failed\n";
    syscall(SYS_write, 2, text, sizeof text - 1);
    errno = atoi(getenv("WITH"));
    return 1;
}

/* Whether a file is OF, if that is given. */
static int is_of(int file)
{
    const char *of = getenv("OF");
    struct stat wanted, found;
    return !of || (!stat(of, &wanted) && !fstat(file, &found) && found.st_dev == wanted.st_dev && found.st_ino == wanted.st_ino);
}

void *malloc(size_t size)
{
    return fails("growth") ? NULL : NEXT(void *(*)(size_t), "malloc")(size);
}

void *realloc(void *old, size_t size)
{
    return fails("growth") ? NULL : NEXT(void *(*)(void *, size_t), "realloc")(old, size);
}

void *mmap(void *at, size_t size, int prot, int flags, int file, off_t from)
{
    typedef void *(*map)(void *, size_t, int, int, int, off_t);
    return fails("growth") ? MAP_FAILED : NEXT(map, "mmap")(at, size, prot, flags, file, from);
}

int pthread_create(pthread_t *thread, const pthread_attr_t *attr, void *(*start)(void *), void *arg)
{
    typedef int (*create)(pthread_t *, const pthread_attr_t *, void *(*)(void *), void *);
    return fails("thread") ? errno : NEXT(create, "pthread_create")(thread, attr, start, arg);
}

int open(const char *path, int flags, ...)
{
    va_list args;
    va_start(args, flags);
    int mode = va_arg(args, int);
    va_end(args);
    return fails("open") ? -1 : NEXT(int (*)(const char *, int, ...), "open")(path, flags, mode);
}

int openat(int folder, const char *path, int flags, ...)
{
    va_list args;
    va_start(args, flags);
    int mode = va_arg(args, int);
    va_end(args);
    return fails("open") ? -1 : NEXT(int (*)(int, const char *, int, ...), "openat")(folder, path, flags, mode);
}

ssize_t getdents64(int folder, void *entries, size_t size)
{
    return fails("list") ? -1 : NEXT(ssize_t (*)(int, void *, size_t), "getdents64")(folder, entries, size);
}

int statx(int folder, const char *path, int flags, unsigned mask, struct statx *found)
{
    typedef int (*stat)(int, const char *, int, unsigned, struct statx *);
    return fails("stat") ? -1 : NEXT(stat, "statx")(folder, path, flags, mask, found);
}

/* Gives the file TO the bytes of the file FROM, as another program would meanwhile. */
static void change(void)
{
    int from = syscall(SYS_open, getenv("FROM"), O_RDONLY);
    int to = syscall(SYS_open, getenv("TO"), O_WRONLY | O_TRUNC);
    if (sendfile(to, from, NULL, 1 << 30) < 0)
        abort();
    close(from);
    close(to);
}

ssize_t read(int file, void *bytes, size_t size)
{
    if (fails("change"))
        change();
    if (is_of(file) && fails("read")) {
        if (errno)
            return -1;
        size = size < 1 ? size : 1;
    }
    return NEXT(ssize_t (*)(int, void *, size_t), "read")(file, bytes, size);
}

ssize_t write(int file, const void *bytes, size_t size)
{
    if (is_of(file) && fails("write")) {
        if (errno)
            return -1;
        size = size < 1 ? size : 1;
    }
    return NEXT(ssize_t (*)(int, const void *, size_t), "write")(file, bytes, size);
}

int fsync(int file)
{
    return fails("sync") ? -1 : NEXT(int (*)(int), "fsync")(file);
}

int rename(const char *from, const char *to)
{
    return fails("rename") ? -1 : NEXT(int (*)(const char *, const char *), "rename")(from, to);
}

int unlink(const char *path)
{
    return fails("delete") ? -1 : NEXT(int (*)(const char *), "unlink")(path);
}

int mkdir(const char *path, mode_t mode)
{
    return fails("make") ? -1 : NEXT(int (*)(const char *, mode_t), "mkdir")(path, mode);
}

int fchmod(int file, mode_t mode)
{
    return fails("mode") ? -1 : NEXT(int (*)(int, mode_t), "fchmod")(file, mode);
}

int chown(const char *path, uid_t owner, gid_t group)
{
    return fails("owner") ? -1 : NEXT(int (*)(const char *, uid_t, gid_t), "chown")(path, owner, group);
}
