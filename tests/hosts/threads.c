/* Threads that take turns: at each call on the disk, a lock or a thread the seed chooses who goes on, so that a run is a
 * function of its seed. A program that is linked with this file makes these calls in place of the C library's: those of C, and
 * the futex that locks of Rust are made of. */
#define _GNU_SOURCE
#include "lives.h"
#include <dlfcn.h>
#include <errno.h>
#include <limits.h>
#include <pthread.h>
#include <semaphore.h>
#include <stdarg.h>
#include <sys/syscall.h>
#include <unistd.h>

enum { THREADS = 32, WAIT = 0, WAKE = 1, WAIT_BITS = 9, KIND = 127 };

static struct thread {
    pthread_t own;
    void *(*work)(void *);
    void *given;
    const void *waits; /* for what happens at this address; NULL: it may go on */
    bool is_over;
    int has_turn;
} threads[THREADS];
static int count = 1;
static _Thread_local int self;

/* The function of this name of the C library. */
#define NEXT(type, name) ((type)dlsym(RTLD_NEXT, name))
static long (*real_syscall)(long, ...);

__attribute__((constructor)) static void find_syscall(void) { real_syscall = NEXT(long (*)(long, ...), "syscall"); }

/* ---- Turns ---- */

/* Chooses who goes on. Sometimes one that waits is woken for nothing. */
static int choose(void) {
    int able[THREADS], ables = 0, woken = (int)any_below(64 * THREADS);
    for (int n = 0; n < count; n++)
        if (!threads[n].is_over && threads[n].waits == NULL)
            able[ables++] = n;
    must(ables > 0, "all threads wait");
    if (woken < count)
        threads[woken].waits = NULL;
    if (!threads[self].is_over && threads[self].waits == NULL && any_below(8) < machine->loyalty)
        return self;
    return able[any_below((uint64_t)ables)];
}

static void give_turn(int next) {
    __atomic_store_n(&threads[next].has_turn, 1, __ATOMIC_SEQ_CST);
    real_syscall(SYS_futex, &threads[next].has_turn, WAKE, 1, NULL, NULL, 0);
}

static void await_turn(void) {
    while (__atomic_exchange_n(&threads[self].has_turn, 0, __ATOMIC_SEQ_CST) == 0)
        real_syscall(SYS_futex, &threads[self].has_turn, WAIT, 0, NULL, NULL, 0);
}

void pass(void) {
    static unsigned turns;
    must(++turns < 1000000, "no end");
    int next = choose();
    if (next != self) {
        give_turn(next);
        await_turn();
    }
}

static void wait_at(const void *at) {
    threads[self].waits = at;
    pass();
}

/* Wakes some of the threads that wait there. Returns how many. */
static int wake(const void *at, int most) {
    int woken = 0, first = (int)any_below((uint64_t)count);
    for (int n = 0; n < count && woken < most; n++) {
        struct thread *thread = &threads[(first + n) % count];
        if (thread->waits == at) {
            thread->waits = NULL;
            woken++;
        }
    }
    return woken;
}

/* ---- Threads ---- */

static void *run(void *given) {
    struct thread *thread = given;
    self = (int)(thread - threads);
    await_turn();
    void *result = thread->work(thread->given);
    thread->is_over = true;
    wake(thread, INT_MAX);
    give_turn(choose());
    return result;
}

int pthread_create(pthread_t *own, const pthread_attr_t *attr, void *(*work)(void *), void *given) {
    typedef int (*create)(pthread_t *, const pthread_attr_t *, void *(*)(void *), void *);
    if (fails(OTHER, "for a thread") != 0)
        return EAGAIN;
    must(count < THREADS, "too many threads");
    struct thread *thread = &threads[count];
    *thread = (struct thread){.work = work, .given = given};
    must(NEXT(create, "pthread_create")(&thread->own, attr, run, thread) == 0, "the test lacks a thread");
    *own = thread->own;
    count++;
    return 0;
}

int pthread_join(pthread_t own, void **result) {
    int n = count - 1; /* the newest one, if another one had its name */
    while (!pthread_equal(threads[n].own, own))
        n--;
    while (!threads[n].is_over)
        wait_at(&threads[n]);
    return NEXT(int (*)(pthread_t, void **), "pthread_join")(own, result);
}

/* ---- Locks: each is its first word ---- */

static int take(int *word) {
    while (*word != 0)
        wait_at(word);
    *word = 1;
    return 0;
}

static void release(int *word) {
    *word = 0;
    wake(word, 1);
}

int pthread_mutex_init(pthread_mutex_t *mutex, const pthread_mutexattr_t *attr) {
    must(attr == NULL, "a special lock");
    return *(int *)mutex = 0;
}

int pthread_mutex_lock(pthread_mutex_t *mutex) {
    pass();
    return take((int *)mutex);
}

int pthread_mutex_unlock(pthread_mutex_t *mutex) {
    release((int *)mutex);
    pass();
    return 0;
}

int pthread_cond_wait(pthread_cond_t *condition, pthread_mutex_t *mutex) {
    release((int *)mutex);
    wait_at(condition);
    return take((int *)mutex);
}

int pthread_cond_broadcast(pthread_cond_t *condition) {
    wake(condition, INT_MAX);
    pass();
    return 0;
}

int sem_init(sem_t *semaphore, int is_shared, unsigned value) {
    must(is_shared == 0 && value == 0, "a special semaphore");
    return *(int *)semaphore = 0;
}

int sem_post(sem_t *semaphore) {
    ++*(int *)semaphore;
    wake(semaphore, 1);
    pass();
    return 0;
}

int sem_wait(sem_t *semaphore) {
    pass();
    if (*(int *)semaphore == 0)
        wait_at(semaphore);
    if (*(int *)semaphore == 0) { /* woken for nothing */
        errno = EINTR;
        return -1;
    }
    --*(int *)semaphore;
    return 0;
}

/* A futex. */
static long wait_or_wake(int *word, int kind, int value) {
    pass();
    if (kind == WAKE)
        return wake(word, value);
    must(kind == WAIT || kind == WAIT_BITS, "another futex");
    if (*word != value) {
        errno = EAGAIN;
        return -1;
    }
    wait_at(word);
    return 0;
}

long syscall(long number, ...) {
    long with[6];
    va_list args;
    va_start(args, number);
    for (int n = 0; n < 6; n++)
        with[n] = va_arg(args, long);
    va_end(args);
    return number == SYS_futex ? wait_or_wake((int *)with[0], (int)with[1] & KIND, (int)with[2])
                               : real_syscall(number, with[0], with[1], with[2], with[3], with[4], with[5]);
}
