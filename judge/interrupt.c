/* Lets calls on standard input and standard output fail. Before the first read of standard input that is made there
 * are as many that fail with EINTR as READS says, and before each later one as many as READS_LATER says; so of writes
 * to standard output by WRITES and WRITES_LATER. PIECE is how many octets a call moves at most, GIVEN after how many
 * octets each read fails, with the number of an error that ERROR says or EIO, ROOM after how many each write fails with
 * ENOSPC. Where LOCKS is given, each lock fails, with that error's number. After as many threads as THREADS says none is
 * made (EAGAIN). What isn't given is 0 for the counts of interrupts, and no limit for the others.
 * Built with `cc -shared -fPIC -o interrupt.so interrupt.c -ldl`, loaded by LD_PRELOAD. */
#define _GNU_SOURCE
#include <dlfcn.h>
#include <errno.h>
#include <limits.h>
#include <pthread.h>
#include <stdlib.h>
#include <sys/file.h>
#include <unistd.h>

struct calls {
    long left, later, room;
    int full;
};

static struct calls reads, writes;
static long piece, locks;
static _Atomic long threads;

static long number(const char *name, long other) {
    const char *digits = getenv(name);
    return digits ? atol(digits) : other;
}

__attribute__((constructor)) static void begin(void) {
    reads = (struct calls){number("READS", 0), number("READS_LATER", 0), number("GIVEN", LONG_MAX), EIO};
    reads.full = number("ERROR", EIO);
    writes = (struct calls){number("WRITES", 0), number("WRITES_LATER", 0), number("ROOM", LONG_MAX), ENOSPC};
    piece = number("PIECE", LONG_MAX);
    locks = number("LOCKS", 0);
    threads = number("THREADS", LONG_MAX);
}

static int fails(int error) {
    errno = error;
    return -1;
}

/* How many of these octets a call may move, or -1 where it fails. */
static ssize_t asked(struct calls *calls, size_t count) {
    if (calls->left > 0) {
        calls->left--;
        return fails(EINTR);
    }
    calls->left = calls->later;
    if (count > (size_t)piece) count = piece;
    if (count <= (size_t)calls->room) return count;
    return calls->room ? calls->room : fails(calls->full);
}

/* Notes how many were moved. */
static ssize_t moved(struct calls *calls, ssize_t count) {
    if (count > 0 && calls->room != LONG_MAX) calls->room -= count;
    return count;
}

ssize_t write(int file, const void *octets, size_t count) {
    static ssize_t (*next)(int, const void *, size_t);
    if (!next) next = dlsym(RTLD_NEXT, "write");
    if (file != 1) return next(file, octets, count);
    ssize_t most = asked(&writes, count);
    return most < 0 ? most : moved(&writes, next(file, octets, most));
}

ssize_t read(int file, void *octets, size_t count) {
    static ssize_t (*next)(int, void *, size_t);
    if (!next) next = dlsym(RTLD_NEXT, "read");
    if (file != 0) return next(file, octets, count);
    ssize_t most = asked(&reads, count);
    return most < 0 ? most : moved(&reads, next(file, octets, most));
}

int flock(int file, int how) {
    static int (*next)(int, int);
    if (!next) next = dlsym(RTLD_NEXT, "flock");
    return locks ? fails(locks) : next(file, how);
}

int pthread_create(pthread_t *thread, const pthread_attr_t *attributes, void *(*run)(void *), void *given) {
    static int (*next)(pthread_t *, const pthread_attr_t *, void *(*)(void *), void *);
    if (!next) next = dlsym(RTLD_NEXT, "pthread_create");
    if (threads != LONG_MAX && threads-- <= 0) return EAGAIN;
    return next(thread, attributes, run, given);
}
