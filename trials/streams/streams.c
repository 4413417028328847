/* Loaded before a program: its reads of standard input and its writes to standard output meet faults.
 *
 * READ_FAILS, WRITE_FAILS: the number of the call that fails, and with it all later ones.
 * READ_BREAKS, WRITE_BREAKS: the number of the call that a signal interrupts, once.
 * READ_MOST, WRITE_MOST: how many bytes a call gives or takes at most.
 * WRITE_ROOM: how many bytes are taken in all; then the sink is full, or takes nothing where WRITE_NONE is set. */
#define _GNU_SOURCE
#include <dlfcn.h>
#include <errno.h>
#include <stdlib.h>
#include <sys/types.h>
#include <unistd.h>

static long reads, writes, taken;

/* The number that the environment has under a name, or -1. */
static long told(const char *name) {
    const char *number = getenv(name);
    return number ? strtol(number, NULL, 10) : -1;
}

static size_t at_most(size_t size, long most) { return most >= 0 && size > (size_t)most ? (size_t)most : size; }

static ssize_t fails(int cause) {
    errno = cause;
    return -1;
}

/* Whether a call with this number fails, and why: 0 where it doesn't. */
static int fault(long number, const char *fails_at, int cause, const char *breaks_at) {
    long first = told(fails_at);
    if (first > 0 && number >= first) return cause;
    return number == told(breaks_at) ? EINTR : 0;
}

ssize_t read(int file, void *held, size_t size) {
    ssize_t (*next)(int, void *, size_t) = (ssize_t(*)(int, void *, size_t))dlsym(RTLD_NEXT, "read");
    int cause;
    if (file != STDIN_FILENO) return next(file, held, size);
    cause = fault(++reads, "READ_FAILS", EIO, "READ_BREAKS");
    return cause ? fails(cause) : next(file, held, at_most(size, told("READ_MOST")));
}

ssize_t write(int file, const void *held, size_t size) {
    ssize_t (*next)(int, const void *, size_t) = (ssize_t(*)(int, const void *, size_t))dlsym(RTLD_NEXT, "write");
    long room = told("WRITE_ROOM");
    ssize_t took;
    int cause;
    if (file != STDOUT_FILENO) return next(file, held, size);
    cause = fault(++writes, "WRITE_FAILS", EIO, "WRITE_BREAKS");
    if (cause) return fails(cause);
    if (room >= 0 && taken >= room && size > 0) return told("WRITE_NONE") > 0 ? 0 : fails(ENOSPC);
    took = next(file, held, at_most(at_most(size, told("WRITE_MOST")), room >= 0 ? room - taken : -1));
    if (took > 0) taken += took;
    return took;
}
