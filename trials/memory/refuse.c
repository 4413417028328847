/* Loaded before a program: refuses one allocation, the one whose number REFUSE names, or where FROM is set all from that one
 * on, and at the end writes to the file that COUNTED names how many were asked for, and how many blocks were taken and never
 * given back. A thread that is asked for counts as an allocation. */
#define _GNU_SOURCE
#include <dlfcn.h>
#include <errno.h>
#include <fcntl.h>
#include <pthread.h>
#include <stddef.h>
#include <stdlib.h>
#include <string.h>
#include <sys/syscall.h>
#include <unistd.h>

static unsigned long asked, refused;
static long held;
static int is_ready, all_from;

/* What is asked for before the program's own start is none of its allocations. */
__attribute__((constructor)) static void begin(void) {
    const char *number = getenv("REFUSE");
    refused = number ? strtoul(number, NULL, 10) : 0;
    all_from = getenv("FROM") != NULL;
    is_ready = 1;
}

static char *digits_before(char *at, unsigned long number) {
    do {
        *--at = (char)('0' + number % 10);
        number /= 10;
    } while (number);
    return at;
}

__attribute__((destructor)) static void end(void) {
    const char *name = getenv("COUNTED");
    char line[48], *stop = line + sizeof line, *at;
    int file;
    if (!is_ready) return;
    is_ready = 0;
    if (!name || (file = open(name, O_WRONLY | O_CREAT | O_TRUNC, 0600)) < 0) return;
    at = digits_before(stop, held > 0 ? (unsigned long)held : 0);
    *--at = ' ';
    at = digits_before(at, asked);
    if (write(file, at, (size_t)(stop - at)) < 0) syscall(SYS_exit_group, 99);
    close(file);
}

/* A program that ends by this runs no destructors. */
void _exit(int status) {
    end();
    for (;;) syscall(SYS_exit_group, status);
}

static int is_refused(void) {
    unsigned long number;
    if (!is_ready) return 0;
    number = __atomic_add_fetch(&asked, 1, __ATOMIC_SEQ_CST);
    return refused && (number == refused || (all_from && number > refused));
}

extern void *__libc_malloc(size_t), *__libc_calloc(size_t, size_t), *__libc_realloc(void *, size_t), *__libc_memalign(size_t, size_t);
extern void __libc_free(void *);

static void *none(void) {
    errno = ENOMEM;
    return NULL;
}

/* The block, which the program then holds, where there is one. */
static void *taken(void *block) {
    if (block) __atomic_add_fetch(&held, 1, __ATOMIC_SEQ_CST);
    return block;
}

void *malloc(size_t size) { return is_refused() ? none() : taken(__libc_malloc(size)); }

void *calloc(size_t count, size_t size) { return is_refused() ? none() : taken(__libc_calloc(count, size)); }

void *realloc(void *old, size_t size) {
    void *block;
    if (is_refused()) return none();
    block = __libc_realloc(old, size);
    if (old && !block && size == 0) __atomic_sub_fetch(&held, 1, __ATOMIC_SEQ_CST);
    return old ? block : taken(block);
}

void *aligned_alloc(size_t to, size_t size) { return is_refused() ? none() : taken(__libc_memalign(to, size)); }

int posix_memalign(void **at, size_t to, size_t size) {
    void *made = is_refused() ? NULL : taken(__libc_memalign(to, size));
    if (!made) return ENOMEM;
    *at = made;
    return 0;
}

void free(void *block) {
    if (block) __atomic_sub_fetch(&held, 1, __ATOMIC_SEQ_CST);
    __libc_free(block);
}

int pthread_create(pthread_t *thread, const pthread_attr_t *how, void *(*body)(void *), void *given) {
    static int (*next)(pthread_t *, const pthread_attr_t *, void *(*)(void *), void *);
    if (!next) *(void **)&next = dlsym(RTLD_NEXT, "pthread_create");
    return is_refused() ? EAGAIN : next(thread, how, body, given);
}
