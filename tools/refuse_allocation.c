/* Refuses one allocation of a program that it is loaded before (LD_PRELOAD). A thread that is started counts as one too.

   REFUSED_ALLOCATION is the number of the allocation that is refused, counted from 1; 0 refuses none. Where
   ALLOCATIONS_FILE names a file, the number of allocations is written to it when the program ends, also by SIGTERM. */
#define _GNU_SOURCE
#include <dlfcn.h>
#include <errno.h>
#include <fcntl.h>
#include <pthread.h>
#include <signal.h>
#include <stdatomic.h>
#include <stdio.h>
#include <stdlib.h>
#include <unistd.h>

static void *(*next_malloc)(size_t);
static void *(*next_realloc)(void *, size_t);
static int (*next_thread)(pthread_t *, const pthread_attr_t *, void *(*)(void *), void *);
static atomic_ulong count;
static unsigned long refused;
static int counted = -1;

/* Writes how many allocations there were. */
static void end(void) {
    char line[32];
    int length = snprintf(line, sizeof line, "%lu\n", (unsigned long)count);
    if (counted >= 0 && pwrite(counted, line, length, 0) != length) abort();
}

static void end_by(int number) {
    end();
    signal(number, SIG_DFL);
    raise(number);
}

__attribute__((constructor)) static void begin(void) {
    const char *number = getenv("REFUSED_ALLOCATION"), *name = getenv("ALLOCATIONS_FILE");
    next_malloc = (void *(*)(size_t))dlsym(RTLD_NEXT, "malloc");
    next_realloc = (void *(*)(void *, size_t))dlsym(RTLD_NEXT, "realloc");
    next_thread = (int (*)(pthread_t *, const pthread_attr_t *, void *(*)(void *), void *))dlsym(RTLD_NEXT, "pthread_create");
    if (name) counted = open(name, O_WRONLY | O_CREAT | O_TRUNC | O_CLOEXEC, 0600);
    if (counted >= 0) signal(SIGTERM, end_by);
    count = 0;
    refused = number ? strtoul(number, 0, 10) : 0;
}

__attribute__((destructor)) static void at_end(void) {
    end();
}

/* A program with threads ends by this, and without what is to be done at its end. */
__attribute__((noreturn)) void _exit(int status) {
    void (*next_exit)(int) = (void (*)(int))dlsym(RTLD_NEXT, "_exit");
    end();
    next_exit(status);
    __builtin_unreachable();
}

static int is_refused(void) {
    unsigned long number = atomic_fetch_add(&count, 1) + 1;
    if (refused == 0 || number != refused) return 0;
    errno = ENOMEM;
    return 1;
}

void *malloc(size_t size) {
    if (!next_malloc) next_malloc = (void *(*)(size_t))dlsym(RTLD_NEXT, "malloc");
    return is_refused() ? 0 : next_malloc(size);
}

void *realloc(void *old, size_t size) {
    if (!next_realloc) next_realloc = (void *(*)(void *, size_t))dlsym(RTLD_NEXT, "realloc");
    return is_refused() ? 0 : next_realloc(old, size);
}

int pthread_create(pthread_t *thread, const pthread_attr_t *how, void *(*start)(void *), void *with) {
    return is_refused() ? EAGAIN : next_thread(thread, how, start, with);
}
