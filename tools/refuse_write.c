/* Lets one call fail by EIO that writes or syncs a file of a store, whose name ends in `.db` or has `.db-new-`, or its log (`-wal`), renames a
   file to such a name, or syncs a folder, of a program that it is loaded before (LD_PRELOAD); or kills the program at that call, before it is
   made. Where a sync fails the file loses what was written to it since its last sync, as it may on a disk that fails. Where the program is
   killed, files may lose that too, as where the power fails.

   REFUSED_WRITE is the number of the call that fails, counted from 1, and KILLED_WRITE that of the call at which the program is killed; 0 is
   none. LOST_WRITES says which files then lose what they haven't synced: 0 none, 1 logs, 2 the others, 3 all. WRITES_FILE names a file of
   two numbers: how many calls there were, and at which nanosecond of CLOCK_MONOTONIC that call was, 0 if it wasn't made. */
#define _GNU_SOURCE
#include <dlfcn.h>
#include <errno.h>
#include <fcntl.h>
#include <pthread.h>
#include <signal.h>
#include <stdatomic.h>
#include <stdint.h>
#include <stdio.h>
#include <stdlib.h>
#include <string.h>
#include <sys/mman.h>
#include <sys/stat.h>
#include <sys/uio.h>
#include <time.h>
#include <unistd.h>

enum { NO_STORE, LOG, OTHER };
enum { MOST_FILES = 16 };

typedef struct {
    _Atomic uint64_t calls, time;
} Counts;

/* A write that its file hasn't synced, with what stood there before it, and how long the file was. */
typedef struct Write {
    struct Write *before;
    int file, kind;
    ino_t node;
    off64_t place, size;
    size_t length;
    char old[];
} Write;

static Counts uncounted, *counts = &uncounted;
static uint64_t refused, killed, lost;
static Write *unsynced;
static struct { ino_t node; int file; } kept[MOST_FILES];
static pthread_mutex_t lock = PTHREAD_MUTEX_INITIALIZER;

static uint64_t number_of(const char *name) {
    const char *number = getenv(name);
    return number ? strtoull(number, 0, 10) : 0;
}

/* The file is mapped, so that it has the numbers also if the program is killed. */
__attribute__((constructor)) static void begin(void) {
    static const Counts none;
    const char *name = getenv("WRITES_FILE");
    refused = number_of("REFUSED_WRITE");
    killed = number_of("KILLED_WRITE");
    lost = number_of("LOST_WRITES");
    if (!name) return;
    int file = open(name, O_RDWR | O_CREAT | O_TRUNC | O_CLOEXEC, 0600);
    if (file < 0 || write(file, &none, sizeof none) != sizeof none) abort();
    counts = mmap(0, sizeof *counts, PROT_READ | PROT_WRITE, MAP_SHARED, file, 0);
    if (counts == MAP_FAILED) abort();
    close(file);
}

static int ends_in(const char *path, const char *end) {
    size_t length = strlen(path), more = strlen(end);
    return length >= more && !strcmp(path + length - more, end);
}

static int kind_of(int file) {
    char link[64], path[4096];
    snprintf(link, sizeof link, "/proc/self/fd/%d", file);
    ssize_t length = readlink(link, path, sizeof path - 1);
    if (length < 0) return NO_STORE;
    path[length] = 0;
    if (!ends_in(path, ".db") && !ends_in(path, ".db-wal") && !strstr(path, ".db-new-")) return NO_STORE;
    return ends_in(path, "-wal") ? LOG : OTHER;
}

static struct stat state_of(int file) {
    struct stat state;
    if (fstat(file, &state)) abort();
    return state;
}

static ssize_t next_pwrite(int file, const void *bytes, size_t length, off64_t place) {
    ssize_t (*next)(int, const void *, size_t, off64_t) = (ssize_t (*)(int, const void *, size_t, off64_t))dlsym(RTLD_NEXT, "pwrite64");
    return next(file, bytes, length, place);
}

static int next_ftruncate(int file, off64_t size) {
    int (*next)(int, off64_t) = (int (*)(int, off64_t))dlsym(RTLD_NEXT, "ftruncate64");
    return next(file, size);
}

/* Opens a file of this node once more, if it hasn't yet: what wasn't synced is undone by that, also after the program has closed the file. */
static int kept_file(int file, ino_t node) {
    for (int at = 0; at < MOST_FILES; at++) {
        if (!kept[at].node) {
            char link[64];
            snprintf(link, sizeof link, "/proc/self/fd/%d", file);
            kept[at].file = open(link, O_RDWR | O_CLOEXEC);
            if (kept[at].file < 0) abort();
            kept[at].node = node;
        }
        if (kept[at].node == node) return kept[at].file;
    }
    abort();
}

/* Notes that a call is about to change some bytes of a file, or its length. */
static void note(int file, off64_t place, size_t length) {
    int kind = kind_of(file);
    if (kind == NO_STORE) return;
    struct stat state = state_of(file);
    Write *it = malloc(sizeof *it + length);
    if (!it) abort();
    *it = (Write){0, 0, kind, state.st_ino, place, state.st_size, 0};
    ssize_t held = pread64(file, it->old, length, place);
    if (held < 0) abort();
    it->length = (size_t)held;
    pthread_mutex_lock(&lock);
    it->file = kept_file(file, state.st_ino);
    it->before = unsynced;
    unsynced = it;
    pthread_mutex_unlock(&lock);
}

/* Forgets the writes to a file that it hasn't synced, or to files of these kinds where it is none; and undoes them, the last first. */
static void forget(int file, uint64_t kinds, int undoes) {
    ino_t node = file < 0 ? 0 : state_of(file).st_ino;
    pthread_mutex_lock(&lock);
    for (Write **at = &unsynced; *at;) {
        Write *it = *at;
        if (file < 0 ? !(kinds & (uint64_t)it->kind) : it->node != node) {
            at = &it->before;
            continue;
        }
        if (undoes && next_pwrite(it->file, it->old, it->length, it->place) != (ssize_t)it->length) abort();
        if (undoes && next_ftruncate(it->file, it->size)) abort();
        *at = it->before;
        free(it);
    }
    pthread_mutex_unlock(&lock);
}

/* Counts a call. Returns whether it must fail, for which errno says why. */
static int is_refused(void) {
    uint64_t number = atomic_fetch_add(&counts->calls, 1) + 1;
    if (number != refused && number != killed) return 0;
    struct timespec now;
    clock_gettime(CLOCK_MONOTONIC, &now);
    counts->time = (uint64_t)now.tv_sec * 1000000000 + (uint64_t)now.tv_nsec;
    if (number == killed) {
        forget(-1, lost, 1);
        kill(getpid(), SIGKILL);
        for (;;) pause();
    }
    errno = EIO;
    return 1;
}

static int is_refused_of(int file) {
    return (kind_of(file) != NO_STORE || S_ISDIR(state_of(file).st_mode)) && is_refused();
}

ssize_t write(int file, const void *bytes, size_t length) {
    ssize_t (*next)(int, const void *, size_t) = (ssize_t (*)(int, const void *, size_t))dlsym(RTLD_NEXT, "write");
    return is_refused_of(file) ? -1 : next(file, bytes, length);
}

ssize_t writev(int file, const struct iovec *pieces, int number) {
    ssize_t (*next)(int, const struct iovec *, int) = (ssize_t (*)(int, const struct iovec *, int))dlsym(RTLD_NEXT, "writev");
    return is_refused_of(file) ? -1 : next(file, pieces, number);
}

ssize_t pwrite64(int file, const void *bytes, size_t length, off64_t place) {
    if (is_refused_of(file)) return -1;
    note(file, place, length);
    return next_pwrite(file, bytes, length, place);
}

ssize_t pwrite(int file, const void *bytes, size_t length, off_t place) { return pwrite64(file, bytes, length, place); }

int ftruncate64(int file, off64_t size) {
    if (is_refused_of(file)) return -1;
    off64_t more = state_of(file).st_size - size;
    note(file, size, more > 0 ? (size_t)more : 0);
    return next_ftruncate(file, size);
}

int ftruncate(int file, off_t size) { return ftruncate64(file, size); }

static int sync_by(const char *call, int file) {
    int (*next)(int) = (int (*)(int))dlsym(RTLD_NEXT, call);
    int is_store = kind_of(file) != NO_STORE, fails = is_refused_of(file), status = fails ? -1 : next(file);
    if (is_store) forget(file, 0, fails);
    if (fails) errno = EIO;
    return status;
}

int fsync(int file) { return sync_by("fsync", file); }

int fdatasync(int file) { return sync_by("fdatasync", file); }

int rename(const char *from, const char *to) {
    int (*next)(const char *, const char *) = (int (*)(const char *, const char *))dlsym(RTLD_NEXT, "rename");
    return ends_in(to, ".db") && is_refused() ? -1 : next(from, to);
}
