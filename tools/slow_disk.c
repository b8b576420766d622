/* Makes each sync of a file of a program that it is loaded before (LD_PRELOAD) take as many microseconds longer as SYNC_DELAY says, as on a
   slower disk. */
#define _GNU_SOURCE
#include <dlfcn.h>
#include <stdlib.h>
#include <time.h>

static int delayed(const char *call, int file) {
    const char *delay = getenv("SYNC_DELAY");
    long microseconds = delay ? atol(delay) : 0;
    struct timespec time = {microseconds / 1000000, microseconds % 1000000 * 1000};
    int (*next)(int) = (int (*)(int))dlsym(RTLD_NEXT, call);
    nanosleep(&time, NULL);
    return next(file);
}

int fsync(int file) { return delayed("fsync", file); }

int fdatasync(int file) { return delayed("fdatasync", file); }
