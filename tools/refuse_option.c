/* Lets system calls of a program that it is loaded before (LD_PRELOAD) fail: by ENOBUFS the first that sets the option of a socket that
   REFUSED_OPTION names, `nodelay` or `write_timeout`; or, where that is `connect`, by EMFILE the first eight that connect. */
#define _GNU_SOURCE
#include <dlfcn.h>
#include <errno.h>
#include <netinet/in.h>
#include <netinet/tcp.h>
#include <stdatomic.h>
#include <stdlib.h>
#include <string.h>
#include <sys/socket.h>

static atomic_int refused;

static int is_named(int level, int option) {
    const char *name = getenv("REFUSED_OPTION");
    if (!name) return 0;
    if (!strcmp(name, "nodelay")) return level == IPPROTO_TCP && option == TCP_NODELAY;
    return !strcmp(name, "write_timeout") && level == SOL_SOCKET && option == SO_SNDTIMEO;
}

int connect(int file, const struct sockaddr *address, socklen_t length) {
    static int (*next)(int, const struct sockaddr *, socklen_t);
    const char *name = getenv("REFUSED_OPTION");
    if (!next) next = (int (*)(int, const struct sockaddr *, socklen_t))dlsym(RTLD_NEXT, "connect");
    if (name && !strcmp(name, "connect") && atomic_fetch_add(&refused, 1) < 8) {
        errno = EMFILE;
        return -1;
    }
    return next(file, address, length);
}

int setsockopt(int file, int level, int option, const void *value, socklen_t length) {
    static int (*next)(int, int, int, const void *, socklen_t);
    if (!next) next = (int (*)(int, int, int, const void *, socklen_t))dlsym(RTLD_NEXT, "setsockopt");
    if (is_named(level, option) && !atomic_fetch_add(&refused, 1)) {
        errno = ENOBUFS;
        return -1;
    }
    return next(file, level, option, value, length);
}
