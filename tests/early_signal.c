/* Loaded before examples/signer.py (LD_PRELOAD). SIGTERM comes at the last moment before select(2) waits without a limit: Python's handler, which
   runs between two instructions of the interpreter, has not run then. */
#define _GNU_SOURCE
#include <dlfcn.h>
#include <signal.h>
#include <sys/select.h>

int select(int count, fd_set *reads, fd_set *writes, fd_set *others, struct timeval *limit) {
    int (*real)(int, fd_set *, fd_set *, fd_set *, struct timeval *) = dlsym(RTLD_NEXT, "select");
    if (!limit)
        raise(SIGTERM);
    return real(count, reads, writes, others, limit);
}
