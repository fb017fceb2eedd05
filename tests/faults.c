/* A library for LD_PRELOAD that injects faults into `desk` from outside. These environment variables control it. They are read once:

   FAULTS_CLOCK=PATH       The wall clock shows the number in the file PATH: decimal seconds since 1970. Without the file, it shows the real time.
   FAULTS_PASSED=PATH      The monotonic clock, by which timeouts end, shows the number in the file PATH: milliseconds, in 8 bytes.
   FAULTS_TICK=N           The monotonic clock advances by N milliseconds each time that it is read.
   FAULTS_FAIL=KIND:N ..   The Nth call of KIND fails; more such rules follow after commas. `KIND:N+` fails all calls from the Nth on, `KIND:N-M` those
                           from N to M. `KIND:N=EIO` sets the error; a read or write with `=0` moves no byte and reports no error. `names` below has
                           the kinds. Allocations are counted from `main` on.
   FAULTS_SHORT=N          A read or write moves at most N bytes.
   FAULTS_STOP=N           The process is killed (SIGKILL) in place of its Nth write, truncation or sync of a file, or its Nth call that creates, links,
                           renames or removes a file name.
   FAULTS_TORN=1           Half of the write is done in whose place FAULTS_STOP kills the process.
   FAULTS_LOSE=SEED        When FAULTS_STOP kills the process, or without it when the program ends, bytes that were written to files and not synced
                           are lost, as in a power failure: all of them if SEED is 1, else writes chosen by SEED.
   FAULTS_LOSE_FILES=1     Files are lost too that were created after the last sync of their folder.
   FAULTS_ONLY=WHAT ..     All this, except the clocks and allocations, concerns only these descriptors and paths: `stdin`, `stdout`, `stderr`, `socket`,
                           `file`, or the end of a path (`ca.db-wal`), separated by commas.
   FAULTS_SLOW_CHMOD=PATH  chmod(2) waits until the file PATH exists, for at most a minute.
   FAULTS_SLOW_OPEN=PATH   open(2) of a path that FAULTS_ONLY names creates the file PATH.waits, and then waits in the same way.
   FAULTS_SLOW_UNLINK=PATH So does unlink(2).
   FAULTS_AWAKE=1          The process never sleeps: nanosleep(2) returns at once.
   FAULTS_HURRY=N          epoll_wait(2) waits only an Nth of its time.
   FAULTS_SAME=1           The system's random numbers are the same in each run, and so are the bytes of files.
   FAULTS_QUICK=1          A sync reports success without waiting for the disk.
   FAULTS_COUNT=PATH       The file PATH receives how many calls of each kind there were, in the order of `names`, the number of steps that FAULTS_STOP
                           counts, and the number of injected faults. Each is a number of 8 bytes. They stay, however the process ends. */
#define _GNU_SOURCE
#include <dlfcn.h>
#include <errno.h>
#include <fcntl.h>
#include <signal.h>
#include <stdarg.h>
#include <stdint.h>
#include <stdio.h>
#include <stdlib.h>
#include <string.h>
#include <sys/epoll.h>
#include <sys/mman.h>
#include <sys/socket.h>
#include <sys/stat.h>
#include <sys/syscall.h>
#include <sys/time.h>
#include <time.h>
#include <unistd.h>

enum kind { ALLOC, READ, WRITE, SYNC, CUT, OPEN, UNLINK, LINK, STAT, LOCK, SOCKET, CONNECT, BIND, LISTEN, ACCEPT, POLL, WATCH, CLOCK, RANDOM, KINDS };
enum { STEPS = KINDS, MET, COUNTS };

static const char *const names[KINDS] = {
    "alloc", "read", "write", "sync", "cut", "open", "unlink", "link", "stat", "lock", "socket", "connect", "bind", "listen", "accept", "poll", "watch", "clock",
    "random",
};
static const int usual[KINDS] = {
    ENOMEM, EIO, ENOSPC, EIO, EIO, EMFILE, EACCES, EPERM, EIO, EAGAIN, EMFILE, ECONNREFUSED, EADDRINUSE, EADDRINUSE, EMFILE, EBADF, ENOSPC, EINVAL, EIO,
};

void *__libc_malloc(size_t);
void *__libc_calloc(size_t, size_t);
void *__libc_realloc(void *, size_t);
void *__libc_memalign(size_t, size_t);

static int ready, begun;
static uint64_t counted_here[COUNTS], *counts = counted_here, *passed;
static struct { uint64_t from, to; int error; } fails[KINDS];
static uint64_t stop_at, most, lose, tick, ticks, hurry;
static int torn, lose_files, same, quick, awake;
static const char *only, *slow_chmod, *slow_open, *slow_unlink;

/* The environment variables. */

static int error_called(const char *name, int usual) {
    static const struct { const char *name; int error; } all[] = {
        {"0", 0}, {"EIO", EIO}, {"ENOSPC", ENOSPC}, {"ENOMEM", ENOMEM}, {"EINTR", EINTR}, {"EAGAIN", EAGAIN}, {"EPIPE", EPIPE}, {"EDQUOT", EDQUOT},
        {"EMFILE", EMFILE}, {"ENFILE", ENFILE}, {"EACCES", EACCES}, {"ECONNRESET", ECONNRESET}, {"ECONNABORTED", ECONNABORTED}, {"EINVAL", EINVAL}, {"EROFS", EROFS},
    };
    for (size_t i = 0; name && i < sizeof all / sizeof *all; i++) {
        size_t length = strlen(all[i].name);
        if (!strncmp(name, all[i].name, length) && (!name[length] || name[length] == ','))
            return all[i].error;
    }
    return usual;
}

/* A rule that can't be read ends the program at once, so that no test passes without its fault. */
static void not_understood(const char *word) {
    fprintf(stderr, "faults.c: FAULTS_FAIL=%s is not understood\n", word);
    _exit(99);
}

static void read_fails(const char *text) {
    while (text && *text) {
        int kind = 0;
        while (kind < KINDS && (strncmp(text, names[kind], strlen(names[kind])) || text[strlen(names[kind])] != ':'))
            kind++;
        if (kind == KINDS)
            not_understood(text);
        char *end;
        fails[kind].from = fails[kind].to = strtoull(text + strlen(names[kind]) + 1, &end, 10);
        if (*end == '+')
            fails[kind].to = UINT64_MAX, end++;
        else if (*end == '-')
            fails[kind].to = strtoull(end + 1, &end, 10);
        fails[kind].error = *end == '=' ? error_called(end + 1, -1) : usual[kind];
        if (!fails[kind].from || fails[kind].error < 0)
            not_understood(text);
        text = strchr(end, ',');
        text = text ? text + 1 : NULL;
    }
}

/* Maps a file of numbers into memory, shared with other processes, and leaves no descriptor open. */
static uint64_t *numbers_of(const char *path, int how, size_t size) {
    int file = syscall(SYS_openat, AT_FDCWD, path, O_RDWR | O_CLOEXEC | how, 0600);
    if (file < 0 || syscall(SYS_ftruncate, file, size))
        not_understood(path);
    void *shared = mmap(NULL, size, PROT_READ | PROT_WRITE, MAP_SHARED, file, 0);
    if (shared == MAP_FAILED)
        not_understood(path);
    syscall(SYS_close, file);
    return shared;
}

static uint64_t number(const char *name) {
    const char *text = getenv(name);
    return text ? strtoull(text, NULL, 10) : 0;
}

__attribute__((constructor)) static void at_first(void) {
    const char *path = getenv("FAULTS_COUNT");
    read_fails(getenv("FAULTS_FAIL"));
    stop_at = number("FAULTS_STOP"), most = number("FAULTS_SHORT"), lose = number("FAULTS_LOSE");
    slow_chmod = getenv("FAULTS_SLOW_CHMOD"), slow_open = getenv("FAULTS_SLOW_OPEN"), slow_unlink = getenv("FAULTS_SLOW_UNLINK");
    tick = number("FAULTS_TICK"), hurry = number("FAULTS_HURRY");
    torn = number("FAULTS_TORN") != 0, lose_files = number("FAULTS_LOSE_FILES") != 0, same = number("FAULTS_SAME") != 0;
    quick = number("FAULTS_QUICK") != 0, awake = number("FAULTS_AWAKE") != 0;
    only = getenv("FAULTS_ONLY");
    if (path)
        counts = numbers_of(path, O_CREAT | O_TRUNC, sizeof counted_here);
    if ((path = getenv("FAULTS_PASSED")))
        passed = numbers_of(path, 0, sizeof *passed);
    ready = 1;
}

/* Which calls count. */

static int is_kind_of_file(int file, mode_t kind) {
    struct stat it;
    return !syscall(SYS_newfstatat, file, "", &it, AT_EMPTY_PATH) && (it.st_mode & S_IFMT) == kind;
}

/* The path of a descriptor; empty if it has none. */
static void path_of(int file, char *path, size_t size) {
    char link[40];
    snprintf(link, sizeof link, "/proc/self/fd/%d", file);
    long got = syscall(SYS_readlinkat, AT_FDCWD, link, path, size - 1);
    path[got > 0 ? got : 0] = 0;
}

/* Whether FAULTS_ONLY names this descriptor or this path. */
static int is_meant(int file, const char *path) {
    if (!ready)
        return 0;
    if (!only)
        return 1;
    int was = errno, found = 0;
    char own[4096] = "";
    if (!path)
        path_of(file, own, sizeof own), path = own;
    for (const char *word = only; word && !found;) {
        const char *end = strchrnul(word, ',');
        size_t length = end - word, whole = strlen(path);
#define IS(text) (length == sizeof text - 1 && !strncmp(word, text, length))
        if (IS("stdin") || IS("stdout") || IS("stderr"))
            found = file == (IS("stdin") ? 0 : IS("stdout") ? 1 : 2);
        else if (IS("socket"))
            found = file >= 0 && is_kind_of_file(file, S_IFSOCK);
        else if (IS("file"))
            found = file < 0 || (file > 2 && is_kind_of_file(file, S_IFREG));
        else
            found = length <= whole && !strncmp(path + whole - length, word, length);
        word = *end ? end + 1 : NULL;
    }
    errno = was;
    return found;
}

/* Counts a call. Returns whether it must fail, and then sets `errno`. */
static int fails_now(enum kind kind) {
    uint64_t now = __atomic_add_fetch(&counts[kind], 1, __ATOMIC_RELAXED);
    if (!fails[kind].from || now < fails[kind].from || now > fails[kind].to)
        return 0;
    __atomic_add_fetch(&counts[MET], 1, __ATOMIC_RELAXED);
    errno = fails[kind].error;
    return 1;
}

/* The result of a call that fails: 0 if the rule says `=0`. */
static ssize_t failed(enum kind kind) { return fails[kind].error ? -1 : 0; }

static size_t shortened(size_t size) { return most && size > most ? most : size; }

/* Changes that are not synced yet. */

struct change {
    dev_t device;
    ino_t inode;
    char *path;
    off_t at, size_before, size_after;
    char *before, *after;
    size_t length_before, length_after;
};

static struct change *changes;
static size_t change_count, change_room;
static char *made[64];
static size_t made_count;

static char *copy_of(const char *bytes, size_t length) {
    char *copy = __libc_malloc(length + 1);
    memcpy(copy, bytes, length);
    copy[length] = 0;
    return copy;
}

static void remember(int file, const char *bytes, size_t length, off_t at, int is_cut) {
    struct stat it;
    char path[4096];
    if (!lose || syscall(SYS_newfstatat, file, "", &it, AT_EMPTY_PATH) || !S_ISREG(it.st_mode))
        return;
    if (change_count == change_room)
        changes = __libc_realloc(changes, (change_room = change_room * 2 + 16) * sizeof *changes);
    path_of(file, path, sizeof path);
    struct change *now = &changes[change_count++];
    memset(now, 0, sizeof *now);
    now->device = it.st_dev, now->inode = it.st_ino, now->path = copy_of(path, strlen(path)), now->at = at, now->size_before = it.st_size;
    off_t end = is_cut ? it.st_size : at + (off_t)length;
    now->size_after = is_cut ? at : end > it.st_size ? end : it.st_size;
    if (at < it.st_size) {
        size_t old = (end < it.st_size ? end : it.st_size) - at;
        now->before = __libc_malloc(old + 1);
        /* The descriptor may be open only for writing. */
        int again = syscall(SYS_openat, AT_FDCWD, path, O_RDONLY | O_CLOEXEC);
        long got = syscall(SYS_pread64, again, now->before, old, at);
        syscall(SYS_close, again);
        now->length_before = got > 0 ? got : 0;
    }
    if (!is_cut)
        now->after = copy_of(bytes, length), now->length_after = length;
}

static void forget(int file) {
    struct stat it;
    size_t left = 0;
    if (!lose || syscall(SYS_newfstatat, file, "", &it, AT_EMPTY_PATH))
        return;
    for (size_t i = 0; i < change_count; i++)
        if (changes[i].device != it.st_dev || changes[i].inode != it.st_ino)
            changes[left++] = changes[i];
    change_count = left;
}

/* Once a folder is synced, its new files are not lost any more. */
static void keep_files_of(int folder) {
    char path[4096];
    size_t left = 0;
    path_of(folder, path, sizeof path);
    for (size_t i = 0; i < made_count; i++) {
        size_t length = strlen(path);
        if (strncmp(made[i], path, length) || made[i][length] != '/' || strchr(made[i] + length + 1, '/'))
            made[left++] = made[i];
    }
    made_count = left;
}

static void put(const struct change *it, int is_back) {
    int file = syscall(SYS_openat, AT_FDCWD, it->path, O_WRONLY | O_CLOEXEC);
    struct stat now;
    if (file < 0)
        return;
    if (!syscall(SYS_newfstatat, file, "", &now, AT_EMPTY_PATH) && now.st_ino == it->inode && now.st_dev == it->device) {
        const char *bytes = is_back ? it->before : it->after;
        size_t length = is_back ? it->length_before : it->length_after;
        if (length)
            syscall(SYS_pwrite64, file, bytes, length, it->at);
        if (is_back || !it->after || it->size_after > now.st_size)
            syscall(SYS_ftruncate, file, is_back ? it->size_before : it->size_after);
    }
    syscall(SYS_close, file);
}

static void lose_what_was_not_synced(void) {
    uint64_t draw = lose * 0x9E3779B97F4A7C15u;
    for (size_t i = change_count; i-- > 0;)
        put(&changes[i], 1);
    for (size_t i = 0; lose > 1 && i < change_count; i++) {
        draw ^= draw << 13, draw ^= draw >> 7, draw ^= draw << 17;
        if (draw >> 63)
            put(&changes[i], 0);
    }
    for (size_t i = 0; lose_files && i < made_count; i++)
        syscall(SYS_unlinkat, AT_FDCWD, made[i], 0);
}

/* The machine may stop right after the program ended. */
__attribute__((destructor)) static void at_last(void) {
    if (lose && !stop_at)
        lose_what_was_not_synced();
}

/* Counts a step. Returns whether the process must stop in its place. */
static int stops_now(void) {
    if (__atomic_add_fetch(&counts[STEPS], 1, __ATOMIC_RELAXED) != stop_at)
        return 0;
    counts[MET]++;
    return 1;
}

static void stop(void) {
    if (lose)
        lose_what_was_not_synced();
    syscall(SYS_kill, syscall(SYS_getpid), SIGKILL);
    for (;;)
        pause();
}

/* A write, truncation or sync of a file, in whose place the process may stop. A write has `size` bytes. */
static void step(int file, const char *bytes, size_t size, off_t at) {
    if (file <= 2 || !is_kind_of_file(file, S_IFREG) || !stops_now())
        return;
    if (torn && size > 1) {
        remember(file, bytes, size / 2, at, 0);
        syscall(SYS_pwrite64, file, bytes, size / 2, at);
    }
    stop();
}

/* The calls: memory. */

static int refuses(void) { return begun && fails_now(ALLOC); }

void *malloc(size_t size) { return refuses() ? NULL : __libc_malloc(size); }

void *calloc(size_t count, size_t size) { return refuses() ? NULL : __libc_calloc(count, size); }

void *realloc(void *old, size_t size) { return refuses() ? NULL : __libc_realloc(old, size); }

void *aligned_alloc(size_t to, size_t size) { return refuses() ? NULL : __libc_memalign(to, size); }

int posix_memalign(void **made, size_t to, size_t size) {
    if (refuses())
        return ENOMEM;
    *made = __libc_memalign(to, size);
    return *made ? 0 : ENOMEM;
}

/* The loader and the runtime allocate before `main`; these calls don't count. */
static int (*own_main)(int, char **, char **);

static int counted_main(int count, char **words, char **environment) {
    begun = 1;
    return own_main(count, words, environment);
}

int __libc_start_main(int (*main)(int, char **, char **), int count, char **words, void (*init)(void), void (*fini)(void), void (*rtld)(void), void *end) {
    int (*real)(void *, int, char **, void *, void *, void *, void *) = dlsym(RTLD_NEXT, "__libc_start_main");
    own_main = main;
    return real(counted_main, count, words, init, fini, rtld, end);
}

/* Reading and writing. */

ssize_t read(int file, void *bytes, size_t size) {
    if (!is_meant(file, NULL))
        return syscall(SYS_read, file, bytes, size);
    return fails_now(READ) ? failed(READ) : syscall(SYS_read, file, bytes, shortened(size));
}

ssize_t recv(int file, void *bytes, size_t size, int how) {
    if (!is_meant(file, NULL))
        return syscall(SYS_recvfrom, file, bytes, size, how, NULL, NULL);
    return fails_now(READ) ? failed(READ) : syscall(SYS_recvfrom, file, bytes, shortened(size), how, NULL, NULL);
}

ssize_t pread(int file, void *bytes, size_t size, off_t at) {
    if (!is_meant(file, NULL))
        return syscall(SYS_pread64, file, bytes, size, at);
    return fails_now(READ) ? failed(READ) : syscall(SYS_pread64, file, bytes, shortened(size), at);
}

ssize_t pread64(int file, void *bytes, size_t size, off_t at) { return pread(file, bytes, size, at); }

ssize_t write(int file, const void *bytes, size_t size) {
    int is_file = file > 2 && is_kind_of_file(file, S_IFREG);
    off_t at = is_file ? syscall(SYS_lseek, file, 0, SEEK_CUR) : 0;
    if (is_meant(file, NULL)) {
        if (fails_now(WRITE))
            return failed(WRITE);
        size = shortened(size);
        step(file, bytes, size, at);
    }
    if (is_file)
        remember(file, bytes, size, at, 0);
    return syscall(SYS_write, file, bytes, size);
}

ssize_t send(int file, const void *bytes, size_t size, int how) {
    if (!is_meant(file, NULL))
        return syscall(SYS_sendto, file, bytes, size, how, NULL, 0);
    return fails_now(WRITE) ? failed(WRITE) : syscall(SYS_sendto, file, bytes, shortened(size), how, NULL, 0);
}

ssize_t pwrite(int file, const void *bytes, size_t size, off_t at) {
    if (is_meant(file, NULL)) {
        if (fails_now(WRITE))
            return failed(WRITE);
        size = shortened(size);
        step(file, bytes, size, at);
    }
    remember(file, bytes, size, at, 0);
    return syscall(SYS_pwrite64, file, bytes, size, at);
}

ssize_t pwrite64(int file, const void *bytes, size_t size, off_t at) { return pwrite(file, bytes, size, at); }

int ftruncate(int file, off_t size) {
    if (is_meant(file, NULL)) {
        if (fails_now(CUT))
            return -1;
        step(file, NULL, 0, 0);
    }
    remember(file, NULL, 0, size, 1);
    return syscall(SYS_ftruncate, file, size);
}

int ftruncate64(int file, off_t size) { return ftruncate(file, size); }

static int synced(int file, long call) {
    if (is_meant(file, NULL)) {
        if (fails_now(SYNC))
            return -1;
        step(file, NULL, 0, 0);
    }
    int ended = quick ? 0 : syscall(call, file);
    if (!ended) {
        forget(file);
        if (made_count && is_kind_of_file(file, S_IFDIR))
            keep_files_of(file);
    }
    return ended;
}

int fsync(int file) { return synced(file, SYS_fsync); }

int fdatasync(int file) { return synced(file, SYS_fdatasync); }

/* Paths. */

/* Waits until a file exists, for at most a minute. */
static void wait_for(const char *path) {
    for (int at = 0; path && at < 6000 && syscall(SYS_faccessat, AT_FDCWD, path, F_OK); at++)
        syscall(SYS_nanosleep, &(struct timespec){0, 10000000}, NULL);
}

/* For a path that FAULTS_ONLY names, creates the file SLOW.waits, and waits until SLOW exists. */
static void pause_at(const char *path, const char *slow) {
    if (!slow || !only || !is_meant(-1, path))
        return;
    char waits[4096];
    snprintf(waits, sizeof waits, "%s.waits", slow);
    syscall(SYS_close, syscall(SYS_openat, AT_FDCWD, waits, O_CREAT | O_WRONLY | O_CLOEXEC, 0600));
    wait_for(slow);
}

int open(const char *path, int how, ...) {
    mode_t mode = 0;
    if (how & (O_CREAT | O_TMPFILE)) {
        va_list more;
        va_start(more, how);
        mode = va_arg(more, mode_t);
        va_end(more);
    }
    if (is_meant(-1, path) && fails_now(OPEN))
        return -1;
    pause_at(path, slow_open);
    int is_new = ready && lose_files && (how & O_CREAT) && syscall(SYS_faccessat, AT_FDCWD, path, F_OK);
    int file = syscall(SYS_openat, AT_FDCWD, path, how, mode);
    if (file >= 0 && is_new && made_count < sizeof made / sizeof *made) {
        char whole[4096];
        path_of(file, whole, sizeof whole);
        made[made_count++] = copy_of(whole, strlen(whole));
    }
    return file;
}

/* Whether a call that creates or removes a file name must fail. The process may stop in its place. */
static int stays(enum kind kind, const char *path) {
    if (!is_meant(-1, path))
        return 0;
    if (fails_now(kind))
        return 1;
    if (stops_now())
        stop();
    return 0;
}

int chmod(const char *path, mode_t mode) {
    wait_for(slow_chmod);
    return syscall(SYS_fchmodat, AT_FDCWD, path, mode);
}

int unlink(const char *path) {
    if (stays(UNLINK, path))
        return -1;
    pause_at(path, slow_unlink);
    return syscall(SYS_unlinkat, AT_FDCWD, path, 0);
}

int link(const char *from, const char *to) { return stays(LINK, to) ? -1 : syscall(SYS_linkat, AT_FDCWD, from, AT_FDCWD, to, 0); }

int statx(int file, const char *restrict path, int how, unsigned what, struct statx *restrict it) {
    int is_own = *path ? is_meant(-1, path) : is_meant(file, NULL);
    return is_own && fails_now(STAT) ? -1 : syscall(SYS_statx, file, path, how, what, it);
}

int fcntl(int file, int what, ...) {
    va_list more;
    va_start(more, what);
    void *with = va_arg(more, void *);
    va_end(more);
    int is_lock = what == F_OFD_SETLK || what == F_OFD_SETLKW || what == F_SETLK || what == F_SETLKW;
    return is_lock && is_meant(file, NULL) && fails_now(LOCK) ? -1 : syscall(SYS_fcntl, file, what, with);
}

int flock(int file, int how) { return is_meant(file, NULL) && fails_now(LOCK) ? -1 : syscall(SYS_flock, file, how); }

int getentropy(void *bytes, size_t size) {
    if (ready && fails_now(RANDOM))
        return -1;
    if (same)
        return memset(bytes, 42, size) ? 0 : -1;
    return syscall(SYS_getrandom, bytes, size, 0) == (long)size ? 0 : -1;
}

/* Sockets. */

int socket(int domain, int type, int protocol) { return ready && fails_now(SOCKET) ? -1 : syscall(SYS_socket, domain, type, protocol); }

int connect(int file, const struct sockaddr *to, socklen_t size) { return ready && fails_now(CONNECT) ? -1 : syscall(SYS_connect, file, to, size); }

int bind(int file, const struct sockaddr *to, socklen_t size) { return ready && fails_now(BIND) ? -1 : syscall(SYS_bind, file, to, size); }

int listen(int file, int many) { return ready && fails_now(LISTEN) ? -1 : syscall(SYS_listen, file, many); }

int accept4(int file, struct sockaddr *restrict from, socklen_t *restrict size, int how) {
    return ready && fails_now(ACCEPT) ? -1 : syscall(SYS_accept4, file, from, size, how);
}

int epoll_wait(int file, struct epoll_event *events, int many, int milliseconds) {
    if (ready && hurry && milliseconds > 0)
        milliseconds = milliseconds / (int)hurry;
    return ready && fails_now(POLL) ? -1 : syscall(SYS_epoll_wait, file, events, many, milliseconds);
}

int epoll_ctl(int file, int what, int other, struct epoll_event *event) {
    return ready && what != EPOLL_CTL_DEL && fails_now(WATCH) ? -1 : syscall(SYS_epoll_ctl, file, what, other, event);
}

/* The clock. */

int nanosleep(const struct timespec *wanted, struct timespec *left) { return awake ? 0 : syscall(SYS_nanosleep, wanted, left); }

/* The seconds in the clock's file. The writer of that file empties it first; if it is empty, the last number stays. */
static int seconds_told(time_t *seconds) {
    static const char *path;
    static time_t last;
    static int is_asked, is_known;
    if (!is_asked)
        path = getenv("FAULTS_CLOCK"), is_asked = 1;
    if (!path)
        return 0;
    int was = errno, file = syscall(SYS_openat, AT_FDCWD, path, O_RDONLY | O_CLOEXEC);
    char text[32];
    long got = file < 0 ? -1 : syscall(SYS_read, file, text, sizeof text - 1);
    if (file >= 0)
        syscall(SYS_close, file);
    errno = was;
    if (got > 0) {
        char *end;
        text[got] = 0;
        time_t value = strtoll(text, &end, 10);
        if (end != text)
            last = value, is_known = 1;
    }
    *seconds = last;
    return is_known;
}

int clock_gettime(clockid_t which, struct timespec *at) {
    time_t seconds;
    if (which == CLOCK_MONOTONIC && (passed || tick)) {
        uint64_t now = (passed ? *passed : 0) + __atomic_add_fetch(&ticks, tick, __ATOMIC_RELAXED);
        at->tv_sec = now / 1000;
        at->tv_nsec = now % 1000 * 1000000;
        return 0;
    }
    if (which != CLOCK_REALTIME && which != CLOCK_REALTIME_COARSE)
        return syscall(SYS_clock_gettime, which, at);
    if (ready && fails_now(CLOCK))
        return -1;
    if (!seconds_told(&seconds))
        return syscall(SYS_clock_gettime, which, at);
    at->tv_sec = seconds;
    at->tv_nsec = 0;
    return 0;
}

int gettimeofday(struct timeval *restrict at, void *restrict zone) {
    struct timespec now;
    if (clock_gettime(CLOCK_REALTIME, &now))
        return -1;
    at->tv_sec = now.tv_sec;
    at->tv_usec = now.tv_nsec / 1000;
    return 0;
}

time_t time(time_t *at) {
    struct timespec now = {0, 0};
    clock_gettime(CLOCK_REALTIME, &now);
    if (at)
        *at = now.tv_sec;
    return now.tv_sec;
}
