/* desk-signer: the command line, privileges, and the connections. One thread serves all connections with poll(2). */
#include <err.h>
#include <errno.h>
#include <fcntl.h>
#include <getopt.h>
#include <grp.h>
#include <libgen.h>
#include <malloc.h>
#include <poll.h>
#include <pwd.h>
#include <sched.h>
#include <signal.h>
#include <stdatomic.h>
#include <stdio.h>
#include <stdlib.h>
#include <string.h>
#include <sys/file.h>
#include <sys/mman.h>
#include <sys/prctl.h>
#include <sys/resource.h>
#include <sys/socket.h>
#include <sys/stat.h>
#include <sys/un.h>
#include <sys/wait.h>
#include <time.h>
#include <unistd.h>

#include <openssl/crypto.h>

#include "signer.h"

/* At most CONNECTIONS are open at once, each with room for SMALL octets; HANDED_OVER is the descriptor that systemd passes (sd_listen_fds(3)). */
enum { CONNECTIONS = 256, MOST_PROCESSES = 256, SMALL = 1024, HANDED_OVER = 3, HEAP = 1 << 17, STACK = 1 << 16 };
/* With --persistent a signature begins with the announcement. On a persistent connection, each message and signature begins with its length. */
enum { LENGTH = 4, ANNOUNCED = 16 };
static const unsigned char announcement[ANNOUNCED + 1] = "desk-signer/1 \r\n";
/* The buffers of larger messages have at most MOST_BUFFERED octets together; about ROUND octets of a message are read before the others' turn. */
static const size_t LONGEST_MESSAGE = (size_t)64 << 20, MOST_BUFFERED = (size_t)512 << 20, ROUND = (size_t)1 << 20;
static const long long SECOND = 1000000000, PATIENCE = 10 * SECOND;
/* For so many nanoseconds a process polls for the message of a new client, or for the next client, before it sleeps: waking up takes time. */
static const long long MESSAGE_DUE = 50000;
static long long client_due = 300000;
/* If more than FEW connections had a message within the last RECENT nanoseconds, a process sleeps instead of polling for the next one. Such clients
 * have other work meanwhile, and need the processor. */
enum { FEW = 2 };
static const long long RECENT = 1000000;
/* For so many nanoseconds a process leaves a new client to those with fewer persistent connections. */
static const long long LEFT_TO_OTHERS = 10000000;
/* So many nanoseconds after the last time, a process that always has a message handles signals again. */
static const long long SIGNALS_DUE = 1000000;

static const char usage[] =
    "Usage: desk-signer [OPTION ..] KEY SOCKET        signs at a Unix socket, which it creates with mode 0600\n"
    "       desk-signer [OPTION ..] KEY --inherited   signs at the socket that systemd passes (LISTEN_FDS)\n"
    "       desk-signer [OPTION ..] KEY               prints the NAME of the key's algorithm\n"
    "KEY is a PEM file (P-256, P-384, RSA, Ed25519), or the URI pkcs11:.. of a key in a token (PKCS11_MODULE_PATH names its module).\n"
    "  --only-ours CA.pem       sign only CRLs and OCSP answers of this CA, and verify each signature\n"
    "  --responder OCSP.pem     the key is that of this responder of the CA: sign only its OCSP answers\n"
    "  --passphrase-file FILE   the key's passphrase, or the token's PIN: the first line\n"
    "  --processes N            N processes serve the socket (default: 1)\n"
    "  --rate N                 at most N signatures a second by all processes, evenly spaced; further clients wait\n"
    "  --user NAME              once the socket is created, give it to this user, and become this user\n"
    "  --allow-swap             go on if the memory can't be locked\n"
    "  --fresh-nonces           draw no nonces ahead, since this machine's memory may be copied\n"
    "  --persistent             announce persistent connections in each signature, and serve them\n";

/* The state of a connection's message. While IDLE, a persistent connection, or one on which no octet has come, waits for its next message. */
enum state { IDLE, INCOMPLETE, COMPLETE };

struct connection {
    int socket;
    enum state state;
    /* With --persistent, a connection is new until its first octet comes, and persistent if that is 0. A new one counts as persistent. */
    bool is_new, is_persistent;
    /* When its message began to come, or when it became idle. */
    long long arrived;
    size_t length, room;
    unsigned char *message, small[SMALL];
};

/* The options of the command line. `options` has the value of each, "" for a flag, and NULL if it was not given. The flags begin at FLAGS. */
enum { ONLY_OURS, RESPONDER, PASSPHRASE_FILE, USER, PROCESSES, RATE, FLAGS, INHERITED = FLAGS, ALLOW_SWAP, FRESH_NONCES, PERSISTENT, OPTIONS };
static const char *const names[OPTIONS] = {"only-ours", "responder",  "passphrase-file", "user",      "processes",
                                           "rate",      "inherited", "allow-swap", "fresh-nonces", "persistent"};
static const char *options[OPTIONS], *key_name, *path;
static long processes = 1, rate;

static struct signer signer;
static struct issuer issuer, responder;
static char passphrase[1024];
static int listener = -1;
static pid_t first, others[MOST_PROCESSES];
static bool is_first = true;
/* The index of this process: 0 in the first one. */
static long process_index;
/* The socket at `path`, if it was created: its descriptor (O_PATH, else -1), and its device and inode. */
static int created = -1;
static struct stat socket_file;
/* The first `count` of `open_ones` are open. */
static struct connection connections[CONNECTIONS], *open_ones[CONNECTIONS];
static size_t count, buffered;
/* When a connection or a message last came to this process, when it last ended or answered one, and how long before the last arrival any of the
 * processes had done so. */
static long long last_arrival, last_end, last_gap = PATIENCE;
/* Until when this process leaves the client that waits to the others; 0 if it leaves them none. */
static long long left_until;
/* For all processes: when the next signature may be made, when a connection last ended or was answered, and how many persistent ones each has. */
static struct shared {
    _Atomic long long next_signature, last_end;
    atomic_long persistent[MOST_PROCESSES];
} *shared;
static volatile sig_atomic_t ended;

/* Removes the socket that this signer created. Another signer may have its own at the path by now. */
static void remove_socket(void) {
    struct stat found;
    if (created >= 0 && is_first && lstat(path, &found) == 0 && found.st_dev == socket_file.st_dev && found.st_ino == socket_file.st_ino)
        (void)unlink(path);
}

static long long nanoseconds(void) {
    struct timespec now;
    (void)clock_gettime(CLOCK_MONOTONIC, &now);
    return now.tv_sec * SECOND + now.tv_nsec;
}

/* The connections */

static void be_persistent(struct connection *it, bool is_persistent) {
    it->is_persistent = is_persistent;
    atomic_fetch_add(&shared->persistent[process_index], is_persistent ? 1 : -1);
}

static void note_arrival(struct connection *it) {
    it->state = INCOMPLETE;
    it->arrived = last_arrival = nanoseconds();
    last_gap = last_arrival - atomic_load(&shared->last_end);
}

static void note_end(void) {
    last_end = nanoseconds();
    atomic_store(&shared->last_end, last_end);
}

/* Frees the mapping of a large message. */
static void shrink(struct connection *it) {
    if (it->message == it->small)
        return;
    (void)munmap(it->message, it->room);
    buffered -= it->room;
    it->message = it->small;
    it->room = SMALL;
}

static void end_connection(struct connection *it) {
    size_t at = 0;
    while (open_ones[at] != it)
        at++;
    (void)close(it->socket);
    shrink(it);
    if (it->is_persistent)
        be_persistent(it, false);
    open_ones[at] = open_ones[--count];
    open_ones[count] = it;
    note_end();
}

static void fail(struct connection *it, const char *why) {
    warnx("a connection failed: %s", why);
    end_connection(it);
}

/* Makes four times the room, for 64 MiB and SMALL octets at most. A large message has a mapping of its own: it is no secret, and isn't locked. */
static bool grow(struct connection *it) {
    bool is_small = it->message == it->small;
    size_t room = it->room * 4 > LONGEST_MESSAGE ? LONGEST_MESSAGE + SMALL : it->room * 4, more = room - (is_small ? 0 : it->room);
    if (more > MOST_BUFFERED - buffered)
        return false;
    void *to = is_small ? mmap(NULL, room, PROT_READ | PROT_WRITE, MAP_PRIVATE | MAP_ANONYMOUS, -1, 0) : mremap(it->message, it->room, room, MREMAP_MAYMOVE);
    if (to == MAP_FAILED)
        return false;
    if (is_small)
        memcpy(to, it->small, it->length);
    buffered += more;
    it->message = to;
    it->room = room;
    return true;
}

/* Where in its buffer a message ends, if that is known: on a persistent connection, once its length has come. */
static size_t end_of(const struct connection *it) {
    const unsigned char *at = it->message;
    return it->is_persistent && it->length >= LENGTH ? LENGTH + ((size_t)at[1] << 16 | (size_t)at[2] << 8 | at[3]) : SIZE_MAX;
}

/* The message of a connection, which has come whole. */
static struct octets message_of(const struct connection *it) {
    return it->is_persistent ? (struct octets){it->message + LENGTH, end_of(it) - LENGTH} : (struct octets){it->message, it->length};
}

/* Called when a message has come whole. With --only-ours, returns false if it is not the issuer's. */
static bool complete(struct connection *it) {
    char why[REASON];
    it->state = COMPLETE;
    if (options[ONLY_OURS] == NULL || is_ours(message_of(it), &issuer, options[RESPONDER] ? &responder : NULL, why))
        return true;
    warnx("refused to sign %zu bytes: %s", message_of(it).length, why);
    return false;
}

/* Sends the signature of a message, or that there is none if `length` is 0. The memory has room for ANNOUNCED octets before `signature`. Then a
 * persistent connection is idle, with the octets behind the message in `small`; any other one ends. Returns whether the connection is open. */
static bool reply(struct connection *it, unsigned char *signature, size_t length) {
    const unsigned char octets[LENGTH] = {0, 0, (unsigned char)(length >> 8), (unsigned char)length};
    size_t head = it->is_persistent ? LENGTH : options[PERSISTENT] && length > 0 ? ANNOUNCED : 0, end = end_of(it);
    memcpy(signature - head, it->is_persistent ? octets : announcement, head);
    bool is_sent = head + length == 0 || send(it->socket, signature - head, head + length, MSG_NOSIGNAL | MSG_DONTWAIT) == (ssize_t)(head + length);
    if (!is_sent)
        warn("a connection failed");
    if (!is_sent || !it->is_persistent) {
        end_connection(it);
        return false;
    }
    it->length -= end;
    memmove(it->small, it->message + end, it->length);
    shrink(it);
    note_end();
    it->state = IDLE;
    it->arrived = last_end;
    return true;
}

/* Completes the message of a persistent connection, if it has come whole. If that is refused, completes the next one. */
static void proceed(struct connection *it) {
    unsigned char nothing[ANNOUNCED];
    while (it->length > 0) {
        if (it->state == IDLE)
            note_arrival(it);
        if (it->message[0] != 0)
            return fail(it, "its message is longer than 16,777,215 bytes");
        if (it->length < end_of(it) || complete(it) || !reply(it, nothing + ANNOUNCED, 0))
            return;
    }
}

/* Called when the client has shut down its sending side, or has disconnected. */
static void end_input(struct connection *it) {
    if (it->is_persistent && it->state == INCOMPLETE)
        fail(it, "its message is incomplete");
    else if (it->is_persistent || !complete(it))
        end_connection(it);
}

/* On a persistent connection, reads no further than the end of a message whose length has come: so the octets behind a message fit into `small`. */
static void receive(struct connection *it) {
    for (size_t got = 0; got < ROUND;) {
        if (it->length == it->room && !grow(it))
            return fail(it, "out of memory for its message");
        size_t end = end_of(it) < it->room ? end_of(it) : it->room;
        ssize_t read = recv(it->socket, it->message + it->length, end - it->length, 0);
        if (read == 0)
            return end_input(it);
        if (read < 0 && (errno == EAGAIN || errno == EINTR))
            return;
        if (read < 0)
            return fail(it, strerror(errno));
        if (it->is_new && it->message[0] != 0) {
            be_persistent(it, false);
            note_arrival(it);
        }
        it->is_new = false;
        it->length += (size_t)read;
        got += (size_t)read;
        if (it->length > LONGEST_MESSAGE)
            return fail(it, "its message is longer than 64 MiB");
        if (it->is_persistent)
            return proceed(it);
    }
}

static struct connection *oldest(enum state state) {
    struct connection *found = NULL;
    for (size_t i = 0; i < count; i++)
        if (open_ones[i]->state == state && (!found || open_ones[i]->arrived < found->arrived))
            found = open_ones[i];
    return found;
}

static void open_connection(int socket) {
    struct connection *it = open_ones[count++];
    it->socket = socket;
    it->is_persistent = false;
    it->is_new = options[PERSISTENT] != NULL;
    note_arrival(it);
    if (it->is_new) {
        be_persistent(it, true);
        it->state = IDLE;
    }
    it->message = it->small;
    it->length = 0;
    it->room = SMALL;
    receive(it);
}

/* Whether this process has more persistent connections than the average of all processes. */
static bool has_more_than_others(void) {
    long all = 0;
    for (long i = 0; i < processes; i++)
        all += atomic_load(&shared->persistent[i]);
    return atomic_load(&shared->persistent[process_index]) * processes > all;
}

/* Accepts one connection: another process may accept the next one. If CONNECTIONS are open, closes the one that is idle for longest, else the oldest
 * one whose message is incomplete. */
static void accept_connection(void) {
    struct connection *idle = oldest(IDLE), *slowest = oldest(INCOMPLETE);
    if (count == CONNECTIONS && idle == NULL && slowest == NULL)
        return;
    if (left_until == 0 && has_more_than_others()) {
        left_until = nanoseconds() + LEFT_TO_OTHERS;
        return;
    }
    left_until = 0;
    int socket = accept4(listener, NULL, NULL, SOCK_NONBLOCK | SOCK_CLOEXEC);
    if (socket < 0 && (errno == EAGAIN || errno == EINTR || errno == ECONNABORTED))
        return;
    if (socket < 0) {
        warn("a connection failed");
        (void)poll(NULL, 0, 100);
        return;
    }
    if (count == CONNECTIONS && idle)
        end_connection(idle);
    else if (count == CONNECTIONS)
        fail(slowest, "it is the slowest of 256, and another one waits");
    open_connection(socket);
}

/* Whether a signature may be made now. */
static bool take_turn(long long now) {
    if (rate == 0)
        return true;
    long long next = atomic_load(&shared->next_signature);
    return next <= now && atomic_compare_exchange_strong(&shared->next_signature, &next, now + SECOND / rate);
}

static void answer(struct connection *it) {
    unsigned char octets[ANNOUNCED + LONGEST_SIGNATURE], *signature = octets + ANNOUNCED;
    char why[REASON];
    size_t length = sign_message(&signer, message_of(it), signature, why);
    if (length == 0)
        warnx("refused to sign %zu bytes: %s", message_of(it).length, why);
    if (reply(it, signature, length))
        proceed(it);
    /* After a token was removed, its session stays lost. */
    if (length == 0 && is_token(key_name))
        errx(1, "the token gives no more signatures");
}

/* How many nanoseconds to wait for clients: up to the next signature, to the end of a client's time, until nonces are forgotten, or while the
 * next client is left to others. */
static long long wait_time(long long now, const struct connection *slow) {
    long long at = slow ? slow->arrived + PATIENCE : now + PATIENCE, forgets = last_end + SECOND;
    if (oldest(COMPLETE) && atomic_load(&shared->next_signature) < at)
        at = atomic_load(&shared->next_signature);
    if (signer.drawn > 0 && forgets < at)
        at = forgets;
    if (left_until > now && left_until < at)
        at = left_until;
    return at > now ? at - now : 0;
}

/* ppoll(2) handles no signal if a descriptor is ready, as one is all the time for a busy signer. That one handles them once in a while. */
static void handle_signals(const sigset_t *while_waiting) {
    static long long handled;
    long long now = nanoseconds();
    sigset_t blocked;
    if (now - handled < SIGNALS_DUE)
        return;
    handled = now;
    (void)sigprocmask(SIG_SETMASK, while_waiting, &blocked);
    (void)sigprocmask(SIG_SETMASK, &blocked, NULL);
}

/* Whether more than FEW connections had a message lately. */
static bool are_many(long long now) {
    int lately = 0;
    for (size_t i = 0; i < count && lately <= FEW; i++)
        lately += now - open_ones[i]->arrived < RECENT;
    return lately > FEW;
}

/* Waits for clients. A client whose signature must wait only ends the wait when it disconnects. */
static void wait_for_clients(const sigset_t *signals) {
    struct pollfd polled[CONNECTIONS + 1];
    const struct connection *slow = oldest(INCOMPLETE);
    long long now = nanoseconds();
    bool is_message_due = slow && now - last_arrival < MESSAGE_DUE;
    bool is_client_due = last_gap < client_due && now - last_end < client_due && !are_many(now);
    bool draws = !is_message_due && wants_nonce(&signer) && now - last_end < SECOND;
    long long wait = is_message_due || is_client_due || draws ? 0 : wait_time(now, slow);
    struct timespec timeout = {wait / SECOND, wait % SECOND};
    size_t polled_count = count;
    bool accepts = left_until <= now && (count < CONNECTIONS || slow || oldest(IDLE));
    polled[count] = (struct pollfd){accepts ? listener : -1, POLLIN, 0};
    for (size_t i = 0; i < count; i++)
        polled[i] = (struct pollfd){open_ones[i]->socket, open_ones[i]->state == COMPLETE ? 0 : POLLIN, 0};
    int ready = ppoll(polled, polled_count + 1, &timeout, signals);
    if (ready == 0 && draws)
        draw_nonce(&signer);
    else if (ready == 0 && now - last_end >= SECOND)
        forget_nonces(&signer);
    /* Another process has accepted the client that was left to it. */
    if (accepts && !polled[polled_count].revents)
        left_until = 0;
    if (ready <= 0)
        return;
    handle_signals(signals);
    for (size_t i = polled_count; i-- > 0;) {
        if (polled[i].revents && open_ones[i]->state == COMPLETE)
            end_connection(open_ones[i]);
        else if (polled[i].revents)
            receive(open_ones[i]);
    }
    if (polled[polled_count].revents)
        accept_connection();
}

/* Whether one of the other processes of this signer has ended. A program that ran before exec(3) may have left children that are none of them. */
static bool has_other_ended(void) {
    pid_t child;
    while ((child = waitpid(-1, NULL, WNOHANG)) > 0)
        for (long i = 1; i < processes; i++)
            if (others[i] == child)
                return true;
    return false;
}

static void serve(const sigset_t *signals) {
    struct connection *it;
    cpu_set_t processors;
    /* On the only processor, polling would keep the client from running. */
    if (sched_getaffinity(0, sizeof processors, &processors) == 0 && CPU_COUNT(&processors) == 1)
        client_due = 0;
    for (size_t i = 0; i < CONNECTIONS; i++)
        open_ones[i] = &connections[i];
    while (!ended) {
        /* At most one signature for each connection: then it is the turn of signals and of other messages. */
        for (size_t most = count; most > 0 && (it = oldest(COMPLETE)) != NULL && take_turn(nanoseconds()); most--)
            answer(it);
        while ((it = oldest(INCOMPLETE)) != NULL && it->arrived + PATIENCE <= nanoseconds())
            fail(it, "its message took longer than ten seconds");
        wait_for_clients(signals);
        if (ended == SIGCHLD && !has_other_ended())
            ended = 0;
    }
}

/* The socket */

/* Locks the socket's folder, so that only one of several signers that start at one path finds that nobody listens there. Waits ten seconds at most. */
static int lock_folder(struct sockaddr_un address) {
    int folder = open(dirname(address.sun_path), O_RDONLY | O_DIRECTORY | O_CLOEXEC);
    long long until = nanoseconds() + PATIENCE;
    if (folder < 0)
        err(1, "%s", path);
    while (flock(folder, LOCK_EX | LOCK_NB) != 0) {
        if (errno != EWOULDBLOCK || nanoseconds() > until)
            err(1, "%s: its folder can't be locked", path);
        (void)poll(NULL, 0, 5);
    }
    return folder;
}

/* Removes a socket at which nobody listens. */
static void remove_stale(const struct sockaddr_un *address) {
    struct stat found;
    if (lstat(address->sun_path, &found) != 0 || !S_ISSOCK(found.st_mode))
        return;
    int probe = socket(AF_UNIX, SOCK_STREAM | SOCK_CLOEXEC | SOCK_NONBLOCK, 0);
    if (probe < 0)
        err(1, "%s", address->sun_path);
    if (connect(probe, (const struct sockaddr *)address, sizeof *address) == 0 || errno == EAGAIN)
        errx(1, "something listens at %s already", address->sun_path);
    if (errno != ECONNREFUSED)
        err(1, "%s", address->sun_path);
    (void)close(probe);
    (void)unlink(address->sun_path);
}

static void listen_at_path(void) {
    struct sockaddr_un address = {.sun_family = AF_UNIX};
    if (strlen(path) >= sizeof address.sun_path)
        errx(1, "%s: a socket's path has at most %zu characters", path, sizeof address.sun_path - 1);
    memcpy(address.sun_path, path, strlen(path));
    int folder = lock_folder(address);
    remove_stale(&address);
    (void)umask(0177);
    listener = socket(AF_UNIX, SOCK_STREAM | SOCK_CLOEXEC | SOCK_NONBLOCK, 0);
    if (listener < 0 || bind(listener, (const struct sockaddr *)&address, sizeof address) != 0)
        err(1, "%s", path);
    created = open(path, O_PATH | O_NOFOLLOW | O_CLOEXEC);
    if (created < 0 || fstat(created, &socket_file) != 0 || !S_ISSOCK(socket_file.st_mode) || listen(listener, SOMAXCONN) != 0)
        err(1, "%s", path);
    (void)close(folder);
}

static void inherit_listener(void) {
    const char *process = getenv("LISTEN_PID"), *descriptors = getenv("LISTEN_FDS");
    if (!process || !descriptors || strtol(process, NULL, 10) != getpid() || strcmp(descriptors, "1") != 0)
        errx(1, "no socket was handed over: --inherited is for a unit of systemd with a socket");
    int listens = 0;
    socklen_t length = sizeof listens;
    listener = HANDED_OVER;
    if (getsockopt(listener, SOL_SOCKET, SO_ACCEPTCONN, &listens, &length) != 0 || !listens)
        errx(1, "no socket that listens was handed over (with Accept=no in systemd)");
    if (fcntl(listener, F_SETFL, O_NONBLOCK) != 0 || fcntl(listener, F_SETFD, FD_CLOEXEC) != 0)
        err(1, "descriptor %d", listener);
}

/* Privileges */

static void forbid_dumps(void) {
    if (prctl(PR_SET_DUMPABLE, 0) != 0 || setrlimit(RLIMIT_CORE, &(struct rlimit){0, 0}) != 0)
        err(1, "core dumps can't be forbidden");
}

/* Locks all memory that is mapped, with enough heap and stack for signatures. Until the key is read, `which` has MCL_FUTURE, which includes later
 * mappings. After that the mappings for large messages are not locked. */
static void lock_memory(int which) {
    struct rlimit limit;
    volatile char stack[STACK];
    void *volatile heap = malloc(HEAP);
    free(heap);
    for (size_t i = 0; i < sizeof stack; i += SMALL)
        stack[i] = 0;
    if (getrlimit(RLIMIT_MEMLOCK, &limit) == 0 && setrlimit(RLIMIT_MEMLOCK, &(struct rlimit){RLIM_INFINITY, RLIM_INFINITY}) != 0)
        (void)setrlimit(RLIMIT_MEMLOCK, &(struct rlimit){limit.rlim_max, limit.rlim_max});
    if (mlockall(which) != 0 && !options[ALLOW_SWAP])
        err(1, "the memory can't be locked (LimitMEMLOCK= in systemd, ulimit -l; or --allow-swap)");
}

static void become(const char *name) {
    const struct passwd *user = getpwnam(name);
    if (user == NULL)
        errx(1, "no user %s", name);
    if (created >= 0 && is_first && fchownat(created, "", user->pw_uid, user->pw_gid, AT_EMPTY_PATH) != 0)
        err(1, "%s", path);
    if (initgroups(name, user->pw_gid) != 0 || setgid(user->pw_gid) != 0 || setuid(user->pw_uid) != 0)
        err(1, "can't become %s", name);
    if (user->pw_uid != 0 && setuid(0) == 0)
        errx(1, "can't drop the privileges of root");
    /* setuid(2) has allowed dumps again. */
    forbid_dumps();
}

/* Has this process end with the first one. Called after setuid(2), which clears PR_SET_PDEATHSIG. */
static void end_with_first(void) {
    if (!is_first && (prctl(PR_SET_PDEATHSIG, SIGTERM) != 0 || getppid() != first))
        exit(1);
}

static void handle(int number) {
    if (number != SIGCHLD || !ended)
        ended = number;
}

/* SIGTERM, SIGINT, and the end of another process (SIGCHLD) are handled only while the process waits for clients. */
static void block_signals(sigset_t *while_waiting) {
    const int numbers[] = {SIGTERM, SIGINT, SIGCHLD};
    sigset_t blocked;
    (void)sigemptyset(&blocked);
    for (size_t i = 0; i < 3; i++)
        if (sigaction(numbers[i], &(struct sigaction){.sa_handler = handle, .sa_flags = SA_NOCLDSTOP}, NULL) != 0 || sigaddset(&blocked, numbers[i]) != 0)
            err(1, "signal %d", numbers[i]);
    (void)sigprocmask(SIG_BLOCK, &blocked, while_waiting);
    for (size_t i = 0; i < 3; i++)
        (void)sigdelset(while_waiting, numbers[i]);
    /* The reader of standard error may end before the signer. */
    (void)signal(SIGPIPE, SIG_IGN);
}

/* The key */

static void read_passphrase(void) {
    char why[REASON];
    size_t length;
    if (options[PASSPHRASE_FILE] && !read_file(options[PASSPHRASE_FILE], passphrase, sizeof passphrase, &length, why))
        errx(1, "%s: %s", options[PASSPHRASE_FILE], why);
    passphrase[strcspn(passphrase, "\r\n")] = 0;
}

static void load_issuer(struct issuer *to, const char *from, const char *whose) {
    char why[REASON];
    X509 *certificate = from ? read_certificate(from, why) : NULL;
    if (from && (certificate == NULL || !make_issuer(to, certificate, why)))
        errx(1, "%s: no certificate of a %s: %s", from, whose, why);
}

/* Makes a signature that no client gets, so that a key that can't sign is noticed at the start. */
static void try_key(void) {
    static const unsigned char text[] = "desk-signer";
    unsigned char signature[LONGEST_SIGNATURE];
    char why[REASON];
    if (sign_message(&signer, (struct octets){text, sizeof text}, signature, why) == 0)
        errx(1, "%s: %s", key_name, why);
}

static void load_key(void) {
    char why[REASON];
    EVP_PKEY *key = read_key(key_name, options[PASSPHRASE_FILE] ? passphrase : NULL, why);
    OPENSSL_cleanse(passphrase, sizeof passphrase);
    if (key == NULL || !use_key(&signer, key, !options[FRESH_NONCES], why))
        errx(1, "%s: %s", key_name, why);
    if (options[ONLY_OURS] && !verify_by(&signer, options[RESPONDER] ? &responder : &issuer, why))
        errx(1, "%s: %s", options[options[RESPONDER] ? RESPONDER : ONLY_OURS], why);
    try_key();
}

/* Prepares each process before it serves: neither locks of memory nor sessions with a token outlive fork(2). */
static void settle(bool reads_each) {
    if (reads_each) {
        lock_memory(MCL_CURRENT | MCL_FUTURE);
        load_key();
    }
    lock_memory(MCL_CURRENT);
    if (options[USER]) {
        become(options[USER]);
        try_key();
    }
}

/* Starts the other processes one after the other, because SoftHSM fails if two read the key at once. They end with the first process. */
static void start_processes(bool reads_each) {
    first = getpid();
    for (long i = 1; i < processes && is_first; i++) {
        int ready[2];
        char octet = 0;
        pid_t child = pipe2(ready, O_CLOEXEC) == 0 ? fork() : -1;
        if (child < 0)
            err(1, "no more processes");
        is_first = child > 0;
        others[i] = child;
        if (!is_first) {
            process_index = i;
            settle(reads_each);
            if (write(ready[1], &octet, 1) != 1)
                exit(1);
        }
        (void)close(ready[1]);
        if (is_first && read(ready[0], &octet, 1) != 1)
            errx(1, "another process doesn't start");
        (void)close(ready[0]);
    }
    if (is_first)
        settle(reads_each);
}

/* The command line */

static _Noreturn void misuse(const char *why) {
    (void)fprintf(stderr, "desk-signer: %s\n%s", why, usage);
    exit(2);
}

static long number_of(int option, long otherwise, long most) {
    const char *text = options[option];
    char *end = NULL;
    long number = text ? strtol(text, &end, 10) : otherwise;
    if (text && (*end || number < 1 || number > most)) {
        char why[REASON];
        (void)snprintf(why, sizeof why, "--%s %.40s: not a number from 1 to %ld", names[option], text, most);
        misuse(why);
    }
    return number;
}

static void read_command_line(int argc, char **argv) {
    struct option known[OPTIONS + 1] = {{0}};
    int option;
    for (int i = 0; i < OPTIONS; i++)
        known[i] = (struct option){names[i], i < FLAGS, NULL, i};
    while ((option = getopt_long(argc, argv, "", known, NULL)) != -1)
        if (option < OPTIONS)
            options[option] = optarg ? optarg : "";
        else
            misuse("an option can't be read");
    processes = number_of(PROCESSES, 1, MOST_PROCESSES);
    rate = number_of(RATE, 0, 1000000);
    if (argc - optind < 1)
        misuse("KEY is missing");
    if (argc - optind > (options[INHERITED] ? 1 : 2))
        misuse(options[INHERITED] ? "with --inherited, give KEY alone" : "give KEY and SOCKET, and no more");
    if (options[RESPONDER] && !options[ONLY_OURS])
        misuse("--responder needs --only-ours");
    key_name = argv[optind];
    path = argv[optind + 1];
    if (path && !*path)
        misuse("SOCKET is empty");
}

/* No connection gets the number of a standard stream that was closed: the client would read the warnings. */
static void fill_standard_streams(void) {
    int file;
    do
        file = open("/dev/null", O_RDWR);
    while (file >= 0 && file <= STDERR_FILENO);
    if (file < 0)
        err(1, "/dev/null");
    (void)close(file);
}

static void prepare(bool serves, bool reads_each) {
    fill_standard_streams();
    forbid_dumps();
    (void)setvbuf(stderr, NULL, _IOLBF, BUFSIZ);
    /* The heap returns no memory to the system, so that it stays locked. */
    (void)mallopt(M_TRIM_THRESHOLD, 1 << 30);
    (void)mallopt(M_MMAP_THRESHOLD, 1 << 25);
    if (serves)
        lock_memory(MCL_CURRENT | MCL_FUTURE);
    read_passphrase();
    load_issuer(&issuer, options[ONLY_OURS], "CA");
    load_issuer(&responder, options[RESPONDER], "responder");
    if (!serves || !reads_each)
        load_key();
}

int main(int argc, char **argv) {
    sigset_t signals;
    read_command_line(argc, argv);
    bool serves = path || options[INHERITED], reads_each = is_token(key_name) && processes > 1;
    prepare(serves, reads_each);
    if (!serves)
        return puts(signer.algorithm) < 0 || fflush(stdout) != 0;
    block_signals(&signals);
    shared = mmap(NULL, sizeof *shared, PROT_READ | PROT_WRITE, MAP_SHARED | MAP_ANONYMOUS, -1, 0);
    if (shared == MAP_FAILED || atexit(remove_socket) != 0)
        err(1, "out of memory");
    path ? listen_at_path() : inherit_listener();
    start_processes(reads_each);
    end_with_first();
    if (is_first)
        (void)printf("%s at %s\n", signer.algorithm, path ? path : "a socket that was handed over");
    (void)fflush(stdout);
    serve(&signals);
    if (ended == SIGCHLD)
        errx(1, "another process ended");
    return 0;
}
