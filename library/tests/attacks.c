/* attacks: what a host may do to the library besides calling it as it should. `attacks NAME [handshake] [FOLDER]`
 *
 * busy     two threads call the same session, and one closes the map meanwhile
 * fork     the child of a fork calls
 * signals  a signal handler calls the session that it interrupts
 * closing  maps are opened and closed while other maps are called
 * cancel   threads are cancelled during their calls
 * host     the library leaves signals, their handlers, the mask and standard output alone
 * memory   each allocation of a call is refused in turn, and up to two after it, by the functions below
 * threads  the system refuses threads
 * space    the scratch files may have no more bytes
 */
#define _GNU_SOURCE
#include <farmap.h>

#include <errno.h>
#include <fcntl.h>
#include <pthread.h>
#include <signal.h>
#include <stdatomic.h>
#include <stdio.h>
#include <stdlib.h>
#include <string.h>
#include <sys/resource.h>
#include <sys/time.h>
#include <sys/wait.h>
#include <unistd.h>

#define EXPECT(what)                                                                   \
    do {                                                                               \
        if (!(what)) printf("%s:%d: not so: %s\n", __FILE__, __LINE__, #what), exit(1); \
    } while (0)

static unsigned flags;
static const char *folders[] = { NULL, NULL };
static _Atomic int stops;

static farmap *open_map(unsigned sessions, uint64_t memory, uint64_t names) {
    farmap *map;
    char reason[FARMAP_REASON];
    farmap_options options = { .memory = memory, .sessions = sessions, .flags = flags, .folders = folders, .names = names, .pairs = 1000 };
    if (farmap_open(&options, &map, reason, sizeof reason) != FARMAP_OK) printf("not opened: %s\n", reason), exit(1);
    return map;
}

static farmap_session *open_session(farmap *map) {
    farmap_session *session;
    EXPECT(farmap_session_open(map, &session) == FARMAP_OK);
    return session;
}

static farmap_bytes key_of(unsigned number, char *room) {
    return (farmap_bytes){ room, (size_t)sprintf(room, "key %u", number) };
}

/* ---- busy ---- */

struct busy {
    farmap_session *session;
    uint64_t done, busy;
};

static void *call_shared(void *argument) {
    struct busy *me = argument;
    char room[32];
    for (unsigned i = 0; i < 100000; i++) {
        farmap_status status = farmap_put(me->session, key_of(i % 100, room), farmap_string("value"), NULL);
        if (status == FARMAP_OK) me->done++;
        else if (status == FARMAP_BUSY) me->busy++;
        else EXPECT(status == FARMAP_CLOSED);
    }
    return NULL;
}

static void attack_busy(void) {
    farmap *map = open_map(2, 32 << 20, 0);
    farmap_session *session = open_session(map);
    struct busy all[3] = { { session, 0, 0 }, { session, 0, 0 }, { session, 0, 0 } };
    pthread_t threads[3];
    for (int i = 0; i < 3; i++) EXPECT(!pthread_create(&threads[i], NULL, call_shared, &all[i]));
    for (int i = 0; i < 3; i++) pthread_join(threads[i], NULL);
    farmap_stats stats;
    EXPECT(farmap_count(session, &stats) == FARMAP_OK);
    EXPECT(stats.puts == all[0].done + all[1].done + all[2].done && stats.pairs == 100);
    EXPECT(all[0].busy + all[1].busy + all[2].busy > 0);
    printf("%llu done, %llu busy\n", (unsigned long long)stats.puts, (unsigned long long)(all[0].busy + all[1].busy + all[2].busy));
    EXPECT(farmap_close(map) == FARMAP_OK);
}

/* ---- fork ---- */

static void attack_fork(void) {
    farmap *map = open_map(2, 32 << 20, 0);
    farmap_session *session = open_session(map), *other;
    farmap_bytes value;
    EXPECT(farmap_put(session, farmap_string("a"), farmap_string("1"), NULL) == FARMAP_OK);
    pid_t child = fork();
    if (!child) {
        int right = farmap_get(session, farmap_string("a"), &value) == FARMAP_FORKED && !value.data
            && farmap_put(session, farmap_string("a"), farmap_string("2"), NULL) == FARMAP_FORKED
            && farmap_session_open(map, &other) == FARMAP_FORKED && farmap_session_close(session) == FARMAP_FORKED
            && farmap_close(map) == FARMAP_FORKED;
        /* A map of its own. */
        map = open_map(1, 32 << 20, 0);
        session = open_session(map);
        right = right && farmap_put(session, farmap_string("a"), farmap_string("3"), NULL) == FARMAP_OK
            && farmap_close(map) == FARMAP_OK;
        _exit(right ? 0 : 1);
    }
    int status;
    EXPECT(waitpid(child, &status, 0) == child && status == 0);
    EXPECT(farmap_get(session, farmap_string("a"), &value) == FARMAP_OK && memcmp(value.data, "1", 1) == 0);
    child = fork();
    if (!child) execl("/bin/true", "true", NULL);
    EXPECT(waitpid(child, &status, 0) == child && status == 0);
    EXPECT(farmap_get(session, farmap_string("a"), &value) == FARMAP_OK);
    EXPECT(farmap_close(map) == FARMAP_OK);
}

/* ---- signals ---- */

static farmap_session *interrupted;
static _Atomic uint64_t handled, met_busy;

static void on_alarm(int number) {
    (void)number;
    int kept = errno;
    farmap_bytes value;
    farmap_status status = farmap_get(interrupted, farmap_string("key 1"), &value);
    if (status == FARMAP_BUSY) met_busy++;
    else EXPECT(status == FARMAP_OK || status == FARMAP_NONE);
    handled++;
    errno = kept;
}

static void attack_signals(void) {
    farmap *map = open_map(2, 32 << 20, 40000);
    interrupted = open_session(map);
    struct sigaction action = { .sa_handler = on_alarm };
    sigaction(SIGALRM, &action, NULL);
    struct itimerval every = { { 0, 300 }, { 0, 300 } };
    setitimer(ITIMER_REAL, &every, NULL);
    char room[32];
    farmap_bytes value;
    for (unsigned i = 0; i < 300000; i++) {
        farmap_status status = farmap_put(interrupted, key_of(i % 1000, room), farmap_string("value"), NULL);
        EXPECT(status == FARMAP_OK);
    }
    struct itimerval never = { { 0, 0 }, { 0, 0 } };
    setitimer(ITIMER_REAL, &never, NULL);
    EXPECT(farmap_get(interrupted, farmap_string("key 999"), &value) == FARMAP_OK);
    farmap_stats stats;
    EXPECT(farmap_count(interrupted, &stats) == FARMAP_OK);
    printf("%llu signals, %llu met a busy session, %llu renewals\n", (unsigned long long)handled, (unsigned long long)met_busy, (unsigned long long)stats.renewals);
    EXPECT(handled > 0 && stats.renewals > 0);
    EXPECT(farmap_close(map) == FARMAP_OK);
}

/* ---- closing ---- */

static void *open_and_close(void *argument) {
    char room[32];
    unsigned seed = (unsigned)(uintptr_t)argument;
    for (unsigned i = 0; i < 25; i++) {
        farmap *map = open_map(1 + (unsigned)rand_r(&seed) % 4, 16 << 20, rand_r(&seed) % 2 ? 20000 : 0);
        farmap_session *session = open_session(map);
        for (unsigned k = 0; k < 500 + (unsigned)rand_r(&seed) % 30000; k++)
            EXPECT(farmap_put(session, key_of(k % 300, room), farmap_string("value"), NULL) == FARMAP_OK);
        if (rand_r(&seed) % 2) EXPECT(farmap_session_close(session) == FARMAP_OK);
        EXPECT(farmap_close(map) == FARMAP_OK);
    }
    return NULL;
}

static void *call_until_stopped(void *argument) {
    farmap_session *session = argument;
    char room[32];
    for (unsigned i = 0; !stops; i++) {
        farmap_status status = farmap_put(session, key_of(i % 300, room), farmap_string("value"), NULL);
        EXPECT(status == FARMAP_OK || status == FARMAP_CLOSED);
    }
    return NULL;
}

static void attack_closing(void) {
    pthread_t threads[4];
    for (uintptr_t i = 0; i < 4; i++) EXPECT(!pthread_create(&threads[i], NULL, open_and_close, (void *)(i + 1)));
    for (int i = 0; i < 4; i++) pthread_join(threads[i], NULL);
    /* Sessions that call all the time, and one that seldom does, over a map that is renewed. A closing that meets a call
     * closes nothing. */
    farmap *map = open_map(3, 32 << 20, 20000);
    farmap_session *idle = open_session(map);
    for (int i = 0; i < 2; i++) EXPECT(!pthread_create(&threads[i], NULL, call_until_stopped, open_session(map)));
    farmap_bytes value;
    for (int i = 0; i < 1000; i++) {
        EXPECT(farmap_get(idle, farmap_string("none"), &value) == FARMAP_NONE);
        usleep(100);
    }
    stops = 1;
    for (int i = 0; i < 2; i++) pthread_join(threads[i], NULL);
    EXPECT(farmap_close(map) == FARMAP_OK);
}

/* ---- cancel ---- */

/* Most of the pairs are in files, so calls read and write these, where a thread could be cancelled. */
static void *call_forever(void *argument) {
    farmap_session *session = argument;
    static const char large[5000] = "value";
    char room[32];
    for (unsigned i = 0;; i++) {
        EXPECT(farmap_put(session, key_of(i * 7 % 3000, room), (farmap_bytes){ large, sizeof large }, NULL) == FARMAP_OK);
        pthread_testcancel();
    }
}

static void attack_cancel(void) {
    farmap *map = open_map(1, 8 << 20, 0);
    farmap_session *session = open_session(map);
    for (int i = 0; i < 200; i++) {
        pthread_t thread;
        EXPECT(!pthread_create(&thread, NULL, call_forever, session));
        usleep((useconds_t)(i * 71 % 5000));
        pthread_cancel(thread);
        pthread_join(thread, NULL);
        EXPECT(farmap_put(session, farmap_string("after"), farmap_string("value"), NULL) == FARMAP_OK);
    }
    EXPECT(farmap_close(map) == FARMAP_OK);
}

/* ---- host ---- */

static void attack_host(void) {
    int out[2];
    EXPECT(!pipe(out));
    int kept = dup(1), kept_error = dup(2);
    dup2(out[1], 1), dup2(out[1], 2);
    struct sigaction before, after;
    signal(SIGPIPE, SIG_DFL);
    sigset_t mask, now;
    sigemptyset(&mask), sigaddset(&mask, SIGUSR1), sigprocmask(SIG_SETMASK, &mask, NULL);
    sigaction(SIGPIPE, NULL, &before);
    farmap *map = open_map(2, 32 << 20, 0), *none;
    farmap_session *session = open_session(map);
    farmap_put(session, farmap_string("a"), farmap_string("1"), NULL);
    farmap_options wrong = { .memory = 1000 };
    EXPECT(farmap_open(&wrong, &none, NULL, 0) == FARMAP_OPTIONS);
    EXPECT(farmap_close(map) == FARMAP_OK);
    sigaction(SIGPIPE, NULL, &after);
    sigprocmask(SIG_SETMASK, NULL, &now);
    EXPECT(before.sa_handler == after.sa_handler && sigismember(&now, SIGUSR1) && !sigismember(&now, SIGUSR2));
    fflush(stdout);
    dup2(kept, 1), dup2(kept_error, 2);
    fcntl(out[0], F_SETFL, O_NONBLOCK);
    char said[100];
    EXPECT(read(out[0], said, sizeof said) < 0 && errno == EAGAIN);
}

/* ---- memory ---- */

/* From the allocation of this number on, so many fail; 0 for none. */
static _Atomic long fails_at, fails_for = 1, allocations;

extern void *__libc_malloc(size_t), *__libc_realloc(void *, size_t), *__libc_calloc(size_t, size_t);

#ifdef REFUSES
static int is_refused(void) {
    long at = fails_at;
    if (!at) return 0;
    long number = ++allocations;
    return number >= at && number < at + fails_for;
}

void *malloc(size_t size) { return is_refused() ? (errno = ENOMEM, NULL) : __libc_malloc(size); }
void *realloc(void *old, size_t size) { return is_refused() ? (errno = ENOMEM, NULL) : __libc_realloc(old, size); }
void *calloc(size_t count, size_t size) { return is_refused() ? (errno = ENOMEM, NULL) : __libc_calloc(count, size); }
#endif

/* Calls whose request the program could not keep, and those whose answer the library could not. */
static unsigned given_up, lost;

static unsigned count_refused(farmap_session *session, farmap_status status) {
    if (status != FARMAP_MEMORY && status != FARMAP_LOST) return 0;
    given_up += strcmp(farmap_reason(session), farmap_text(FARMAP_MEMORY)) == 0;
    lost += status == FARMAP_LOST;
    return 1;
}

/* The calls of a round, and whether one was refused. All other answers have to be right. */
static unsigned round_of_calls(farmap_session *session, unsigned number, char *versions) {
    char room[32], large[70000], kept;
    memset(large, 'x', sizeof large);
    unsigned refused = 0, key = number % 7;
    farmap_bytes name = key_of(key, room), found, values[3];
    /* (after a get there would be room for the answer of a put) */
    farmap_status status = number / 2 % 2 ? farmap_get(session, name, &found) : FARMAP_MEMORY;
    if (status == FARMAP_MEMORY) refused += number / 2 % 2 ? count_refused(session, status) : 0;
    else EXPECT(status == (versions[key] ? FARMAP_OK : FARMAP_NONE) && (!versions[key] || *(const char *)found.data == versions[key]));
    large[0] = (char)('a' + number % 26);
    size_t length = number % 3 ? 50 : sizeof large;
    status = farmap_put(session, name, (farmap_bytes){ large, length }, number % 2 ? &found : NULL);
    refused += count_refused(session, status);
    if (status != FARMAP_MEMORY) {
        EXPECT(status == FARMAP_OK || (status == FARMAP_LOST && number % 2));
        if (status == FARMAP_OK && number % 2) EXPECT(!found.data == !versions[key] && (!versions[key] || *(const char *)found.data == versions[key]));
        versions[key] = large[0];
    }
    farmap_bytes keys[] = { farmap_string("key 0"), farmap_string("key 1"), farmap_string("key 2") };
    status = farmap_get_many(session, keys, 3, values);
    if (status == FARMAP_MEMORY) refused += count_refused(session, status);
    else {
        EXPECT(status == FARMAP_OK);
        for (int i = 0; i < 3; i++) EXPECT(!values[i].data == !versions[i] && (!versions[i] || *(const char *)values[i].data == versions[i]));
    }
    kept = versions[key];
    if (number % 5 == 0) {
        status = farmap_take(session, name, &found);
        refused += count_refused(session, status);
        if (status != FARMAP_MEMORY) {
            EXPECT(status == FARMAP_LOST || (status == (kept ? FARMAP_OK : FARMAP_NONE) && (!kept || *(const char *)found.data == kept)));
            versions[key] = 0;
        }
    }
    uint64_t cursor = 0;
    const farmap_pair *pairs;
    size_t count;
    while ((status = farmap_visit(session, &cursor, &pairs, &count)) == FARMAP_OK);
    if (status == FARMAP_MEMORY) refused += count_refused(session, status);
    else EXPECT(status == FARMAP_NONE);
    return refused;
}

static void attack_memory(void) {
    setvbuf(stdout, NULL, _IONBF, 0);
    unsigned refused = 0, unopened = 0;
    /* Allocations of calls. */
    farmap *map = open_map(2, 32 << 20, 0);
    farmap_session *session = open_session(map);
    char versions[7] = { 0 };
    for (unsigned number = 0; number < 6000; number++) {
        /* (a session that was given back has no room for a long answer) */
        EXPECT(farmap_session_close(session) == FARMAP_OK && farmap_session_open(map, &session) == FARMAP_OK);
        allocations = 0;
        fails_for = 1 + number / 97 % 3;
        fails_at = 1 + number % 97;
        refused += round_of_calls(session, number, versions);
        fails_at = 0;
    }
    EXPECT(round_of_calls(session, 1, versions) == 0);
    EXPECT(farmap_close(map) == FARMAP_OK);
    /* Allocations of an opening. */
    fails_for = 1;
    for (long at = 1; at < 4000; at += at < 300 ? 1 : 37) {
        allocations = 0;
        fails_at = at;
        char reason[FARMAP_REASON];
        farmap_options options = { .memory = 16 << 20, .sessions = 2, .flags = flags, .folders = folders, .pairs = 1000 };
        farmap_status status = farmap_open(&options, &map, reason, sizeof reason);
        fails_at = 0;
        if (status == FARMAP_OK) {
            EXPECT(farmap_session_open(map, &session) == FARMAP_OK);
            EXPECT(farmap_close(map) == FARMAP_OK);
        } else {
            unopened++;
            if (status != FARMAP_MEMORY) printf("opening, allocation %ld: %s: %s\n", at, farmap_text(status), reason);
            EXPECT(map == NULL && reason[0] && (status == FARMAP_MEMORY || status == FARMAP_OPTIONS || status == FARMAP_SYSTEM));
        }
    }
    printf("%u calls (%u given up, %u answers lost) and %u openings were refused\n", refused, given_up, lost, unopened);
    EXPECT(refused > 100 && unopened > 10 && given_up > 0 && lost > 0);
}

/* ---- threads ---- */

static void attack_threads(void) {
    /* (root may have any number of processes, so the bound is one on memory) */
    struct rlimit limit, kept;
    unsigned refused = 0, opened = 0;
    getrlimit(RLIMIT_AS, &kept);
    for (unsigned mebibytes = 40; mebibytes < 400; mebibytes += 4) {
        limit = (struct rlimit){ (rlim_t)mebibytes << 20, kept.rlim_max };
        EXPECT(!setrlimit(RLIMIT_AS, &limit));
        farmap *map;
        char reason[FARMAP_REASON];
        farmap_options options = { .memory = 64 << 20, .sessions = 64, .flags = flags, .folders = folders, .pairs = 1000 };
        farmap_status status = farmap_open(&options, &map, reason, sizeof reason);
        limit.rlim_cur = kept.rlim_cur;
        setrlimit(RLIMIT_AS, &limit);
        if (status == FARMAP_OK) {
            opened++;
            EXPECT(farmap_put(open_session(map), farmap_string("a"), farmap_string("1"), NULL) == FARMAP_OK);
            EXPECT(farmap_close(map) == FARMAP_OK);
        } else {
            refused++;
            if (status != FARMAP_MEMORY && status != FARMAP_SYSTEM) printf("%u MiB: %s: %s\n", mebibytes, farmap_text(status), reason);
            EXPECT(reason[0] && (status == FARMAP_MEMORY || status == FARMAP_SYSTEM));
        }
    }
    printf("%u openings, %u were refused\n", opened, refused);
    EXPECT(refused > 5 && opened > 5);
}

/* ---- space ---- */

static void attack_space(void) {
    EXPECT(folders[0]);
    farmap *map = open_map(1, 8 << 20, 0);
    farmap_session *session = open_session(map);
    struct rlimit limit = { 300000, 300000 };
    EXPECT(!setrlimit(RLIMIT_FSIZE, &limit));
    char room[32], large[10000];
    memset(large, 'x', sizeof large);
    farmap_status status = FARMAP_OK;
    unsigned put = 0;
    for (; put < 20000 && status == FARMAP_OK; put++) status = farmap_put(session, key_of(put, room), (farmap_bytes){ large, sizeof large }, NULL);
    printf("after %u puts: %s: %s\n", put, farmap_text(status), farmap_reason(session));
    EXPECT(status == FARMAP_DEVICE && strstr(farmap_reason(session), "no space left"));
    farmap_bytes found;
    for (unsigned key = 0; key + 1 < put; key++) EXPECT(farmap_get(session, key_of(key, room), &found) == FARMAP_OK && found.length == sizeof large);
    EXPECT(farmap_close(map) == FARMAP_OK);
}

int main(int count, char **words) {
    static const struct {
        const char *name;
        void (*attack)(void);
    } ATTACKS[] = { { "busy", attack_busy }, { "fork", attack_fork }, { "signals", attack_signals }, { "closing", attack_closing },
                    { "cancel", attack_cancel }, { "host", attack_host }, { "memory", attack_memory }, { "threads", attack_threads },
                    { "space", attack_space } };
    for (int i = 2; i < count; i++) {
        if (strcmp(words[i], "handshake") == 0) flags = FARMAP_HANDSHAKE;
        else folders[0] = words[i];
    }
    for (unsigned i = 0; count > 1 && i < sizeof ATTACKS / sizeof *ATTACKS; i++) {
        if (strcmp(words[1], ATTACKS[i].name) == 0) {
            ATTACKS[i].attack();
            printf("%s: as it should be\n", ATTACKS[i].name);
            return 0;
        }
    }
    return 2;
}
