/* libfarmap: the calls of farmap.h, made by a program that reads requests from pipes.
 *
 * # The program
 *
 * The map is the program `farcalls` (crates/farcalls), whose object file is linked in as it is. Only the names of
 * the C functions that it calls are other ones: `read` is farmap_x_read, and so on (bin/library.py). So the code
 * that makes the calls is the code that the prover sees, and its pipes are the functions below.
 *
 * The program's main, and each thread that it starts, is a *runner* here. A session's runner reads requests, and
 * is parked when there is none. A call of farmap.h writes a request, and gives the runner the turn. When the runner
 * reads again, the reply is complete, and the caller has the turn again.
 *
 * # Two ways to hand the turn over
 *
 * - Switch: each runner has a stack of its own. The caller's thread goes on there, and comes back. Nothing waits.
 * - Handshake: the runner's thread is woken by a futex, and the caller waits for it.
 *
 * # A session's word
 *
 * It says who may run the session's runner, and is what makes all of this safe. `CALL`: a caller. `AWAY`: the
 * runner's own thread, its home, for example while the map is renewed. 0: nobody, the runner is parked. `ASKED`,
 * `STOP` and `SHUT` are requests to it. A call takes the word by one compare-and-swap if the session is parked.
 *
 * # Renewals
 *
 * The program renews its map when version numbers run out. One session writes a wake, and then each session has to
 * read one. So the word of each session gets `ASKED`. A session that is parked is run by its home at once. One that
 * is in a call is handed to its home when the call ends. A call that finds the runner away waits until it is back.
 */
#ifndef _GNU_SOURCE
#define _GNU_SOURCE
#endif
#include "farmap.h"

#include <errno.h>
#include <fcntl.h>
#include <limits.h>
#include <linux/futex.h>
#include <pthread.h>
#include <sched.h>
#include <signal.h>
#include <stdarg.h>
#include <stdatomic.h>
#include <stdio.h>
#include <stdlib.h>
#include <string.h>
#include <sys/mman.h>
#include <sys/resource.h>
#include <sys/syscall.h>
#include <sys/uio.h>
#include <unistd.h>

#if defined(__x86_64__) && !defined(FARMAP_ONLY_HANDSHAKE)
#define HAS_SWITCH 1
#else
#define HAS_SWITCH 0
#endif

#ifndef FARMAP_PROVED
#define FARMAP_PROVED 0
#endif

#define HIDDEN __attribute__((visibility("hidden")))

/* The bits of a session's word. */
enum {
    CALL = 1,   /* a call runs the runner */
    AWAY = 2,   /* the runner's home runs it, or it has not come yet */
    ASKED = 4,  /* the runner has to read a wake */
    STOP = 8,   /* the runner has to read the end of its requests */
    SHUT = 16,  /* calls are refused, since the map is being closed */
    ENDED = 32, /* the runner has ended by a fault, or the whole program has */
    LATE = 64   /* the runner is away for a long time, since its thread could not be started */
};

/* The kinds of packets, and the length of a packet's head (docs/FORMATS.md). */
enum { DATA = 0, OPEN = 1, CLOSE = 2, WAKE = 3 };
#define HEAD 13
/* The loop has room for so many bytes of a packet from its beginning on. */
#define MOST_DATA 65536

#define MOST_SESSIONS 256
#define MOST_MAPS 256
#define LEAST_STACK (256u << 10)
#define STACK ((size_t)1 << 20)
/* The program's main goes deeper with each session: 40 KiB, as it is built now. */
#define MAIN_STACK(sessions) (((size_t)2 << 20) + (sessions) * ((size_t)64 << 10))
/* No frame of the program is longer than this page below each stack that nobody may touch. */
#define GUARD (64u << 10)
/* Files of the program with such numbers are pipes of sessions. */
#define FIRST_PIPE (1 << 28)
/* No file is below this path, so nobody else's is taken for a pipe. */
#define PIPES "/dev/null/farmap/"
/* A buffer with more room is given back before the next call. */
#define LARGE (256u << 10)
/* This much room for a reply there is always. An error, a number and the null reply have fewer bytes. */
#define SHORT 1024
#define MOST_KEYS 65535
#define MOST_BLOB (16u << 20)
/* How often a caller looks for its turn before it sleeps. */
#define SPINS 200
/* How often a call is made again that was refused since the map had no version number left. */
#define MOST_RENEWALS 8

struct runner;

struct segment {
    const unsigned char *bytes;
    size_t length;
};

struct farmap_session {
    _Atomic uint32_t word;
    /* Handshake: 1 if the runner has the turn. */
    _Atomic uint32_t turn;
    farmap *map;
    struct runner *runner;
    void *caller_stack;
    uint32_t number;
    _Atomic uint32_t taken;

    /* What the runner reads next: a head, and then bytes of the request. */
    unsigned char head[2 * HEAD];
    unsigned head_at, head_end;
    size_t packet_left, request_left;
    struct segment *segments, few[12];
    size_t segment, offset;
    char text[192];
    /* The loop numbers connections. A session has one at a time, and another one if the loop has given it up. */
    uint64_t connection;
    int is_open, is_given_up;

    /* What the runner has written: a packet's head, and then bytes of the reply. */
    unsigned char reply_head[HEAD];
    size_t reply_head_length, reply_left;
    unsigned char *reply;
    size_t reply_length, reply_room;
    int is_lost, has_ended, has_come;
    farmap_pair *pairs;
    size_t pairs_room;
    char reason[FARMAP_REASON];
} __attribute__((aligned(64)));

/* A thread of the program. */
struct runner {
    farmap *map;
    struct runner *next;
    pthread_t thread;
    _Atomic uint32_t state;
    _Atomic uint32_t is_detached;
    void *(*routine)(void *);
    void *argument, *result;
    /* Switch: its stack, and where it and its home went on; `go` wakes its home. */
    void *stack, *own_stack, *home_stack;
    size_t stack_size;
    _Atomic uint32_t go;
    int is_over;
    farmap_session *parks;
};

enum { IDLE, RUNS, OVER, LEAVES };

struct farmap {
    /* In a page of its own, which is 0 in the child of a fork. */
    unsigned *alive;
    farmap_session *sessions;
    uint32_t count;
    uint32_t slot;
    int switches;
    int argument_count;
    char **arguments;
    struct runner *main, *runners;
    pthread_mutex_t lock;
    /* Changes with each thing that farmap_open waits for. */
    _Atomic uint32_t progress;
    _Atomic uint32_t come, is_over, closes;
    /* Until all sessions are there, and whether one has ended before that. */
    _Atomic uint32_t opens, lacks_session;
    /* The threads that the program has started for this map; only its main reads and writes them. */
    uint32_t started, has_evictor, is_unchecked;
    void *(*evictor)(void *);
    int status;
    char said[FARMAP_REASON];
    size_t said_length;
};

static farmap *maps[MOST_MAPS];
static pthread_mutex_t maps_lock = PTHREAD_MUTEX_INITIALIZER;
/* The runner whose home this thread is. */
static __thread struct runner *here;

extern int farmap_main(int, char **);

/* ---- waiting ---- */

static long futex(_Atomic uint32_t *word, int what, uint32_t value) {
    int kept = errno;
    long done = syscall(SYS_futex, (void *)word, what | FUTEX_PRIVATE_FLAG, value, NULL, NULL, 0);
    errno = kept;
    return done;
}

static void wait_while(_Atomic uint32_t *word, uint32_t value) {
    while (atomic_load_explicit(word, memory_order_acquire) == value) futex(word, FUTEX_WAIT, value);
}

static void wake_all_at(_Atomic uint32_t *word) { futex(word, FUTEX_WAKE, INT_MAX); }

static void note_progress(farmap *map) {
    atomic_fetch_add(&map->progress, 1);
    wake_all_at(&map->progress);
}

static void relax(void) {
#if defined(__x86_64__)
    __builtin_ia32_pause();
#endif
}

static __attribute__((noinline)) struct runner *runner_here(void) { return here; }

/* A thread of the program has ended, or waits for the end of another one. While a map is opened this means that a session
 * has ended already. */
static void note_end(farmap *map) {
    if (!atomic_load(&map->opens)) return;
    atomic_store(&map->lacks_session, 1);
    note_progress(map);
}

/* ---- the switch of stacks ---- */

#if HAS_SWITCH
/* Saves what a function has to keep on the stack, stores where that is, and goes on at the other stack. */
HIDDEN void farmap_switch(void **from, void *to);
__asm__(".text\n"
        ".globl farmap_switch\n.hidden farmap_switch\n.type farmap_switch,@function\n"
        "farmap_switch:\n"
        " .cfi_startproc\n"
        " pushq %rbp\n pushq %rbx\n pushq %r12\n pushq %r13\n pushq %r14\n pushq %r15\n"
        " movq %rsp,(%rdi)\n movq %rsi,%rsp\n"
        " popq %r15\n popq %r14\n popq %r13\n popq %r12\n popq %rbx\n popq %rbp\n"
        " ret\n"
        " .cfi_endproc\n"
        ".size farmap_switch,.-farmap_switch\n");

static void begin_runner(void);

static void *first_frame(struct runner *runner) {
    uintptr_t *top = (uintptr_t *)((char *)runner->stack + runner->stack_size - 64);
    *--top = 0; /* where begin_runner would return to: the end of each walk of the stack */
    *--top = (uintptr_t)begin_runner;
    for (int i = 0; i < 6; i++) *--top = 0;
    return top;
}

/* Whether returns are checked by the processor, as CET has it. A switch of stacks would end the process then. */
static int has_shadow_stack(void) {
    uint64_t pointer = 0;
    __asm__ volatile("rdsspq %0" : "+r"(pointer));
    return pointer != 0;
}
#endif

/* Runs a parked session's runner from a call, until it reads again or has ended. */
static void give_turn(farmap_session *session) {
#if HAS_SWITCH
    if (session->map->switches) {
        farmap_switch(&session->caller_stack, session->runner->own_stack);
        return;
    }
#endif
    atomic_store_explicit(&session->turn, 1, memory_order_release);
    futex(&session->turn, FUTEX_WAKE, 1);
    for (int i = 0; i < SPINS; i++) {
        if (atomic_load_explicit(&session->turn, memory_order_acquire) == 0) return;
        relax();
    }
    wait_while(&session->turn, 1);
}

/* Has the runner run by its home. The word is AWAY already. */
static void send_home(farmap_session *session) {
#if HAS_SWITCH
    if (session->map->switches) {
        struct runner *runner = session->runner;
        atomic_store_explicit(&runner->go, 1, memory_order_release);
        futex(&runner->go, FUTEX_WAKE, 1);
        return;
    }
#endif
    atomic_store_explicit(&session->turn, 1, memory_order_release);
    futex(&session->turn, FUTEX_WAKE, 1);
}

/* The runner is done with a request: the caller goes on. Returns when the runner has the turn again. */
static void give_back(farmap_session *session) {
#if HAS_SWITCH
    if (session->map->switches) {
        farmap_switch(&session->runner->own_stack, session->caller_stack);
        return;
    }
#endif
    atomic_store_explicit(&session->turn, 0, memory_order_release);
    futex(&session->turn, FUTEX_WAKE, 1);
    if (session->has_ended) return;
    for (int i = 0; i < SPINS; i++) {
        if (atomic_load_explicit(&session->turn, memory_order_acquire) == 1) return;
        relax();
    }
    wait_while(&session->turn, 0);
}

/* Takes AWAY from the word, so that calls may run the runner. 0 if there is something for its home to do. */
static int publish(farmap_session *session) {
    farmap *map = session->map;
    uint32_t word = atomic_load(&session->word);
    for (;;) {
        if (word & (ASKED | STOP)) return 0;
        if (atomic_compare_exchange_weak(&session->word, &word, word & ~(uint32_t)(AWAY | LATE))) break;
    }
    wake_all_at(&session->word);
    if (!session->has_come) {
        session->has_come = 1;
        atomic_fetch_add(&map->come, 1);
        note_progress(map);
    }
    return 1;
}

/* Parks the runner, which its home has run. Returns when it has the turn again. */
static void park(farmap_session *session) {
#if HAS_SWITCH
    if (session->map->switches) {
        /* No call may run it before it has left its stack, so its home publishes it. */
        session->runner->parks = session;
        farmap_switch(&session->runner->own_stack, session->runner->home_stack);
        return;
    }
#endif
    atomic_store(&session->turn, 0);
    if (publish(session)) wait_while(&session->turn, 0);
}

/* ---- what the program calls in place of the C library ---- */

static farmap_session *session_at(int file) {
    if (file < FIRST_PIPE) return NULL;
    farmap *map = maps[(file - FIRST_PIPE) >> 12];
    return &map->sessions[((file - FIRST_PIPE) >> 1) & 1023];
}

HIDDEN int farmap_x_open(const char *path, int flags, ...) {
    if (strncmp(path, PIPES, sizeof PIPES - 1) == 0) {
        unsigned slot, number;
        if (sscanf(path + sizeof PIPES - 1, "%u/requests%u", &slot, &number) == 2)
            return FIRST_PIPE + (int)(slot << 12 | number << 1);
        if (sscanf(path + sizeof PIPES - 1, "%u/replies%u", &slot, &number) == 2)
            return FIRST_PIPE + (int)(slot << 12 | number << 1 | 1);
    }
    va_list rest;
    va_start(rest, flags);
    unsigned mode = va_arg(rest, unsigned);
    va_end(rest);
    return open(path, flags, mode);
}

HIDDEN int farmap_x_close(int file) {
    farmap_session *session = session_at(file);
    if (!session) return close(file);
    uint32_t word = atomic_load(&session->word);
    if (session->has_ended || word & STOP) return 0;
    /* A session closes its pipes before the end of its requests only if a fault ended it. */
    session->has_ended = 1;
    if (word & CALL) {
        give_back(session);
    } else {
        atomic_fetch_or(&session->word, ENDED);
        atomic_fetch_and(&session->word, ~(uint32_t)AWAY);
        wake_all_at(&session->word);
    }
    return 0;
}

static void put_head(farmap_session *session, int kind, uint64_t connection, size_t length) {
    unsigned char *head = session->head + session->head_end;
    head[0] = (unsigned char)kind;
    for (int i = 0; i < 8; i++) head[1 + i] = (unsigned char)(connection >> (56 - 8 * i));
    for (int i = 0; i < 4; i++) head[9 + i] = (unsigned char)(length >> (24 - 8 * i));
    session->head_end += HEAD;
}

/* Copies what is next of the request's packets, and returns how many bytes. */
static size_t next_bytes(farmap_session *session, unsigned char *out, size_t room) {
    size_t got = 0;
    while (got < room) {
        size_t some;
        if (session->head_at < session->head_end) {
            some = session->head_end - session->head_at;
            if (some > room - got) some = room - got;
            memcpy(out + got, session->head + session->head_at, some);
            session->head_at += (unsigned)some;
            got += some;
        } else if (session->packet_left) {
            const struct segment *segment = &session->segments[session->segment];
            some = segment->length - session->offset;
            if (some > room - got) some = room - got;
            if (some > session->packet_left) some = session->packet_left;
            if (some) memcpy(out + got, segment->bytes + session->offset, some);
            session->offset += some;
            session->packet_left -= some;
            session->request_left -= some;
            got += some;
            if (session->offset == segment->length) {
                session->segment++;
                session->offset = 0;
            }
        } else if (session->request_left) {
            session->packet_left = session->request_left < MOST_DATA ? session->request_left : MOST_DATA;
            session->head_at = session->head_end = 0;
            put_head(session, DATA, session->connection, session->packet_left);
        } else {
            break;
        }
    }
    return got;
}

/* The first session is on the program's main, and comes after all threads were started that could be. If memory was
 * refused for one, its session comes only when the first one has left, so its calls must not wait for it. */
static void check_threads(farmap *map) {
    uint32_t sessions = map->started - map->has_evictor + 1;
    int all = map->started == (map->count > 1 ? map->count : 0);
    map->started = map->has_evictor = 0;
    map->is_unchecked = 0;
    if (atomic_load(&map->opens)) {
        if (!all) note_end(map);
        return;
    }
    for (uint32_t i = 1; i < map->count && sessions < map->count; i++) {
        uint32_t word = atomic_load(&map->sessions[i].word);
        while (word & AWAY && !atomic_compare_exchange_weak(&map->sessions[i].word, &word, word | LATE)) continue;
        wake_all_at(&map->sessions[i].word);
    }
}

HIDDEN ssize_t farmap_x_read(int file, void *out, size_t room) {
    farmap_session *session = session_at(file);
    if (!session) return read(file, out, room);
    for (;;) {
        size_t got = next_bytes(session, out, room);
        if (got || !room) return (ssize_t)got;
        uint32_t word = atomic_load(&session->word);
        if (word & CALL) {
            give_back(session);
        } else if (word & STOP) {
            return 0;
        } else if (word & ASKED) {
            atomic_fetch_and(&session->word, ~(uint32_t)ASKED);
            if (!session->number) session->map->is_unchecked = 1;
            session->head_at = session->head_end = 0;
            put_head(session, WAKE, 0, 0);
        } else {
            /* Each map has this session on another runner. */
            session->runner = runner_here();
            if (!session->number && session->map->is_unchecked) check_threads(session->map);
            park(session);
        }
    }
}

/* Has each session read a wake. */
static void wake_sessions(farmap *map) {
    for (uint32_t i = 0; i < map->count; i++) {
        farmap_session *session = &map->sessions[i];
        uint32_t word = atomic_load(&session->word), next;
        do {
            if (word & ENDED) break;
            next = word | ASKED;
            if (!(word & (CALL | AWAY))) next |= AWAY;
        } while (!atomic_compare_exchange_weak(&session->word, &word, next));
        if (!(word & (CALL | AWAY | ENDED))) send_home(session);
    }
}

/* Keeps bytes of the reply. Without memory it is lost, except for the bytes that there was room for. */
static void keep_reply(farmap_session *session, const unsigned char *bytes, size_t count) {
    if (session->is_lost) return;
    size_t needed = session->reply_length + count;
    if (needed > session->reply_room) {
        size_t room = needed + needed / 2;
        unsigned char *more = realloc(session->reply, room);
        if (!more && room > needed) more = realloc(session->reply, room = needed);
        if (!more) {
            session->is_lost = 1;
            return;
        }
        session->reply = more;
        session->reply_room = room;
    }
    memcpy(session->reply + session->reply_length, bytes, count);
    session->reply_length = needed;
}

static void take_reply_bytes(farmap_session *session, const unsigned char *bytes, size_t count) {
    while (count || session->reply_head_length == HEAD) {
        size_t some;
        if (session->reply_head_length < HEAD) {
            some = HEAD - session->reply_head_length;
            if (some > count) some = count;
            memcpy(session->reply_head + session->reply_head_length, bytes, some);
            session->reply_head_length += some;
            if (session->reply_head_length == HEAD) {
                const unsigned char *length = session->reply_head + 9;
                session->reply_left = (size_t)length[0] << 24 | (size_t)length[1] << 16 | (size_t)length[2] << 8 | length[3];
            }
        } else {
            some = session->reply_left < count ? session->reply_left : count;
            if (session->reply_head[0] == DATA && some) keep_reply(session, bytes, some);
            session->reply_left -= some;
            if (!session->reply_left) {
                session->reply_head_length = 0;
                if (session->reply_head[0] == CLOSE) session->is_given_up = 1;
                if (session->reply_head[0] == WAKE) wake_sessions(session->map);
            } else if (!count) {
                return;
            }
        }
        bytes += some;
        count -= some;
    }
}

/* Keeps what the program says on standard output and standard error, for the reason of a failed opening. */
static void keep_said(farmap *map, const void *bytes, size_t count) {
    if (!map) return;
    size_t room = sizeof map->said - 1 - map->said_length;
    if (count > room) count = room;
    memcpy(map->said + map->said_length, bytes, count);
    map->said_length += count;
}

HIDDEN ssize_t farmap_x_write(int file, const void *bytes, size_t count) {
    farmap_session *session = session_at(file);
    if (session) {
        take_reply_bytes(session, bytes, count);
        return (ssize_t)count;
    }
    if (file == 1 || file == 2) {
        struct runner *runner = runner_here();
        keep_said(runner ? runner->map : NULL, bytes, count);
        return (ssize_t)count;
    }
    return write(file, bytes, count);
}

HIDDEN ssize_t farmap_x_write_parts(int file, const struct iovec *parts, int count) {
    if (file < FIRST_PIPE && file != 1 && file != 2) return writev(file, parts, count);
    ssize_t all = 0;
    for (int i = 0; i < count; i++) all += farmap_x_write(file, parts[i].iov_base, parts[i].iov_len);
    return all;
}

/* A write beyond the limit on the length of files sends SIGXFSZ to its thread, which may be the host's. It is taken
 * away here, and the write fails. */
HIDDEN ssize_t farmap_x_pwrite(int file, const void *bytes, size_t count, off_t at) {
    struct rlimit limit;
    if (getrlimit(RLIMIT_FSIZE, &limit) || limit.rlim_cur == RLIM_INFINITY) return pwrite(file, bytes, count, at);
    sigset_t one, kept, pending;
    sigemptyset(&one);
    sigaddset(&one, SIGXFSZ);
    pthread_sigmask(SIG_BLOCK, &one, &kept);
    sigpending(&pending);
    ssize_t done = pwrite(file, bytes, count, at);
    int why = errno;
    if (done < 0 && why == EFBIG && !sigismember(&pending, SIGXFSZ)) {
        struct timespec none = { 0, 0 };
        while (sigtimedwait(&one, NULL, &none) < 0 && errno == EINTR) continue;
    }
    pthread_sigmask(SIG_SETMASK, &kept, NULL);
    errno = why;
    return done;
}

HIDDEN long farmap_x_arg_count(void) { return runner_here()->map->argument_count; }

HIDDEN long farmap_x_arg(size_t at, unsigned char *out, size_t room) {
    farmap *map = runner_here()->map;
    if (at >= (size_t)map->argument_count) return -1;
    size_t length = strlen(map->arguments[at]);
    if (length > room) return -2;
    memcpy(out, map->arguments[at], length);
    return (long)length;
}

/* The program asks that SIGPIPE be ignored. It has no pipes here, and the host's signals are the host's. */
HIDDEN void *farmap_x_signal(int number, void *handler) {
    (void)number;
    (void)handler;
    return NULL;
}

/* ---- runners ---- */

static void run_routine(struct runner *runner) {
#if HAS_SWITCH
    if (runner->map->switches) {
        runner->is_over = 0;
        runner->parks = NULL;
        runner->own_stack = first_frame(runner);
        for (;;) {
            farmap_switch(&runner->home_stack, runner->own_stack);
            if (runner->is_over) return;
            if (!runner->parks || !publish(runner->parks)) continue;
            runner->parks = NULL;
            wait_while(&runner->go, 0);
            atomic_store(&runner->go, 0);
        }
    }
#endif
    runner->result = runner->routine(runner->argument);
}

#if HAS_SWITCH
/* A routine on a stack of its own. It is begun and ended by the runner's home. */
static void begin_runner(void) {
    struct runner *runner = runner_here();
    runner->result = runner->routine(runner->argument);
    runner->is_over = 1;
    void *nowhere;
    farmap_switch(&nowhere, runner->home_stack);
    __builtin_trap();
}
#endif

static void *home(void *argument) {
    struct runner *runner = argument;
    here = runner;
    for (;;) {
        wait_while(&runner->state, IDLE);
        uint32_t state = atomic_load(&runner->state);
        if (state == LEAVES) return NULL;
        if (state == OVER) {
            wait_while(&runner->state, OVER);
            continue;
        }
        run_routine(runner);
        note_end(runner->map);
        atomic_store(&runner->state, atomic_exchange(&runner->is_detached, 0) ? IDLE : OVER);
        wake_all_at(&runner->state);
    }
}

static void free_runner(struct runner *runner) {
    if (runner->stack) munmap(runner->stack, runner->stack_size);
    free(runner);
}

/* A thread that waits for a routine. NULL if the system refuses one; errno says why. */
static struct runner *make_runner(farmap *map, size_t stack_size) {
    struct runner *runner = calloc(1, sizeof *runner);
    if (!runner) return NULL;
    runner->map = map;
    runner->stack_size = stack_size;
    int failed = 0;
    if (map->switches) {
        void *stack = mmap(NULL, stack_size, PROT_READ | PROT_WRITE, MAP_PRIVATE | MAP_ANONYMOUS | MAP_NORESERVE | MAP_STACK, -1, 0);
        if (stack == MAP_FAILED) {
            free(runner);
            return NULL;
        }
        runner->stack = stack;
        failed = mprotect(stack, GUARD, PROT_NONE) ? errno : 0;
    }
    pthread_attr_t attributes;
    if (!failed && (failed = pthread_attr_init(&attributes)) == 0) {
        failed = pthread_attr_setstacksize(&attributes, map->switches ? LEAST_STACK : stack_size);
        if (!failed) failed = pthread_attr_setguardsize(&attributes, GUARD);
        if (!failed) failed = pthread_create(&runner->thread, &attributes, home, runner);
        pthread_attr_destroy(&attributes);
    }
    if (failed) {
        free_runner(runner);
        errno = failed;
        return NULL;
    }
    return runner;
}

static void start_runner(struct runner *runner, void *(*routine)(void *), void *argument) {
    runner->routine = routine;
    runner->argument = argument;
    atomic_store(&runner->go, 0);
    atomic_store(&runner->state, RUNS);
    wake_all_at(&runner->state);
}

/* There are as many threads as the program needs from the beginning on. They are kept when they are over, and run the
 * next map's routines. So a renewal needs no new one. */
HIDDEN int farmap_x_thread_create(pthread_t *thread, const pthread_attr_t *attributes, void *(*routine)(void *), void *argument) {
    (void)attributes;
    farmap *map = runner_here()->map;
    pthread_mutex_lock(&map->lock);
    struct runner *runner = map->runners;
    while (runner && atomic_load(&runner->state) != IDLE) runner = runner->next;
    if (!runner) {
        runner = make_runner(map, STACK);
        if (runner) {
            runner->next = map->runners;
            map->runners = runner;
        }
    }
    if (runner) {
        /* The evictor's thread is the first of all. */
        if (!map->evictor) map->evictor = routine;
        map->has_evictor += routine == map->evictor;
        map->started++;
        start_runner(runner, routine, argument);
    }
    pthread_mutex_unlock(&map->lock);
    if (!runner) {
        note_end(map);
        return EAGAIN;
    }
    *thread = (pthread_t)(uintptr_t)runner;
    return 0;
}

HIDDEN int farmap_x_thread_join(pthread_t thread, void **result) {
    struct runner *runner = (struct runner *)(uintptr_t)thread;
    note_end(runner->map);
    wait_while(&runner->state, RUNS);
    if (result) *result = runner->result;
    atomic_store(&runner->state, IDLE);
    wake_all_at(&runner->state);
    return 0;
}

/* A thread asks for its own number only to detach itself at its end, on its own stack. */
HIDDEN pthread_t farmap_x_thread_self(void) { return (pthread_t)(uintptr_t)runner_here(); }

HIDDEN int farmap_x_thread_detach(pthread_t thread) {
    atomic_store(&((struct runner *)(uintptr_t)thread)->is_detached, 1);
    return 0;
}

/* The program has ended: so have all sessions. */
static void end_program(farmap *map, int status) {
    map->status = status;
    atomic_store(&map->is_over, 1);
    for (uint32_t i = 0; i < map->count; i++) {
        atomic_fetch_or(&map->sessions[i].word, ENDED);
        atomic_fetch_and(&map->sessions[i].word, ~(uint32_t)AWAY);
        wake_all_at(&map->sessions[i].word);
    }
    note_progress(map);
}

HIDDEN void farmap_x_exit(int status) {
    struct runner *runner = runner_here();
    end_program(runner->map, status);
#if HAS_SWITCH
    if (runner->map->switches) {
        runner->is_over = 1;
        void *nowhere;
        farmap_switch(&nowhere, runner->home_stack);
        __builtin_trap();
    }
#endif
    atomic_store(&runner->state, OVER);
    wake_all_at(&runner->state);
    pthread_exit(NULL);
}

static void *run_main(void *argument) {
    farmap *map = argument;
    int status = farmap_main(map->argument_count, map->arguments);
    end_program(map, status);
    return NULL;
}

/* ---- calls ---- */

static const char *const TEXTS[] = {
    [FARMAP_OK] = "done",
    [FARMAP_NONE] = "no value",
    [FARMAP_OTHER] = "another value was found",
    [FARMAP_KEY_TOO_LONG] = "the key is too long: a key has at most 65535 bytes",
    [FARMAP_VALUE_TOO_LONG] = "the value is too long: a value has at most 16 MiB",
    [FARMAP_BUCKET_TOO_LONG] = "the pairs of the key's bucket would have more than 16 MiB: take a shorter value",
    [FARMAP_ANSWER_TOO_LONG] = "the answer would be too long: ask for fewer keys at once",
    [FARMAP_FULL] = "the memory is full: give the map more memory, or a folder",
    [FARMAP_DEVICE] = "a device failed: look at the folders of the map",
    [FARMAP_DAMAGED] = "a device gave back damaged bytes: look at the disk of the folders",
    [FARMAP_MEMORY] = "the system refused memory",
    [FARMAP_LOST] = "the change was made, but the system refused memory for the answer",
    [FARMAP_RENEWING] = "the map is being renewed: try again",
    [FARMAP_BUSY] = "a call of the session is not over: give each thread a session of its own",
    [FARMAP_NO_SESSION] = "all sessions are taken: open the map with more",
    [FARMAP_FORKED] = "the process is the child of a fork: open a map in the child",
    [FARMAP_CLOSED] = "the map is being closed",
    [FARMAP_ENDED] = "the session has ended by a fault: close the map, and open another one",
    [FARMAP_ARGUMENT] = "an argument is wrong, for example NULL",
    [FARMAP_SYSTEM] = "the system refused something, for example a thread",
    [FARMAP_OPTIONS] = "the map can't be opened with these options",
};

const char *farmap_text(farmap_status status) {
    unsigned at = (unsigned)status;
    return at < sizeof TEXTS / sizeof *TEXTS && TEXTS[at] ? TEXTS[at] : "no such status";
}

static farmap_status fail(farmap_session *session, farmap_status status) {
    snprintf(session->reason, sizeof session->reason, "%s", farmap_text(status));
    return status;
}

/* Takes the session for a call. Nothing of it is touched before that. */
static farmap_status enter(farmap_session *session) {
    if (!*session->map->alive) return FARMAP_FORKED;
    uint32_t word = 0;
    while (!atomic_compare_exchange_strong_explicit(&session->word, &word, CALL, memory_order_acquire, memory_order_relaxed)) {
        if (word & CALL) return FARMAP_BUSY;
        if (word & (ENDED)) return FARMAP_ENDED;
        if (word & (SHUT | STOP)) return FARMAP_CLOSED;
        if (word & AWAY && word & LATE) return FARMAP_MEMORY;
        if (word & AWAY) futex(&session->word, FUTEX_WAIT, word);
        word = 0;
    }
    return FARMAP_OK;
}

/* Ends a call. If the runner has to read a wake, its home runs it now. */
static void leave(farmap_session *session) {
    uint32_t word = CALL, next = 0;
    if (!session->has_ended && atomic_compare_exchange_strong_explicit(&session->word, &word, 0, memory_order_release, memory_order_relaxed)) return;
    word = atomic_load(&session->word);
    do {
        next = word & ~(uint32_t)CALL;
        if (session->has_ended) next |= ENDED;
        else if (word & (ASKED | STOP)) next |= AWAY;
    } while (!atomic_compare_exchange_weak(&session->word, &word, next));
    if (session->has_ended || next & AWAY) send_home(session);
}

static size_t put_text(farmap_session *session, size_t at, const char *text) {
    size_t length = strlen(text);
    memcpy(session->text + at, text, length);
    return at + length;
}

/* Writes a mark, a number and the end of a line. */
static size_t put_number(char *text, size_t at, char mark, size_t number) {
    char digits[24];
    int count = 0;
    do digits[count++] = (char)('0' + number % 10);
    while (number /= 10);
    text[at++] = mark;
    while (count) text[at++] = digits[--count];
    text[at++] = '\r';
    text[at++] = '\n';
    return at;
}

/* Gives the room of long replies back, if there is more than this. */
static void give_room_back(farmap_session *session, size_t most) {
    unsigned char *less = session->reply_room > most ? realloc(session->reply, SHORT) : NULL;
    if (less) {
        session->reply = less;
        session->reply_room = SHORT;
    }
    session->reply_length = 0;
}

static void begin_request(farmap_session *session) {
    give_room_back(session, LARGE);
    session->is_lost = 0;
    session->reason[0] = 0;
    session->head_at = session->head_end = 0;
    session->packet_left = 0;
    session->segment = session->offset = 0;
    if (session->is_given_up) {
        put_head(session, CLOSE, session->connection++, 0);
        session->is_given_up = session->is_open = 0;
    }
    if (!session->is_open) {
        put_head(session, OPEN, session->connection, 0);
        session->is_open = 1;
    }
}

/* A request of a few strings, as an array of RESP. */
static void write_request(farmap_session *session, const char *name, const farmap_bytes *strings, unsigned count) {
    size_t at = put_number(session->text, 0, '*', count + 1), begun = 0, all = 0;
    at = put_number(session->text, at, '$', strlen(name));
    at = put_text(session, at, name);
    at = put_text(session, at, "\r\n");
    struct segment *segment = session->few;
    for (unsigned i = 0; i < count; i++) {
        at = put_number(session->text, at, '$', strings[i].length);
        *segment++ = (struct segment){ (unsigned char *)session->text + begun, at - begun };
        if (strings[i].length) *segment++ = (struct segment){ strings[i].data, strings[i].length };
        all += at - begun + strings[i].length;
        begun = at;
        at = put_text(session, at, "\r\n");
    }
    *segment = (struct segment){ (unsigned char *)session->text + begun, at - begun };
    session->segments = session->few;
    session->request_left = all + at - begun;
}

/* The status that an error of the program means. */
static farmap_status status_of(farmap_session *session) {
    static const struct {
        const char *word;
        farmap_status status;
    } WORDS[] = {
        { "TOOLONG ", FARMAP_BUCKET_TOO_LONG }, { "FULL ", FARMAP_FULL }, { "SPENT ", FARMAP_RENEWING },
        { "DEVICE ", FARMAP_DEVICE }, { "DAMAGED ", FARMAP_DAMAGED }, { "MEMORY ", FARMAP_MEMORY },
        { "KEYTOOLONG ", FARMAP_KEY_TOO_LONG }, { "VALUETOOLONG ", FARMAP_VALUE_TOO_LONG },
        { "REPLYTOOLONG ", FARMAP_ANSWER_TOO_LONG }, { "LOST ", FARMAP_LOST },
    };
    const char *text = (const char *)session->reply + 1;
    size_t length = session->reply_length - 1;
    if (length >= 2) length -= 2;
    for (unsigned i = 0; i < sizeof WORDS / sizeof *WORDS; i++) {
        size_t word = strlen(WORDS[i].word);
        if (length >= word && memcmp(text, WORDS[i].word, word) == 0) {
            snprintf(session->reason, sizeof session->reason, "%.*s", (int)(length - word), text + word);
            return WORDS[i].status;
        }
    }
    snprintf(session->reason, sizeof session->reason, "%.*s", (int)length, text);
    return FARMAP_ENDED;
}

/* Has the request answered. After FARMAP_OK there is a whole reply that is no error. The caller still has the word.
 * `changes` says that a reply that is too long for its room means that the map was changed. */
static farmap_status exchange(farmap_session *session, int changes) {
    int cancel;
    pthread_setcancelstate(PTHREAD_CANCEL_DISABLE, &cancel);
    give_turn(session);
    pthread_setcancelstate(cancel, NULL);
    if (session->has_ended) return fail(session, FARMAP_ENDED);
    if (session->is_lost) return fail(session, changes ? FARMAP_LOST : FARMAP_MEMORY);
    /* The loop gives a connection up only if memory is refused, and then it has made no call for this request. */
    if (session->is_given_up || session->reply_length < 3) return fail(session, FARMAP_MEMORY);
    if (session->reply[0] == '-') return status_of(session);
    return FARMAP_OK;
}

/* Makes a request of at most three strings. If it returns FARMAP_OK, the session's reply is a whole one, and the
 * session still has to leave. */
static farmap_status ask(farmap_session *session, const char *name, const farmap_bytes *strings, unsigned count) {
    farmap_status status;
    for (int i = 0; i < MOST_RENEWALS; i++) {
        status = enter(session);
        if (status != FARMAP_OK) return status;
        begin_request(session);
        write_request(session, name, strings, count);
        status = exchange(session, strcmp(name, "PUT") == 0 || strcmp(name, "TAKE") == 0);
        if (status == FARMAP_OK) return status;
        leave(session);
        /* The call was refused, and the map is renewed before the session is free again. */
        if (status != FARMAP_RENEWING) break;
        sched_yield();
    }
    return status;
}

/* A number at this place of the reply, and its mark before it. Returns the place after its line. */
static size_t read_number(const farmap_session *session, size_t at, int64_t *number) {
    const unsigned char *reply = session->reply;
    int is_negative = 0;
    int64_t value = 0;
    at++;
    if (at < session->reply_length && reply[at] == '-') is_negative = 1, at++;
    while (at < session->reply_length && reply[at] >= '0' && reply[at] <= '9') value = value * 10 + (reply[at++] - '0');
    *number = is_negative ? -value : value;
    return at + 2;
}

/* A string at this place of the reply; data is NULL for the null reply. Returns the place after it. */
static size_t read_string(const farmap_session *session, size_t at, farmap_bytes *string) {
    int64_t length;
    at = read_number(session, at, &length);
    if (length < 0 || (size_t)length > session->reply_length || at > session->reply_length - (size_t)length) {
        *string = (farmap_bytes){ NULL, 0 };
        return at;
    }
    *string = (farmap_bytes){ session->reply + at, (size_t)length };
    return at + (size_t)length + 2;
}

static farmap_status check_key(farmap_bytes key) {
    if (!key.data && key.length) return FARMAP_ARGUMENT;
    return key.length > FARMAP_LONGEST_KEY ? FARMAP_KEY_TOO_LONG : FARMAP_OK;
}

static farmap_status check_value(farmap_bytes value) {
    if (!value.data && value.length) return FARMAP_ARGUMENT;
    return value.length > MOST_BLOB ? FARMAP_VALUE_TOO_LONG : FARMAP_OK;
}

static void lend(farmap_bytes *out, farmap_bytes bytes) {
    if (out) *out = bytes;
}

/* A request whose reply is a value or none. */
static farmap_status ask_value(farmap_session *session, const char *name, const farmap_bytes *strings, unsigned count, farmap_bytes *value) {
    farmap_bytes found;
    farmap_status status = ask(session, name, strings, count);
    if (status != FARMAP_OK) return status;
    read_string(session, 0, &found);
    lend(value, found);
    leave(session);
    return found.data ? FARMAP_OK : FARMAP_NONE;
}

/* A request whose reply is 1 or 0. */
static farmap_status ask_flag(farmap_session *session, const char *name, const farmap_bytes *strings, unsigned count) {
    int64_t number;
    farmap_status status = ask(session, name, strings, count);
    if (status != FARMAP_OK) return status;
    read_number(session, 0, &number);
    leave(session);
    return number ? FARMAP_OK : FARMAP_NONE;
}

/* A request whose reply is 1 if it was done, and otherwise the value that was found, or none. */
static farmap_status ask_if(farmap_session *session, const char *name, const farmap_bytes *strings, unsigned count, farmap_bytes *found) {
    farmap_bytes other = { NULL, 0 };
    farmap_status status = ask(session, name, strings, count);
    if (status != FARMAP_OK) return status;
    if (session->reply[0] != ':') {
        read_string(session, 0, &other);
        status = other.data ? FARMAP_OTHER : FARMAP_NONE;
    }
    lend(found, other);
    leave(session);
    return status;
}

#define CHECK(what)                                              \
    do {                                                         \
        farmap_status checked_ = (what);                         \
        if (checked_ != FARMAP_OK) return refuse(session, checked_); \
    } while (0)

/* An argument that is wrong. The reason is of the session's own call, so it is not touched while another one runs. */
static farmap_status refuse(farmap_session *session, farmap_status status) {
    if (!session) return status;
    farmap_status entered = enter(session);
    if (entered != FARMAP_OK) return entered;
    fail(session, status);
    leave(session);
    return status;
}

farmap_status farmap_get(farmap_session *session, farmap_bytes key, farmap_bytes *value) {
    lend(value, (farmap_bytes){ NULL, 0 });
    if (!session || !value) return FARMAP_ARGUMENT;
    CHECK(check_key(key));
    return ask_value(session, "GET", &key, 1, value);
}

farmap_status farmap_contains(farmap_session *session, farmap_bytes key) {
    if (!session) return FARMAP_ARGUMENT;
    CHECK(check_key(key));
    return ask_flag(session, "HAS", &key, 1);
}

farmap_status farmap_put(farmap_session *session, farmap_bytes key, farmap_bytes value, farmap_bytes *before) {
    lend(before, (farmap_bytes){ NULL, 0 });
    if (!session) return FARMAP_ARGUMENT;
    CHECK(check_key(key));
    CHECK(check_value(value));
    farmap_bytes strings[] = { key, value };
    farmap_status status = before ? ask_value(session, "PUT", strings, 2, before) : ask_flag(session, "SET", strings, 2);
    return status == FARMAP_NONE ? FARMAP_OK : status;
}

farmap_status farmap_put_new(farmap_session *session, farmap_bytes key, farmap_bytes value, farmap_bytes *found) {
    lend(found, (farmap_bytes){ NULL, 0 });
    if (!session) return FARMAP_ARGUMENT;
    CHECK(check_key(key));
    CHECK(check_value(value));
    farmap_bytes strings[] = { key, value };
    return ask_if(session, "PUTNEW", strings, 2, found);
}

farmap_status farmap_put_if(farmap_session *session, farmap_bytes key, farmap_bytes expected, farmap_bytes value, farmap_bytes *found) {
    lend(found, (farmap_bytes){ NULL, 0 });
    if (!session) return FARMAP_ARGUMENT;
    CHECK(check_key(key));
    CHECK(check_value(expected));
    CHECK(check_value(value));
    farmap_bytes strings[] = { key, expected, value };
    return ask_if(session, "PUTIF", strings, 3, found);
}

farmap_status farmap_remove(farmap_session *session, farmap_bytes key) {
    if (!session) return FARMAP_ARGUMENT;
    CHECK(check_key(key));
    return ask_flag(session, "REMOVE", &key, 1);
}

farmap_status farmap_take(farmap_session *session, farmap_bytes key, farmap_bytes *value) {
    lend(value, (farmap_bytes){ NULL, 0 });
    if (!session || !value) return FARMAP_ARGUMENT;
    CHECK(check_key(key));
    return ask_value(session, "TAKE", &key, 1, value);
}

farmap_status farmap_remove_if(farmap_session *session, farmap_bytes key, farmap_bytes expected, farmap_bytes *found) {
    lend(found, (farmap_bytes){ NULL, 0 });
    if (!session) return FARMAP_ARGUMENT;
    CHECK(check_key(key));
    CHECK(check_value(expected));
    farmap_bytes strings[] = { key, expected };
    return ask_if(session, "REMOVEIF", strings, 2, found);
}

/* The request of farmap_get_many, in segments and texts that are allocated. NULL if memory is refused. */
static struct segment *write_many(farmap_session *session, const farmap_bytes *keys, size_t count) {
    size_t texts = 64 + count * 28;
    struct segment *segments = malloc(sizeof *segments * (2 * count + 2) + texts);
    if (!segments) return NULL;
    char *text = (char *)(segments + 2 * count + 2);
    struct segment *segment = segments;
    size_t begun = 0, all = 0, at = put_number(text, 0, '*', count + 1);
    memcpy(text + at, "$4\r\nMGET\r\n", 10);
    at += 10;
    for (size_t i = 0; i < count; i++) {
        at = put_number(text, at, '$', keys[i].length);
        *segment++ = (struct segment){ (unsigned char *)text + begun, at - begun };
        if (keys[i].length) *segment++ = (struct segment){ keys[i].data, keys[i].length };
        all += at - begun + keys[i].length;
        begun = at;
        memcpy(text + at, "\r\n", 2);
        at += 2;
    }
    *segment = (struct segment){ (unsigned char *)text + begun, at - begun };
    session->segments = segments;
    session->request_left = all + at - begun;
    return segments;
}

farmap_status farmap_get_many(farmap_session *session, const farmap_bytes *keys, size_t count, farmap_bytes *values) {
    if (!session || ((!keys || !values) && count)) return FARMAP_ARGUMENT;
    for (size_t i = 0; i < count; i++) values[i] = (farmap_bytes){ NULL, 0 };
    if (count > MOST_KEYS) return refuse(session, FARMAP_ANSWER_TOO_LONG);
    size_t bytes = 0;
    for (size_t i = 0; i < count; i++) {
        CHECK(check_key(keys[i]));
        bytes += keys[i].length;
    }
    if (bytes > 32u << 20) return refuse(session, FARMAP_ANSWER_TOO_LONG);
    farmap_status status = FARMAP_RENEWING;
    for (int i = 0; i < MOST_RENEWALS && status == FARMAP_RENEWING; i++) {
        if ((status = enter(session)) != FARMAP_OK) return status;
        struct segment *segments = write_many(session, keys, count);
        if (segments) {
            begin_request(session);
            status = exchange(session, 0);
        } else {
            status = fail(session, FARMAP_MEMORY);
        }
        free(segments);
        session->segments = session->few;
        if (status == FARMAP_OK) {
            int64_t number;
            size_t at = read_number(session, 0, &number);
            for (size_t k = 0; k < count; k++) at = read_string(session, at, &values[k]);
        }
        leave(session);
    }
    return status;
}

farmap_status farmap_visit(farmap_session *session, uint64_t *cursor, const farmap_pair **pairs, size_t *count) {
    if (pairs) *pairs = NULL;
    if (count) *count = 0;
    if (!session || !cursor || !pairs || !count) return FARMAP_ARGUMENT;
    if (*cursor > UINT32_MAX) return FARMAP_NONE;
    char digits[24];
    int length = snprintf(digits, sizeof digits, "%llu", (unsigned long long)*cursor);
    farmap_bytes from = { digits, (size_t)length };
    farmap_status status = ask(session, "PAIRS", &from, 1);
    if (status != FARMAP_OK) return status;
    int64_t strings, next;
    size_t at = read_number(session, 0, &strings);
    at = read_number(session, at, &next);
    size_t found = (size_t)(strings - 1) / 2;
    if (found > session->pairs_room) {
        farmap_pair *more = realloc(session->pairs, found * sizeof *more);
        if (!more) {
            fail(session, FARMAP_MEMORY);
            leave(session);
            return FARMAP_MEMORY;
        }
        session->pairs = more;
        session->pairs_room = found;
    }
    for (size_t i = 0; i < found; i++) {
        at = read_string(session, at, &session->pairs[i].key);
        at = read_string(session, at, &session->pairs[i].value);
    }
    *cursor = (uint64_t)next;
    *pairs = session->pairs;
    *count = found;
    leave(session);
    return found ? FARMAP_OK : FARMAP_NONE;
}

farmap_status farmap_length(farmap_session *session, uint64_t *length) {
    if (length) *length = 0;
    if (!session || !length) return FARMAP_ARGUMENT;
    farmap_status status = ask(session, "LEN", NULL, 0);
    if (status != FARMAP_OK) return status;
    int64_t number;
    read_number(session, 0, &number);
    *length = (uint64_t)number;
    leave(session);
    return FARMAP_OK;
}

farmap_status farmap_count(farmap_session *session, farmap_stats *stats) {
    if (stats) memset(stats, 0, sizeof *stats);
    if (!session || !stats) return FARMAP_ARGUMENT;
    farmap_status status = ask(session, "STATS", NULL, 0);
    if (status != FARMAP_OK) return status;
    int64_t numbers;
    size_t at = read_number(session, 0, &numbers);
    uint64_t *out = (uint64_t *)stats;
    for (int64_t i = 0; i < numbers && i < (int64_t)(sizeof *stats / sizeof *out); i++) {
        int64_t number;
        at = read_number(session, at, &number);
        out[i] = (uint64_t)number;
    }
    leave(session);
    return FARMAP_OK;
}

farmap_status farmap_evict(farmap_session *session) {
    if (!session) return FARMAP_ARGUMENT;
    return ask_flag(session, "EVICT", NULL, 0);
}

const char *farmap_reason(const farmap_session *session) {
    if (!session) return farmap_text(FARMAP_ARGUMENT);
    const farmap *map = session->map;
    return atomic_load(&map->is_over) && map->said_length ? map->said : session->reason;
}

int farmap_is_proved(void) { return FARMAP_PROVED; }

/* ---- maps ---- */

static void tell(char *reason, size_t size, const char *text) {
    if (reason && size) snprintf(reason, size, "%s", text);
}

static void free_map(farmap *map) {
    if (map->slot < MOST_MAPS) {
        pthread_mutex_lock(&maps_lock);
        maps[map->slot] = NULL;
        pthread_mutex_unlock(&maps_lock);
    }
    for (uint32_t i = 0; map->sessions && i < map->count; i++) {
        free(map->sessions[i].reply);
        free(map->sessions[i].pairs);
    }
    free(map->sessions);
    for (int i = 0; map->arguments && i < map->argument_count; i++) free(map->arguments[i]);
    free(map->arguments);
    if (map->alive) munmap(map->alive, (size_t)sysconf(_SC_PAGESIZE));
    pthread_mutex_destroy(&map->lock);
    free(map);
}

static void end_runners(farmap *map) {
    for (struct runner *runner = map->runners, *next; runner; runner = next) {
        next = runner->next;
        atomic_store(&runner->state, LEAVES);
        wake_all_at(&runner->state);
        pthread_join(runner->thread, NULL);
        free_runner(runner);
    }
    map->runners = NULL;
}

/* Makes a runner for the program's main and for each thread that it starts: one for each session but the first, and
 * one more. Returns 0, or why the system refused one. */
static int make_runners(farmap *map) {
    for (uint32_t i = 0; i <= map->count; i++) {
        struct runner *runner = make_runner(map, i < map->count ? STACK : MAIN_STACK(map->count));
        if (!runner) return errno ? errno : EAGAIN;
        runner->next = map->runners;
        map->runners = runner;
    }
    map->main = map->runners;
    return 0;
}

/* Has all sessions read the end of their requests, and waits for the end of the program. */
static void stop_program(farmap *map) {
    for (uint32_t i = 0; i < map->count; i++) {
        farmap_session *session = &map->sessions[i];
        uint32_t word = atomic_load(&session->word), next;
        do {
            next = word | STOP | SHUT;
            if (!(word & (AWAY | ENDED))) next |= AWAY;
        } while (!atomic_compare_exchange_weak(&session->word, &word, next));
        if (!(word & (AWAY | ENDED))) send_home(session);
    }
    wait_while(&map->main->state, RUNS);
}

/* A page that is 0 in the child of a fork, however it was made. */
static unsigned *make_alive(void) {
    size_t page = (size_t)sysconf(_SC_PAGESIZE);
    void *made = mmap(NULL, page, PROT_READ | PROT_WRITE, MAP_PRIVATE | MAP_ANONYMOUS, -1, 0);
    if (made == MAP_FAILED) return NULL;
    if (madvise(made, page, MADV_WIPEONFORK)) {
        int kept = errno;
        munmap(made, page);
        errno = kept;
        return NULL;
    }
    *(unsigned *)made = 1;
    return made;
}

static int add_argument(farmap *map, const char *option, const char *value) {
    for (int i = 0; i < 2; i++) {
        const char *word = i ? value : option;
        if (!word) continue;
        char *copy = strdup(word);
        if (!copy) return 0;
        map->arguments[map->argument_count++] = copy;
    }
    return 1;
}

static int add_number(farmap *map, const char *option, uint64_t number) {
    char digits[24];
    snprintf(digits, sizeof digits, "%llu", (unsigned long long)number);
    return add_argument(map, option, digits);
}

static int write_arguments(farmap *map, const farmap_options *options, uint64_t memory) {
    size_t folders = 0;
    while (options->folders && options->folders[folders]) folders++;
    map->arguments = calloc(16 + 2 * folders, sizeof *map->arguments);
    char pipes[64];
    snprintf(pipes, sizeof pipes, PIPES "%u", map->slot);
    if (!map->arguments || !add_argument(map, "farmap", NULL) || !add_number(map, "--memory", memory)) return 0;
    if (!add_number(map, "--sessions", map->count) || !add_argument(map, "--pipes", pipes)) return 0;
    if (options->pairs && !add_number(map, "--pairs", options->pairs)) return 0;
    if (options->names && !add_number(map, "--names", options->names)) return 0;
    for (size_t i = 0; i < folders; i++) {
        /* One word, as a folder may begin with a hyphen. */
        char *word = malloc(strlen(options->folders[i]) + sizeof "--far=");
        if (!word) return 0;
        strcpy(word, "--far=");
        strcat(word, options->folders[i]);
        map->arguments[map->argument_count++] = word;
    }
    return 1;
}

static int take_slot(farmap *map) {
    pthread_mutex_lock(&maps_lock);
    for (uint32_t i = 0; i < MOST_MAPS; i++) {
        if (!maps[i]) {
            maps[i] = map;
            map->slot = i;
            break;
        }
    }
    pthread_mutex_unlock(&maps_lock);
    return map->slot < MOST_MAPS;
}

static farmap_status refuse_map(farmap *map, char *reason, size_t size, farmap_status status, const char *what) {
    char text[FARMAP_REASON];
    if (status == FARMAP_SYSTEM) snprintf(text, sizeof text, "the system refused %s: %s", what, strerror(errno));
    else snprintf(text, sizeof text, "%s", what);
    tell(reason, size, text);
    if (map) free_map(map);
    return status;
}

static int switches_by(const farmap_options *options) {
#if HAS_SWITCH
    return !(options->flags & FARMAP_HANDSHAKE) && !has_shadow_stack();
#else
    (void)options;
    return 0;
#endif
}

/* Starts the program, and waits until all sessions are there. */
static farmap_status start_program(farmap *map, char *reason, size_t size) {
    sigset_t all, kept;
    sigfillset(&all);
    pthread_sigmask(SIG_SETMASK, &all, &kept);
    int why = make_runners(map);
    pthread_sigmask(SIG_SETMASK, &kept, NULL);
    if (why) {
        end_runners(map);
        if (why == ENOMEM) return refuse_map(map, reason, size, FARMAP_MEMORY, farmap_text(FARMAP_MEMORY));
        errno = why;
        return refuse_map(map, reason, size, FARMAP_SYSTEM, "a thread (take fewer sessions, or raise the limit of threads)");
    }
    atomic_store(&map->opens, 1);
    start_runner(map->main, run_main, map);
    for (;;) {
        uint32_t seen = atomic_load(&map->progress);
        if (atomic_load(&map->come) == map->count || atomic_load(&map->is_over) || atomic_load(&map->lacks_session)) break;
        wait_while(&map->progress, seen);
    }
    int is_short = atomic_load(&map->is_over) || atomic_load(&map->lacks_session);
    atomic_store(&map->opens, 0);
    /* The first request of a session allocates what the session needs for each further one. */
    for (uint32_t i = 0; i < map->count && !is_short; i++) {
        uint64_t length;
        is_short = farmap_length(&map->sessions[i], &length) != FARMAP_OK;
    }
    if (!is_short) return FARMAP_OK;
    stop_program(map);
    /* Without a word of the program, a first request was refused memory. */
    while (map->said_length && map->said[map->said_length - 1] == '\n') map->said[--map->said_length] = 0;
    int lacks_memory = !map->said_length || strstr(map->said, "memory was refused") || strstr(map->said, "out of memory")
        || strstr(map->said, ": memory");
    tell(reason, size, lacks_memory ? farmap_text(FARMAP_MEMORY) : map->said);
    end_runners(map);
    free_map(map);
    return lacks_memory ? FARMAP_MEMORY : FARMAP_OPTIONS;
}

farmap_status farmap_open(const farmap_options *options, farmap **out, char *reason, size_t size) {
    static const farmap_options DEFAULTS;
    tell(reason, size, "");
    if (!out) return refuse_map(NULL, reason, size, FARMAP_ARGUMENT, "farmap_open needs a place for the map");
    *out = NULL;
    if (!options) options = &DEFAULTS;
    if (options->flags & ~FARMAP_HANDSHAKE || options->reserved[0] || options->reserved[1] || options->reserved[2])
        return refuse_map(NULL, reason, size, FARMAP_ARGUMENT, "an option that this library does not know is set");
    if (options->sessions > MOST_SESSIONS)
        return refuse_map(NULL, reason, size, FARMAP_OPTIONS, "sessions: more than 256");
    uint64_t memory = options->memory ? options->memory : (uint64_t)256 << 20;
    long processors = sysconf(_SC_NPROCESSORS_ONLN);
    uint32_t count = options->sessions;
    if (!count) {
        /* (no more than an eighth of the memory is for sessions that nobody asked for) */
        uint64_t most = memory / (4u << 20);
        count = processors < 1 ? 1 : processors > MOST_SESSIONS ? MOST_SESSIONS : (uint32_t)processors;
        if (count > most) count = most ? (uint32_t)most : 1;
    }
    farmap *map = calloc(1, sizeof *map);
    if (!map) return refuse_map(NULL, reason, size, FARMAP_MEMORY, farmap_text(FARMAP_MEMORY));
    map->slot = MOST_MAPS;
    map->count = count;
    map->switches = switches_by(options);
    map->is_unchecked = 1;
    pthread_mutex_init(&map->lock, NULL);
    map->alive = make_alive();
    if (!map->alive) return refuse_map(map, reason, size, FARMAP_SYSTEM, "a page for the check of forks");
    map->sessions = aligned_alloc(64, count * sizeof *map->sessions);
    if (!map->sessions) return refuse_map(map, reason, size, FARMAP_MEMORY, farmap_text(FARMAP_MEMORY));
    memset((void *)map->sessions, 0, count * sizeof *map->sessions);
    for (uint32_t i = 0; i < count; i++) {
        map->sessions[i].map = map;
        map->sessions[i].number = i;
        map->sessions[i].segments = map->sessions[i].few;
        map->sessions[i].reply = malloc(SHORT);
        map->sessions[i].reply_room = SHORT;
        if (!map->sessions[i].reply) return refuse_map(map, reason, size, FARMAP_MEMORY, farmap_text(FARMAP_MEMORY));
        atomic_store(&map->sessions[i].word, AWAY);
    }
    if (!take_slot(map)) return refuse_map(map, reason, size, FARMAP_OPTIONS, "256 maps are open: close one");
    if (!write_arguments(map, options, memory)) return refuse_map(map, reason, size, FARMAP_MEMORY, farmap_text(FARMAP_MEMORY));
    farmap_status status = start_program(map, reason, size);
    if (status == FARMAP_OK) *out = map;
    return status;
}

farmap_status farmap_close(farmap *map) {
    if (!map) return FARMAP_ARGUMENT;
    if (!*map->alive) return FARMAP_FORKED;
    if (atomic_exchange(&map->closes, 1)) return FARMAP_BUSY;
    for (uint32_t i = 0; i < map->count; i++) {
        farmap_session *session = &map->sessions[i];
        uint32_t word = atomic_load(&session->word);
        for (;;) {
            if (word & CALL) {
                while (i--) {
                    atomic_fetch_and(&map->sessions[i].word, ~(uint32_t)SHUT);
                    wake_all_at(&map->sessions[i].word);
                }
                atomic_store(&map->closes, 0);
                return FARMAP_BUSY;
            }
            if (atomic_compare_exchange_weak(&session->word, &word, word | SHUT)) break;
        }
    }
    stop_program(map);
    end_runners(map);
    free_map(map);
    return FARMAP_OK;
}

uint32_t farmap_sessions(const farmap *map) { return map ? map->count : 0; }

farmap_status farmap_session_open(farmap *map, farmap_session **out) {
    if (out) *out = NULL;
    if (!map || !out) return FARMAP_ARGUMENT;
    if (!*map->alive) return FARMAP_FORKED;
    for (uint32_t i = 0; i < map->count; i++) {
        farmap_session *session = &map->sessions[i];
        if (atomic_load(&session->word) & ENDED) continue;
        if (!atomic_exchange(&session->taken, 1)) {
            *out = session;
            return FARMAP_OK;
        }
    }
    return FARMAP_NO_SESSION;
}

farmap_status farmap_session_close(farmap_session *session) {
    if (!session) return FARMAP_ARGUMENT;
    farmap_status status = enter(session);
    if (status == FARMAP_ENDED || status == FARMAP_CLOSED) {
        atomic_store(&session->taken, 0);
        return FARMAP_OK;
    }
    if (status != FARMAP_OK) return status;
    give_room_back(session, SHORT);
    free(session->pairs);
    session->pairs = NULL;
    session->pairs_room = 0;
    session->reason[0] = 0;
    leave(session);
    atomic_store(&session->taken, 0);
    return FARMAP_OK;
}
