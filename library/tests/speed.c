/* speed: nanoseconds of a call, of one thread and of several. `speed THREADS [handshake] [FOLDER]` */
#define _GNU_SOURCE
#include <farmap.h>

#include <pthread.h>
#include <stdio.h>
#include <stdlib.h>
#include <string.h>
#include <time.h>

enum { KEYS = 200000, ROUNDS = 5 };

static farmap *map;

struct thread {
    pthread_t thread;
    unsigned number;
    double put, get, absent;
};

static double now(void) {
    struct timespec time;
    clock_gettime(CLOCK_THREAD_CPUTIME_ID, &time);
    return (double)time.tv_sec + (double)time.tv_nsec * 1e-9;
}

static void *work(void *argument) {
    struct thread *me = argument;
    farmap_session *session;
    if (farmap_session_open(map, &session) != FARMAP_OK) exit(1);
    static const char value[64] = "value";
    farmap_bytes found;
    double begun = now();
    for (unsigned i = 0; i < KEYS; i++) {
        unsigned key[2] = { me->number, i };
        if (farmap_put(session, (farmap_bytes){ key, 8 }, (farmap_bytes){ value, 64 }, NULL) != FARMAP_OK) exit(1);
    }
    me->put = (now() - begun) / KEYS;
    begun = now();
    for (unsigned i = 0; i < KEYS * ROUNDS; i++) {
        unsigned key[2] = { me->number, (unsigned)((uint64_t)i * 7919 % KEYS) };
        if (farmap_get(session, (farmap_bytes){ key, 8 }, &found) != FARMAP_OK || found.length != 64) exit(1);
    }
    me->get = (now() - begun) / KEYS / ROUNDS;
    begun = now();
    for (unsigned i = 0; i < KEYS * ROUNDS; i++)
        if (farmap_contains(session, farmap_string("no such key")) != FARMAP_NONE) exit(1);
    me->absent = (now() - begun) / KEYS / ROUNDS;
    return NULL;
}

int main(int count, char **words) {
    const char *folders[] = { NULL, NULL };
    unsigned threads = count > 1 ? (unsigned)atoi(words[1]) : 1;
    farmap_options options = { .memory = 1024u << 20, .sessions = threads, .pairs = (uint64_t)KEYS * threads, .folders = folders };
    for (int i = 2; i < count; i++) {
        if (strcmp(words[i], "handshake") == 0) options.flags = FARMAP_HANDSHAKE;
        else folders[0] = words[i];
    }
    char reason[FARMAP_REASON];
    if (farmap_open(&options, &map, reason, sizeof reason) != FARMAP_OK) return printf("%s\n", reason), 1;
    struct thread all[64] = { { 0 } };
    for (unsigned i = 0; i < threads; i++) all[i].number = i, pthread_create(&all[i].thread, NULL, work, &all[i]);
    for (unsigned i = 0; i < threads; i++) pthread_join(all[i].thread, NULL);
    printf("processor time of thread 0: put %.0f ns, get %.0f ns, contains of no key %.0f ns\n", all[0].put * 1e9, all[0].get * 1e9, all[0].absent * 1e9);
    return farmap_close(map) != FARMAP_OK;
}
