/* oracle: random calls of several threads, each compared with an oracle of the thread's own keys. Counters that all
 * threads share must have the sum of all increments.
 *
 * oracle THREADS CALLS [handshake] [names=N] [memory=BYTES] [seed=N] [longest=N] [keys=N] [FOLDER] */
#include <farmap.h>

#include <pthread.h>
#include <stdio.h>
#include <stdlib.h>
#include <string.h>
#include <time.h>

enum { COUNTERS = 8 };

static farmap *map;
static uint64_t calls, seed = 1;
static unsigned keys = 400, longest = 300;

struct thread {
    pthread_t thread;
    unsigned number;
    uint64_t random, added[COUNTERS], done[16], refused;
    /* Of each key the version of its value, 0 for none. */
    uint64_t *versions;
};

static uint64_t draw(struct thread *me) {
    me->random ^= me->random << 13;
    me->random ^= me->random >> 7;
    me->random ^= me->random << 17;
    return me->random * 0x9e3779b97f4a7c15ull >> 11;
}

static void fail(struct thread *me, const char *what, farmap_status status, farmap_session *session) {
    printf("thread %u: %s: %s (%s)\n", me->number, what, farmap_text(status), farmap_reason(session));
    fflush(stdout);
    exit(1);
}

/* A key of the thread: its number, and bytes that depend on it. */
static size_t make_key(unsigned thread, unsigned key, char *out) {
    size_t length = (size_t)sprintf(out, "%u:%u:", thread, key);
    for (unsigned i = 0; i < key % 23; i++) out[length++] = (char)(key * 7 + i);
    return length;
}

/* The value of a key and a version: their numbers, and bytes that depend on them. */
static size_t make_value(unsigned thread, unsigned key, uint64_t version, char *out) {
    memcpy(out, &thread, 4);
    memcpy(out + 4, &key, 4);
    memcpy(out + 8, &version, 8);
    uint64_t mixed = (version * 31 + key) * 0x9e3779b97f4a7c15ull;
    size_t length = 16 + mixed % longest;
    for (size_t i = 16; i < length; i++) out[i] = (char)(mixed >> (i % 8) * 8);
    return length;
}

/* Whether the bytes are a value of this key, of whatever version. */
static int is_value_of(unsigned thread, unsigned key, farmap_bytes value, char *room) {
    uint64_t version;
    if (value.length < 16) return 0;
    memcpy(&version, (const char *)value.data + 8, 8);
    size_t length = make_value(thread, key, version, room);
    return value.length == length && memcmp(value.data, room, length) == 0;
}

static int is_version(struct thread *me, unsigned key, uint64_t version, farmap_bytes value, char *room) {
    if (!version) return !value.data;
    size_t length = make_value(me->number, key, version, room);
    return value.data && value.length == length && memcmp(value.data, room, length) == 0;
}

#define EXPECT(what) do { if (!(what)) fail(me, #what, status, session); } while (0)

static void add(struct thread *me, farmap_session *session, unsigned counter) {
    char name[16];
    farmap_bytes key = { name, (size_t)sprintf(name, "c%u", counter) }, found;
    farmap_status status = farmap_get(session, key, &found);
    for (;;) {
        uint64_t old = 0, next;
        if (status == FARMAP_OK || status == FARMAP_OTHER) memcpy(&old, found.data, 8);
        else EXPECT(status == FARMAP_NONE);
        next = old + 1;
        farmap_bytes expected = { &old, 8 }, value = { &next, 8 };
        status = old ? farmap_put_if(session, key, expected, value, &found) : farmap_put_new(session, key, value, &found);
        if (status == FARMAP_OK) break;
        EXPECT(status == FARMAP_OTHER);
    }
    me->added[counter]++;
}

static void *work(void *argument) {
    struct thread *me = argument;
    farmap_session *session = NULL;
    farmap_status status = farmap_session_open(map, &session);
    EXPECT(status == FARMAP_OK);
    char *room = malloc(longest + 64), *other = malloc(longest + 64), text[64];
    uint64_t version = 0, pairs = 0;
    for (uint64_t i = 0; i < calls; i++) {
        unsigned what = (unsigned)(draw(me) % 100), key = (unsigned)(draw(me) % keys);
        uint64_t *now = &me->versions[key];
        farmap_bytes name = { text, make_key(me->number, key, text) }, value, found;
        if (what < 30) {
            status = farmap_get(session, name, &found);
            EXPECT(status == (*now ? FARMAP_OK : FARMAP_NONE) && is_version(me, key, *now, found, room));
            me->done[0]++;
        } else if (what < 45) {
            value = (farmap_bytes){ other, make_value(me->number, key, ++version, other) };
            status = farmap_put(session, name, value, &found);
            EXPECT(status == FARMAP_OK && is_version(me, key, *now, found, room));
            *now = version;
            me->done[1]++;
        } else if (what < 55) {
            value = (farmap_bytes){ other, make_value(me->number, key, ++version, other) };
            status = farmap_put(session, name, value, NULL);
            EXPECT(status == FARMAP_OK);
            *now = version;
            me->done[2]++;
        } else if (what < 60) {
            value = (farmap_bytes){ other, make_value(me->number, key, ++version, other) };
            status = farmap_put_new(session, name, value, &found);
            EXPECT(status == (*now ? FARMAP_OTHER : FARMAP_OK) && is_version(me, key, *now, found, room));
            if (!*now) *now = version;
            me->done[3]++;
        } else if (what < 65) {
            uint64_t expected = draw(me) % 4 ? *now : version + 1000000;
            char *third = malloc(longest + 64);
            farmap_bytes old = { third, make_value(me->number, key, expected, third) };
            value = (farmap_bytes){ other, make_value(me->number, key, ++version, other) };
            status = farmap_put_if(session, name, old, value, &found);
            if (*now && expected == *now) {
                EXPECT(status == FARMAP_OK && !found.data);
                *now = version;
            } else {
                EXPECT(status == (*now ? FARMAP_OTHER : FARMAP_NONE) && is_version(me, key, *now, found, room));
            }
            free(third);
            me->done[4]++;
        } else if (what < 70) {
            status = farmap_remove(session, name);
            EXPECT(status == (*now ? FARMAP_OK : FARMAP_NONE));
            *now = 0;
            me->done[5]++;
        } else if (what < 74) {
            status = farmap_take(session, name, &found);
            EXPECT(status == (*now ? FARMAP_OK : FARMAP_NONE) && is_version(me, key, *now, found, room));
            *now = 0;
            me->done[6]++;
        } else if (what < 77) {
            uint64_t expected = draw(me) % 4 ? *now : version + 1000000;
            farmap_bytes old = { other, make_value(me->number, key, expected, other) };
            status = farmap_remove_if(session, name, old, &found);
            if (*now && expected == *now) {
                EXPECT(status == FARMAP_OK);
                *now = 0;
            } else {
                EXPECT(status == (*now ? FARMAP_OTHER : FARMAP_NONE) && is_version(me, key, *now, found, room));
            }
            me->done[7]++;
        } else if (what < 82) {
            status = farmap_contains(session, name);
            EXPECT(status == (*now ? FARMAP_OK : FARMAP_NONE));
            me->done[8]++;
        } else if (what < 86) {
            farmap_bytes names[20], values[20];
            char texts[20][64];
            unsigned some = (unsigned)(draw(me) % 20) + 1;
            for (unsigned k = 0; k < some; k++) names[k] = (farmap_bytes){ texts[k], make_key(me->number, (key + k) % keys, texts[k]) };
            status = farmap_get_many(session, names, some, values);
            EXPECT(status == FARMAP_OK);
            for (unsigned k = 0; k < some; k++) EXPECT(is_version(me, (key + k) % keys, me->versions[(key + k) % keys], values[k], room));
            me->done[9]++;
        } else if (what < 91) {
            unsigned thread = me->number ? me->number - 1 : 0;
            name.length = make_key(thread, key, text);
            status = farmap_get(session, name, &found);
            EXPECT(status == FARMAP_NONE || (status == FARMAP_OK && is_value_of(thread, key, found, room)));
            me->done[10]++;
        } else if (what < 98) {
            add(me, session, (unsigned)(draw(me) % COUNTERS));
            me->done[11]++;
        } else if (draw(me) % 2000 == 0) {
            uint64_t cursor = 0;
            const farmap_pair *some;
            size_t count;
            while ((status = farmap_visit(session, &cursor, &some, &count)) == FARMAP_OK) pairs += count;
            EXPECT(status == FARMAP_NONE);
            me->done[12]++;
        } else if (what == 98) {
            uint64_t length;
            status = farmap_length(session, &length);
            EXPECT(status == FARMAP_OK);
            me->done[13]++;
        } else {
            status = farmap_session_close(session);
            EXPECT(status == FARMAP_OK);
            status = farmap_session_open(map, &session);
            EXPECT(status == FARMAP_OK);
            me->done[14]++;
        }
    }
    for (unsigned key = 0; key < keys; key++) {
        farmap_bytes name = { text, make_key(me->number, key, text) }, found;
        status = farmap_get(session, name, &found);
        EXPECT(status == (me->versions[key] ? FARMAP_OK : FARMAP_NONE) && is_version(me, key, me->versions[key], found, room));
    }
    farmap_session_close(session);
    free(room);
    free(other);
    return NULL;
}

int main(int count, char **words) {
    if (count < 3) return 2;
    unsigned threads = (unsigned)atoi(words[1]);
    calls = strtoull(words[2], NULL, 10);
    const char *folders[] = { NULL, NULL };
    farmap_options options = { .memory = 64 << 20, .sessions = threads, .folders = folders };
    for (int i = 3; i < count; i++) {
        if (strcmp(words[i], "handshake") == 0) options.flags = FARMAP_HANDSHAKE;
        else if (strncmp(words[i], "names=", 6) == 0) options.names = strtoull(words[i] + 6, NULL, 10);
        else if (strncmp(words[i], "memory=", 7) == 0) options.memory = strtoull(words[i] + 7, NULL, 10);
        else if (strncmp(words[i], "pairs=", 6) == 0) options.pairs = strtoull(words[i] + 6, NULL, 10);
        else if (strncmp(words[i], "seed=", 5) == 0) seed = strtoull(words[i] + 5, NULL, 10);
        else if (strncmp(words[i], "longest=", 8) == 0) longest = (unsigned)atoi(words[i] + 8);
        else if (strncmp(words[i], "keys=", 5) == 0) keys = (unsigned)atoi(words[i] + 5);
        else folders[0] = words[i];
    }
    char reason[FARMAP_REASON];
    if (farmap_open(&options, &map, reason, sizeof reason) != FARMAP_OK) {
        printf("not opened: %s\n", reason);
        return 1;
    }
    struct thread *all = calloc(threads, sizeof *all);
    struct timespec begun, ended;
    clock_gettime(CLOCK_MONOTONIC, &begun);
    for (unsigned i = 0; i < threads; i++) {
        all[i].number = i;
        all[i].random = seed * 1000003 + i * 7919 + 1;
        all[i].versions = calloc(keys, sizeof *all[i].versions);
        if (pthread_create(&all[i].thread, NULL, work, &all[i])) return 1;
    }
    for (unsigned i = 0; i < threads; i++) pthread_join(all[i].thread, NULL);
    clock_gettime(CLOCK_MONOTONIC, &ended);
    farmap_session *session;
    struct thread *me = &all[0];
    farmap_status status = farmap_session_open(map, &session);
    uint64_t pairs = 0, length, done = 0;
    for (unsigned counter = 0; counter < COUNTERS; counter++) {
        char name[16];
        uint64_t sum = 0, found = 0;
        farmap_bytes value, key = { name, (size_t)sprintf(name, "c%u", counter) };
        for (unsigned i = 0; i < threads; i++) sum += all[i].added[counter];
        status = farmap_get(session, key, &value);
        if (status == FARMAP_OK) memcpy(&found, value.data, 8), pairs++;
        EXPECT(found == sum);
    }
    for (unsigned i = 0; i < threads; i++) {
        for (unsigned key = 0; key < keys; key++) pairs += all[i].versions[key] != 0;
        for (unsigned k = 0; k < 16; k++) done += all[i].done[k];
        free(all[i].versions);
    }
    farmap_stats stats;
    status = farmap_length(session, &length);
    EXPECT(status == FARMAP_OK && length == pairs);
    status = farmap_count(session, &stats);
    EXPECT(status == FARMAP_OK && stats.lost_pairs == 0 && stats.lost_buckets == 0);
    double seconds = (double)(ended.tv_sec - begun.tv_sec) + (double)(ended.tv_nsec - begun.tv_nsec) * 1e-9;
    printf("oracle: %llu calls of %u threads, %llu pairs, %llu renewals, %llu bytes in memory, %.1f seconds: all as they should be\n",
           (unsigned long long)done, threads, (unsigned long long)pairs, (unsigned long long)stats.renewals,
           (unsigned long long)stats.bytes_in_memory, seconds);
    status = farmap_close(map);
    free(all);
    return status != FARMAP_OK;
}
