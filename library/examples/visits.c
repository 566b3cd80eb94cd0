/* visits: counts the URLs of files, one a line, in a map that may be larger than its memory: `visits FOLDER FILE..`.
 * Scratch files are in the folder. Four threads take one file after another. Prints the ten most frequent. */
#include <farmap.h>

#include <pthread.h>
#include <stdatomic.h>
#include <stdio.h>
#include <stdlib.h>
#include <string.h>

enum { THREADS = 4, FIRST = 10 };

static farmap *map;
static char **files;
static int file_count;
static _Atomic int next_file;

static void fail(farmap_session *session, farmap_status status) {
    const char *reason = farmap_reason(session);
    fprintf(stderr, "visits: %s\n", *reason ? reason : farmap_text(status));
    exit(1);
}

/* Adds 1 to the count of a URL. If another thread does so at the same time, it tries again. */
static void add(farmap_session *session, farmap_bytes url) {
    farmap_bytes found;
    farmap_status status = farmap_get(session, url, &found);
    for (;;) {
        uint64_t old = 0, count;
        if (status == FARMAP_OK || status == FARMAP_OTHER) memcpy(&old, found.data, sizeof old);
        else if (status != FARMAP_NONE) fail(session, status);
        count = old + 1;
        farmap_bytes before = { &old, sizeof old }, after = { &count, sizeof count };
        status = old ? farmap_put_if(session, url, before, after, &found) : farmap_put_new(session, url, after, &found);
        if (status == FARMAP_OK) return;
    }
}

static void *work(void *argument) {
    farmap_session *session = argument;
    char *line = NULL;
    size_t room = 0;
    int at;
    while ((at = next_file++) < file_count) {
        FILE *file = fopen(files[at], "r");
        if (!file) perror(files[at]), exit(1);
        ssize_t length;
        while ((length = getline(&line, &room, file)) > 0) {
            if (line[length - 1] == '\n') length--;
            add(session, (farmap_bytes){ line, (size_t)length });
        }
        fclose(file);
    }
    free(line);
    return NULL;
}

struct first {
    uint64_t count;
    char *url;
};

static int by_count(const void *one, const void *other) {
    const struct first *a = one, *b = other;
    if (a->count != b->count) return a->count < b->count ? 1 : -1;
    return a->url && b->url ? strcmp(a->url, b->url) : 0;
}

int main(int count, char **words) {
    if (count < 3) {
        fprintf(stderr, "usage: visits FOLDER FILE..\n");
        return 2;
    }
    files = words + 2;
    file_count = count - 2;
    const char *folders[] = { words[1], NULL };
    farmap_options options = { .memory = 64 << 20, .folders = folders, .sessions = THREADS };
    char reason[FARMAP_REASON];
    if (farmap_open(&options, &map, reason, sizeof reason) != FARMAP_OK) {
        fprintf(stderr, "visits: %s\n", reason);
        return 1;
    }
    pthread_t threads[THREADS];
    farmap_session *sessions[THREADS];
    for (int i = 0; i < THREADS; i++) {
        farmap_session_open(map, &sessions[i]);
        if (pthread_create(&threads[i], NULL, work, sessions[i])) return 1;
    }
    for (int i = 0; i < THREADS; i++) pthread_join(threads[i], NULL);

    struct first first[FIRST + 1] = { { 0, NULL } };
    uint64_t cursor = 0;
    const farmap_pair *pairs;
    size_t some;
    farmap_status status;
    while ((status = farmap_visit(sessions[0], &cursor, &pairs, &some)) == FARMAP_OK) {
        for (size_t i = 0; i < some; i++) {
            struct first *last = &first[FIRST];
            memcpy(&last->count, pairs[i].value.data, sizeof last->count);
            last->url = strndup(pairs[i].key.data, pairs[i].key.length);
            qsort(first, FIRST + 1, sizeof *first, by_count);
            free(last->url);
            *last = (struct first){ 0, NULL };
        }
    }
    if (status != FARMAP_NONE) fail(sessions[0], status);
    for (int i = 0; i < FIRST && first[i].url; i++) {
        printf("%llu %s\n", (unsigned long long)first[i].count, first[i].url);
        free(first[i].url);
    }
    return farmap_close(map) == FARMAP_OK ? 0 : 1;
}
