/* calls: each call of farmap.h once or more, with its answers and its refusals. `calls [handshake] [FOLDER]` */
#include <farmap.h>

#include <stdio.h>
#include <stdlib.h>
#include <string.h>

static int failures;

#define EXPECT(what)                                                              \
    do {                                                                          \
        if (!(what)) failures++, printf("%s:%d: not so: %s\n", __FILE__, __LINE__, #what); \
    } while (0)

#define IS(call, wanted)                                                                      \
    do {                                                                                      \
        farmap_status status_ = (call), wanted_ = (wanted);                                   \
        if (status_ != wanted_)                                                               \
            failures++, printf("%s:%d: %s: %s (%s), and not: %s\n", __FILE__, __LINE__, #call, \
                               farmap_text(status_), farmap_reason(session), farmap_text(wanted_)); \
    } while (0)

static int is(farmap_bytes bytes, const char *text) {
    return bytes.data && bytes.length == strlen(text) && memcmp(bytes.data, text, bytes.length) == 0;
}

int main(int count, char **words) {
    char reason[FARMAP_REASON];
    const char *folders[] = { NULL, NULL };
    farmap_options options = { .memory = 64 << 20, .sessions = 2 };
    for (int i = 1; i < count; i++) {
        if (strcmp(words[i], "handshake") == 0) options.flags = FARMAP_HANDSHAKE;
        else folders[0] = words[i], options.folders = folders;
    }
    farmap *map;
    if (farmap_open(&options, &map, reason, sizeof reason) != FARMAP_OK) {
        printf("not opened: %s\n", reason);
        return 1;
    }
    farmap_session *session = NULL, *other = NULL, *third = NULL;
    IS(farmap_session_open(map, &session), FARMAP_OK);
    IS(farmap_session_open(map, &other), FARMAP_OK);
    IS(farmap_session_open(map, &third), FARMAP_NO_SESSION);
    EXPECT(third == NULL && farmap_sessions(map) == 2);

    farmap_bytes planet = farmap_string("planet"), saturn = farmap_string("Saturn"), venus = farmap_string("Venus");
    farmap_bytes value = { "x", 1 }, empty = { "", 0 };
    uint64_t length = 7;
    IS(farmap_get(session, planet, &value), FARMAP_NONE);
    EXPECT(!value.data && value.length == 0);
    IS(farmap_contains(session, planet), FARMAP_NONE);
    IS(farmap_put(session, planet, saturn, NULL), FARMAP_OK);
    IS(farmap_get(other, planet, &value), FARMAP_OK);
    EXPECT(is(value, "Saturn"));
    IS(farmap_contains(other, planet), FARMAP_OK);
    IS(farmap_put(other, planet, venus, &value), FARMAP_OK);
    EXPECT(is(value, "Saturn"));
    IS(farmap_put_new(session, planet, saturn, &value), FARMAP_OTHER);
    EXPECT(is(value, "Venus"));
    IS(farmap_put_if(session, planet, saturn, saturn, &value), FARMAP_OTHER);
    EXPECT(is(value, "Venus"));
    IS(farmap_put_if(session, planet, venus, saturn, &value), FARMAP_OK);
    IS(farmap_put_if(session, farmap_string("moon"), venus, saturn, &value), FARMAP_NONE);
    IS(farmap_remove_if(session, planet, venus, &value), FARMAP_OTHER);
    EXPECT(is(value, "Saturn"));
    IS(farmap_length(session, &length), FARMAP_OK);
    EXPECT(length == 1);
    IS(farmap_remove_if(session, planet, saturn, NULL), FARMAP_OK);
    IS(farmap_remove_if(session, planet, saturn, NULL), FARMAP_NONE);
    IS(farmap_remove(session, planet), FARMAP_NONE);
    IS(farmap_put_new(session, planet, saturn, NULL), FARMAP_OK);
    IS(farmap_take(session, planet, &value), FARMAP_OK);
    EXPECT(is(value, "Saturn"));
    IS(farmap_take(session, planet, &value), FARMAP_NONE);
    IS(farmap_put(session, planet, saturn, &value), FARMAP_OK);
    EXPECT(!value.data);
    IS(farmap_remove(session, planet), FARMAP_OK);
    IS(farmap_length(session, &length), FARMAP_OK);
    EXPECT(length == 0);

    /* Empty keys and values, and all bytes. */
    IS(farmap_put(session, empty, empty, NULL), FARMAP_OK);
    IS(farmap_get(session, empty, &value), FARMAP_OK);
    EXPECT(value.data && value.length == 0);
    unsigned char all[256];
    for (int i = 0; i < 256; i++) all[i] = (unsigned char)i;
    farmap_bytes bytes = { all, sizeof all };
    IS(farmap_put(session, bytes, bytes, NULL), FARMAP_OK);
    IS(farmap_get(session, bytes, &value), FARMAP_OK);
    EXPECT(value.length == 256 && memcmp(value.data, all, 256) == 0);

    /* Several keys. */
    farmap_bytes keys[] = { empty, planet, bytes }, values[3];
    IS(farmap_get_many(session, keys, 3, values), FARMAP_OK);
    EXPECT(values[0].data && values[0].length == 0 && !values[1].data && values[2].length == 256);
    IS(farmap_get_many(session, keys, 0, values), FARMAP_OK);
    enum { MANY = 3000 };
    static char texts[MANY][8];
    static farmap_bytes many[MANY], found[MANY];
    for (int i = 0; i < MANY; i++) {
        many[i] = (farmap_bytes){ texts[i], (size_t)snprintf(texts[i], sizeof texts[i], "k%d", i) };
        if (i % 3) IS(farmap_put(session, many[i], many[i], NULL), FARMAP_OK);
    }
    IS(farmap_get_many(other, many, MANY, found), FARMAP_OK);
    for (int i = 0; i < MANY; i++)
        EXPECT(i % 3 ? found[i].length == many[i].length && memcmp(found[i].data, many[i].data, found[i].length) == 0 : !found[i].data);

    /* A visit. */
    uint64_t cursor = 0;
    const farmap_pair *pairs;
    size_t some, seen = 0;
    farmap_status status;
    while ((status = farmap_visit(session, &cursor, &pairs, &some)) == FARMAP_OK)
        for (size_t i = 0; i < some; i++) {
            seen++;
            EXPECT(pairs[i].key.length == pairs[i].value.length && memcmp(pairs[i].key.data, pairs[i].value.data, pairs[i].key.length) == 0);
        }
    IS(status, FARMAP_NONE);
    IS(farmap_length(session, &length), FARMAP_OK);
    EXPECT(seen == 2 + MANY - MANY / 3 && length == seen);

    /* Long ones. */
    size_t longest = (16 << 20) - 10 - 3;
    char *large = malloc((16 << 20) + 1);
    for (size_t i = 0; i <= 16 << 20; i++) large[i] = (char)(i * 31 >> 3);
    farmap_bytes key = { large, 65535 }, long_value = { large, longest };
    IS(farmap_put(session, farmap_string("lon"), long_value, NULL), FARMAP_OK);
    IS(farmap_get(other, farmap_string("lon"), &value), FARMAP_OK);
    EXPECT(value.length == longest && memcmp(value.data, large, longest) == 0);
    long_value.length++;
    IS(farmap_put(session, farmap_string("lon"), long_value, NULL), FARMAP_BUCKET_TOO_LONG);
    EXPECT(strlen(farmap_reason(session)) > 10);
    long_value.length = (16 << 20) + 1;
    IS(farmap_put(session, farmap_string("lon"), long_value, NULL), FARMAP_VALUE_TOO_LONG);
    IS(farmap_put(session, key, saturn, NULL), FARMAP_OK);
    IS(farmap_take(session, key, &value), FARMAP_OK);
    EXPECT(is(value, "Saturn"));
    key.length++;
    IS(farmap_get(session, key, &value), FARMAP_KEY_TOO_LONG);
    IS(farmap_put(session, key, saturn, NULL), FARMAP_KEY_TOO_LONG);
    long_value.length = longest;
    farmap_bytes short_value = { large, 100 };
    IS(farmap_put_if(session, farmap_string("lon"), long_value, short_value, NULL), FARMAP_OK);
    IS(farmap_remove_if(session, farmap_string("lon"), short_value, NULL), FARMAP_OK);

    /* Wrong arguments. */
    IS(farmap_get(NULL, planet, &value), FARMAP_ARGUMENT);
    IS(farmap_get(session, planet, NULL), FARMAP_ARGUMENT);
    IS(farmap_get(session, (farmap_bytes){ NULL, 1 }, &value), FARMAP_ARGUMENT);
    IS(farmap_close(NULL), FARMAP_ARGUMENT);
    farmap *none = map;
    options.memory = 1000;
    IS(farmap_open(&options, &none, reason, sizeof reason), FARMAP_OPTIONS);
    EXPECT(!none && strstr(reason, "memory 1000"));
    const char *missing[] = { "/nonexistent/folder", NULL };
    options.memory = 64 << 20;
    options.folders = missing;
    IS(farmap_open(&options, &none, reason, sizeof reason), FARMAP_OPTIONS);
    EXPECT(!none && strstr(reason, "/nonexistent/folder"));
    printf("%s\n", reason);
    options.sessions = 1000;
    IS(farmap_open(&options, &none, reason, sizeof reason), FARMAP_OPTIONS);

    farmap_stats stats;
    IS(farmap_count(session, &stats), FARMAP_OK);
    EXPECT(stats.puts > 2000 && stats.gets > 0 && stats.too_long == 1 && stats.pairs == length && stats.buckets > 0);
    IS(farmap_evict(session), options.folders == missing && folders[0] ? FARMAP_OK : FARMAP_FULL);

    IS(farmap_session_close(other), FARMAP_OK);
    IS(farmap_session_open(map, &other), FARMAP_OK);
    IS(farmap_close(map), FARMAP_OK);
    free(large);
    printf(failures ? "%d failures\n" : "calls: all as they should be\n", failures);
    return failures != 0;
}
