/* two: two builds of the library in one process, each with a map of its own. `two LIBRARY LIBRARY` */
#define _GNU_SOURCE
#include <farmap.h>

#include <dlfcn.h>
#include <stdio.h>
#include <stdlib.h>

struct api {
    farmap_status (*open)(const farmap_options *, farmap **, char *, size_t);
    farmap_status (*close)(farmap *);
    farmap_status (*session)(farmap *, farmap_session **);
    farmap_status (*put)(farmap_session *, farmap_bytes, farmap_bytes, farmap_bytes *);
    farmap_status (*get)(farmap_session *, farmap_bytes, farmap_bytes *);
};

static void *symbol(void *library, const char *name) {
    void *found = library ? dlsym(library, name) : NULL;
    if (!found) printf("%s\n", dlerror()), exit(1);
    return found;
}

int main(int count, char **words) {
    farmap *maps[2];
    farmap_session *sessions[2];
    struct api all[2];
    farmap_options options = { .memory = 32 << 20, .sessions = 1, .pairs = 1000 };
    if (count != 3) return 2;
    for (int i = 0; i < 2; i++) {
        void *library = dlopen(words[1 + i], RTLD_NOW | RTLD_LOCAL);
        all[i] = (struct api){ symbol(library, "farmap_open"), symbol(library, "farmap_close"), symbol(library, "farmap_session_open"),
                               symbol(library, "farmap_put"), symbol(library, "farmap_get") };
        char reason[FARMAP_REASON];
        if (all[i].open(&options, &maps[i], reason, sizeof reason) != FARMAP_OK) return printf("%s\n", reason), 1;
        if (all[i].session(maps[i], &sessions[i]) != FARMAP_OK) return 1;
    }
    if (all[0].open == all[1].open) return printf("the two are the same\n"), 1;
    farmap_bytes found;
    for (int i = 0; i < 2; i++)
        if (all[i].put(sessions[i], farmap_string("a"), farmap_string(i ? "two" : "one"), NULL) != FARMAP_OK) return 1;
    for (int i = 0; i < 2; i++)
        if (all[i].get(sessions[i], farmap_string("a"), &found) != FARMAP_OK || memcmp(found.data, i ? "two" : "one", 3)) return printf("another value\n"), 1;
    for (int i = 0; i < 2; i++)
        if (all[i].close(maps[i]) != FARMAP_OK) return 1;
    printf("two: as it should be\n");
    return 0;
}
