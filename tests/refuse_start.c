/* A library to load before a program: it refuses starts of threads.
 *
 * REFUSED=N refuses the Nth start, counted from 1, and REFUSED=N.. that one and all behind it. STARTS=PATH names a file
 * that gets the number of starts that were asked for when the program ends. */
#define _GNU_SOURCE
#include <dlfcn.h>
#include <errno.h>
#include <pthread.h>
#include <stdatomic.h>
#include <stdio.h>
#include <stdlib.h>
#include <string.h>
#include <sys/syscall.h>
#include <unistd.h>

static atomic_ulong starts;

int pthread_create(pthread_t *thread, const pthread_attr_t *attributes, void *(*routine)(void *), void *argument) {
    static int (*create)(pthread_t *, const pthread_attr_t *, void *(*)(void *), void *);
    const char *refused = getenv("REFUSED");
    unsigned long number = atomic_fetch_add(&starts, 1) + 1;
    if (refused != NULL) {
        char *rest;
        unsigned long first = strtoul(refused, &rest, 10);
        if (number == first || (number > first && strcmp(rest, "..") == 0)) {
            return EAGAIN;
        }
    }
    if (create == NULL) {
        create = (int (*)(pthread_t *, const pthread_attr_t *, void *(*)(void *), void *))dlsym(RTLD_NEXT, "pthread_create");
    }
    return create(thread, attributes, routine, argument);
}

static void write_starts(void) {
    const char *path = getenv("STARTS");
    FILE *out = path == NULL ? NULL : fopen(path, "w");
    if (out != NULL) {
        fprintf(out, "%lu\n", atomic_load(&starts));
        fclose(out);
    }
}

/* A program that may start threads ends by this call. */
void _exit(int status) {
    write_starts();
    for (;;) {
        syscall(SYS_exit_group, status);
    }
}
