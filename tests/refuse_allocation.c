/* A library to load before a program: it refuses one request for memory, or all from one on.
 *
 * REFUSED=N refuses the Nth request, counted from 1, and REFUSED=N.. that one and all behind it. GROWTHS=PATH names a
 * file that gets the number of requests when the program ends. Giving memory back is never refused. */
#include <errno.h>
#include <stdio.h>
#include <stdlib.h>
#include <sys/syscall.h>
#include <unistd.h>

extern void *__libc_malloc(size_t);
extern void *__libc_calloc(size_t, size_t);
extern void *__libc_realloc(void *, size_t);

static unsigned long requests, refused, last;

__attribute__((constructor)) static void read_refused(void) {
    const char *text = getenv("REFUSED");
    char *rest = "";
    refused = text ? strtoul(text, &rest, 10) : 0;
    last = *rest ? -1UL : refused;
    requests = 0;
}

static void write_requests(void) {
    const char *path = getenv("GROWTHS");
    unsigned long made = __atomic_load_n(&requests, __ATOMIC_SEQ_CST);
    FILE *file;
    refused = 0;
    if (path && (file = fopen(path, "w"))) {
        fprintf(file, "%lu\n", made);
        fclose(file);
    }
}

/* A program that may start threads ends by this call. */
void _exit(int status) {
    write_requests();
    for (;;)
        syscall(SYS_exit_group, status);
}

/* And every other by returning. */
__attribute__((destructor)) static void end(void) { write_requests(); }

static int is_refused(void) {
    unsigned long number = __atomic_add_fetch(&requests, 1, __ATOMIC_SEQ_CST);
    if (!refused || number < refused || last < number)
        return 0;
    errno = ENOMEM;
    return 1;
}

void *malloc(size_t size) { return is_refused() ? NULL : __libc_malloc(size); }

void *calloc(size_t count, size_t size) { return is_refused() ? NULL : __libc_calloc(count, size); }

void *realloc(void *old, size_t size) { return is_refused() ? NULL : __libc_realloc(old, size); }
