/* A library to load before a program: KILLED=N kills it where it is about to remove the Nth name of a file, counted from 1. */
#include <signal.h>
#include <stdlib.h>
#include <sys/syscall.h>
#include <unistd.h>

static unsigned long removals;

int unlink(const char *path) {
    const char *killed = getenv("KILLED");
    unsigned long number = __atomic_add_fetch(&removals, 1, __ATOMIC_SEQ_CST);
    if (killed && number == strtoul(killed, NULL, 10))
        kill(getpid(), SIGKILL);
    return syscall(SYS_unlink, path);
}
