/* Has each cut of a file fail, as on a file system that is out of order: a library to be loaded before the C library. */
#define _GNU_SOURCE
#include <errno.h>
#include <sys/types.h>
#include <unistd.h>

int ftruncate(int file, off_t length)
{
    (void)file;
    (void)length;
    errno = EIO;
    return -1;
}

int ftruncate64(int file, off64_t length)
{
    return ftruncate(file, length);
}
