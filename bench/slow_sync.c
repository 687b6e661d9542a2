/* Loaded before a program, it has each fsync take SLOW milliseconds longer. */
#define _GNU_SOURCE
#include <dlfcn.h>
#include <stdlib.h>
#include <unistd.h>

int fsync(int fd)
{
    int (*real)(int) = (int (*)(int))dlsym(RTLD_NEXT, "fsync");
    const char *slow = getenv("SLOW");
    usleep((slow ? (useconds_t)atoi(slow) : 0) * 1000);
    return real(fd);
}
