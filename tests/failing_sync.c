/* A shared object for LD_PRELOAD: of the process's calls of msync the one behind so many (the environment's SYNCS)
 * fails with an input/output error, as on a disk that breaks. */
#define _GNU_SOURCE
#include <errno.h>
#include <stdlib.h>
#include <sys/syscall.h>
#include <unistd.h>

int msync(void *from, size_t bytes, int flags)
{
    static long left = -1;
    if (left < 0) {
        const char *given = getenv("SYNCS");
        left = given != NULL ? atol(given) + 1 : 0;
    }
    if (left > 0 && --left == 0) {
        errno = EIO;
        return -1;
    }
    return (int)syscall(SYS_msync, from, bytes, flags);
}
