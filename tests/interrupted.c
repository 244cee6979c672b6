/* Reads and writes that a signal interrupts and that move fewer bytes than asked for, for tests/fuzz: loaded before the C library, it
 * takes the place of read and write. Of each three calls the first fails with EINTR, and the others move at most 7 bytes. */
#define _GNU_SOURCE
#include <errno.h>
#include <sys/syscall.h>
#include <unistd.h>

static unsigned calls;

static size_t most(size_t asked)
{
    return asked < 7 ? asked : 7;
}

static int interrupts(void)
{
    if (calls++ % 3 != 0)
        return 0;
    errno = EINTR;
    return 1;
}

ssize_t read(int from, void *to, size_t asked)
{
    return interrupts() ? -1 : syscall(SYS_read, from, to, most(asked));
}

ssize_t write(int to, const void *from, size_t asked)
{
    return interrupts() ? -1 : syscall(SYS_write, to, from, most(asked));
}
