/* The C library's read and write for bench/interrupted: a third of the calls is interrupted, and of the others a half takes a part
   only. The environment's RUN chooses which. */
#include <errno.h>
#include <stdlib.h>
#include <sys/syscall.h>
#include <unistd.h>

static unsigned long state;

static unsigned long chance(void)
{
    if (state == 0) {
        const char *run = getenv("RUN");
        state = (run ? strtoul(run, 0, 10) : 0) * 0x9E3779B97F4A7C15ul + 1;
    }
    state = state * 6364136223846793005ul + 1442695040888963407ul;
    return state >> 33;
}

static ssize_t carried_out(long call, int fd, const void *bytes, size_t length)
{
    if (chance() % 3 == 0) {
        errno = EINTR;
        return -1;
    }
    if (length > 1 && chance() % 2 == 0)
        length = 1 + chance() % length;
    return syscall(call, fd, bytes, length);
}

ssize_t read(int fd, void *bytes, size_t length)
{
    return carried_out(SYS_read, fd, bytes, length);
}

ssize_t write(int fd, const void *bytes, size_t length)
{
    return carried_out(SYS_write, fd, bytes, length);
}
