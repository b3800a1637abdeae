/*
 * trouble.c: linked with examples/office.c by scripts/test-office, with the linker's --wrap for each call below. The
 * calls to the system that touch files are counted, and at the one numbered AT the run has the trouble that TROUBLE
 * names.
 */
#define _POSIX_C_SOURCE 200809L
#include <errno.h>
#include <fcntl.h>
#include <signal.h>
#include <stdarg.h>
#include <stdio.h>
#include <stdlib.h>
#include <sys/stat.h>
#include <unistd.h>

static int count, at;
static char kind; /* of k kill, f fail, h half, i interrupted, n none, but name each call */

static int struck(const char *name)
{
    if (count == 0) {
        kind = getenv("TROUBLE")[0];
        at = atoi(getenv("AT"));
    }
    if (kind == 'n')
        fprintf(stderr, "%s\n", name);
    return ++count == at;
}

/* Trouble at a call that has nothing to halve: it fails, or not. */
static int fails(int is_struck, int can_be_interrupted)
{
    if (is_struck && kind == 'k')
        raise(SIGKILL);
    errno = kind == 'f' ? EIO : EINTR;
    return is_struck && (kind == 'f' || (kind == 'i' && can_be_interrupted));
}

int __real_open(const char *path, int flags, ...);
int __wrap_open(const char *path, int flags, ...);
int __wrap_open(const char *path, int flags, ...)
{
    va_list rest;
    va_start(rest, flags);
    mode_t mode = flags & O_CREAT ? va_arg(rest, mode_t) : 0;
    va_end(rest);
    return fails(struck("open"), 0) ? -1 : __real_open(path, flags, mode);
}

int __real_fcntl(int fd, int what, ...);
int __wrap_fcntl(int fd, int what, ...);
int __wrap_fcntl(int fd, int what, ...)
{
    va_list rest;
    va_start(rest, what);
    void *lock = va_arg(rest, void *);
    va_end(rest);
    return fails(struck("fcntl"), 1) ? -1 : __real_fcntl(fd, what, lock);
}

ssize_t __real_read(int fd, void *room, size_t size);
ssize_t __wrap_read(int fd, void *room, size_t size);
ssize_t __wrap_read(int fd, void *room, size_t size)
{
    int now = struck("read");
    return fails(now, 1) ? -1 : __real_read(fd, room, now && size > 1 ? size / 2 : size);
}

/* Who is killed in a write, or whose write fails, has written half. */
ssize_t __real_write(int fd, const void *bytes, size_t size);
ssize_t __wrap_write(int fd, const void *bytes, size_t size);
ssize_t __wrap_write(int fd, const void *bytes, size_t size)
{
    int now = struck("write");
    if (!now)
        return __real_write(fd, bytes, size);
    ssize_t half = kind == 'i' ? 0 : __real_write(fd, bytes, size / 2);
    return fails(now, 1) ? -1 : half;
}

#define PLAIN(name, parameters, arguments) \
    int __real_##name parameters; \
    int __wrap_##name parameters; \
    int __wrap_##name parameters { return fails(struck(#name), 0) ? -1 : __real_##name arguments; }
PLAIN(fsync, (int fd), (fd))
PLAIN(close, (int fd), (fd))
PLAIN(fchmod, (int fd, mode_t mode), (fd, mode))
PLAIN(unlink, (const char *path), (path))
PLAIN(rename, (const char *old, const char *new), (old, new))
