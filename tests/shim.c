/* Preloaded by tests/faults into the merge program. It stands before each call of the C library that the program makes, writes the call's
 * name to the file FAULT_LOG, and has the call of number FAULT_AT go wrong as FAULT says; with FAULT_ON set each later one too:
 *
 *     EIO, ENOSPC, EINTR   it answers -1 with that error and is not made; a close is made, since the number is free afterwards either way
 *     short                a read brings 7 bytes at most, a write takes half
 *     before, after        the process is killed, before or after the call is made
 *
 * Each call whose name is FAULT_ALSO fails with EIO, whatever its number. A line of the log is '!' or '.', whether it went wrong, the name and
 * what it is called on. */
#define _GNU_SOURCE
#include <dlfcn.h>
#include <errno.h>
#include <fcntl.h>
#include <signal.h>
#include <stdarg.h>
#include <stdio.h>
#include <stdlib.h>
#include <string.h>
#include <sys/file.h>
#include <sys/stat.h>
#include <sys/syscall.h>
#include <unistd.h>

enum way { MADE, FAILS, SHORT, BEFORE, AFTER };

static const char *word(const char *name)
{
    const char *value = getenv(name);
    return value ? value : "";
}

/* How this call goes wrong if it is its turn; error is what errno becomes where it fails. */
static enum way asked(const char *name, int *error)
{
    static long calls = 0;
    long at = atol(word("FAULT_AT"));
    calls++;
    *error = EIO;
    if (strcmp(word("FAULT_ALSO"), name) == 0)
        return FAILS;
    if (at == 0 || calls < at || (calls > at && !*word("FAULT_ON")))
        return MADE;
    const char *fault = word("FAULT");
    if (strcmp(fault, "short") == 0)
        return SHORT;
    if (strcmp(fault, "before") == 0)
        return BEFORE;
    if (strcmp(fault, "after") == 0)
        return AFTER;
    *error = strcmp(fault, "ENOSPC") == 0 ? ENOSPC : strcmp(fault, "EINTR") == 0 ? EINTR : EIO;
    return FAILS;
}

/* Past the numbers that the program is given, so that they are those of a run without the shim; by the kernel's own calls, since the C
 * library's are ours here. */
static void put_down(enum way way, const char *name, const char *what, const char *more)
{
    static long log = -1;
    char line[700];
    if (log < 0) {
        long fd = syscall(SYS_openat, AT_FDCWD, word("FAULT_LOG"), O_WRONLY | O_CREAT | O_APPEND, 0600);
        log = syscall(SYS_fcntl, fd, F_DUPFD, 100);
        syscall(SYS_close, fd);
    }
    int n = snprintf(line, sizeof line, "%c %s %s%s%s\n", way == MADE ? '.' : '!', name, what, *more ? " " : "", more);
    if (log < 0 || n >= (int)sizeof line || syscall(SYS_write, log, line, n) != n)
        abort(); /* a run that is not written down proves nothing */
}

static void die(void)
{
    kill(getpid(), SIGKILL);
}

/* What comes before each call. */
static enum way turn(const char *name, const char *what, const char *more)
{
    int error;
    enum way way = asked(name, &error);
    put_down(way, name, what, more);
    if (way == BEFORE)
        die();
    if (way == FAILS)
        errno = error;
    return way;
}

static enum way turn_on(const char *name, int fd)
{
    char number[16];
    snprintf(number, sizeof number, "%d", fd);
    return turn(name, number, "");
}

/* What comes after it. */
static long ended(enum way way, long answer)
{
    if (way == AFTER)
        die();
    return answer;
}

#define REAL(name) ((__typeof__(&name))dlsym(RTLD_NEXT, #name))

int open(const char *path, int flags, ...)
{
    enum way way = turn("open", path, "");
    va_list rest;
    va_start(rest, flags);
    mode_t mode = flags & O_CREAT ? va_arg(rest, mode_t) : 0;
    va_end(rest);
    return way == FAILS ? -1 : (int)ended(way, REAL(open)(path, flags, mode));
}

ssize_t read(int fd, void *to, size_t n)
{
    enum way way = turn_on("read", fd);
    return way == FAILS ? -1 : ended(way, REAL(read)(fd, to, way == SHORT && n > 7 ? 7 : n));
}

ssize_t write(int fd, const void *from, size_t n)
{
    enum way way = turn_on("write", fd);
    return way == FAILS ? -1 : ended(way, REAL(write)(fd, from, way == SHORT ? (n + 1) / 2 : n));
}

int fsync(int fd)
{
    enum way way = turn_on("fsync", fd);
    return way == FAILS ? -1 : (int)ended(way, REAL(fsync)(fd));
}

int fchmod(int fd, mode_t mode)
{
    enum way way = turn_on("fchmod", fd);
    return way == FAILS ? -1 : (int)ended(way, REAL(fchmod)(fd, mode));
}

/* These three are in the library's code for files, and no run comes to them. */
int fdatasync(int fd)
{
    enum way way = turn_on("fdatasync", fd);
    return way == FAILS ? -1 : (int)ended(way, REAL(fdatasync)(fd));
}

int ftruncate(int fd, off_t length)
{
    enum way way = turn_on("ftruncate", fd);
    return way == FAILS ? -1 : (int)ended(way, REAL(ftruncate)(fd, length));
}

int flock(int fd, int how)
{
    enum way way = turn_on("flock", fd);
    return way == FAILS ? -1 : (int)ended(way, REAL(flock)(fd, how));
}

int close(int fd)
{
    enum way way = turn_on("close", fd);
    int error = errno;
    int answer = (int)ended(way, REAL(close)(fd));
    if (way != FAILS)
        return answer;
    errno = error;
    return -1;
}

int rename(const char *from, const char *to)
{
    enum way way = turn("rename", from, to);
    return way == FAILS ? -1 : (int)ended(way, REAL(rename)(from, to));
}

int unlink(const char *path)
{
    enum way way = turn("unlink", path, "");
    return way == FAILS ? -1 : (int)ended(way, REAL(unlink)(path));
}
