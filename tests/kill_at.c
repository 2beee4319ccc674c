/*
 * For LD_PRELOAD: what becomes of the tool where one of its calls on files
 * does not come back, or fails.
 *
 * CALL_LIST names a file to which every call is added as a line. Of the calls
 * the AT-th, counted from 1, meets what HOW says:
 *   killed-before   the process is killed, and the call is never made
 *   killed-after    the call is made, and the process is killed
 *   stopped-before  the process stops, and makes the call once it goes on
 *   stopped-after   the call is made, and the process stops until it goes on
 *   EIO, ENOSPC, EINVAL
 *                   the call fails with this number and does nothing
 *   short           a read or a write moves one byte, where more were asked for
 * Besides, every write to a file fails where DISK_FULL is "always", and where
 * it is "later" every one after the first rename, by which the lock is taken.
 * No read brings more than READ_MOST bytes, where that is set.
 */
#define _GNU_SOURCE
#include <errno.h>
#include <fcntl.h>
#include <signal.h>
#include <stdarg.h>
#include <stdio.h>
#include <stdlib.h>
#include <string.h>
#include <sys/stat.h>
#include <sys/syscall.h>
#include <unistd.h>

enum fate { GOES_ON, FAILS, IS_SHORT, DIES_AFTER, STOPS_AFTER };

static int renames;

static void list(const char *call, const char *names)
{
    const char *file = getenv("CALL_LIST");
    if (file == NULL)
        return;
    char line[1000];
    int length = snprintf(line, sizeof line, "%s%s\n", call, names);
    long fd = syscall(SYS_openat, AT_FDCWD, file, O_WRONLY | O_CREAT | O_APPEND, 0666);
    if (fd < 0 || syscall(SYS_write, fd, line, length) != length)
        abort();
    syscall(SYS_close, fd);
}

static int how_is(const char *word)
{
    const char *how = getenv("HOW");
    return how != NULL && strcmp(how, word) == 0;
}

static enum fate fate_of(const char *call, const char *names)
{
    static long calls;
    const char *at = getenv("AT");
    list(call, names);
    calls += 1;
    if (at == NULL || atol(at) != calls)
        return GOES_ON;
    if (how_is("killed-before"))
        raise(SIGKILL);
    if (how_is("killed-after"))
        return DIES_AFTER;
    if (how_is("stopped-before")) {
        raise(SIGSTOP);
        return GOES_ON;
    }
    if (how_is("stopped-after"))
        return STOPS_AFTER;
    if (how_is("short"))
        return IS_SHORT;
    errno = how_is("ENOSPC") ? ENOSPC : how_is("EINVAL") ? EINVAL : EIO;
    return FAILS;
}

static long made(enum fate fate, long answer)
{
    int number = errno;
    if (fate == DIES_AFTER)
        raise(SIGKILL);
    if (fate == STOPS_AFTER)
        raise(SIGSTOP);
    errno = number;
    return answer;
}

static int disk_is_full(void)
{
    const char *when = getenv("DISK_FULL");
    if (when == NULL || when[0] == 0)
        return 0;
    return strcmp(when, "always") == 0 || renames > 0;
}

/* The same for a call on one name. */
static enum fate fate_of_name(const char *call, const char *path)
{
    char names[500];
    snprintf(names, sizeof names, " %s", path);
    return fate_of(call, names);
}

int open(const char *path, int flags, ...)
{
    unsigned mode = 0;
    if (flags & O_CREAT) {
        va_list rest;
        va_start(rest, flags);
        mode = va_arg(rest, unsigned);
        va_end(rest);
    }
    enum fate fate = fate_of_name("open", path);
    if (fate == FAILS)
        return -1;
    return (int)made(fate, syscall(SYS_openat, AT_FDCWD, path, flags, mode));
}

ssize_t read(int fd, void *bytes, size_t length)
{
    enum fate fate = fate_of("read", "");
    if (fate == FAILS)
        return -1;
    if (fate == IS_SHORT && length > 1)
        length = 1;
    const char *most = getenv("READ_MOST");
    if (most != NULL && length > (size_t)atol(most))
        length = (size_t)atol(most);
    return made(fate, syscall(SYS_read, fd, bytes, length));
}

ssize_t write(int fd, const void *bytes, size_t length)
{
    enum fate fate = fate_of("write", fd == 1 ? " output" : fd == 2 ? " error" : "");
    if (fate == FAILS)
        return -1;
    if (fd > 2 && disk_is_full()) {
        errno = ENOSPC;
        return made(fate, -1);
    }
    if (fate == IS_SHORT && length > 1)
        length = 1;
    return made(fate, syscall(SYS_write, fd, bytes, length));
}

/* A process that is killed loses nothing by it, so no disk is waited for. */
int fsync(int fd)
{
    enum fate fate = fate_of("fsync", "");
    if (fate == FAILS)
        return -1;
    return (int)made(fate, fcntl(fd, F_GETFD) < 0 ? -1 : 0);
}

/* A close that fails has closed the file all the same. */
int close(int fd)
{
    enum fate fate = fate_of("close", "");
    int number = errno;
    long answer = syscall(SYS_close, fd);
    if (fate == FAILS) {
        errno = number;
        return -1;
    }
    return (int)made(fate, answer);
}

int rename(const char *from, const char *to)
{
    char names[900];
    snprintf(names, sizeof names, " %s %s", from, to);
    enum fate fate = fate_of("rename", names);
    renames += 1;
    if (fate == FAILS)
        return -1;
    return (int)made(fate, syscall(SYS_renameat, AT_FDCWD, from, AT_FDCWD, to));
}

int unlink(const char *path)
{
    enum fate fate = fate_of_name("unlink", path);
    if (fate == FAILS)
        return -1;
    return (int)made(fate, syscall(SYS_unlinkat, AT_FDCWD, path, 0));
}

int mkdir(const char *path, mode_t mode)
{
    enum fate fate = fate_of_name("mkdir", path);
    if (fate == FAILS)
        return -1;
    return (int)made(fate, syscall(SYS_mkdirat, AT_FDCWD, path, mode));
}

int rmdir(const char *path)
{
    enum fate fate = fate_of_name("rmdir", path);
    if (fate == FAILS)
        return -1;
    return (int)made(fate, syscall(SYS_unlinkat, AT_FDCWD, path, AT_REMOVEDIR));
}

int statx(int folder, const char *restrict path, int flags, unsigned mask, struct statx *restrict found)
{
    enum fate fate = fate_of_name("statx", path);
    if (fate == FAILS)
        return -1;
    return (int)made(fate, syscall(SYS_statx, folder, path, flags, mask, found));
}

ssize_t readlink(const char *restrict path, char *restrict bytes, size_t length)
{
    enum fate fate = fate_of_name("readlink", path);
    if (fate == FAILS)
        return -1;
    return made(fate, syscall(SYS_readlinkat, AT_FDCWD, path, bytes, length));
}

/* Not on a file, but it may fail. */
int getentropy(void *bytes, size_t length)
{
    enum fate fate = fate_of("getentropy", "");
    if (fate == FAILS)
        return -1;
    long got = syscall(SYS_getrandom, bytes, length, 0);
    return (int)made(fate, got == (long)length ? 0 : -1);
}
