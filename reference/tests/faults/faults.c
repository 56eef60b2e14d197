/* Preloaded before the C library: open, read, write and close that fail as the environment says.
 *
 * FAULT_FILE            the one of the three files whose calls of open and read are changed
 * FAULT_OPEN_INTERRUPTED, FAULT_READ_INTERRUPTED, FAULT_WRITE_INTERRUPTED
 *                       how many calls are interrupted before each that goes through; -1: all are
 * FAULT_READ_MOST, FAULT_WRITE_MOST
 *                       how many bytes a call moves at most
 * FAULT_READ_FAIL, FAULT_WRITE_FAIL
 *                       after how many bytes a call fails, with the error FAULT_ERROR
 * FAULT_CLOSE           closing standard output fails, with the error FAULT_ERROR
 * FAULT_LOG             the file that gets the numbers of calls in the end: of open, read and write that went through, that
 *                       were interrupted and that failed, and of the bytes read and written
 *
 * Writes are changed on standard output only. */
#define _GNU_SOURCE
#include <errno.h>
#include <fcntl.h>
#include <limits.h>
#include <stdio.h>
#include <stdlib.h>
#include <string.h>
#include <sys/syscall.h>
#include <unistd.h>

static long opens, reads, writes, interrupted, failed, bytes_read, bytes_written;

/* The descriptor of FAULT_FILE, how many of its bytes were read, and how many calls were interrupted since the last that
 * was not. */
static int watched = -1;
static long file_bytes, in_a_row;

static long setting(const char *name, long otherwise)
{
    const char *value = getenv(name);
    return value ? atol(value) : otherwise;
}

static int fails(void)
{
    failed++;
    errno = (int)setting("FAULT_ERROR", EIO);
    return -1;
}

/* Whether this call is interrupted. */
static int interrupts(const char *name)
{
    long most = setting(name, 0);
    if (most < 0 || in_a_row < most) {
        in_a_row++;
        interrupted++;
        errno = EINTR;
        return 1;
    }
    in_a_row = 0;
    return 0;
}

static size_t least(size_t count, long most)
{
    return count < (size_t)most ? count : (size_t)most;
}

int open(const char *path, int flags, ...)
{
    const char *name = getenv("FAULT_FILE");
    int is_watched = name && strcmp(path, name) == 0;
    if (is_watched && interrupts("FAULT_OPEN_INTERRUPTED"))
        return -1;
    opens++;
    int fd = (int)syscall(SYS_openat, AT_FDCWD, path, flags, 0);
    if (is_watched) {
        watched = fd;
        file_bytes = 0;
    }
    return fd;
}

ssize_t read(int fd, void *buffer, size_t count)
{
    if (fd == watched) {
        long end = setting("FAULT_READ_FAIL", LONG_MAX);
        if (interrupts("FAULT_READ_INTERRUPTED"))
            return -1;
        if (file_bytes >= end)
            return fails();
        count = least(count, setting("FAULT_READ_MOST", LONG_MAX));
        count = least(count, end - file_bytes);
    }
    reads++;
    ssize_t got = syscall(SYS_read, fd, buffer, count);
    if (got > 0) {
        bytes_read += got;
        if (fd == watched)
            file_bytes += got;
    }
    return got;
}

ssize_t write(int fd, const void *buffer, size_t count)
{
    if (fd == STDOUT_FILENO) {
        long end = setting("FAULT_WRITE_FAIL", LONG_MAX);
        if (interrupts("FAULT_WRITE_INTERRUPTED"))
            return -1;
        if (bytes_written >= end)
            return fails();
        count = least(count, setting("FAULT_WRITE_MOST", LONG_MAX));
        count = least(count, end - bytes_written);
        writes++;
    }
    ssize_t put = syscall(SYS_write, fd, buffer, count);
    if (put > 0 && fd == STDOUT_FILENO)
        bytes_written += put;
    return put;
}

int close(int fd)
{
    if (fd == STDOUT_FILENO && setting("FAULT_CLOSE", 0))
        return fails();
    if (fd == watched)
        watched = -1;
    return (int)syscall(SYS_close, fd);
}

__attribute__((destructor)) static void log_calls(void)
{
    const char *path = getenv("FAULT_LOG");
    char line[256];
    if (!path)
        return;
    int count = snprintf(line, sizeof line, "%ld %ld %ld %ld %ld %ld %ld", opens, reads, writes, interrupted, failed, bytes_read,
                         bytes_written);
    int fd = (int)syscall(SYS_openat, AT_FDCWD, path, O_WRONLY | O_CREAT | O_TRUNC, 0644);
    if (fd < 0 || syscall(SYS_write, fd, line, count) != count)
        abort();
}
