/* Preloaded: standard input and standard output that behave as these variables say, each of which is a number.
 *   READ_MOST, WRITE_MOST  so many bytes at most are given, or taken, by one call
 *   READ_FAILS             the read of this number fails, counted from 1
 *   WRITE_ROOM             so many bytes are taken in all, and then a write fails
 *   INTERRUPT              every other call is interrupted, the first of them too; an interrupted read counts as one
 * A read after one that failed, and a write after one that failed or took nothing, ends the program by SIGABRT. */
#define _GNU_SOURCE
#include <errno.h>
#include <stdlib.h>
#include <sys/syscall.h>
#include <unistd.h>

/* What the variable says, or the other number if it is not set. */
static long said(const char *variable, long other) {
    const char *text = getenv(variable);
    return text ? strtol(text, 0, 10) : other;
}

static size_t least(size_t size, long limit) { return limit >= 0 && (size_t)limit < size ? (size_t)limit : size; }

static ssize_t failed(int error) {
    errno = error;
    return -1;
}

ssize_t read(int file, void *bytes, size_t size) {
    static long number;
    static int is_over;
    if (file != 0) return syscall(SYS_read, file, bytes, size);
    if (is_over) abort();
    if (++number == said("READ_FAILS", 0)) {
        is_over = 1;
        return failed(EIO);
    }
    if (number % 2 && said("INTERRUPT", 0)) return failed(EINTR);
    return syscall(SYS_read, file, bytes, least(size, said("READ_MOST", -1)));
}

ssize_t write(int file, const void *bytes, size_t size) {
    static long number, taken;
    static int is_over;
    long room = said("WRITE_ROOM", -1), most = said("WRITE_MOST", -1);
    if (file != 1) return syscall(SYS_write, file, bytes, size);
    if (is_over) abort();
    if (++number % 2 && said("INTERRUPT", 0)) return failed(EINTR);
    if (room >= 0 && taken == room) {
        is_over = 1;
        return failed(EIO);
    }
    if (most == 0) is_over = 1;
    size = least(least(size, most), room < 0 ? -1 : room - taken);
    if (size == 0) return 0;
    ssize_t count = syscall(SYS_write, file, bytes, size);
    if (count > 0) taken += count;
    return count;
}
