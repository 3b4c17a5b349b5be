// Has one call fail by which the program that it is loaded into reads, writes or puts a file in its place, for tools/fail-streams.
//
// STREAM is `read`, `write`, `sync` or `rename`; FAIL_CALL is the number of its call that fails, counted from 1, or 0 for none, and
// FAIL_MARK the file that is made then. With ONE_BYTE each of these calls takes one byte at most. The calls are those of the C
// library's `read`, `write`, `fsync` and `rename`; the loader's own calls don't come here.

#define _GNU_SOURCE
#include <errno.h>
#include <fcntl.h>
#include <stdio.h>
#include <stdlib.h>
#include <string.h>
#include <sys/syscall.h>
#include <unistd.h>

static long until_failure = -1;

static int is_meant(const char *stream) {
    const char *meant = getenv("STREAM");
    return meant && strcmp(meant, stream) == 0;
}

static int fails(void) {
    if (until_failure < 0) {
        const char *number = getenv("FAIL_CALL");
        until_failure = number ? atol(number) : 0;
    }
    if (until_failure == 0 || --until_failure > 0) {
        return 0;
    }
    const char *mark = getenv("FAIL_MARK");
    if (mark) {
        close(open(mark, O_CREAT | O_WRONLY, 0600));
    }
    errno = EIO;
    return 1;
}

static size_t at_most(size_t count) {
    return getenv("ONE_BYTE") && count > 1 ? 1 : count;
}

ssize_t read(int from, void *to, size_t count) {
    if (!is_meant("read")) {
        return syscall(SYS_read, from, to, count);
    }
    return fails() ? -1 : syscall(SYS_read, from, to, at_most(count));
}

ssize_t write(int to, const void *from, size_t count) {
    if (!is_meant("write")) {
        return syscall(SYS_write, to, from, count);
    }
    return fails() ? -1 : syscall(SYS_write, to, from, at_most(count));
}

int fsync(int of) {
    return is_meant("sync") && fails() ? -1 : (int)syscall(SYS_fsync, of);
}

int rename(const char *from, const char *to) {
    return is_meant("rename") && fails() ? -1 : (int)syscall(SYS_rename, from, to);
}
