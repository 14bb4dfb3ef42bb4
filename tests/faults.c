/* Preloaded into a program, so that its reads and writes move at most PIECE bytes each, after PAUSE microseconds, and the call after so many
 * fails with the error ERRNO, or EIO: READS, WRITES, SYNCS, CUTS (changes of a length), LINKS. Before the write
 * after STOPS of them the process stops itself. Standard error is left alone. */
#define _DEFAULT_SOURCE
#include <errno.h>
#include <signal.h>
#include <stdlib.h>
#include <sys/syscall.h>
#include <sys/types.h>
#include <unistd.h>

static size_t number(const char *name, size_t otherwise) {
    const char *text = getenv(name);
    return text ? strtoul(text, NULL, 10) : otherwise;
}

static int fails(const char *limit, size_t *calls) {
    if ((*calls)++ < number(limit, (size_t)-1))
        return 0;
    errno = (int)number("ERRNO", EIO);
    return 1;
}

static ssize_t move(long call, const char *limit, size_t *calls, int fd, void *bytes, size_t length) {
    size_t piece = number("PIECE", length);
    if (fd == STDERR_FILENO)
        return syscall(call, fd, bytes, length);
    if (fails(limit, calls))
        return -1;
    usleep(number("PAUSE", 0));
    return syscall(call, fd, bytes, length < piece ? length : piece);
}

ssize_t read(int fd, void *bytes, size_t length) {
    static size_t calls;
    return move(SYS_read, "READS", &calls, fd, bytes, length);
}

ssize_t write(int fd, const void *bytes, size_t length) {
    static size_t calls;
    if (fd != STDERR_FILENO && calls == number("STOPS", (size_t)-1))
        raise(SIGSTOP);
    return move(SYS_write, "WRITES", &calls, fd, (void *)bytes, length);
}

int fsync(int fd) {
    static size_t calls;
    return fails("SYNCS", &calls) ? -1 : (int)syscall(SYS_fsync, fd);
}

int ftruncate64(int fd, off_t length) {
    static size_t calls;
    return fails("CUTS", &calls) ? -1 : (int)syscall(SYS_ftruncate, fd, length);
}

int linkat(int from_folder, const char *from, int to_folder, const char *to, int flags) {
    static size_t calls;
    return fails("LINKS", &calls) ? -1 : (int)syscall(SYS_linkat, from_folder, from, to_folder, to, flags);
}
