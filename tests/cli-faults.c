/* Faults of the system under the command, for tests/cli: linked with --wrap for open, read, write, close, ioctl, fsync and rename. Every second call is
 * interrupted but for the last one, and reads and writes move one to seven bytes. FAIL_READ=N lets the Nth read fail; FAIL_CLOSE=N lets the closing of standard
 * output fail with error N, FAIL_CLOSE_FILE=N that of every other file; FAIL_WRITE=N lets the Nth write to a file fail, FAIL_SYNC=N and FAIL_RENAME=N let these
 * calls fail with error N. SIGNAL=N raises that signal at the first write to a file, and SIGNAL_RENAME=N before renaming. */
#include <errno.h>
#include <fcntl.h>
#include <signal.h>
#include <stdarg.h>
#include <stdio.h>
#include <stdlib.h>
#include <unistd.h>

int __real_open(const char *path, int flags, ...);
ssize_t __real_read(int fd, void *area, size_t room);
ssize_t __real_write(int fd, const void *bytes, size_t length);
int __real_close(int fd);
int __real_ioctl(int fd, unsigned long request, ...);
int __real_fsync(int fd);
int __real_rename(const char *from, const char *to);

int __wrap_open(const char *path, int flags, ...);
ssize_t __wrap_read(int fd, void *area, size_t room);
ssize_t __wrap_write(int fd, const void *bytes, size_t length);
int __wrap_close(int fd);
int __wrap_ioctl(int fd, unsigned long request, ...);
int __wrap_fsync(int fd);
int __wrap_rename(const char *from, const char *to);

static int setting(const char *name) {
    const char *value = getenv(name);
    return value == NULL ? 0 : atoi(value);
}

static int interrupted(void) {
    static unsigned calls = 0;
    errno = EINTR;
    return calls++ % 2 == 0;
}

/* Another number of bytes at each call. */
static size_t some(size_t length) {
    static size_t calls = 0;
    size_t most = 1 + calls++ * 3 % 7;
    return length < most ? length : most;
}

/* Fails with the error that a setting names. */
static int fails(const char *name) {
    int error = setting(name);
    errno = error;
    return error != 0;
}

int __wrap_open(const char *path, int flags, ...) {
    va_list more;
    va_start(more, flags);
    mode_t mode = (flags & O_CREAT) != 0 ? va_arg(more, mode_t) : 0;
    va_end(more);
    return interrupted() ? -1 : __real_open(path, flags, mode);
}

ssize_t __wrap_read(int fd, void *area, size_t room) {
    static int reads = 0;
    if (interrupted()) {
        return -1;
    }
    if (++reads == setting("FAIL_READ")) {
        errno = EIO;
        return -1;
    }
    return __real_read(fd, area, some(room));
}

ssize_t __wrap_write(int fd, const void *bytes, size_t length) {
    static int writes = 0;
    if (interrupted()) {
        return -1;
    }
    if (fd > STDERR_FILENO && ++writes == 1 && setting("SIGNAL") != 0) {
        (void)raise(setting("SIGNAL"));
    }
    if (fd > STDERR_FILENO && writes == setting("FAIL_WRITE")) {
        errno = ENOSPC;
        return -1;
    }
    return __real_write(fd, bytes, some(length));
}

int __wrap_fsync(int fd) {
    return interrupted() || fails("FAIL_SYNC") ? -1 : __real_fsync(fd);
}

int __wrap_rename(const char *from, const char *to) {
    if (setting("SIGNAL_RENAME") != 0) {
        (void)raise(setting("SIGNAL_RENAME"));
    }
    return fails("FAIL_RENAME") ? -1 : __real_rename(from, to);
}

/* With the one argument that the command gives, a pointer. */
int __wrap_ioctl(int fd, unsigned long request, ...) {
    va_list more;
    va_start(more, request);
    void *area = va_arg(more, void *);
    va_end(more);
    return interrupted() ? -1 : __real_ioctl(fd, request, area);
}

int __wrap_close(int fd) {
    int error = fd == STDOUT_FILENO ? setting("FAIL_CLOSE") : setting("FAIL_CLOSE_FILE");
    int closed = __real_close(fd);
    if (error != 0) {
        errno = error;
        return -1;
    }
    return closed;
}
