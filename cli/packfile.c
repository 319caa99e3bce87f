/* The file of a pack. A changed one is written beside the old one and renamed, so that one of both is there whole whatever happens, and the file beside keeps a
 * second call from changing the pack meanwhile. */
#include "cli.h"
#include <errno.h>
#include <fcntl.h>
#include <limits.h>
#include <signal.h>
#include <stdio.h>
#include <stdlib.h>
#include <sys/stat.h>
#include <unistd.h>

#define BESIDE ".new"

/* A change that has begun: the file that the name stands for, links followed, what was there, the file beside it, and the signals that were held back before. */
static struct {
    char target[PATH_MAX], beside[PATH_MAX + sizeof BESIDE];
    struct stat old;
    int fd;
    sigset_t signals;
} change;

/* Signals that would end the call between the making of the file beside and its renaming wait until that is done. */
static void hold_signals(void) {
    sigset_t held;
    (void)sigemptyset(&held);
    (void)sigaddset(&held, SIGHUP);
    (void)sigaddset(&held, SIGINT);
    (void)sigaddset(&held, SIGQUIT);
    (void)sigaddset(&held, SIGTERM);
    (void)sigprocmask(SIG_BLOCK, &held, &change.signals);
}

static void let_signals(void) {
    (void)sigprocmask(SIG_SETMASK, &change.signals, NULL);
}

/* Makes a file that is not there yet. */
static int make_file(const char *path, mode_t mode) {
    return open_file(path, O_WRONLY | O_CREAT | O_EXCL, mode);
}

static bool sync_file(int fd) {
    int synced;
    do {
        synced = fsync(fd);
    } while (synced < 0 && errno == EINTR);
    return synced == 0;
}

/* Writes a file to its end and closes it, whatever happens. */
static bool fill_file(int fd, const struct file *pack) {
    bool good = write_all(fd, pack->bytes, pack->length) && sync_file(fd);
    int why = errno;
    /* After EINTR the descriptor is not to be closed again, and all was written before. */
    if (close(fd) != 0 && errno != EINTR && good) {
        return false;
    }
    errno = why;
    return good;
}

enum status new_pack(const struct file *pack) {
    hold_signals();
    int fd = make_file(pack->name, 0666);
    bool good = fd >= 0 && fill_file(fd, pack);
    enum status status = good ? GOOD : io_failed(pack->name, "written");
    if (!good && fd >= 0) {
        (void)unlink(pack->name);
    }
    let_signals();
    return status;
}

/* Whether the file that a name stands for can be changed; what cannot is told. */
static enum status find_target(const char *name) {
    if (realpath(name, change.target) == NULL || stat(change.target, &change.old) != 0) {
        return io_failed(name, "read");
    }
    if (!S_ISREG(change.old.st_mode)) {
        show_string(name);
        fputs(": cannot be written: it is no regular file\n", stderr);
        return BAD_FILE;
    }
    return access(change.target, W_OK) == 0 ? GOOD : io_failed(name, "written");
}

enum status begin_change(struct file *pack, const char *name, uint8_t *area, size_t room) {
    enum status status = find_target(name);
    if (status != GOOD) {
        return status;
    }
    (void)snprintf(change.beside, sizeof change.beside, "%s%s", change.target, BESIDE);
    hold_signals();
    change.fd = make_file(change.beside, 0600);
    if (change.fd < 0) {
        status = io_failed(change.beside, "written");
        let_signals();
        return status;
    }
    status = load(pack, name, area, room);
    return status == GOOD ? GOOD : end_change(pack, status);
}

/* Gives the file beside the owner, the group and the permissions of the old one. */
static bool same_owner(void) {
    struct stat made;
    if (fstat(change.fd, &made) != 0) {
        return false;
    }
    bool same = made.st_uid == change.old.st_uid && made.st_gid == change.old.st_gid;
    return (same || fchown(change.fd, change.old.st_uid, change.old.st_gid) == 0) && fchmod(change.fd, change.old.st_mode & 07777) == 0;
}

/* Puts the file beside, which is closed then, into the place of the old one. */
static enum status replace(const struct file *pack) {
    bool owned = same_owner();
    int why = errno;
    bool filled = fill_file(change.fd, pack);
    errno = owned ? errno : why;
    if (!owned || !filled || rename(change.beside, change.target) != 0) {
        enum status status = io_failed(pack->name, "written");
        (void)unlink(change.beside);
        return status;
    }
    return GOOD;
}

enum status end_change(const struct file *pack, enum status status) {
    if (status == GOOD) {
        status = replace(pack);
    } else {
        (void)close(change.fd);
        (void)unlink(change.beside);
    }
    let_signals();
    return status;
}
