/* Files, the lines of standard input, and standard output. Every call that a signal interrupts is made again. */
#include "cli.h"
#include <errno.h>
#include <fcntl.h>
#include <stdio.h>
#include <string.h>
#include <sys/ioctl.h>
#include <unistd.h>

enum status io_failed(const char *name, const char *what) {
    const char *why = strerror(errno);
    show_string(name);
    fprintf(stderr, ": cannot be %s: %s\n", what, why);
    return BAD_FILE;
}

/* One read, of as many bytes as there are now: 0 at the end, -1 on failure. */
static ssize_t read_some(int fd, uint8_t *area, size_t room) {
    ssize_t got;
    do {
        got = read(fd, area, room);
    } while (got < 0 && errno == EINTR);
    return got;
}

/* Reads to the end of the file or of the area. */
static ssize_t read_all(int fd, uint8_t *area, size_t room) {
    size_t length = 0;
    while (length < room) {
        ssize_t got = read_some(fd, area + length, room - length);
        if (got < 0) {
            return got;
        }
        if (got == 0) {
            break;
        }
        length += (size_t)got;
    }
    return (ssize_t)length;
}

int open_file(const char *name, int flags, mode_t mode) {
    int fd;
    do {
        fd = open(name, flags | O_NOCTTY, mode);
    } while (fd < 0 && errno == EINTR);
    return fd;
}

bool write_all(int fd, const uint8_t *bytes, size_t length) {
    size_t done = 0;
    while (done < length) {
        ssize_t wrote = write(fd, bytes + done, length - done);
        if (wrote < 0 && errno != EINTR) {
            return false;
        }
        done += wrote < 0 ? 0 : (size_t)wrote;
    }
    return true;
}

enum status load(struct file *file, const char *name, uint8_t *area, size_t room) {
    int fd = open_file(name, O_RDONLY, 0);
    if (fd < 0) {
        return io_failed(name, "read");
    }
    ssize_t length = read_all(fd, area, room);
    int why = errno;
    /* Whether closing fails does not matter: nothing was written. */
    (void)close(fd);
    if (length < 0) {
        errno = why;
        return io_failed(name, "read");
    }
    *file = (struct file){name, area, (size_t)length};
    return GOOD;
}

/* Standard input: the part of it that was read last, and how far its lines were taken. */
static struct {
    uint8_t part[8192];
    size_t at, length, lines;
    bool ended;
} input;

/* The next byte of standard input: NEXT, or why there is none. */
static enum step next_byte(uint8_t *byte) {
    if (input.at == input.length && !input.ended) {
        ssize_t got = read_some(STDIN_FILENO, input.part, sizeof input.part);
        if (got < 0) {
            io_failed("standard input", "read");
            return FAILED;
        }
        input.at = 0;
        input.length = (size_t)got;
        input.ended = got == 0;
    }
    if (input.ended) {
        return END;
    }
    *byte = input.part[input.at++];
    return NEXT;
}

/* An LF ends a line, and a last one without LF counts. Of a long line one byte more is kept than a text may have: it is still refused. */
enum step next_line(struct text *text) {
    static uint8_t lines[2][WATTLESLATE_MAX_TEXT + 1];
    uint8_t *line = lines[input.lines % 2];
    size_t length = 0;
    uint8_t byte = 0;
    enum step step;
    while ((step = next_byte(&byte)) == NEXT && byte != '\n') {
        if (length < sizeof lines[0]) {
            line[length++] = byte;
        }
    }
    if (step == FAILED || (step == END && length == 0)) {
        return step;
    }
    *text = (struct text){++input.lines, line, length};
    return NEXT;
}

/* Standard output: nothing was written yet, something was, or it failed, which is told once. */
static enum { UNUSED, USED, BROKEN } output = UNUSED;

static enum status output_failed(void) {
    output = BROKEN;
    return io_failed("standard output", "written");
}

enum status put(const uint8_t *bytes, size_t length) {
    if (output != BROKEN && length > 0) {
        if (!write_all(STDOUT_FILENO, bytes, length)) {
            return output_failed();
        }
        output = USED;
    }
    return output == BROKEN ? BAD_FILE : GOOD;
}

size_t output_columns(void) {
    struct winsize size;
    int told;
    do {
        told = ioctl(STDOUT_FILENO, TIOCGWINSZ, &size);
    } while (told < 0 && errno == EINTR);
    if (told < 0) {
        return 0;
    }
    return size.ws_col < WATTLESLATE_MAX_WIDTH ? size.ws_col : WATTLESLATE_MAX_WIDTH;
}

enum status put_string(const char *string) {
    return put((const uint8_t *)string, strlen(string));
}

enum status close_output(void) {
    if (output != USED) {
        return GOOD;
    }
    /* After EINTR the descriptor is not to be closed again, and nothing is known to be lost. */
    return close(STDOUT_FILENO) == 0 || errno == EINTR ? GOOD : output_failed();
}

void show(const uint8_t *bytes, size_t length, size_t most) {
    size_t shown = length < most ? length : most;
    /* No character of UTF-8 is cut apart. */
    while (shown > 0 && shown < length && (bytes[shown] & 0xC0) == 0x80) {
        shown--;
    }
    for (size_t i = 0; i < shown; i++) {
        fprintf(stderr, bytes[i] < 32 || bytes[i] == 127 ? "\\x%02x" : "%c", bytes[i]);
    }
    if (shown < length) {
        fputs("...", stderr);
    }
}

void show_string(const char *string) {
    size_t length = strlen(string);
    show((const uint8_t *)string, length, length);
}

void show_text(const struct text *text) {
    if (text->line > 0) {
        fprintf(stderr, "standard input:%zu", text->line);
    } else {
        show(text->bytes, text->length, 60);
    }
}
