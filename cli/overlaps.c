/* The overlaps that another program took, as a file: a decimal number on each line. */
#include "cli.h"
#include <stdio.h>

/* The bytes of the longest file that is read: 1,023 lines have room in it with four digits and CR LF, and with leading zeros too. */
#define MOST_BYTES 16384u

/* Says that a line has no overlap. */
static enum status bad_overlap(const struct file *file, size_t line, size_t at) {
    show_string(file->name);
    fprintf(stderr, ":%zu: an overlap is a number from 0 to 1,000, and not ", line);
    if (line_end(file, at) == at) {
        fputs("an empty line", stderr);
    }
    show(file->bytes + at, line_end(file, at) - at, 20);
    fputs("\n", stderr);
    return REFUSED;
}

/* Takes one line after another; an empty file is an empty list. */
static enum status take_lines(struct overlaps *overlaps, const struct file *file) {
    for (size_t at = 0; at < file->length; at = line_after(file, at)) {
        if (overlaps->count == WATTLESLATE_MAX_OVERLAPS) {
            show_string(file->name);
            fputs(":1024: a 1,024th overlap, and no drawing has more than 1,023\n", stderr);
            return REFUSED;
        }
        size_t *overlap = &overlaps->list[overlaps->count++];
        if (!digits_upto(file->bytes + at, line_end(file, at) - at, WATTLESLATE_MAX_WIDTH, overlap)) {
            return bad_overlap(file, overlaps->count, at);
        }
    }
    return GOOD;
}

enum status take_overlaps(struct overlaps *overlaps, const char *name) {
    static uint8_t area[MOST_BYTES + 1];
    struct file file;
    enum status status = load(&file, name, area, sizeof area);
    if (status != GOOD) {
        return status;
    }
    overlaps->name = name;
    overlaps->count = 0;
    if (file.length > MOST_BYTES) {
        show_string(name);
        fputs(": the list of overlaps is longer than 16,384 bytes\n", stderr);
        return REFUSED;
    }
    return take_lines(overlaps, &file);
}
