/* The lines of fonts and control files, as 01 cuts them: LF, CR and CR LF each end one. */
#include "cli.h"

bool is_gap(uint8_t byte) {
    return byte == ' ' || byte == '\t';
}

size_t gap_end(const struct file *file, size_t at) {
    while (at < file->length && is_gap(file->bytes[at])) {
        at++;
    }
    return at;
}

size_t word_end(const struct file *file, size_t at) {
    while (at < file->length && !is_gap(file->bytes[at]) && file->bytes[at] != '\n' && file->bytes[at] != '\r') {
        at++;
    }
    return at;
}

size_t line_end(const struct file *file, size_t at) {
    while (at < file->length && file->bytes[at] != '\n' && file->bytes[at] != '\r') {
        at++;
    }
    return at;
}

size_t line_after(const struct file *file, size_t at) {
    size_t end = line_end(file, at);
    bool both = end + 1 < file->length && file->bytes[end] == '\r' && file->bytes[end + 1] == '\n';
    return end + (both ? 2 : 1);
}

size_t row_line_end(const struct file *font, size_t start) {
    size_t end = line_end(font, start);
    while (end > start && is_gap(font->bytes[end - 1])) {
        end--;
    }
    return end;
}

size_t row_end(const struct file *font, size_t start) {
    size_t end = row_line_end(font, start), behind = end;
    while (behind > start && font->bytes[behind - 1] == font->bytes[end - 1]) {
        behind--;
    }
    return behind;
}
