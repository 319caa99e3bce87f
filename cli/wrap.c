/* A text in lines, for a terminal that is narrower than its drawing. */
#include "cli.h"
#include <string.h>

/* The bytes of the first rows of an area, with their LFs. */
static size_t rows_length(const uint8_t *area, size_t room, size_t rows) {
    size_t length = 0;
    for (size_t row = 0; row < rows; row++) {
        const uint8_t *end = memchr(area + length, '\n', room - length);
        length = (size_t)(end - area) + 1;
    }
    return length;
}

struct drawing draw_wrapped(const struct files *files, const struct text *text, size_t columns) {
    static uint8_t scratch[WATTLESLATE_SCRATCH], out[WATTLESLATE_MAX_WRAPPED];
    static size_t firsts[WATTLESLATE_LINES], ends[WATTLESLATE_LINES];
    size_t length = text->length < WATTLESLATE_MAX_TEXT ? text->length : WATTLESLATE_MAX_TEXT;
    /* All that is lent is written, so no more is lent than a text of this length may need. */
    size_t room = WATTLESLATE_WRAPPED(files->height, length);
    uint64_t answer = wattleslate_draw_wrapped(files->font.bytes, files->font.length, files->control.bytes, files->control.length, text->bytes,
                                               text->length, columns, scratch, sizeof scratch, firsts, WATTLESLATE_LINES, ends, WATTLESLATE_LINES,
                                               out, room);
    bool refused = wattleslate_number(answer) != WATTLESLATE_NOT_REFUSED;
    return (struct drawing){answer, out, refused ? 0 : rows_length(out, room, files->height * (size_t)wattleslate_lines(answer))};
}
