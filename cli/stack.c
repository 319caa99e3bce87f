/* Names one below the other. The library stacks two texts in one call; each further line is drawn by itself and stacked under what stands. */
#include "cli.h"
#include <string.h>

/* What stands: rows of equal width, one after another, without LFs. */
static struct {
    size_t height, width;
    uint8_t rows[WATTLESLATE_MAX_STACK_HEIGHT * WATTLESLATE_MAX_WIDTH];
} standing;

/* Drawn rows have blanks for hardblanks and no byte under 32, so this hardblank is none of them. The font's own would take away an = that two lines
 * were joined to, where = is the hardblank. */
#define NO_HARDBLANK 1u

/* Takes the LFs out of drawn rows. */
static void without_ends(const uint8_t *drawn, size_t height, size_t width, uint8_t *rows) {
    for (size_t row = 0; row < height; row++) {
        memcpy(rows + row * width, drawn + row * (width + 1), width);
    }
}

/* The Full_Layout of the font; without one nothing closes up, as with 0. */
static size_t full_layout(const struct file *font) {
    int64_t value;
    return header_number(font, FULL_LAYOUT, &value) ? (size_t)value : WATTLESLATE_FULL_HEIGHT;
}

enum status stack_two(const struct files *files, const struct text *upper, const struct text *lower) {
    static uint8_t scratch[WATTLESLATE_STACKED_SCRATCH], out[WATTLESLATE_MAX_STACKED];
    uint64_t answer = wattleslate_draw_stacked(files->font.bytes, files->font.length, files->control.bytes, files->control.length, upper->bytes,
                                               upper->length, lower->bytes, lower->length, scratch, sizeof scratch, out, sizeof out);
    if (wattleslate_number(answer) != WATTLESLATE_NOT_REFUSED) {
        /* The upper text is refused where it is refused alone for the same reason. */
        struct drawing alone = draw_line(files, upper);
        bool above = wattleslate_number(alone.answer) == wattleslate_number(answer);
        return text_refused(above ? upper : lower, answer);
    }
    standing.height = wattleslate_height(answer);
    standing.width = wattleslate_width(answer);
    without_ends(out, standing.height, standing.width, standing.rows);
    return GOOD;
}

enum status stack_one_more(const struct files *files, const struct text *text) {
    static uint8_t line[WATTLESLATE_MAX_HEIGHT * WATTLESLATE_MAX_WIDTH], out[sizeof standing.rows];
    struct drawing drawing = draw_line(files, text);
    if (wattleslate_number(drawing.answer) != WATTLESLATE_NOT_REFUSED) {
        return text_refused(text, drawing.answer);
    }
    size_t width = wattleslate_width(drawing.answer);
    without_ends(drawing.rows, files->height, width, line);
    uint64_t answer = wattleslate_stack(standing.rows, standing.height * standing.width, standing.width, standing.height, line,
                                        files->height * width, width, files->height, NO_HARDBLANK, full_layout(&files->font), out, sizeof out);
    if (wattleslate_number(answer) != WATTLESLATE_NOT_REFUSED) {
        return text_refused(text, answer);
    }
    standing.height = wattleslate_height(answer);
    standing.width = wattleslate_width(answer);
    memcpy(standing.rows, out, standing.height * standing.width);
    return GOOD;
}

enum status put_stack(void) {
    static uint8_t drawn[WATTLESLATE_MAX_STACKED];
    for (size_t row = 0; row < standing.height; row++) {
        uint8_t *at = drawn + row * (standing.width + 1);
        memcpy(at, standing.rows + row * standing.width, standing.width);
        at[standing.width] = '\n';
    }
    return put(drawn, WATTLESLATE_DRAWN(standing.height, standing.width));
}
