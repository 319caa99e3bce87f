/* A second font behind the first, for the characters that the first lacks. */
#include "cli.h"

struct drawing draw_two(const struct files *files, const struct text *text) {
    static uint8_t scratch[WATTLESLATE_SCRATCH], out[WATTLESLATE_MAX_DRAWN];
    const struct file *first = &files->font, *second = &files->second, *control = &files->control;
    uint64_t answer = wattleslate_draw_two(first->bytes, first->length, second->bytes, second->length, control->bytes, control->length, text->bytes,
                                           text->length, scratch, sizeof scratch, out, sizeof out);
    return drawn_line(answer, out, files->height);
}

/* An empty text shows it: what differs in two fonts is refused before the control file is read. */
enum status check_two(const struct files *files) {
    struct text empty = {0, files->control.bytes, 0};
    struct drawing drawing = draw_two(files, &empty);
    return wattleslate_number(drawing.answer) == WATTLESLATE_FONTS_DIFFER ? fonts_refused(files, drawing.answer) : GOOD;
}
