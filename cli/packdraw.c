/* The word draw of pack: names with the letters of a pack, by a layout and a direction that a pack does not have itself. */
#include "cli.h"

/* What a text is drawn by. */
struct from_pack {
    struct file pack, control;
    size_t height, layout, direction;
};

/* The layout of a font as a Full_Layout: its own, else what its Old_Layout stands for. */
static size_t own_layout(const struct file *font) {
    int64_t value = 0;
    if (header_number(font, FULL_LAYOUT, &value)) {
        return (size_t)value;
    }
    /* A header that was accepted has it. */
    (void)header_number(font, OLD_LAYOUT, &value);
    return value < 0 ? WATTLESLATE_FULL_WIDTH : value == 0 ? WATTLESLATE_FITTING : WATTLESLATE_SMUSHING + (size_t)value;
}

/* Layout and direction are those of the font, where -l and -d do not say otherwise. */
static enum status take_layout(const struct call *call, const struct file *font, struct from_pack *from) {
    int64_t value = 0;
    from->layout = own_layout(font);
    from->direction = header_number(font, PRINT_DIRECTION, &value) ? (size_t)value : WATTLESLATE_LEFT_TO_RIGHT;
    if (call->given[LAYOUT] != NULL && !number_upto(call->given[LAYOUT], WATTLESLATE_MAX_LAYOUT, &from->layout)) {
        return bad_use("-l wants " LAYOUT_WANTED ", not ", call->given[LAYOUT], "");
    }
    if (call->given[DIRECTION] != NULL && !number_upto(call->given[DIRECTION], WATTLESLATE_RIGHT_TO_LEFT, &from->direction)) {
        return bad_use("-d wants " DIRECTION_WANTED ", not ", call->given[DIRECTION], "");
    }
    return GOOD;
}

static enum status take_all(const struct call *call, struct from_pack *from) {
    struct files files;
    uint64_t answer = 0;
    enum status status = take_files(call, &files);
    if (status == GOOD) {
        status = take_layout(call, &files.font, from);
    }
    if (status == GOOD) {
        status = take_pack(&from->pack, call->operands[0], &answer);
    }
    from->control = files.control;
    from->height = wattleslate_height(answer);
    return status;
}

static struct drawing draw_from(const struct from_pack *from, const struct text *text) {
    static uint8_t scratch[WATTLESLATE_SCRATCH], out[WATTLESLATE_MAX_DRAWN];
    uint64_t answer = wattleslate_draw_pack(from->pack.bytes, from->pack.length, from->layout, from->direction, from->control.bytes, from->control.length,
                                            text->bytes, text->length, scratch, sizeof scratch, out, sizeof out);
    return drawn_line(answer, out, from->height);
}

enum status pack_draw(const struct call *call) {
    struct from_pack from;
    struct text text;
    enum step step = END;
    struct call texts = *call;
    enum status status = take_all(call, &from);
    if (status != GOOD) {
        return status;
    }
    texts.operands++;
    texts.count--;
    for (size_t number = 0; status != BAD_FILE && (step = next_text(&texts, number, &text)) == NEXT; number++) {
        struct drawing drawing = draw_from(&from, &text);
        status = worse(status, put_text(&text, &drawing, "pack", call->given[STRICT] != NULL));
    }
    return step == FAILED ? BAD_FILE : status;
}
