/* The word check-drawing: whether what another program drew is the drawing of a name. With a list of overlaps the library decides; without one only the bytes are
 * compared, here, with what the library draws. */
#include "cli.h"
#include <stdio.h>

/* What is checked: the list is NULL where none was given. */
struct checked {
    struct files files;
    struct text text;
    struct file figure;
    struct overlaps *overlaps;
};

/* What the library answers of a list with so many entries. */
static uint64_t answer_of(const struct checked *checked, size_t count) {
    static uint8_t scratch[WATTLESLATE_SCRATCH];
    const struct file *font = &checked->files.font, *control = &checked->files.control;
    return wattleslate_check_drawing(font->bytes, font->length, control->bytes, control->length, checked->text.bytes, checked->text.length,
                                     checked->figure.bytes, checked->figure.length, checked->overlaps->list, count, scratch, sizeof scratch);
}

/* Shows the text in a sentence. */
static void show_name(const struct text *text) {
    if (text->length == 0) {
        fputs("an empty text", stderr);
    }
    show_text(text);
}

/* Shows how many there are of something. */
static void show_count(size_t count, const char *what) {
    fprintf(stderr, "%zu %s%s", count, what, count == 1 ? "" : "s");
}

/* How many overlaps the drawing has is the only length of a list that is not refused. */
static enum status wrong_length(const struct checked *checked, uint64_t answer) {
    size_t due = 0;
    while (due < WATTLESLATE_MAX_OVERLAPS && wattleslate_number(answer_of(checked, due)) == WATTLESLATE_WRONG_LENGTH) {
        due++;
    }
    show_string(checked->overlaps->name);
    fputs(": ", stderr);
    show_count(checked->overlaps->count, "overlap");
    fputs(", and the drawing of ", stderr);
    show_name(&checked->text);
    fprintf(stderr, " has %zu (refusal %d)\n", due, (int)wattleslate_number(answer));
    return REFUSED;
}

/* Whether the library names the overlap with that number as the first wrong one. */
static bool is_named(const struct checked *checked, size_t number) {
    uint64_t answer = answer_of(checked, checked->overlaps->count);
    return wattleslate_checked(answer) == WATTLESLATE_WRONG_OVERLAP && wattleslate_where(answer) == number;
}

/* The right overlap is the first number in its place that the library does not name. */
static enum status wrong_overlap(const struct checked *checked, size_t number) {
    size_t *overlap = &checked->overlaps->list[number], given = *overlap;
    *overlap = 0;
    while (*overlap < WATTLESLATE_MAX_WIDTH && is_named(checked, number)) {
        ++*overlap;
    }
    show_string(checked->overlaps->name);
    fprintf(stderr, ":%zu: the overlap of drawn character %zu is %zu and must be %zu\n", number + 1, number + 2, given, *overlap);
    return REFUSED;
}

/* A byte in a sentence. */
static void show_byte(uint8_t byte) {
    char name[BYTE_NAME];
    name_byte(byte, name);
    fputs(byte == ' ' ? "a blank" : name, stderr);
}

/* Shows how many columns a row must have, or, where a number of rows is given, rows and columns of the FIGure. */
static void show_size(size_t rows, size_t columns) {
    fputs(" and must have ", stderr);
    if (rows > 0) {
        show_count(rows, "row");
        fputs(" of ", stderr);
    }
    show_count(columns, "column");
}

/* Up to the wrong byte the rows are those of the drawing, so its width tells row and column. */
static enum status wrong_byte(const struct checked *checked, const struct drawing *drawing, size_t place) {
    const struct file *figure = &checked->figure;
    size_t width = wattleslate_width(drawing->answer), row = place / (width + 1) + 1, column = place % (width + 1) + 1;
    show_string(figure->name);
    if (place == figure->length || place == drawing->length) {
        fprintf(stderr, ": the FIGure %s at row %zu, column %zu", place == figure->length ? "ends" : "goes on", row, column);
        show_size(checked->files.height, width);
    } else if (figure->bytes[place] == '\n') {
        fprintf(stderr, ": row %zu ends at column %zu", row, column);
        show_size(0, width);
    } else if (drawing->rows[place] == '\n') {
        fprintf(stderr, ": row %zu goes on at column %zu with ", row, column);
        show_byte(figure->bytes[place]);
        show_size(0, width);
    } else {
        fprintf(stderr, ": row %zu, column %zu is ", row, column);
        show_byte(figure->bytes[place]);
        fputs(" and must be ", stderr);
        show_byte(drawing->rows[place]);
    }
    fprintf(stderr, " (byte %zu)\n", place);
    return REFUSED;
}

static enum status accepted(const struct checked *checked) {
    show_string(checked->figure.name);
    fputs(": the drawing of ", stderr);
    show_name(&checked->text);
    fputs(checked->overlaps == NULL ? "; no overlaps were given\n" : ", and its overlaps\n", stderr);
    return GOOD;
}

/* What the library says of a FIGure and a list. */
static enum status judge(const struct checked *checked, const struct drawing *drawing) {
    uint64_t answer = answer_of(checked, checked->overlaps->count);
    if (wattleslate_number(answer) == WATTLESLATE_WRONG_LENGTH) {
        return wrong_length(checked, answer);
    }
    if (wattleslate_number(answer) != WATTLESLATE_NOT_REFUSED) {
        return text_refused(&checked->text, answer);
    }
    switch (wattleslate_checked(answer)) {
    case WATTLESLATE_WRONG_OVERLAP:
        return wrong_overlap(checked, wattleslate_where(answer));
    case WATTLESLATE_WRONG_BYTE:
        return wrong_byte(checked, drawing, wattleslate_where(answer));
    default:
        return accepted(checked);
    }
}

/* Compares the bytes alone. */
static enum status compare(const struct checked *checked, const struct drawing *drawing) {
    const struct file *figure = &checked->figure;
    size_t place = 0;
    while (place < figure->length && place < drawing->length && figure->bytes[place] == drawing->rows[place]) {
        place++;
    }
    bool same = place == figure->length && place == drawing->length;
    return same ? accepted(checked) : wrong_byte(checked, drawing, place);
}

/* Reads the FIGure, with a byte more than the longest drawing has, and the list. */
static enum status take_checked(const struct call *call, struct checked *checked) {
    static uint8_t area[WATTLESLATE_MAX_DRAWN + 1];
    static struct overlaps overlaps;
    enum status status = load(&checked->figure, call->operands[1], area, sizeof area);
    checked->overlaps = NULL;
    if (call->given[OVERLAPS] != NULL) {
        checked->overlaps = &overlaps;
        status = worse(status, take_overlaps(&overlaps, call->given[OVERLAPS]));
    }
    return status;
}

enum status check_drawing(const struct call *call) {
    struct checked checked;
    enum status status = take_files(call, &checked.files);
    if (status == GOOD) {
        status = take_checked(call, &checked);
    }
    if (status != GOOD) {
        return status;
    }
    /* The first operand is the text. */
    (void)next_text(call, 0, &checked.text);
    struct drawing drawing = draw_line(&checked.files, &checked.text);
    if (wattleslate_number(drawing.answer) != WATTLESLATE_NOT_REFUSED) {
        return text_refused(&checked.text, drawing.answer);
    }
    return checked.overlaps == NULL ? compare(&checked, &drawing) : judge(&checked, &drawing);
}
