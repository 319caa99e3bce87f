/* Draws a text in lines by one call, and the same lines one after another by a call each, for bench/wrapped: wrapped FONT LIMIT TEXT. Each of the functions
 * `counted_...` is called once, so that its instructions can be counted apart. Prints how many lines there are and how wide the widest is; ends with status 1 where
 * a call is refused or the drawings differ. */
#include "wattleslate.h"
#include <stdio.h>
#include <stdlib.h>
#include <string.h>

static uint8_t font[WATTLESLATE_MAX_FONT + 1], scratch[WATTLESLATE_SCRATCH], all[WATTLESLATE_MAX_WRAPPED], parts[WATTLESLATE_MAX_WRAPPED];
static size_t firsts[WATTLESLATE_LINES], ends[WATTLESLATE_LINES];
static size_t font_length, height, widths[WATTLESLATE_LINES];

/* Every output is lent to the byte. */
static uint64_t wrap(const char *text, size_t limit, size_t room) {
    return wattleslate_draw_wrapped(font, font_length, (const uint8_t *)"", 0, (const uint8_t *)text, strlen(text), limit, scratch, sizeof scratch, firsts,
                                    WATTLESLATE_LINES, ends, WATTLESLATE_LINES, all, room);
}

static uint64_t draw(const char *text, size_t length, uint8_t *out, size_t room) {
    return wattleslate_draw(font, font_length, (const uint8_t *)"", 0, (const uint8_t *)text, length, scratch, sizeof scratch, out, room);
}

uint64_t counted_wrapped(const char *text, size_t limit, size_t room);
uint64_t counted_wrapped_empty(size_t limit);
void counted_lines(const char *text, size_t lines);
void counted_lines_empty(size_t lines);

uint64_t counted_wrapped(const char *text, size_t limit, size_t room) {
    return wrap(text, limit, room);
}

uint64_t counted_wrapped_empty(size_t limit) {
    return wrap("", limit, 0);
}

void counted_lines(const char *text, size_t lines) {
    uint8_t *at = parts;
    for (size_t line = 0; line < lines; line++) {
        size_t room = WATTLESLATE_DRAWN(height, widths[line]);
        draw(text + firsts[line], ends[line] - firsts[line], at, room);
        at += room;
    }
}

void counted_lines_empty(size_t lines) {
    static uint8_t rows[WATTLESLATE_MAX_HEIGHT];
    for (size_t line = 0; line < lines; line++) {
        draw("", 0, rows, height);
    }
}

/* The width of each line, by its LFs; the bytes of all. */
static size_t measure(size_t lines) {
    size_t length = 0;
    for (size_t line = 0; line < lines; line++) {
        widths[line] = (size_t)((const uint8_t *)memchr(all + length, '\n', sizeof all - length) - (all + length));
        length += WATTLESLATE_DRAWN(height, widths[line]);
    }
    return length;
}

static size_t widest(size_t lines) {
    size_t most = 0;
    for (size_t line = 0; line < lines; line++) {
        most = widths[line] > most ? widths[line] : most;
    }
    return most;
}

int main(int count, char **words) {
    FILE *file = count == 4 ? fopen(words[1], "rb") : NULL;
    if (file == NULL) {
        fputs("wrapped FONT LIMIT TEXT\n", stderr);
        return 2;
    }
    font_length = fread(font, 1, sizeof font, file);
    fclose(file);
    height = wattleslate_height(wattleslate_check_font(font, font_length));
    size_t limit = (size_t)atoi(words[2]);
    size_t room = WATTLESLATE_WRAPPED(height, strlen(words[3]));
    uint64_t answer = wrap(words[3], limit, room < sizeof all ? room : sizeof all);
    if (wattleslate_number(answer) != WATTLESLATE_NOT_REFUSED) {
        fprintf(stderr, "wrapped: refused %d at %llu\n", (int)wattleslate_number(answer), (unsigned long long)wattleslate_place(answer));
        return 1;
    }
    size_t lines = wattleslate_lines(answer), length = measure(lines);
    counted_lines(words[3], lines);
    counted_lines_empty(lines);
    counted_wrapped_empty(limit);
    answer = counted_wrapped(words[3], limit, length);
    printf("%zu %zu\n", lines, widest(lines));
    return wattleslate_number(answer) != WATTLESLATE_NOT_REFUSED || memcmp(all, parts, length) != 0;
}
