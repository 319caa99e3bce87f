/* One call on a font pack, for bench/packs: packs CALL PACK CODE FONT LAYOUT TEXT. Each of the functions `counted_...` is one call of the library, so that its
 * instructions can be counted apart. Ends with status 1 where the call is refused, or the drawing from the pack is not that from the font. */
#include "wattleslate.h"
#include <stdbool.h>
#include <stdio.h>
#include <stdlib.h>
#include <string.h>

#define CONTROL (const uint8_t *)"", 0

static uint8_t pack[WATTLESLATE_MAX_PACK + 1], font[WATTLESLATE_MAX_FONT + 1], scratch[WATTLESLATE_SCRATCH];
static uint8_t from_pack[WATTLESLATE_MAX_DRAWN], from_font[WATTLESLATE_MAX_DRAWN], rows[WATTLESLATE_MAX_HEIGHT * WATTLESLATE_MAX_CHARACTER_WIDTH];
static size_t pack_length, font_length;

uint64_t counted_check(void);
uint64_t counted_find(int32_t code);
uint64_t counted_put(int32_t code, size_t width, size_t length);
uint64_t counted_remove(int32_t code);
uint64_t counted_compact(void);
uint64_t counted_draw_pack(const char *text, size_t layout, size_t room);
uint64_t counted_draw(const char *text, size_t room);

uint64_t counted_check(void) {
    return wattleslate_pack_check(pack, pack_length);
}

uint64_t counted_find(int32_t code) {
    return wattleslate_pack_find(pack, pack_length, code);
}

uint64_t counted_put(int32_t code, size_t width, size_t length) {
    return wattleslate_pack_put(pack, pack_length, code, width, rows, length);
}

uint64_t counted_remove(int32_t code) {
    return wattleslate_pack_remove(pack, pack_length, code);
}

uint64_t counted_compact(void) {
    return wattleslate_pack_compact(pack, pack_length);
}

uint64_t counted_draw_pack(const char *text, size_t layout, size_t room) {
    return wattleslate_draw_pack(pack, pack_length, layout, WATTLESLATE_LEFT_TO_RIGHT, CONTROL, (const uint8_t *)text, strlen(text), scratch, sizeof scratch,
                                 from_pack, room);
}

uint64_t counted_draw(const char *text, size_t room) {
    return wattleslate_draw(font, font_length, CONTROL, (const uint8_t *)text, strlen(text), scratch, sizeof scratch, from_font, room);
}

static size_t read_file(const char *name, uint8_t *area, size_t room) {
    FILE *file = fopen(name, "rb");
    if (file == NULL) {
        perror(name);
        exit(2);
    }
    size_t length = fread(area, 1, room, file);
    fclose(file);
    return length;
}

/* A letter that is there is removed and put again. */
static bool put_again(int32_t code) {
    uint64_t found = counted_find(code);
    size_t width = wattleslate_width(found), length = wattleslate_height(counted_check()) * width;
    memcpy(rows, pack + wattleslate_rows_place(found), length);
    return counted_remove(code) == 0 && counted_put(code, width, length) == 0;
}

/* The drawing from the pack and from the font, each in an output to the byte. */
static bool drawn_alike(const char *text, size_t layout) {
    size_t height = wattleslate_height(wattleslate_check_font(font, font_length));
    uint64_t answer = wattleslate_draw(font, font_length, CONTROL, (const uint8_t *)text, strlen(text), scratch, sizeof scratch, from_font, sizeof from_font);
    size_t room = WATTLESLATE_DRAWN(height, wattleslate_width(answer));
    return wattleslate_number(answer) == 0 && counted_draw(text, room) == answer && counted_draw_pack(text, layout, room) == answer &&
           memcmp(from_pack, from_font, room) == 0;
}

int main(int count, char **words) {
    if (count != 7) {
        fputs("packs CALL PACK CODE FONT LAYOUT TEXT\n", stderr);
        return 2;
    }
    pack_length = read_file(words[2], pack, sizeof pack);
    font_length = read_file(words[4], font, sizeof font);
    int32_t code = (int32_t)atol(words[3]);
    if (strcmp(words[1], "draw") == 0) {
        return !drawn_alike(words[6], (size_t)atol(words[5]));
    }
    if (strcmp(words[1], "change") == 0) {
        return !(put_again(code) && counted_remove(code) == 0 && counted_compact() == 0);
    }
    return wattleslate_number(counted_find(code)) != 0;
}
