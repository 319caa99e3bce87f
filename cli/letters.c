/* The letters of a font, with their hardblanks, for a pack: the library draws with them, and has no call that hands one out. The font was accepted, so every
 * line that is due is there and every tag has a code; what is made of it here the library tests again when it is put into a pack. */
#include "cli.h"
#include <string.h>

/* "Codes 32 to 126, then 196, 214, 220, 228, 246, 252, 223." */
#define ASCII_LETTERS 95u
#define REQUIRED_LETTERS 102u

static int32_t required_code(size_t number) {
    static const int32_t german[REQUIRED_LETTERS - ASCII_LETTERS] = {196, 214, 220, 228, 246, 252, 223};
    return number < ASCII_LETTERS ? (int32_t)number + 32 : german[number - ASCII_LETTERS];
}

/* The start of the line that comes so many lines behind the one at a place. */
static size_t lines_after(const struct file *font, size_t at, size_t count) {
    for (size_t line = 0; line < count; line++) {
        at = line_after(font, at);
    }
    return at;
}

/* "If, where a tag line is due, all that remains is blanks, tabs and line ends, the file has ended." */
static bool has_ended(const struct file *font, size_t at) {
    while (at < font->length && (is_gap(font->bytes[at]) || font->bytes[at] == '\n' || font->bytes[at] == '\r')) {
        at++;
    }
    return at >= font->length;
}

/* The code of the tag line at a place: its first word; behind it comment may stand. */
static int32_t tag_code(const struct file *font, size_t at) {
    int32_t code = 0;
    at = gap_end(font, at);
    (void)code_of(font->bytes + at, word_end(font, at) - at, &code);
    return code;
}

/* The start of the first row line of the letter that is used for a code, which is the last one with it; 0 where the font has none. */
static size_t letter_start(const struct file *font, size_t height, int32_t wanted) {
    int64_t comments = 0;
    (void)header_number(font, COMMENT_LINES, &comments);
    size_t found = 0, at = lines_after(font, 0, 1 + (size_t)comments);
    for (size_t number = 0; number < REQUIRED_LETTERS || !has_ended(font, at); number++) {
        int32_t code = number < REQUIRED_LETTERS ? required_code(number) : tag_code(font, at);
        at = number < REQUIRED_LETTERS ? at : line_after(font, at);
        found = code == wanted ? at : found;
        at = lines_after(font, at, height);
    }
    return found;
}

bool font_letter(const struct files *files, int32_t code, struct letter *letter) {
    size_t at = letter_start(&files->font, files->height, code);
    if (at == 0) {
        return false;
    }
    letter->width = row_end(&files->font, at) - at;
    letter->length = files->height * letter->width;
    for (size_t row = 0; row < files->height; row++) {
        memcpy(letter->rows + row * letter->width, files->font.bytes + at, letter->width);
        at = line_after(&files->font, at);
    }
    return true;
}
