/* Refusals as sentences: the one table of them, and what can be said of the place in a file. */
#include "cli.h"
#include <stdio.h>

/* What a refusal number says, and whether it has a place, in a file or in a text. */
struct refusal {
    bool placed;
    const char *sentence;
};

/* clang-format off */
static const struct refusal REFUSALS[] = {
    [WATTLESLATE_FONT_TOO_LONG]       = {false, "the font is longer than 65,536 bytes"},
    [WATTLESLATE_NO_SIGNATURE]        = {true,  "the first line does not begin with flf2a"},
    [WATTLESLATE_BAD_HARDBLANK]       = {true,  "the hardblank is absent, or is a blank, CR, LF or NUL"},
    [WATTLESLATE_BAD_PARAMETERS]      = {true,  "no blank or tab after the hardblank, under five numbers, or a value out of range"},
    [WATTLESLATE_MISSING_LINE]        = {true,  "the font ends here, before a line that it needs"},
    [WATTLESLATE_BAD_ROW]             = {true,  "a bad row"}, /* row_fault says more */
    [WATTLESLATE_BAD_CODE_TAG]        = {true,  "a bad code tag"},
    [WATTLESLATE_TOO_MANY_CHARACTERS] = {true,  "a 513th character"},
    [WATTLESLATE_AREA_TOO_SMALL]      = {false, "an area is too small"},
    [WATTLESLATE_CONTROL_TOO_LONG]    = {false, "the control file is longer than 16,384 bytes"},
    [WATTLESLATE_NOT_A_COMMAND]       = {true,  "not a command"},
    [WATTLESLATE_BAD_RANGES]          = {true,  "the two ranges differ in size, or one has its first above its last"},
    [WATTLESLATE_EXTENDED_COMMAND]    = {true,  "a command h, j, b, u or g, which is not taken"},
    [WATTLESLATE_TOO_MANY_COMMANDS]   = {true,  "a 257th command or a 65th stage"},
    [WATTLESLATE_TEXT_TOO_LONG]       = {false, "the text is longer than 1,024 bytes"},
    [WATTLESLATE_LINE_TOO_WIDE]       = {false, "the drawn line is wider than 1,000 columns"},
    [WATTLESLATE_BAD_SHAPE]           = {false, "a request of bad shape"},
    [WATTLESLATE_STACK_TOO_HIGH]      = {false, "the stack is higher than 64 rows"},
    [WATTLESLATE_CHARACTER_TOO_WIDE]  = {true,  "a character is wider than the limit; a larger -w draws it, and -w 0 never wraps"},
    [WATTLESLATE_DAMAGED_PACK]        = {false, "the pack is damaged"},
    [WATTLESLATE_CODE_PRESENT]        = {false, "it is in the pack already"},
    [WATTLESLATE_CODE_ABSENT]         = {false, "it is not in the pack"},
    [WATTLESLATE_NO_ROOM]             = {false, "no free record has its width, and behind the last record there is too little room"},
    [WATTLESLATE_FONTS_DIFFER]        = {false, "the heights or the hardblanks of the two fonts differ"}, /* fonts_refused says which */
    [WATTLESLATE_WRONG_LENGTH]        = {false, "the list of overlaps has not one for each drawn character after the first"},
};
/* clang-format on */

static struct refusal refusal_of(uint64_t answer) {
    size_t number = (size_t)wattleslate_number(answer);
    bool known = number < sizeof REFUSALS / sizeof *REFUSALS && REFUSALS[number].sentence != NULL;
    return known ? REFUSALS[number] : (struct refusal){true, "refused"};
}

/* The number of the line that a place is in, counted from 1; of the last line for the place behind it, and 0 for an empty file. */
static size_t line_of(const struct file *file, size_t place) {
    size_t line = 0;
    for (size_t at = 0; at < file->length && at <= place; at = line_after(file, at)) {
        line++;
    }
    return line;
}

/* Which of the five reasons of refusal 6 the line at a place gives, with the column of the first byte at fault where there is one. The last reason
 * is the one that is left when none of the others is there. The header of the font was accepted. */
static const char *row_fault(const struct file *font, size_t start, size_t *column) {
    size_t end = row_line_end(font, start), behind = row_end(font, start), most;
    int64_t max_length = 0;
    /* A header that was accepted has it. */
    (void)header_number(font, MAX_LENGTH, &max_length);
    most = (size_t)max_length;
    if (line_end(font, start) == start) {
        return "an empty line where a row is due";
    }
    if (end == start) {
        return "a line of only blanks and tabs where a row is due";
    }
    if (end - start > most) {
        *column = most + 1;
        return "a row is longer than Max_Length with its endmarks";
    }
    for (size_t at = start; at < behind; at++) {
        if (font->bytes[at] < 32 && font->bytes[at] != font->bytes[5]) {
            *column = at - start + 1;
            return "a row holds a control byte that is not the hardblank";
        }
    }
    return "a row differs in width from the first row of its character";
}

enum status file_refused(const struct file *file, uint64_t answer) {
    struct refusal refusal = refusal_of(answer);
    size_t place = (size_t)wattleslate_place(answer), column = 0;
    size_t line = refusal.placed ? line_of(file, place) : 0;
    if (wattleslate_number(answer) == WATTLESLATE_BAD_ROW) {
        refusal.sentence = row_fault(file, place, &column);
    }
    show_string(file->name);
    if (line > 0) {
        fprintf(stderr, ":%zu", line);
    }
    if (column > 0) {
        fprintf(stderr, ":%zu", column);
    }
    fprintf(stderr, ": %s (refusal %d", refusal.sentence, (int)wattleslate_number(answer));
    if (refusal.placed) {
        fprintf(stderr, " at byte %zu", place);
    }
    fputs(")\n", stderr);
    return REFUSED;
}

void name_byte(uint8_t byte, char name[BYTE_NAME]) {
    (void)snprintf(name, BYTE_NAME, byte > 32 && byte < 127 ? "%c" : "\\x%02x", byte);
}

enum status fonts_refused(const struct files *files, uint64_t answer) {
    char one[BYTE_NAME], other[BYTE_NAME];
    uint32_t height = wattleslate_height(wattleslate_check_font(files->second.bytes, files->second.length));
    bool heights = files->height != height, hardblanks = files->font.bytes[5] != files->second.bytes[5];
    name_byte(files->font.bytes[5], one);
    name_byte(files->second.bytes[5], other);
    show_string(files->font.name);
    fputs(" and ", stderr);
    show_string(files->second.name);
    fputs(": ", stderr);
    if (heights) {
        fprintf(stderr, "their heights differ, %u and %u", (unsigned)files->height, (unsigned)height);
    }
    if (hardblanks) {
        fprintf(stderr, "%stheir hardblanks differ, %s and %s", heights ? "; " : "", one, other);
    }
    fprintf(stderr, " (refusal %d)\n", (int)wattleslate_number(answer));
    return REFUSED;
}

enum status letter_refused(const struct file *pack, int32_t code, uint64_t answer) {
    char name[CODE_NAME];
    name_code(code, name);
    show_string(pack->name);
    fprintf(stderr, ": code %s: %s (refusal %d)\n", name, refusal_of(answer).sentence, (int)wattleslate_number(answer));
    return REFUSED;
}

enum status text_refused(const struct text *text, uint64_t answer) {
    struct refusal refusal = refusal_of(answer);
    size_t place = (size_t)wattleslate_place(answer);
    show_text(text);
    fprintf(stderr, ": %s (refusal %d", refusal.sentence, (int)wattleslate_number(answer));
    if (refusal.placed && place < text->length) {
        char byte[BYTE_NAME];
        name_byte(text->bytes[place], byte);
        fprintf(stderr, " at byte %zu: %s", place, byte);
    }
    fputs(")\n", stderr);
    return REFUSED;
}
