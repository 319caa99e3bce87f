/* Codes: as the tags of a font write them, as characters of UTF-8, and as messages show them. */
#include "cli.h"
#include <stdio.h>
#include <string.h>

/* The value of a digit, or one that is none of any base. */
static int digit_of(uint8_t byte) {
    if (byte >= '0' && byte <= '9') {
        return byte - '0';
    }
    uint8_t small = byte | 32;
    return small >= 'a' && small <= 'f' ? small - 'a' + 10 : 16;
}

bool code_of(const uint8_t *word, size_t length, int32_t *code) {
    size_t at = length > 0 && word[0] == '-' ? 1 : 0;
    int64_t value = 0, sign = at == 1 ? -1 : 1;
    int base = 10;
    if (at + 1 < length && word[at] == '0') {
        base = word[at + 1] == 'x' || word[at + 1] == 'X' ? 16 : 8;
        at += base == 16 ? 2 : 1;
    }
    if (at == length) {
        return false;
    }
    for (; at < length; at++) {
        int digit = digit_of(word[at]);
        value = value * base + digit;
        if (digit >= base || sign * value < INT32_MIN || sign * value > INT32_MAX) {
            return false;
        }
    }
    *code = (int32_t)(sign * value);
    return true;
}

/* How many bytes a character of UTF-8 has by its first one, 0 where it is none. */
static size_t character_length(uint8_t first) {
    if (first < 0x80) {
        return 1;
    }
    return first >= 0xC2 && first <= 0xDF ? 2 : first >= 0xE0 && first <= 0xEF ? 3 : first >= 0xF0 && first <= 0xF4 ? 4 : 0;
}

/* The code of the character of UTF-8 that a string, which is not empty, begins with; how many bytes it has, 0 for none by RFC 3629. */
static size_t character_of(const uint8_t *string, int32_t *code) {
    static const int32_t least[] = {0, 0, 0x80, 0x800, 0x10000};
    size_t length = character_length(string[0]);
    *code = string[0] & (length == 1 ? 0x7F : 0x7F >> length);
    for (size_t at = 1; at < length; at++) {
        if ((string[at] & 0xC0) != 0x80) {
            return 0;
        }
        *code = *code * 64 + (string[at] & 0x3F);
    }
    bool surrogate = *code >= 0xD800 && *code <= 0xDFFF;
    return *code < least[length] || *code > 0x10FFFF || surrogate ? 0 : length;
}

/* Adds a code that is not there yet; whether there was room. */
static bool add_code(struct codes *codes, int32_t code) {
    for (size_t i = 0; i < codes->count; i++) {
        if (codes->codes[i] == code) {
            return true;
        }
    }
    if (codes->count == MOST_CODES) {
        return false;
    }
    codes->codes[codes->count++] = code;
    return true;
}

static enum status too_many(void) {
    return bad_use("no pack has room for so many letters", "", "");
}

enum status add_characters(struct codes *codes, const char *string) {
    const uint8_t *at = (const uint8_t *)string;
    while (*at != '\0') {
        int32_t code;
        size_t length = character_of(at, &code);
        if (length == 0) {
            return bad_use("a LETTER is a character of UTF-8, and a code stands behind -n: not ", string, "");
        }
        if (!add_code(codes, code)) {
            return too_many();
        }
        at += length;
    }
    return GOOD;
}

enum status add_numbers(struct codes *codes, const char *list) {
    const char *at = list, *end;
    do {
        int32_t code;
        end = at + strcspn(at, ",");
        if (!code_of((const uint8_t *)at, (size_t)(end - at), &code) || code == -1) {
            return bad_use("-n wants " CODES_WANTED ", not ", list, "");
        }
        if (!add_code(codes, code)) {
            return too_many();
        }
        at = end + 1;
    } while (*end != '\0');
    return GOOD;
}

/* The visible characters of ISO 8859-1 are shown, in UTF-8: of other codes it is not known whether they can be. */
void name_code(int32_t code, char name[CODE_NAME]) {
    int length = snprintf(name, CODE_NAME, "%ld", (long)code);
    size_t room = CODE_NAME - (size_t)length;
    if (code > 32 && code < 127) {
        (void)snprintf(name + length, room, " (%c)", (char)code);
    } else if (code > 160 && code < 256 && code != 173) {
        (void)snprintf(name + length, room, " (%c%c)", (char)(0xC0 | code >> 6), (char)(0x80 | (code & 0x3F)));
    }
}
