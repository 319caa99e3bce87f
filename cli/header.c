/* The numbers in the header of a font, as 01 reads them: the library tells Height alone. */
#include "cli.h"

/* "A number is an optional minus and 1 to 10 decimal digits within signed 32 bits." */
static bool number_of(const uint8_t *word, size_t length, int64_t *value) {
    bool minus = length > 0 && word[0] == '-';
    size_t first = minus ? 1 : 0, number;
    if (length > first + 10 || !digits_upto(word + first, length - first, (size_t)INT32_MAX + first, &number)) {
        return false;
    }
    *value = minus ? -(int64_t)number : (int64_t)number;
    return true;
}

bool header_number(const struct file *font, enum parameter parameter, int64_t *value) {
    size_t at = 6, end;
    for (int word = 0; word <= (int)parameter; word++) {
        at = gap_end(font, at);
        end = word_end(font, at);
        if (!number_of(font->bytes + at, end - at, value)) {
            return false;
        }
        at = end;
    }
    return true;
}
