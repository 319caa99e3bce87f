/* What is wrong with a damaged pack, by the layout of 02: the library says that it is damaged, and not why. */
#include "cli.h"
#include <stdio.h>
#include <string.h>

/* What breaks the head of a pack, or NULL. */
static const char *head_fault(const struct file *pack) {
    static const uint8_t version[] = {0, 1};
    const uint8_t *head = pack->bytes;
    if (pack->length > WATTLESLATE_MAX_PACK) {
        return "it is longer than 65,536 bytes";
    }
    if (pack->length < WATTLESLATE_PACK_HEAD) {
        return "it is shorter than a head, which has 7 bytes";
    }
    if (memcmp(head, "CFP", 3) != 0) {
        return "it does not begin with CFP";
    }
    if (memcmp(head + 3, version, sizeof version) != 0) {
        return "its version is not 1";
    }
    if (head[5] == 0 || head[5] > WATTLESLATE_MAX_HEIGHT) {
        return "its height is not 1 to 32";
    }
    /* The NUL at the string's own end is found too. */
    return strchr(" \r\n", head[6]) != NULL ? "its hardblank is a blank, CR, LF or NUL" : NULL;
}

/* Whether some bytes are all zero from a place on. */
static bool all_zero(const struct file *pack, size_t at) {
    while (at < pack->length && pack->bytes[at] == 0) {
        at++;
    }
    return at == pack->length;
}

/* Whether a row of a record holds a byte that it must not. */
static bool has_control_byte(const struct file *pack, const struct record *record) {
    size_t at = record->rows;
    while (at < record->end && (pack->bytes[at] >= 32 || pack->bytes[at] == pack->bytes[6])) {
        at++;
    }
    return at < record->end;
}

/* Whether a live record before a place has a code. */
static bool is_live_before(const struct file *pack, size_t place, int32_t code) {
    struct record record;
    for (size_t at = WATTLESLATE_PACK_HEAD; at < place && record_at(pack, at, &record); at = record.end) {
        if (record.live && record.code == code) {
            return true;
        }
    }
    return false;
}

/* What breaks the record at a place, where those before it are whole, or NULL. */
static const char *record_fault(const struct file *pack, size_t at, struct record *record) {
    uint8_t kind = pack->bytes[at];
    if (kind == 0) {
        return "behind the records not all is zero";
    }
    if (kind > 2) {
        return "a record begins with neither 1 nor 2";
    }
    if (pack->length - at < WATTLESLATE_RECORD_HEAD || !record_at(pack, at, record)) {
        return "a record is cut off";
    }
    if (record->code == -1) {
        return "a record has code -1";
    }
    if (record->width > WATTLESLATE_MAX_CHARACTER_WIDTH) {
        return "a record is wider than 199 columns";
    }
    if (record->end > pack->length) {
        return "a record is cut off";
    }
    if (has_control_byte(pack, record)) {
        return "a row holds a control byte that is not the hardblank";
    }
    return record->live && is_live_before(pack, at, record->code) ? "a live record has the code of another one" : NULL;
}

/* What breaks the records, or NULL, and the place of the one at fault. */
static const char *records_fault(const struct file *pack, size_t *place) {
    struct record record;
    const char *fault = NULL;
    for (size_t at = WATTLESLATE_PACK_HEAD; fault == NULL && !all_zero(pack, at); at = record.end) {
        *place = at;
        fault = record_fault(pack, at, &record);
    }
    return fault;
}

enum status pack_damaged(const struct file *pack) {
    size_t place = 0;
    const char *fault = head_fault(pack);
    fault = fault == NULL ? records_fault(pack, &place) : fault;
    show_string(pack->name);
    fputs(": the pack is damaged", stderr);
    if (place > 0) {
        fprintf(stderr, " at byte %zu", place);
    }
    if (fault != NULL) {
        fprintf(stderr, ": %s", fault);
    }
    fprintf(stderr, " (refusal %d)\n", (int)WATTLESLATE_DAMAGED_PACK);
    return REFUSED;
}
