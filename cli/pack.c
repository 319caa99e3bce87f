/* The words of pack but draw: a font pack is made, looked at and changed. The library decides what a pack is; the words that change one change all that they are
 * asked for or nothing. */
#include "cli.h"
#include <stdio.h>

/* The pack, with a byte more than the library takes. */
static uint8_t area[WATTLESLATE_MAX_PACK + 1];

bool record_at(const struct file *pack, size_t at, struct record *record) {
    const uint8_t *head = pack->bytes + at;
    if (at == pack->length || head[0] == 0) {
        return false;
    }
    uint32_t code = (uint32_t)head[1] << 24 | (uint32_t)head[2] << 16 | (uint32_t)head[3] << 8 | head[4];
    /* The same bits, by their value: what a cast makes of a number over INT32_MAX is the compiler's affair. */
    record->code = code > INT32_MAX ? (int32_t)(code - INT32_MAX - 1) + INT32_MIN : (int32_t)code;
    record->live = head[0] == 1;
    record->width = head[5];
    record->rows = at + WATTLESLATE_RECORD_HEAD;
    record->end = at + WATTLESLATE_RECORD(pack->bytes[5], record->width);
    return true;
}

/* Has the library read a pack; what is wrong with it is told. */
static enum status check_pack(const struct file *pack, uint64_t *answer) {
    *answer = wattleslate_pack_check(pack->bytes, pack->length);
    return wattleslate_number(*answer) == WATTLESLATE_NOT_REFUSED ? GOOD : pack_damaged(pack);
}

enum status take_pack(struct file *pack, const char *name, uint64_t *answer) {
    enum status status = load(pack, name, area, sizeof area);
    return status == GOOD ? check_pack(pack, answer) : status;
}

enum status pack_new(const struct call *call) {
    struct files files;
    size_t size = WATTLESLATE_MAX_PACK;
    if (call->given[SIZE] != NULL && (!number_upto(call->given[SIZE], WATTLESLATE_MAX_PACK, &size) || size < WATTLESLATE_PACK_HEAD)) {
        return bad_use("-s wants " SIZE_WANTED ", not ", call->given[SIZE], "");
    }
    enum status status = take_files(call, &files);
    if (status != GOOD) {
        return status;
    }
    wattleslate_empty_pack(area, (uint8_t)files.height, files.font.bytes[5]);
    struct file pack = {call->operands[0], area, size};
    return new_pack(&pack);
}

/* The sum of the bytes of the live records and that of the free ones. */
struct sums {
    size_t live, free;
};

static struct sums record_sums(const struct file *pack) {
    struct sums sums = {0, 0};
    struct record record;
    for (size_t at = WATTLESLATE_PACK_HEAD; record_at(pack, at, &record); at = record.end) {
        *(record.live ? &sums.live : &sums.free) += record.end - at;
    }
    return sums;
}

static enum status list_whole(const struct file *pack, uint64_t answer) {
    char line[160], hardblank[BYTE_NAME];
    struct sums sums = record_sums(pack);
    size_t used = WATTLESLATE_PACK_HEAD + sums.live;
    name_byte(pack->bytes[6], hardblank);
    (void)snprintf(line, sizeof line, "height %u, hardblank %s, letters %u, bytes %zu: %zu used, %zu in free records, %zu behind the last record\n",
                   (unsigned)wattleslate_height(answer), hardblank, (unsigned)wattleslate_live(answer), pack->length, used, sums.free,
                   pack->length - used - sums.free);
    return put_string(line);
}

/* A letter as it looks: its rows with hardblanks as blanks, each with an LF. */
static enum status list_letter(const struct file *pack, const struct record *record) {
    static uint8_t rows[WATTLESLATE_DRAWN(WATTLESLATE_MAX_HEIGHT, WATTLESLATE_MAX_CHARACTER_WIDTH)];
    char name[CODE_NAME], line[CODE_NAME + 40];
    size_t height = pack->bytes[5], length = WATTLESLATE_DRAWN(height, record->width);
    for (size_t at = 0, column = 0; at < length; at++, column = at % (record->width + 1)) {
        uint8_t byte = column == record->width ? '\n' : pack->bytes[record->rows + at - at / (record->width + 1)];
        rows[at] = column < record->width && byte == pack->bytes[6] ? ' ' : byte;
    }
    name_code(record->code, name);
    (void)snprintf(line, sizeof line, "code %s, width %zu\n", name, record->width);
    enum status status = put_string(line);
    return status == GOOD ? put(rows, length) : status;
}

enum status pack_list(const struct call *call) {
    struct file pack;
    struct record record;
    uint64_t answer;
    enum status status = take_pack(&pack, call->operands[0], &answer);
    if (status != GOOD) {
        return status;
    }
    status = list_whole(&pack, answer);
    for (size_t at = WATTLESLATE_PACK_HEAD; status == GOOD && record_at(&pack, at, &record); at = record.end) {
        status = record.live ? list_letter(&pack, &record) : GOOD;
    }
    return status;
}

/* The codes that are asked for: the characters of the operands behind the pack, then those of -n, each once. */
static enum status take_codes(const char *word, const struct call *call, struct codes *codes) {
    enum status status = GOOD;
    codes->count = 0;
    for (size_t i = 1; status == GOOD && i < call->count; i++) {
        status = add_characters(codes, call->operands[i]);
    }
    if (status == GOOD && call->given[CODES] != NULL) {
        status = add_numbers(codes, call->given[CODES]);
    }
    return status == GOOD && codes->count == 0 ? bad_use(word, " wants a LETTER behind its PACK, or ", "a code behind -n") : status;
}

/* Whether a font may give letters to a pack: without that its letters would not look in the pack as they do in the font. */
static enum status same_kind(const struct files *files, const struct file *pack) {
    if (files->height == pack->bytes[5] && files->font.bytes[5] == pack->bytes[6]) {
        return GOOD;
    }
    show_string(pack->name);
    fputs(": its height or its hardblank is not that of ", stderr);
    show_string(files->font.name);
    fputs("\n", stderr);
    return REFUSED;
}

static enum status put_letter(const struct files *files, const struct file *pack, int32_t code) {
    static struct letter letter;
    if (!font_letter(files, code, &letter)) {
        char name[CODE_NAME];
        name_code(code, name);
        show_string(files->font.name);
        fprintf(stderr, ": code %s is not in the font\n", name);
        return REFUSED;
    }
    uint64_t answer = wattleslate_pack_put(area, pack->length, code, letter.width, letter.rows, letter.length);
    return wattleslate_number(answer) == WATTLESLATE_NOT_REFUSED ? GOOD : letter_refused(pack, code, answer);
}

static enum status put_letters(const struct files *files, const struct file *pack, const struct codes *codes) {
    uint64_t answer;
    enum status status = check_pack(pack, &answer);
    if (status == GOOD) {
        status = same_kind(files, pack);
    }
    for (size_t i = 0; status == GOOD && i < codes->count; i++) {
        status = put_letter(files, pack, codes->codes[i]);
    }
    return status;
}

enum status pack_put(const struct call *call) {
    static struct codes codes;
    struct files files;
    struct file pack;
    enum status status = take_codes("pack put", call, &codes);
    if (status == GOOD) {
        status = take_files(call, &files);
    }
    if (status == GOOD) {
        status = begin_change(&pack, call->operands[0], area, sizeof area);
    }
    return status == GOOD ? end_change(&pack, put_letters(&files, &pack, &codes)) : status;
}

static enum status remove_letters(const struct file *pack, const struct codes *codes) {
    uint64_t answer;
    enum status status = check_pack(pack, &answer);
    for (size_t i = 0; status == GOOD && i < codes->count; i++) {
        answer = wattleslate_pack_remove(area, pack->length, codes->codes[i]);
        status = wattleslate_number(answer) == WATTLESLATE_NOT_REFUSED ? GOOD : letter_refused(pack, codes->codes[i], answer);
    }
    return status;
}

enum status pack_remove(const struct call *call) {
    static struct codes codes;
    struct file pack;
    enum status status = take_codes("pack remove", call, &codes);
    if (status == GOOD) {
        status = begin_change(&pack, call->operands[0], area, sizeof area);
    }
    return status == GOOD ? end_change(&pack, remove_letters(&pack, &codes)) : status;
}

enum status pack_compact(const struct call *call) {
    struct file pack;
    enum status status = begin_change(&pack, call->operands[0], area, sizeof area);
    if (status != GOOD) {
        return status;
    }
    uint64_t answer = wattleslate_pack_compact(area, pack.length);
    bool refused = wattleslate_number(answer) != WATTLESLATE_NOT_REFUSED;
    return end_change(&pack, refused ? pack_damaged(&pack) : GOOD);
}
