/* The fonts and the control file that drawing takes. */
#include "cli.h"

/* Reads the files that were asked for. */
static enum status load_files(const struct call *call, struct files *files) {
    static uint8_t fonts[2][WATTLESLATE_MAX_FONT + 1], control[WATTLESLATE_MAX_CONTROL + 1];
    enum status status = GOOD;
    files->font = (struct file){"built-in font", built_in_font, built_in_font_length};
    files->second = (struct file){"no second font", fonts[1], 0};
    files->control = (struct file){"no control file", control, 0};
    files->two = call->given[SECOND_FONT] != NULL;
    if (call->given[FONT] != NULL) {
        status = load(&files->font, call->given[FONT], fonts[0], sizeof fonts[0]);
    }
    if (files->two) {
        status = worse(status, load(&files->second, call->given[SECOND_FONT], fonts[1], sizeof fonts[1]));
    }
    if (call->given[CONTROL] != NULL) {
        status = worse(status, load(&files->control, call->given[CONTROL], control, sizeof control));
    }
    return status;
}

/* What a file is refused for is told. */
static enum status tell_file(const struct file *file, uint64_t answer) {
    return wattleslate_number(answer) == WATTLESLATE_NOT_REFUSED ? GOOD : file_refused(file, answer);
}

enum status take_files(const struct call *call, struct files *files) {
    enum status status = load_files(call, files);
    if (status != GOOD) {
        return status;
    }
    uint64_t answer = wattleslate_check_font(files->font.bytes, files->font.length);
    files->height = wattleslate_height(answer);
    status = tell_file(&files->font, answer);
    if (files->two) {
        answer = wattleslate_check_font(files->second.bytes, files->second.length);
        status = worse(status, tell_file(&files->second, answer));
        status = status == GOOD ? check_two(files) : status;
    }
    answer = wattleslate_check_control(files->control.bytes, files->control.length);
    return worse(status, tell_file(&files->control, answer));
}
