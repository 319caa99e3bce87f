/* A login prompt that shows the device's name in big letters first, as a supplicant would: login FONT NAME. */
#include "wattleslate.h"
#include <inttypes.h>
#include <stdio.h>
#include <string.h>

static uint8_t font[WATTLESLATE_MAX_FONT + 1];
static uint8_t scratch[WATTLESLATE_SCRATCH];
static uint8_t out[WATTLESLATE_MAX_DRAWN];

/* The bytes of a file, one more than a font may have at most; none if it cannot be read. */
static size_t load(const char *path) {
    FILE *file = fopen(path, "rb");
    if (file == NULL) {
        return 0;
    }
    size_t length = fread(font, 1, sizeof font, file);
    fclose(file);
    return length;
}

/* Draws the name, or prints it plainly with the refusal: a prompt must stand in every case. A name with bytes that the font lacks is printed plainly too, behind
 * its drawing, so that nobody takes what stands in for a part of the name. */
static void banner(const char *path, const char *name) {
    size_t length = load(path);
    uint64_t answer = wattleslate_draw(font, length, (const uint8_t *)"", 0, (const uint8_t *)name, strlen(name), scratch, sizeof scratch, out, sizeof out);
    if (wattleslate_number(answer) != WATTLESLATE_NOT_REFUSED) {
        printf("%s (banner refused %d at %" PRIu64 ")\n", name, (int)wattleslate_number(answer), wattleslate_place(answer));
        return;
    }
    uint32_t height = wattleslate_height(wattleslate_check_font(font, length));
    fwrite(out, 1, WATTLESLATE_DRAWN(height, wattleslate_width(answer)), stdout);
    uint32_t replaced = wattleslate_stood_in(answer), left_out = wattleslate_nothing_drawn(answer);
    if (replaced + left_out > 0) {
        printf("%s (not in the font: %" PRIu32 " bytes replaced, %" PRIu32 " left out)\n", name, replaced, left_out);
    }
}

int main(int count, char **words) {
    if (count != 3) {
        fprintf(stderr, "login FONT NAME\n");
        return 2;
    }
    banner(words[1], words[2]);
    printf("\n%s login: ", words[2]);
    fflush(stdout);
    char user[64];
    if (fgets(user, sizeof user, stdin) == NULL) {
        return 1;
    }
    puts("(here the password is asked)");
    return 0;
}
