/* A console that shows its site above its own name, closed up as the font says: site FONT SITE DEVICE. */
#include "wattleslate.h"
#include <inttypes.h>
#include <stdio.h>
#include <string.h>

static uint8_t font[WATTLESLATE_MAX_FONT + 1];
static uint8_t scratch[WATTLESLATE_STACKED_SCRATCH];
static uint8_t out[WATTLESLATE_MAX_STACKED];

int main(int count, char **words) {
    FILE *file = count == 4 ? fopen(words[1], "rb") : NULL;
    if (file == NULL) {
        fprintf(stderr, "site FONT SITE DEVICE\n");
        return 2;
    }
    size_t length = fread(font, 1, sizeof font, file);
    fclose(file);
    uint64_t answer = wattleslate_draw_stacked(font, length, (const uint8_t *)"", 0, (const uint8_t *)words[2], strlen(words[2]),
                                               (const uint8_t *)words[3], strlen(words[3]), scratch, sizeof scratch, out, sizeof out);
    if (wattleslate_number(answer) != WATTLESLATE_NOT_REFUSED) {
        printf("%s, %s (refused %d at %" PRIu64 ")\n", words[2], words[3], (int)wattleslate_number(answer), wattleslate_place(answer));
        return 1;
    }
    /* The height is that of the stack: twice the font's less the overlap. */
    fwrite(out, 1, WATTLESLATE_DRAWN(wattleslate_height(answer), wattleslate_width(answer)), stdout);
    printf("%" PRIu32 " rows, of which %" PRIu32 " are shared\n", wattleslate_height(answer), wattleslate_stack_overlap(answer));
    return 0;
}
