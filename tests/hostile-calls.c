/* The calls on a pack, drawing with two fonts and checking a drawing over hostile input, for tests/hostile: each input that comes from standard input is given to all eight, and each answers a line. Every area lies
 * between two pages that nobody may touch, first at their end and then at their start, so that a byte beside it ends the program, as a call of over a second does. */
#define _DEFAULT_SOURCE
#include "wattleslate.h"
#include <stdbool.h>
#include <stdio.h>
#include <stdlib.h>
#include <string.h>
#include <sys/mman.h>
#include <unistd.h>

enum { PACK, ROWS, FIRST, SECOND, CONTROL, TEXT, FIGURE, OVERLAPS, SCRATCH, OUT, AREAS };
enum { CHECK, FIND, PUT, REMOVE, COMPACT, DRAW, DRAW_TWO, CHECK_DRAWING, CALLS };
#define ROOM ((size_t)1 << 18)

/* An input: what is asked, and the bytes that all areas but the last two hold. */
static struct {
    int32_t code;
    uint64_t width, layout, direction;
    uint32_t lengths[AREAS];
} asked;
static uint8_t held[SCRATCH][ROOM];

/* The pages of each area, the area in them, and what it held after the run before. */
static uint8_t *pages[AREAS], *area[AREAS], before[AREAS][ROOM];

static void take(void *bytes, size_t length) {
    if (fread(bytes, 1, length, stdin) != length) {
        exit(2);
    }
}

static void make_pages(void) {
    size_t page = (size_t)sysconf(_SC_PAGESIZE);
    for (int i = 0; i < AREAS; i++) {
        uint8_t *all = mmap(NULL, ROOM + 2 * page, PROT_READ | PROT_WRITE, MAP_PRIVATE | MAP_ANONYMOUS, -1, 0);
        if (all == MAP_FAILED || mprotect(all, page, PROT_NONE) != 0 || mprotect(all + page + ROOM, page, PROT_NONE) != 0) {
            exit(2);
        }
        pages[i] = all + page;
    }
}

/* The areas as they are lent: the last two hold what is not zero. */
static void lend(bool at_end) {
    for (int i = 0; i < AREAS; i++) {
        area[i] = pages[i] + (at_end ? ROOM - asked.lengths[i] : 0);
        if (i < SCRATCH) {
            memcpy(area[i], held[i], asked.lengths[i]);
        } else {
            memset(area[i], 165, asked.lengths[i]);
        }
    }
}

static uint64_t answer_of(int call) {
    const uint32_t *n = asked.lengths;
    switch (call) {
    case CHECK:
        return wattleslate_pack_check(area[PACK], n[PACK]);
    case FIND:
        return wattleslate_pack_find(area[PACK], n[PACK], asked.code);
    case PUT:
        return wattleslate_pack_put(area[PACK], n[PACK], asked.code, asked.width, area[ROWS], n[ROWS]);
    case REMOVE:
        return wattleslate_pack_remove(area[PACK], n[PACK], asked.code);
    case COMPACT:
        return wattleslate_pack_compact(area[PACK], n[PACK]);
    case DRAW_TWO:
        return wattleslate_draw_two(area[FIRST], n[FIRST], area[SECOND], n[SECOND], area[CONTROL], n[CONTROL], area[TEXT], n[TEXT], area[SCRATCH], n[SCRATCH],
                                    area[OUT], n[OUT]);
    case CHECK_DRAWING:
        return wattleslate_check_drawing(area[FIRST], n[FIRST], area[CONTROL], n[CONTROL], area[TEXT], n[TEXT], area[FIGURE], n[FIGURE],
                                         (const size_t *)(const void *)area[OVERLAPS], n[OVERLAPS] / sizeof(size_t), area[SCRATCH], n[SCRATCH]);
    default:
        return wattleslate_draw_pack(area[PACK], n[PACK], asked.layout, asked.direction, area[CONTROL], n[CONTROL], area[TEXT], n[TEXT], area[SCRATCH],
                                     n[SCRATCH], area[OUT], n[OUT]);
    }
}

static bool all_zero(const uint8_t *bytes, size_t length) {
    size_t at = 0;
    while (at < length && bytes[at] == 0) {
        at++;
    }
    return at == length;
}

/* Whether the output holds rows of a width, each with an LF and none with another byte under 32, and zeros behind. */
static bool is_drawing(size_t height, size_t width) {
    size_t length = WATTLESLATE_DRAWN(height, width);
    for (size_t at = 0; at < length; at++) {
        bool is_end = at % (width + 1) == width;
        if (at == asked.lengths[OUT] || (is_end ? area[OUT][at] != '\n' : area[OUT][at] < 32)) {
            return false;
        }
    }
    return all_zero(area[OUT] + length, asked.lengths[OUT] - length);
}

/* Whether the areas that a call only reads hold what they were lent with: all but a pack that is changed. */
static bool are_kept(bool changes) {
    for (int i = changes ? ROWS : PACK; i < SCRATCH; i++) {
        if (memcmp(area[i], held[i], asked.lengths[i]) != 0) {
            return false;
        }
    }
    return true;
}

/* Whether both areas of a drawing hold what they must: zeros after a refusal, else a drawing of a height. */
static bool is_drawn(uint64_t answer, size_t height) {
    bool refused = wattleslate_number(answer) != WATTLESLATE_NOT_REFUSED;
    bool right = refused ? all_zero(area[OUT], asked.lengths[OUT]) : is_drawing(height, wattleslate_width(answer));
    return right && all_zero(area[SCRATCH], asked.lengths[SCRATCH]);
}

/* Whether the scratch is zeros after a check, and what it names is in the list or in the FIGure, or its end. */
static bool is_checked(uint64_t answer) {
    size_t where = wattleslate_where(answer);
    if (!all_zero(area[SCRATCH], asked.lengths[SCRATCH])) {
        return false;
    }
    if (wattleslate_number(answer) != WATTLESLATE_NOT_REFUSED) {
        return true;
    }
    switch (wattleslate_checked(answer)) {
    case WATTLESLATE_WRONG_OVERLAP:
        return where < asked.lengths[OVERLAPS] / sizeof(size_t);
    case WATTLESLATE_WRONG_BYTE:
        return where <= asked.lengths[FIGURE];
    default:
        return answer == WATTLESLATE_ACCEPTED;
    }
}

/* Whether the areas hold what they must after a call: what is only read as it was, after a refusal a pack as it was and the other areas zeros, else a pack that is
 * accepted, a part of the pack, or a drawing. */
static bool is_right(int call, uint64_t answer) {
    bool refused = wattleslate_number(answer) != WATTLESLATE_NOT_REFUSED, changes = call == PUT || call == REMOVE || call == COMPACT;
    uint64_t check = wattleslate_pack_check(area[PACK], asked.lengths[PACK]);
    size_t height = wattleslate_height(check), width = wattleslate_width(answer);
    if (!are_kept(changes && !refused)) {
        return false;
    }
    if (call == DRAW_TWO) {
        return is_drawn(answer, wattleslate_height(wattleslate_check_font(area[FIRST], asked.lengths[FIRST])));
    }
    if (call == CHECK_DRAWING) {
        return is_checked(answer);
    }
    if (call == DRAW && !is_drawn(answer, height)) {
        return false;
    }
    if (call == FIND && !refused && wattleslate_rows_place(answer) + height * width > asked.lengths[PACK]) {
        return false;
    }
    return refused || wattleslate_number(check) == WATTLESLATE_NOT_REFUSED;
}

/* Whether the areas hold what they held in the run before. */
static bool as_before(void) {
    for (int i = 0; i < AREAS; i++) {
        if (memcmp(before[i], area[i], asked.lengths[i]) != 0) {
            return false;
        }
    }
    return true;
}

static void keep(void) {
    for (int i = 0; i < AREAS; i++) {
        memcpy(before[i], area[i], asked.lengths[i]);
    }
}

/* Makes a call twice and prints its answer's number and place, and whether all is right and the same both times. */
static void try_call(int call) {
    (void)alarm(1);
    lend(true);
    uint64_t answer = answer_of(call);
    bool right = is_right(call, answer);
    keep();
    lend(false);
    bool same = answer_of(call) == answer && as_before();
    (void)alarm(0);
    printf("%d %llu %d\n", (int)wattleslate_number(answer), (unsigned long long)wattleslate_place(answer), right && same);
    (void)fflush(stdout);
}

int main(void) {
    make_pages();
    while (fread(&asked.code, 1, sizeof asked.code, stdin) == sizeof asked.code) {
        take(&asked.width, sizeof asked.width);
        take(&asked.layout, sizeof asked.layout);
        take(&asked.direction, sizeof asked.direction);
        take(asked.lengths, sizeof asked.lengths);
        for (int i = PACK; i < SCRATCH; i++) {
            take(held[i], asked.lengths[i]);
        }
        for (int call = 0; call < CALLS; call++) {
            try_call(call);
        }
    }
    return 0;
}
