/* The helpers of include/wattleslate.h, which take an answer apart, over answers written down here; for C and for C++. It needs no library. */
#include "wattleslate.h"
#include <stdio.h>

static int wrong = 0;

static void same(const char *what, uint64_t got, uint64_t wanted) {
    if (got != wanted) {
        wrong++;
        printf("%s: %llu and not %llu\n", what, (unsigned long long)got, (unsigned long long)wanted);
    }
}

/* a * 2^32 + b * 2^16 + c. */
static uint64_t values(uint64_t a, uint64_t b, uint64_t c) {
    return a * 4294967296u + b * 65536u + c;
}

/* A refusal's number stands above 48 bits of its place. */
static uint64_t refused(uint64_t number, uint64_t place) {
    return number * 281474976710656u + place;
}

/* The answer of a drawing, whose counts stand above its last value. */
static uint64_t counted(uint64_t nothing_drawn, uint64_t stood_in, uint64_t last) {
    uint64_t answer = values(nothing_drawn, stood_in, last);
    same("number", wattleslate_number(answer), 0);
    same("nothing drawn", wattleslate_nothing_drawn(answer), nothing_drawn);
    same("stood in", wattleslate_stood_in(answer), stood_in);
    return answer;
}

static void drawn(uint64_t nothing_drawn, uint64_t stood_in, uint64_t width) {
    same("width", wattleslate_width(counted(nothing_drawn, stood_in, width)), width);
}

static void wrapped(uint64_t nothing_drawn, uint64_t stood_in, uint64_t lines) {
    same("lines", wattleslate_lines(counted(nothing_drawn, stood_in, lines)), lines);
}

/* The sizes that wrapping speaks of, by hand: 1,024 lines of 32 rows of 199 columns and an LF. */
static void wrapped_sizes(void) {
    same("the lists", WATTLESLATE_LINES, 1024);
    same("every wrapped drawing", WATTLESLATE_MAX_WRAPPED, 6553600);
    same("one byte, one row", WATTLESLATE_WRAPPED(1, 1), 200);
    same("no byte", WATTLESLATE_WRAPPED(32, 0), 0);
}

/* The bytes of a place need 17 bits: a letter of width 0 at the end of the largest pack has its rows there. */
static void found(uint64_t place, uint64_t width) {
    uint64_t answer = place * 65536u + width;
    same("number", wattleslate_number(answer), 0);
    same("place of the rows", wattleslate_rows_place(answer), place);
    same("width", wattleslate_width(answer), width);
}

/* The sizes of a pack, and the seven bytes of an empty one of six rows and hardblank $; the eighth stays. */
static void packs(void) {
    static const uint8_t wanted[8] = {67, 70, 80, 0, 1, 6, 36, 9};
    uint8_t pack[8] = {9, 9, 9, 9, 9, 9, 9, 9};
    same("the largest pack", WATTLESLATE_MAX_PACK, 65536);
    same("the head of a pack", WATTLESLATE_PACK_HEAD, 7);
    same("the head of a record", WATTLESLATE_RECORD(32, 0), 6);
    same("a record", WATTLESLATE_RECORD(6, 5), 36);
    same("the largest record", WATTLESLATE_RECORD(32, 199), 6374);
    wattleslate_empty_pack(pack, 6, '$');
    for (size_t at = 0; at < sizeof pack; at++) {
        same("an empty pack", pack[at], wanted[at]);
    }
}

/* Where has the bits of two values. */
static void checked(uint64_t verdict, uint64_t where) {
    uint64_t answer = verdict * 4294967296u + where;
    same("number", wattleslate_number(answer), 0);
    same("verdict", wattleslate_checked(answer), verdict);
    same("where", wattleslate_where(answer), where);
}

/* "A refusal tells 0 and 0", at every place. */
static void drawing_refused(uint64_t number, uint64_t place) {
    uint64_t answer = refused(number, place);
    same("number", wattleslate_number(answer), number);
    same("place", wattleslate_place(answer), place);
    same("nothing drawn of a refusal", wattleslate_nothing_drawn(answer), 0);
    same("stood in of a refusal", wattleslate_stood_in(answer), 0);
}

int main(void) {
    drawn(0, 0, 0);
    drawn(0, 0, 1000);
    drawn(0, 3, 33);
    drawn(3, 0, 18);
    drawn(1024, 0, 0);
    drawn(0, 1024, 1000);
    drawn(65535, 65534, 65533);
    wrapped(0, 0, 0);
    wrapped(0, 3, 2);
    wrapped(3, 0, 1);
    wrapped(0, 1024, 1024);
    wrapped(65535, 65534, 65533);
    wrapped_sizes();
    found(13, 0);
    found(7 + 6, 199);
    found(65535, 1);
    found(65536, 0);
    packs();
    checked(WATTLESLATE_ACCEPTED, 0);
    checked(WATTLESLATE_WRONG_OVERLAP, 0);
    checked(WATTLESLATE_WRONG_OVERLAP, 1022);
    checked(WATTLESLATE_WRONG_BYTE, 32032);
    checked(WATTLESLATE_WRONG_BYTE, 65536);
    checked(WATTLESLATE_WRONG_BYTE, 4294967295u);
    same("accepted", WATTLESLATE_ACCEPTED, 0);
    same("a wrong overlap", WATTLESLATE_WRONG_OVERLAP, 1);
    same("a wrong byte", WATTLESLATE_WRONG_BYTE, 2);
    same("the longest list", WATTLESLATE_MAX_OVERLAPS, 1023);
    same("the number of a list of the wrong length", WATTLESLATE_WRONG_LENGTH, 25);
    same("number", wattleslate_number(refused(25, 0)), WATTLESLATE_WRONG_LENGTH);
    drawing_refused(16, 0);
    drawing_refused(6, 28);
    drawing_refused(5, 65536);
    drawing_refused(5, 281474976710655u);
    drawing_refused(19, 1023);
    drawing_refused(20, 0);
    drawing_refused(23, 0);
    drawing_refused(WATTLESLATE_FONTS_DIFFER, 0);
    same("the number of fonts that differ", WATTLESLATE_FONTS_DIFFER, 24);
    same("overlap of a join", wattleslate_overlap(values(0, 2, 3)), 2);
    same("overlap of a stack", wattleslate_stack_overlap(values(2, 10, 18)), 2);
    same("height", wattleslate_height(values(2, 10, 18)), 10);
    same("width", wattleslate_width(values(2, 10, 18)), 18);
    same("characters", wattleslate_characters(values(0, 6, 103)), 103);
    same("live records", wattleslate_live(values(0, 32, 10921)), 10921);
    same("height of a pack", wattleslate_height(values(0, 32, 10921)), 32);
    same("stages", wattleslate_stages(values(0, 2, 256)), 2);
    same("commands", wattleslate_commands(values(0, 2, 256)), 256);
    return wrong > 0;
}
