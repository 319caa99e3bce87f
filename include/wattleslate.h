/* The calls of Wattleslate for programs in C: link crates/capi/out/libcapi.a, which `rt lib` in crates/capi writes.
 *
 * Every call ends, tests its own input and answers one number. Nothing is asked of the input but what C itself asks: a pointer and the length behind it are
 * those of an area of that many bytes, or of a list of that many entries where they are `size_t`; a pointer is not NULL even where the length is 0, and an area
 * that is lent for writing lies in no other one that the same call is given. No call allocates, keeps a pointer, or uses anything outside of its arguments.
 *
 * The answer has the refusal's number in its upper 16 bits, 0 if it is not refused. Below it stands the refusal's place, 48 bits, or up to three values of 16 bits:
 * a * 2^32 + b * 2^16 + c. The functions at the end take an answer apart. After a refusal every area that was lent for writing is all zeros, but a pack, whose bytes stay
 * as they were lent.
 *
 *     Call                        a               b          c
 *     wattleslate_check_font      0               height     characters
 *     wattleslate_check_control   0               stages     commands
 *     wattleslate_draw            nothing drawn   stood in   width
 *     wattleslate_draw_wrapped    nothing drawn   stood in   lines
 *     wattleslate_join            0               overlap    width
 *     wattleslate_stack           overlap         height     width
 *     wattleslate_draw_stacked    overlap         height     width
 *     wattleslate_pack_check      0               height     live records
 *     wattleslate_pack_find       a * 2^16 + b: the place of the rows   width
 *     wattleslate_pack_put        0               0          0
 *     wattleslate_pack_remove     0               0          0
 *     wattleslate_pack_compact    0               0          0
 *     wattleslate_draw_pack       nothing drawn   stood in   width
 *     wattleslate_draw_two        nothing drawn   stood in   width
 *     wattleslate_check_drawing   verdict         b * 2^16 + c: where
 */
#ifndef WATTLESLATE_H
#define WATTLESLATE_H

#include <stddef.h>
#include <stdint.h>

#ifdef __cplusplus
extern "C" {
#endif

/* Sizes. A longer file or text is refused. */
#define WATTLESLATE_MAX_FONT 65536u
#define WATTLESLATE_MAX_CONTROL 16384u
#define WATTLESLATE_MAX_TEXT 1024u
#define WATTLESLATE_MAX_WIDTH 1000u
#define WATTLESLATE_MAX_HEIGHT 32u
#define WATTLESLATE_MAX_STACK_HEIGHT 64u
#define WATTLESLATE_MAX_CHARACTER_WIDTH 199u
#define WATTLESLATE_MAX_CHARACTERS 512u
#define WATTLESLATE_MAX_COMMANDS 256u
#define WATTLESLATE_MAX_STAGES 64u
#define WATTLESLATE_MAX_PACK 65536u

/* A list of overlaps has at most this many entries: one for each character but the first. */
#define WATTLESLATE_MAX_OVERLAPS (WATTLESLATE_MAX_TEXT - 1u)

/* The scratch that drawing in one line or wrapped and checking a drawing are lent has this many bytes or more. */
#define WATTLESLATE_SCRATCH 32000u

/* Each list that wrapping is lent has this many entries or more: a text has no more lines than bytes. */
#define WATTLESLATE_LINES 1024u

/* The scratch that drawing two lines is lent has this many bytes or more: one line's room for each text. */
#define WATTLESLATE_STACKED_SCRATCH 64000u

/* The bytes of a drawing: `height` rows of `width` columns, each with an LF. */
#define WATTLESLATE_DRAWN(height, width) ((size_t)(height) * ((size_t)(width) + 1u))

/* Room for every drawing of every font, and for every drawing of two lines. */
#define WATTLESLATE_MAX_DRAWN WATTLESLATE_DRAWN(WATTLESLATE_MAX_HEIGHT, WATTLESLATE_MAX_WIDTH)
#define WATTLESLATE_MAX_STACKED WATTLESLATE_DRAWN(WATTLESLATE_MAX_STACK_HEIGHT, WATTLESLATE_MAX_WIDTH)

/* Room for every wrapped drawing of a text of so many bytes, by a font of that height: each byte is drawn at most once, a line has one byte or more, and none
 * is wider than its characters side by side. Letters of 199 columns at a limit of 199 need all of it. */
#define WATTLESLATE_WRAPPED(height, text_len) ((size_t)(text_len) * WATTLESLATE_DRAWN(height, WATTLESLATE_MAX_CHARACTER_WIDTH))
#define WATTLESLATE_MAX_WRAPPED WATTLESLATE_WRAPPED(WATTLESLATE_MAX_HEIGHT, WATTLESLATE_MAX_TEXT)

/* A pack is a lent area of at most WATTLESLATE_MAX_PACK bytes: a head, then records one behind the other, then zeros to its end. The head is the mark CFP, the
 * version 1 in two bytes, high first, the height, 1 to 32, and the hardblank, which is no blank, CR, LF or NUL. A record is one byte, 1 for live or 2 for free, the
 * code in four bytes, high first, the width, 0 to 199, and the rows one after another, height times width bytes. No code is -1, no two live records have the same
 * code, and no byte of a row is under 32 but the hardblank. All else is damaged. The caller writes an empty pack: wattleslate_empty_pack. */
#define WATTLESLATE_PACK_HEAD 7u
#define WATTLESLATE_RECORD_HEAD 6u

/* The bytes of a record of a letter that is so many columns wide, in a pack of that height. */
#define WATTLESLATE_RECORD(height, width) (WATTLESLATE_RECORD_HEAD + (size_t)(height) * (size_t)(width))

/* The refusal numbers, and what the place is: 0 where nothing is said. */
enum wattleslate_refusal {
    WATTLESLATE_NOT_REFUSED = 0,
    WATTLESLATE_FONT_TOO_LONG = 1,
    WATTLESLATE_NO_SIGNATURE = 2,        /* the first line does not begin with flf2a */
    WATTLESLATE_BAD_HARDBLANK = 3,       /* absent, or blank, CR, LF, NUL */
    WATTLESLATE_BAD_PARAMETERS = 4,      /* no blank or tab after the hardblank, under five numbers, or a value out of range */
    WATTLESLATE_MISSING_LINE = 5,        /* the font ends before a needed line; place: its length */
    WATTLESLATE_BAD_ROW = 6,             /* a line of only blanks and tabs is one too; place: the start of that line */
    WATTLESLATE_BAD_CODE_TAG = 7,        /* place: the start of that line */
    WATTLESLATE_TOO_MANY_CHARACTERS = 8, /* a 513th; place: the start of its tag line */
    WATTLESLATE_AREA_TOO_SMALL = 9,
    WATTLESLATE_CONTROL_TOO_LONG = 10,
    WATTLESLATE_NOT_A_COMMAND = 11,      /* place: the start of that line */
    WATTLESLATE_BAD_RANGES = 12,         /* sizes differ, or first above last; place: the start of that line */
    WATTLESLATE_EXTENDED_COMMAND = 13,   /* a line of h, j, b, u or g; place: the start of that line */
    WATTLESLATE_TOO_MANY_COMMANDS = 14,  /* a 257th command or 65th stage; place: the start of that line */
    WATTLESLATE_TEXT_TOO_LONG = 15,
    WATTLESLATE_LINE_TOO_WIDE = 16,
    WATTLESLATE_BAD_SHAPE = 17,          /* a join, a stack or a letter of bad shape, a limit outside 1 to 1,000, code -1 in a pack, or a layout that no font has */
    WATTLESLATE_STACK_TOO_HIGH = 18,     /* over 64 rows */
    WATTLESLATE_CHARACTER_TOO_WIDE = 19, /* wider than the limit; place: that of its byte in the text */
    WATTLESLATE_DAMAGED_PACK = 20,
    WATTLESLATE_CODE_PRESENT = 21,
    WATTLESLATE_CODE_ABSENT = 22,
    WATTLESLATE_NO_ROOM = 23,            /* no free record of that width, and too few bytes behind the last record */
    WATTLESLATE_FONTS_DIFFER = 24,       /* the heights or the hardblanks of two fonts */
    WATTLESLATE_WRONG_LENGTH = 25        /* a list of overlaps has not one for each drawn character after the first */
};

/* What a check of a drawing finds. */
enum wattleslate_verdict {
    WATTLESLATE_ACCEPTED = 0,
    WATTLESLATE_WRONG_OVERLAP = 1, /* where: its number in the list, counted from 0 */
    WATTLESLATE_WRONG_BYTE = 2     /* where: its place in the FIGure, or the end of the shorter of FIGure and drawing */
};

/* Layouts of a join and of drawing from a pack, as a font's Full_Layout: one of these, or SMUSHING plus rules 1 to 63. Any number up to 32,767 means what it means there. */
#define WATTLESLATE_FULL_WIDTH 0u
#define WATTLESLATE_FITTING 64u
#define WATTLESLATE_SMUSHING 128u /* without rules: universal */

/* Layouts of a stack, as a font's Full_Layout too: one of these, or VERTICAL_SMUSHING plus rules, the sum of some of 256, 512, 1,024, 2,048 and 4,096. */
#define WATTLESLATE_FULL_HEIGHT 0u
#define WATTLESLATE_VERTICAL_FITTING 8192u
#define WATTLESLATE_VERTICAL_SMUSHING 16384u /* without rules: universal */

#define WATTLESLATE_MAX_LAYOUT 32767u

/* Directions of a join and of drawing from a pack, as a font's Print_Direction. */
#define WATTLESLATE_LEFT_TO_RIGHT 0u
#define WATTLESLATE_RIGHT_TO_LEFT 1u

/* Reads a font. Refusals 1 to 8. Values: wattleslate_height and wattleslate_characters. */
uint64_t wattleslate_check_font(const uint8_t *font, size_t font_len);

/* Reads a control file. Refusals 10 to 14. Values: wattleslate_stages and wattleslate_commands. */
uint64_t wattleslate_check_control(const uint8_t *file, size_t file_len);

/* Draws a line of text by a font and a control file, which may be empty. `out` then holds the rows, each with an LF, and zeros behind them; `scratch` is all
 * zeros. For a text byte whose code, after mapping, is not in the font the character with code 0 stands in; without one nothing is drawn for it. Both are counted,
 * each byte as often as it stands in the text, and at most one of the counts is not 0: the font has a code 0 or has none. A code 0 that the font has is found, and
 * not counted. Refusals: 9 for a scratch under WATTLESLATE_SCRATCH bytes, 1 to 8, 10 to 14, 15, 16, then 9 for `out`. Values: wattleslate_nothing_drawn,
 * wattleslate_stood_in and wattleslate_width. */
uint64_t wattleslate_draw(const uint8_t *font, size_t font_len, const uint8_t *control, size_t control_len, const uint8_t *text,
                          size_t text_len, uint8_t *scratch, size_t scratch_len, uint8_t *out, size_t out_len);

/* Draws a text in lines of at most `limit` columns, 1 to 1,000, by a font and a control file, which may be empty. Words are the longest runs of text bytes
 * other than 32, before mapping. A line takes the most words that fit, drawn with the blanks between them; blanks at a break and at either end of the text are
 * not drawn, and a text without words has no lines. A first word that does not fit is broken after the most characters that fit, and its rest is the next
 * line's first word. A line is drawn as a text of its own. `firsts` and `ends` then hold for each line the place of its first byte and the place behind its
 * last one, and zeros behind them. `out` holds the drawings of the lines one after another, and zeros behind them; `scratch` is all zeros. A drawing is the
 * font's height of rows, each with an LF, and no row holds another LF or a zero: the width of a line is that of its rows. The bytes that are not in the font
 * are counted as in wattleslate_draw, over the whole text. Refusals: 9 for a list under WATTLESLATE_LINES entries or a scratch under WATTLESLATE_SCRATCH bytes,
 * 1 to 8, 10 to 14, 15, 17 for the limit, 19 for the first byte other than 32 whose character, the code's own or the one that stands in, is wider than the
 * limit, then 9 for `out`. 16 is never given. Values: wattleslate_nothing_drawn, wattleslate_stood_in and wattleslate_lines. */
uint64_t wattleslate_draw_wrapped(const uint8_t *font, size_t font_len, const uint8_t *control, size_t control_len, const uint8_t *text,
                                  size_t text_len, size_t limit, uint8_t *scratch, size_t scratch_len, size_t *firsts, size_t firsts_len,
                                  size_t *ends, size_t ends_len, uint8_t *out, size_t out_len);

/* Joins a FIGcharacter to a line of equal height, at its right when writing left to right, otherwise at its left. A block's rows lie one after another; `out` then holds
 * the result's, and zeros behind them. Refusals: 17 (height outside 1 to 32, line wider than 1,000, character wider than 199, a
 * block that is not height times width long, a hardblank that is blank, CR, LF or NUL, a layout over 32,767, a direction other than 0
 * and 1), 16, then 9. Values: wattleslate_overlap and wattleslate_width. */
uint64_t wattleslate_join(const uint8_t *line, size_t line_len, size_t line_width, const uint8_t *character, size_t character_len,
                          size_t character_width, size_t height, uint8_t hardblank, size_t layout, size_t direction, uint8_t *out,
                          size_t out_len);

/* Stacks a block on another, closed up as the vertical part of a Full_Layout says; what that layout says of the horizontal axis is not read. In both blocks
 * hardblanks become blanks, and the narrower one is filled with blanks on the right. A block's rows lie one after another; `out` then holds the result's, and zeros
 * behind them. Refusals: 17 (upper height outside 1 to 64, lower height outside 1 to 32, a width over 1,000, a block that is not height times width long, a
 * hardblank that is blank, CR, LF or NUL, a layout over 32,767), 18, then 9. Values: wattleslate_stack_overlap, wattleslate_height and wattleslate_width. */
uint64_t wattleslate_stack(const uint8_t *upper, size_t upper_len, size_t upper_width, size_t upper_height, const uint8_t *lower,
                           size_t lower_len, size_t lower_width, size_t lower_height, uint8_t hardblank, size_t layout, uint8_t *out,
                           size_t out_len);

/* Draws two lines of text by a font and a control file, which may be empty, and stacks the first on the second by the font's vertical layout, which without a Full_Layout is
 * full height. `out` then holds the rows, each with an LF, and zeros behind them; `scratch` is all zeros. Refusals: 9 for a scratch under
 * WATTLESLATE_STACKED_SCRATCH bytes, 1 to 8, 10 to 14, 15 and 16, each for either text, then 9 for `out`. 18 is never given: two lines have 64 rows at most.
 * Values: wattleslate_stack_overlap, wattleslate_height and wattleslate_width; the bytes that are not in the font are not told. */
uint64_t wattleslate_draw_stacked(const uint8_t *font, size_t font_len, const uint8_t *control, size_t control_len, const uint8_t *upper,
                                  size_t upper_len, const uint8_t *lower, size_t lower_len, uint8_t *scratch, size_t scratch_len,
                                  uint8_t *out, size_t out_len);

/* Reads a pack. Refusal 20. Values: wattleslate_height and wattleslate_live. */
uint64_t wattleslate_pack_check(const uint8_t *pack, size_t pack_len);

/* Finds the live record of a code. Its rows are a part of the pack: height times width bytes from a place on, which is that of the pack's end where the last letter
 * has width 0. No other code stands in. Refusals: 20, 17 for code -1, 22. Values: wattleslate_rows_place and wattleslate_width. */
uint64_t wattleslate_pack_find(const uint8_t *pack, size_t pack_len, int32_t code);

/* Puts a letter into a pack: `rows` has its rows one after another. It goes into the first free record of its width, else behind the last record; every other byte
 * stays. Refusals: 20, 17 (code -1, width over 199, a row byte under 32 that is not the pack's hardblank, rows that are not height times width long), 21, 23. */
uint64_t wattleslate_pack_put(uint8_t *pack, size_t pack_len, int32_t code, size_t width, const uint8_t *rows, size_t rows_len);

/* Removes a letter from a pack: its record becomes free, which changes one byte. Refusals: 20, 17 for code -1, 22. */
uint64_t wattleslate_pack_remove(uint8_t *pack, size_t pack_len, int32_t code);

/* Drops the free records of a pack: the live ones follow one another in their order, and zeros stand behind them. Refusal 20. */
uint64_t wattleslate_pack_compact(uint8_t *pack, size_t pack_len);

/* Draws a line of text from a pack as wattleslate_draw does from a font: with the same characters, height and hardblank, and a layout and direction that are the
 * font's own, it is the same drawing. The live record with code 0 stands in. A font's own layout is its Full_Layout; without one Old_Layout -1 is
 * WATTLESLATE_FULL_WIDTH, 0 is WATTLESLATE_FITTING, and every other WATTLESLATE_SMUSHING plus itself. Refusals: 9 for a scratch under WATTLESLATE_SCRATCH bytes, 20, 17
 * for a layout over 32,767 or a direction other than 0 and 1, 10 to 14, 15, 16, then 9 for `out`. Values: wattleslate_nothing_drawn, wattleslate_stood_in and
 * wattleslate_width. */
uint64_t wattleslate_draw_pack(const uint8_t *pack, size_t pack_len, size_t layout, size_t direction, const uint8_t *control,
                               size_t control_len, const uint8_t *text, size_t text_len, uint8_t *scratch, size_t scratch_len, uint8_t *out,
                               size_t out_len);

/* Draws a line of text by two fonts of equal height and hardblank and a control file, which may be empty: wattleslate_draw, with a second font behind the first. A code
 * is sought in the first font, then in the second; where neither has it, the character with code 0 of the first font stands in, without one that of the second, and
 * without either nothing is drawn. A code that either font has is found, code 0 too, and not counted. Layout and direction are the first font's. The two may be the same
 * area: the drawing is then that of wattleslate_draw. Refusals: 9 for a scratch under WATTLESLATE_SCRATCH bytes, 1 to 8 for the first font, 1 to 8 for the second, each
 * with its place in that font, 24, 10 to 14, 15, 16, then 9 for `out`. The number does not tell which of the fonts it is about: wattleslate_check_font does. Values:
 * wattleslate_nothing_drawn, wattleslate_stood_in and wattleslate_width. */
uint64_t wattleslate_draw_two(const uint8_t *first, size_t first_len, const uint8_t *second, size_t second_len, const uint8_t *control,
                              size_t control_len, const uint8_t *text, size_t text_len, uint8_t *scratch, size_t scratch_len, uint8_t *out,
                              size_t out_len);

/* Checks what another program drew of a line of text by a font and a control file, which may be empty: a FIGure, and the overlap of each drawn character after the
 * first with the line before it. It is accepted exactly if each overlap is the one that wattleslate_draw takes and the FIGure has the bytes that it puts out, LFs
 * included. Otherwise the first wrong overlap is told, and where all are right the first wrong byte; where the FIGure is the start of the drawing, or the drawing that
 * of the FIGure, that is the end of the shorter one. A text byte for which nothing is drawn has no overlap, a character of width 0 has: 0. For one drawn character and for
 * none the list is empty. `scratch` is then all zeros. Refusals: 9 for a scratch under WATTLESLATE_SCRATCH bytes, 1 to 8, 10 to 14, 15, 16, 25. Values:
 * wattleslate_checked and wattleslate_where. */
uint64_t wattleslate_check_drawing(const uint8_t *font, size_t font_len, const uint8_t *control, size_t control_len, const uint8_t *text,
                                   size_t text_len, const uint8_t *figure, size_t figure_len, const size_t *overlaps, size_t overlaps_len,
                                   uint8_t *scratch, size_t scratch_len);

/* Writes an empty pack of a height, 1 to 32, and a hardblank into an area of WATTLESLATE_PACK_HEAD bytes or more. The other bytes of the pack must be zeros: they
 * are the caller's to write. */
static inline void wattleslate_empty_pack(uint8_t *pack, uint8_t height, uint8_t hardblank) {
    pack[0] = 'C';
    pack[1] = 'F';
    pack[2] = 'P';
    pack[3] = 0;
    pack[4] = 1;
    pack[5] = height;
    pack[6] = hardblank;
}

/* The bits of a place, and those of a value. */
#define WATTLESLATE_PLACE_BITS 48
#define WATTLESLATE_VALUE_BITS 16

/* An answer's refusal number, 0 for a success. */
static inline enum wattleslate_refusal wattleslate_number(uint64_t answer) {
    return (enum wattleslate_refusal)(answer >> WATTLESLATE_PLACE_BITS);
}

/* Where refused: the refusal's place. */
static inline uint64_t wattleslate_place(uint64_t answer) {
    return answer & (((uint64_t)1 << WATTLESLATE_PLACE_BITS) - 1);
}

/* Of the calls that draw in one line, join or stack, where not refused: the width of the drawing or of the result; of wattleslate_pack_find: that of the letter. */
static inline uint32_t wattleslate_width(uint64_t answer) {
    return (uint16_t)answer;
}

/* Of wattleslate_draw_wrapped, where not refused: how many lines there are. */
static inline uint32_t wattleslate_lines(uint64_t answer) {
    return (uint16_t)answer;
}

/* Of wattleslate_draw, wattleslate_draw_wrapped, wattleslate_draw_pack and wattleslate_draw_two: for how many text bytes the character with code 0 stood in. A refusal
 * tells 0. */
static inline uint32_t wattleslate_stood_in(uint64_t answer) {
    return wattleslate_number(answer) == WATTLESLATE_NOT_REFUSED ? (uint16_t)(answer >> WATTLESLATE_VALUE_BITS) : 0;
}

/* Of wattleslate_draw, wattleslate_draw_wrapped, wattleslate_draw_pack and wattleslate_draw_two: for how many text bytes nothing was drawn. A refusal tells 0. */
static inline uint32_t wattleslate_nothing_drawn(uint64_t answer) {
    return wattleslate_number(answer) == WATTLESLATE_NOT_REFUSED ? (uint16_t)(answer >> (2 * WATTLESLATE_VALUE_BITS)) : 0;
}

/* Of wattleslate_join, where not refused: how many columns of both blocks lie on one another. */
static inline uint32_t wattleslate_overlap(uint64_t answer) {
    return (uint16_t)(answer >> WATTLESLATE_VALUE_BITS);
}

/* Of wattleslate_stack and wattleslate_draw_stacked, where not refused: how many rows of both blocks lie on one another. */
static inline uint32_t wattleslate_stack_overlap(uint64_t answer) {
    return (uint16_t)(answer >> (2 * WATTLESLATE_VALUE_BITS));
}

/* Of wattleslate_check_font and wattleslate_pack_check, where not refused: the height of the font or of the pack; of wattleslate_stack and wattleslate_draw_stacked: the height of the result. */
static inline uint32_t wattleslate_height(uint64_t answer) {
    return (uint16_t)(answer >> WATTLESLATE_VALUE_BITS);
}

/* Of wattleslate_check_font, where not refused: how many characters the font has. */
static inline uint32_t wattleslate_characters(uint64_t answer) {
    return (uint16_t)answer;
}

/* Of wattleslate_pack_check, where not refused: how many live records the pack has. */
static inline uint32_t wattleslate_live(uint64_t answer) {
    return (uint16_t)answer;
}

/* Of wattleslate_pack_find, where not refused: the place in the pack where the rows of the letter begin. */
static inline uint32_t wattleslate_rows_place(uint64_t answer) {
    return (uint32_t)(wattleslate_place(answer) >> WATTLESLATE_VALUE_BITS);
}

/* Of wattleslate_check_drawing, where not refused: what the check found. */
static inline enum wattleslate_verdict wattleslate_checked(uint64_t answer) {
    return (enum wattleslate_verdict)(uint16_t)(answer >> (2 * WATTLESLATE_VALUE_BITS));
}

/* Of wattleslate_check_drawing, where neither refused nor accepted: the number of the wrong overlap, or the place of the wrong byte. */
static inline uint32_t wattleslate_where(uint64_t answer) {
    return (uint32_t)answer;
}

/* Of wattleslate_check_control, where not refused: how many stages the control file has. */
static inline uint32_t wattleslate_stages(uint64_t answer) {
    return (uint16_t)(answer >> WATTLESLATE_VALUE_BITS);
}

/* Of wattleslate_check_control, where not refused: how many mapping commands the control file has. */
static inline uint32_t wattleslate_commands(uint64_t answer) {
    return (uint16_t)answer;
}

#ifdef __cplusplus
}
#endif

#endif
