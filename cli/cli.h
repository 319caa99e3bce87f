/* What the parts of the command share. main.c has its words and options, files.c takes fonts and control files, two.c draws with a second font behind the first,
 * stack.c puts names below one another, wrap.c draws a text in lines, checkdrawing.c checks what another program drew and overlaps.c reads its overlaps, pack.c and packdraw.c have the words of pack, packfile.c writes its file, damage.c says what is wrong with one, letters.c takes letters out of a font, codes.c reads
 * codes, io.c reads and writes, lines.c cuts a file into lines, header.c reads the numbers of a font, refusals.c says why something was refused. */
#ifndef CLI_H
#define CLI_H

#include "wattleslate.h"
#include <stdbool.h>
#include <sys/types.h>

/* Exit statuses. Where several are due the greatest is given. REFUSED is also given for a FIGure that is not the drawing, and, where that is asked for, for a byte that is
 * not in the font. */
enum status { GOOD = 0, REFUSED = 1, BAD_USE = 2, BAD_FILE = 3 };

static inline enum status worse(enum status one, enum status other) {
    return one > other ? one : other;
}

/* The options. What was given for each stands in a call: the value, or the option itself where it takes none; NULL if it was not given. A second -f is an option of
 * its own here. */
enum { FONT, SECOND_FONT, CONTROL, OVERLAPS, COLUMNS, SIZE, CODES, LAYOUT, DIRECTION, STRICT, HELP, SHOW_VERSION, OPTIONS_COUNT };

/* What the options want: 1,000 is WATTLESLATE_MAX_WIDTH, 65,536 WATTLESLATE_MAX_PACK, and 7 the head of a pack. */
#define COLUMNS_WANTED "a number of columns from 0 to 1,000"
#define SIZE_WANTED "a number of bytes from 7 to 65,536"
#define CODES_WANTED "codes, none of them -1, with commas between them"
#define LAYOUT_WANTED "a Full_Layout from 0 to 32,767"
#define DIRECTION_WANTED "a Print_Direction, 0 or 1"

/* What the command line asks for. */
struct call {
    const char *given[OPTIONS_COUNT];
    char **operands;
    size_t count;
};

/* Says what is wrong with the command line, in three parts, each of which may be a word of it. */
enum status bad_use(const char *first, const char *second, const char *third);

/* Reads decimal digits: a number up to another one. What was there before stays where it is none. */
bool number_upto(const char *digits, size_t most, size_t *value);
bool digits_upto(const uint8_t *digits, size_t length, size_t most, size_t *value);

/* The word check-drawing. */
enum status check_drawing(const struct call *call);

/* The words of pack. */
enum status pack_new(const struct call *call);
enum status pack_list(const struct call *call);
enum status pack_put(const struct call *call);
enum status pack_remove(const struct call *call);
enum status pack_compact(const struct call *call);
enum status pack_draw(const struct call *call);

/* A file that was read, and its name for messages. */
struct file {
    const char *name;
    const uint8_t *bytes;
    size_t length;
};

/* The files that drawing takes, whether there is a second font behind the first, and the height of the first. */
struct files {
    struct file font, second, control;
    bool two;
    uint32_t height;
};

/* Loads the fonts and the control file that were asked for and has the library read them. What is wrong with any of them is said once, not for
 * each name. */
enum status take_files(const struct call *call, struct files *files);

/* A text to draw: a name of the command line, or the line of standard input with that number, counted from 1 (0: a name). */
struct text {
    size_t line;
    const uint8_t *bytes;
    size_t length;
};

/* Whether there is one more text. */
enum step { NEXT, END, FAILED };

/* The text with that number, counted from 0: of the operands, or without one of the lines of standard input. */
enum step next_text(const struct call *call, size_t number, struct text *text);

/* fonts/console.flf, put into a C file by the Makefile. */
extern const uint8_t built_in_font[];
extern const size_t built_in_font_length;

/* Opens a file, -1 on failure; and writes all of some bytes into one, false on failure. */
int open_file(const char *name, int flags, mode_t mode);
bool write_all(int fd, const uint8_t *bytes, size_t length);

/* Reads a file into an area. Of a file that does not fit, as much as fits is read: who lends a byte more than the library takes lets it refuse. */
enum status load(struct file *file, const char *name, uint8_t *area, size_t room);

/* Says that a file cannot be read or written, by the error that the last call of the system gave. */
enum status io_failed(const char *name, const char *what);

/* The next line of standard input, which lasts until the second call after this one. */
enum step next_line(struct text *text);

/* Writes to standard output, at once. After a failure, which is told, nothing more is written. */
enum status put(const uint8_t *bytes, size_t length);
enum status put_string(const char *string);

/* How many columns standard output has where it is a terminal that tells them, at most as many as a line may have; else 0. */
size_t output_columns(void);

/* Ends what was written to standard output: an error that only shows now is told. */
enum status close_output(void);

/* Shows bytes in a message on standard error: control bytes as \xNN, and at most `most` of them. What cannot be said there is lost; the exit
 * status stands. */
void show(const uint8_t *bytes, size_t length, size_t most);
void show_string(const char *string);

/* Shows a text by its first 60 bytes, or by its line of standard input. */
void show_text(const struct text *text);

/* Draws a text in one line. The answer is the library's; the rows, each with an LF, last until the next call. */
struct drawing {
    uint64_t answer;
    const uint8_t *rows;
    size_t length; /* of the rows, in bytes; of nothing that was refused */
};
struct drawing draw_line(const struct files *files, const struct text *text);

/* The same with two fonts. */
struct drawing draw_two(const struct files *files, const struct text *text);

/* What the library answered of a text in one line, and the rows that it drew, of a height. */
struct drawing drawn_line(uint64_t answer, const uint8_t *rows, size_t height);

/* Whether the library draws with two fonts that it has read alone; what keeps it from that is told. */
enum status check_two(const struct files *files);

/* Writes the rows of a text that was drawn, and says how many of its bytes the font or the pack lacks, or why it was refused. */
enum status put_text(const struct text *text, const struct drawing *drawing, const char *source, bool strict);

/* Draws a text in lines of so many columns at most, 1 to 1,000, one below the other. */
struct drawing draw_wrapped(const struct files *files, const struct text *text, size_t columns);

/* Names below one another: the first two, then one more at a time, then the rows of all of them are written. A text that is refused is told, and the
 * status REFUSED given. */
enum status stack_two(const struct files *files, const struct text *upper, const struct text *lower);
enum status stack_one_more(const struct files *files, const struct text *text);
enum status put_stack(void);

/* Overlaps that another program took, and the name of their file. */
struct overlaps {
    const char *name;
    size_t count;
    size_t list[WATTLESLATE_MAX_OVERLAPS];
};

/* Reads a list of overlaps; what is wrong with it is told. */
enum status take_overlaps(struct overlaps *overlaps, const char *name);

/* The numbers behind the hardblank of a header, in their order. */
enum parameter { HEIGHT, BASELINE, MAX_LENGTH, OLD_LAYOUT, COMMENT_LINES, PRINT_DIRECTION, FULL_LAYOUT, CODETAG_COUNT };

/* Whether a byte is a blank or a tab. */
bool is_gap(uint8_t byte);

/* Where the blanks and tabs at a place end, and where the word at a place does: at a blank, a tab, or the end of the line. */
size_t gap_end(const struct file *file, size_t at);
size_t word_end(const struct file *file, size_t at);

/* The end of the line that starts at a place: an LF, a CR, or the end of the file; and the start of the line behind. */
size_t line_end(const struct file *file, size_t at);
size_t line_after(const struct file *file, size_t at);

/* The end of a row line without the blanks and tabs at its end, which are dropped first; and without its endmarks too, which is where the row ends. */
size_t row_line_end(const struct file *font, size_t start);
size_t row_end(const struct file *font, size_t start);

/* A number of the header of a font that was accepted, or false where it is absent. */
bool header_number(const struct file *font, enum parameter parameter, int64_t *value);

/* Says why a file or a text was refused, and gives the status REFUSED. */
enum status file_refused(const struct file *file, uint64_t answer);
enum status text_refused(const struct text *text, uint64_t answer);

/* The same of two fonts that do not go together. */
enum status fonts_refused(const struct files *files, uint64_t answer);

/* The same of a letter that was to be put into a pack or removed from it. */
enum status letter_refused(const struct file *pack, int32_t code, uint64_t answer);

/* A code as a font's tag writes it: decimal, octal behind 0, hexadecimal behind 0x or 0X, with a minus or without one. */
bool code_of(const uint8_t *word, size_t length, int32_t *code);

/* A byte for messages: itself where it can be seen, else \xNN. A byte over 127 alone is no character of UTF-8. */
#define BYTE_NAME 5
void name_byte(uint8_t byte, char name[BYTE_NAME]);

/* A code for messages: its number, and its character where that can be shown. */
#define CODE_NAME 20
void name_code(int32_t code, char name[CODE_NAME]);

/* Some codes, each once: at most as many as a pack has records. */
#define MOST_CODES ((WATTLESLATE_MAX_PACK - WATTLESLATE_PACK_HEAD) / WATTLESLATE_RECORD_HEAD)
struct codes {
    size_t count;
    int32_t codes[MOST_CODES];
};

/* Adds the codes of the characters of a string in UTF-8, and those of a list of numbers with commas between them. */
enum status add_characters(struct codes *codes, const char *string);
enum status add_numbers(struct codes *codes, const char *list);

/* A letter: its rows one after another, with their hardblanks. */
struct letter {
    size_t width, length;
    uint8_t rows[WATTLESLATE_MAX_HEIGHT * WATTLESLATE_MAX_CHARACTER_WIDTH];
};

/* The letter of a font that is used for a code; whether there is one. The font was accepted. */
bool font_letter(const struct files *files, int32_t code, struct letter *letter);

/* A record of a pack, where its rows begin, and where it ends. */
struct record {
    bool live;
    int32_t code;
    size_t width, rows, end;
};

/* Reads the file of a pack and has the library check it; what is wrong is told. The bytes last until another pack is read. */
enum status take_pack(struct file *pack, const char *name, uint64_t *answer);

/* Takes the record at a place, where its head is whole; false behind the last one, where all is zero. */
bool record_at(const struct file *pack, size_t at, struct record *record);

/* Says what is wrong with a pack that was refused 20, and gives the status REFUSED. */
enum status pack_damaged(const struct file *pack);

/* Writes a pack into a file that is not there yet. */
enum status new_pack(const struct file *pack);

/* Begins the change of the file of a pack, which it reads, and ends it: by the status GOOD the file has then what the pack has, and by every other status,
 * which is given back, it stays as it was. */
enum status begin_change(struct file *pack, const char *name, uint8_t *area, size_t room);
enum status end_change(const struct file *pack, enum status status);

#endif
