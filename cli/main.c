/* The command wattleslate: big letters from a FIGfont. It loads files, calls the library and prints; what is drawn the library decides. */
#include "cli.h"
#include <signal.h>
#include <stdio.h>
#include <string.h>
#include <strings.h>

#define VERSION "1.0"

/* The words, each a bit, so that an option can name those that it belongs to. */
enum { DRAW = 1, STACK = 2, CHECK = 4, NEW = 8, LIST = 16, PUT = 32, REMOVE = 64, COMPACT = 128, FROM_PACK = 256, PACK = 512, CHECK_DRAWING = 1024, EVERY_WORD = ~0 };

static enum status draw(const struct call *call);
static enum status stack(const struct call *call);
static enum status check(const struct call *call);
static enum status pack(const struct call *call);

/* As many operands as there are. */
#define ANY_NUMBER SIZE_MAX

struct word {
    const char *name; /* two arguments where it has a blank */
    int bit;
    size_t least, most; /* operands that it takes */
    const char *wants;  /* what they are */
    const char *last;   /* the last of them, where there may be no more */
    enum status (*run)(const struct call *call);
    const char *help;
};

#define PACK_WORDS "new, list, put, remove, compact or draw"

/* The first word is meant where none is given. Of two that both fit the longer one stands first. */
static const struct word WORDS[] = {
    {"draw", DRAW, 0, ANY_NUMBER, "nothing", NULL, draw,
     "  wattleslate [draw] [-f FONT [-f SECOND]] [-c CONTROL] [-w COLUMNS] [--strict] [NAME...]\n"
     "      draws each NAME, or without a NAME each line of standard input, and tells of bytes that are not in the font\n"},
    {"stack", STACK, 0, ANY_NUMBER, "nothing", NULL, stack,
     "  wattleslate stack [-f FONT] [-c CONTROL] [NAME...]\n"
     "      draws the NAMEs, or the lines of standard input, below one another, closed up as the font says\n"},
    {"check", CHECK, 1, ANY_NUMBER, "a FONT or a CONTROL", NULL, check,
     "  wattleslate check FONT|CONTROL...\n"
     "      reads fonts and control files, and says what is wrong with them\n"},
    {"check-drawing", CHECK_DRAWING, 2, 2, "a NAME and a FIGURE", "its FIGURE", check_drawing,
     "  wattleslate check-drawing [-f FONT] [-c CONTROL] [-o OVERLAPS] NAME FIGURE\n"
     "      says whether the file FIGURE, which another program drew, has the drawing of the NAME, or what is wrong first\n"},
    {"pack new", NEW, 1, 1, "a PACK", "its PACK", pack_new,
     "  wattleslate pack new [-f FONT] [-s BYTES] PACK\n"
     "      makes an empty font pack for letters of the font\n"},
    {"pack list", LIST, 1, 1, "a PACK", "its PACK", pack_list,
     "  wattleslate pack list PACK\n"
     "      says how full a pack is, and shows its letters\n"},
    {"pack put", PUT, 1, ANY_NUMBER, "a PACK", NULL, pack_put,
     "  wattleslate pack put [-f FONT] [-n CODES] PACK [LETTER...]\n"
     "      puts letters of the font into a pack, all of them or none\n"},
    {"pack remove", REMOVE, 1, ANY_NUMBER, "a PACK", NULL, pack_remove,
     "  wattleslate pack remove [-n CODES] PACK [LETTER...]\n"
     "      removes letters from a pack, all of them or none\n"},
    {"pack compact", COMPACT, 1, 1, "a PACK", "its PACK", pack_compact,
     "  wattleslate pack compact PACK\n"
     "      gives the room of letters that were removed to letters of any width\n"},
    {"pack draw", FROM_PACK, 1, ANY_NUMBER, "a PACK", NULL, pack_draw,
     "  wattleslate pack draw [-f FONT] [-l LAYOUT] [-d DIRECTION] [-c CONTROL] [--strict] PACK [NAME...]\n"
     "      draws each NAME, or each line of standard input, with the letters of a pack, in one line\n"},
    {"pack", PACK, 1, ANY_NUMBER, PACK_WORDS, NULL, pack, ""},
};

struct option {
    const char *name;
    const char *wants; /* what its value is; NULL: it takes none */
    int words;
    size_t place; /* in a call's given */
    const char *help;
};

static const struct option OPTIONS[] = {
    {"-f", "a FONT", DRAW | STACK | CHECK_DRAWING | NEW | PUT | FROM_PACK, FONT,
     "  -f FONT     take this FIGfont, and not the built-in one; pack draw takes layout and direction from it.\n"
     "              draw takes a second one of the same height and hardblank for what the first lacks, and then wraps nothing\n"},
    {"-c", "a CONTROL", DRAW | STACK | CHECK_DRAWING | FROM_PACK, CONTROL, "  -c CONTROL  map the characters by this control file first\n"},
    {"-o", "a file of OVERLAPS", CHECK_DRAWING, OVERLAPS,
     "  -o OVERLAPS check the overlaps in this file too, a number a line, one for each drawn character after the first\n"},
    {"-w", COLUMNS_WANTED, DRAW, COLUMNS,
     "  -w COLUMNS  break a text at blanks into lines of at most COLUMNS; 0 breaks none. Without it a terminal's width is taken\n"},
    {"-s", SIZE_WANTED, NEW, SIZE, "  -s BYTES    make the pack so long, 7 to 65,536 bytes; without it 65,536\n"},
    {"-n", CODES_WANTED, PUT | REMOVE, CODES,
     "  -n CODES    letters by their codes, with commas between them, each as a font's tag writes it: 0x41, 0101, 65, -2\n"},
    {"-l", LAYOUT_WANTED, FROM_PACK, LAYOUT, "  -l LAYOUT   this Full_Layout, 0 to 32,767, and not the font's\n"},
    {"-d", DIRECTION_WANTED, FROM_PACK, DIRECTION, "  -d DIRECTION\n              this Print_Direction, 0 or 1, and not the font's\n"},
    {"--strict", NULL, DRAW | FROM_PACK, STRICT, "  --strict    end with status 1 where a byte is not in the font or the pack\n"},
    {"-h", NULL, EVERY_WORD, HELP, ""},
    {"--help", NULL, EVERY_WORD, HELP, "  --help, -h  print this help\n"},
    {"--version", NULL, EVERY_WORD, SHOW_VERSION, "  --version   print the version\n"},
};

static const char MORE_HELP[] =
    "  --          what follows is no option\n"
    "\n"
    "Each byte of a NAME is one character, 128 to 255 by ISO 8859-1. A first NAME that is a word stands behind `draw`.\n"
    "A LETTER is one character or several, each of which is meant, in UTF-8: 1 is the character 1, with code 49.\n"
    "Exit status: 0; 1 something was refused, is not the drawing, or by --strict not in the font; 2 bad use; 3 a file cannot be read or written.\n";

#define COUNT(table) (sizeof(table) / sizeof *(table))

enum status bad_use(const char *first, const char *second, const char *third) {
    fputs("wattleslate: ", stderr);
    show_string(first);
    show_string(second);
    show_string(third);
    fputs("; wattleslate --help says how it is called\n", stderr);
    return BAD_USE;
}

struct drawing drawn_line(uint64_t answer, const uint8_t *rows, size_t height) {
    bool refused = wattleslate_number(answer) != WATTLESLATE_NOT_REFUSED;
    return (struct drawing){answer, rows, refused ? 0 : WATTLESLATE_DRAWN(height, wattleslate_width(answer))};
}

struct drawing draw_line(const struct files *files, const struct text *text) {
    if (files->two) {
        return draw_two(files, text);
    }
    static uint8_t scratch[WATTLESLATE_SCRATCH], out[WATTLESLATE_MAX_DRAWN];
    uint64_t answer = wattleslate_draw(files->font.bytes, files->font.length, files->control.bytes, files->control.length, text->bytes,
                                       text->length, scratch, sizeof scratch, out, sizeof out);
    return drawn_line(answer, out, files->height);
}

/* Writes the rows of a text that was drawn, or says why it was refused. */
static enum status put_drawing(const struct text *text, const struct drawing *drawing) {
    if (wattleslate_number(drawing->answer) != WATTLESLATE_NOT_REFUSED) {
        return text_refused(text, drawing->answer);
    }
    return put(drawing->rows, drawing->length);
}

/* Says how many bytes of a text are not in the font or the pack; whether there are any. */
static bool tell_missing(const struct text *text, uint64_t answer, const char *source) {
    unsigned replaced = wattleslate_stood_in(answer), left_out = wattleslate_nothing_drawn(answer), missing = replaced + left_out;
    if (missing == 0) {
        return false;
    }
    show_text(text);
    fprintf(stderr, ": %u %s not in the %s: %u replaced, %u left out\n", missing, missing == 1 ? "byte is" : "bytes are", source, replaced, left_out);
    return true;
}

/* The rows come first, then what is said of them: where they cannot be written, that alone is told. */
enum status put_text(const struct text *text, const struct drawing *drawing, const char *source, bool strict) {
    enum status status = put_drawing(text, drawing);
    return status == GOOD && tell_missing(text, drawing->answer, source) && strict ? REFUSED : status;
}

/* How many columns a line may have, 0 for any number, and whether -w says so. */
struct limit {
    size_t columns;
    bool asked;
};

/* A character that is wider than the terminal does not keep a name from being drawn, in one line; one that is wider than -w says does. */
static struct drawing draw_within(const struct files *files, const struct text *text, const struct limit *limit) {
    if (limit->columns == 0) {
        return draw_line(files, text);
    }
    struct drawing drawing = draw_wrapped(files, text, limit->columns);
    bool too_wide = wattleslate_number(drawing.answer) == WATTLESLATE_CHARACTER_TOO_WIDE;
    return too_wide && !limit->asked ? draw_line(files, text) : drawing;
}

enum step next_text(const struct call *call, size_t number, struct text *text) {
    if (call->count == 0) {
        return next_line(text);
    }
    if (number == call->count) {
        return END;
    }
    *text = (struct text){0, (const uint8_t *)call->operands[number], strlen(call->operands[number])};
    return NEXT;
}

bool digits_upto(const uint8_t *digits, size_t length, size_t most, size_t *value) {
    uint64_t number = 0;
    for (size_t at = 0; at < length; at++) {
        if (digits[at] < '0' || digits[at] > '9') {
            return false;
        }
        number = number * 10 + (uint64_t)(digits[at] - '0');
        if (number > most) {
            return false;
        }
    }
    if (length == 0) {
        return false;
    }
    *value = (size_t)number;
    return true;
}

bool number_upto(const char *digits, size_t most, size_t *value) {
    return digits_upto((const uint8_t *)digits, strlen(digits), most, value);
}

/* The limit that -w gives, else that of the terminal. With two fonts there is none: the library does not wrap with them. */
static enum status take_limit(const struct call *call, struct limit *limit) {
    const char *given = call->given[COLUMNS];
    bool two = call->given[SECOND_FONT] != NULL;
    *limit = (struct limit){0, given != NULL};
    if (given == NULL) {
        limit->columns = two ? 0 : output_columns();
    } else if (!number_upto(given, WATTLESLATE_MAX_WIDTH, &limit->columns)) {
        return bad_use("-w wants " COLUMNS_WANTED ", not ", given, "");
    }
    return two && limit->columns > 0 ? bad_use("-w ", given, " is not taken with two fonts, which draw a text in one line") : GOOD;
}

static enum status draw(const struct call *call) {
    struct files files;
    struct text text;
    struct limit limit;
    enum step step = END;
    const char *source = call->given[SECOND_FONT] == NULL ? "font" : "fonts";
    enum status status = take_limit(call, &limit);
    if (status == GOOD) {
        status = take_files(call, &files);
    }
    if (status != GOOD) {
        return status;
    }
    for (size_t number = 0; status != BAD_FILE && (step = next_text(call, number, &text)) == NEXT; number++) {
        struct drawing drawing = draw_within(&files, &text, &limit);
        status = worse(status, put_text(&text, &drawing, source, call->given[STRICT] != NULL));
    }
    return step == FAILED ? BAD_FILE : status;
}

/* The stack is drawn whole or not at all: a name that is refused is told, and ends it. One name alone is drawn as it is. Of bytes that are not in the
 * font nothing is said, of one name either: the library's answer for two has no room for their number. */
static enum status stack(const struct call *call) {
    struct files files;
    struct text upper, lower;
    enum status status = take_files(call, &files);
    if (status != GOOD) {
        return status;
    }
    enum step step = next_text(call, 0, &upper);
    if (step == NEXT) {
        step = next_text(call, 1, &lower);
        if (step == END) {
            struct drawing alone = draw_line(&files, &upper);
            return put_drawing(&upper, &alone);
        }
    }
    if (step != NEXT) {
        return step == FAILED ? BAD_FILE : GOOD;
    }
    status = stack_two(&files, &upper, &lower);
    for (size_t number = 2; status == GOOD && (step = next_text(call, number, &lower)) == NEXT; number++) {
        status = stack_one_more(&files, &lower);
    }
    if (status == GOOD && step == FAILED) {
        return BAD_FILE;
    }
    return status == GOOD ? put_stack() : status;
}

/* The first line tells a control file, else the name's end does. All others are fonts: one without its first word is refused for that. */
static bool is_control(const struct file *file) {
    size_t length = strlen(file->name);
    if (file->length >= 5 && memcmp(file->bytes, "flf2a", 5) == 0) {
        return false;
    }
    if (file->length >= 5 && memcmp(file->bytes, "flc2a", 5) == 0) {
        return true;
    }
    return length >= 4 && strcasecmp(file->name + length - 4, ".flc") == 0;
}

static enum status check_file(const char *name) {
    static uint8_t area[WATTLESLATE_MAX_FONT + 1];
    struct file file;
    enum status status = load(&file, name, area, sizeof area);
    if (status != GOOD) {
        return status;
    }
    bool control = is_control(&file);
    uint64_t answer = (control ? wattleslate_check_control : wattleslate_check_font)(file.bytes, file.length);
    if (wattleslate_number(answer) != WATTLESLATE_NOT_REFUSED) {
        return file_refused(&file, answer);
    }
    show_string(name);
    if (control) {
        fprintf(stderr, ": control file, commands %u, stages %u\n", (unsigned)wattleslate_commands(answer), (unsigned)wattleslate_stages(answer));
    } else {
        fprintf(stderr, ": font, height %u, characters %u\n", (unsigned)wattleslate_height(answer), (unsigned)wattleslate_characters(answer));
    }
    return GOOD;
}

static enum status check(const struct call *call) {
    enum status status = GOOD;
    for (size_t i = 0; i < call->count; i++) {
        status = worse(status, check_file(call->operands[i]));
    }
    return status;
}

static enum status pack(const struct call *call) {
    return bad_use("pack wants " PACK_WORDS ", not ", call->operands[0], "");
}

static enum status help(void) {
    enum status status = put_string("wattleslate: big letters from a FIGfont\n\n");
    for (size_t i = 0; i < COUNT(WORDS); i++) {
        status = worse(status, put_string(WORDS[i].help));
    }
    status = worse(status, put_string("\n"));
    for (size_t i = 0; i < COUNT(OPTIONS); i++) {
        status = worse(status, put_string(OPTIONS[i].help));
    }
    return worse(status, put_string(MORE_HELP));
}

/* The option that an argument begins with, or NULL; and its value where that is a part of the argument: -fFONT, --name=VALUE. */
static const struct option *option_of(const char *argument, const char **value) {
    *value = NULL;
    for (size_t i = 0; i < COUNT(OPTIONS); i++) {
        const struct option *option = &OPTIONS[i];
        size_t length = strlen(option->name);
        bool is_long = option->name[1] == '-';
        if (strncmp(argument, option->name, length) != 0) {
            continue;
        }
        if (argument[length] == '\0') {
            return option;
        }
        if (option->wants != NULL && (!is_long || argument[length] == '=')) {
            *value = argument + length + (is_long ? 1 : 0);
            return option;
        }
    }
    return NULL;
}

/* A second -f is the font behind the first. Of the words only draw takes one, and no word takes a third. */
static enum status take_second_font(const struct word *word, const char *value, struct call *call) {
    if (word->bit != DRAW) {
        return bad_use(word->name, " takes one font, and not a second one: ", value);
    }
    if (call->given[SECOND_FONT] != NULL) {
        return bad_use(word->name, " takes one font or two, and not a third one: ", value);
    }
    call->given[SECOND_FONT] = value;
    return GOOD;
}

/* Takes the option that stands at the first of some arguments, and counts how many of them it has used. */
static enum status take_option(const struct word *word, char **arguments, struct call *call, size_t *used) {
    const char *value;
    const struct option *option = option_of(arguments[0], &value);
    *used = 1;
    if (option == NULL) {
        return bad_use("there is no option ", arguments[0], "");
    }
    if ((option->words & word->bit) == 0) {
        return bad_use(word->name, " takes no option ", option->name);
    }
    if (option->wants == NULL) {
        value = option->name;
    } else if (value == NULL) {
        value = arguments[1];
        *used = 2;
    }
    if (value == NULL) {
        return bad_use(option->name, " wants ", option->wants);
    }
    if (option->place == FONT && call->given[FONT] != NULL) {
        return take_second_font(word, value, call);
    }
    call->given[option->place] = value;
    return GOOD;
}

/* Parts the arguments of a word, which end with NULL, into options and operands. An option may stand behind an operand; behind -- all are operands. */
static enum status take_arguments(const struct word *word, char **arguments, struct call *call) {
    bool only_operands = false;
    size_t used = 1;
    *call = (struct call){{NULL}, arguments, 0};
    for (size_t i = 0; arguments[i] != NULL; i += used) {
        used = 1;
        if (only_operands || arguments[i][0] != '-' || arguments[i][1] == '\0') {
            call->operands[call->count++] = arguments[i];
        } else if (strcmp(arguments[i], "--") == 0) {
            only_operands = true;
        } else {
            enum status status = take_option(word, arguments + i, call, &used);
            if (status != GOOD) {
                return status;
            }
        }
    }
    return GOOD;
}

/* How many of some arguments are a word: one or two, or none where they are another one. */
static size_t named_by(const struct word *word, char **arguments) {
    size_t first = strcspn(word->name, " ");
    const char *second = word->name[first] == ' ' ? word->name + first + 1 : NULL;
    if (arguments[0] == NULL || strlen(arguments[0]) != first || strncmp(arguments[0], word->name, first) != 0) {
        return 0;
    }
    if (second == NULL) {
        return 1;
    }
    return arguments[1] != NULL && strcmp(arguments[1], second) == 0 ? 2 : 0;
}

/* The word that some arguments begin with, and how many of them it is. */
static const struct word *word_of(char **arguments, size_t *used) {
    for (size_t i = 0; i < COUNT(WORDS); i++) {
        *used = named_by(&WORDS[i], arguments);
        if (*used > 0) {
            return &WORDS[i];
        }
    }
    return &WORDS[0];
}

/* Says that there is an operand behind the last one. */
static enum status too_many(const struct word *word, const char *operand) {
    char what[40];
    (void)snprintf(what, sizeof what, " takes nothing behind %s, not ", word->last);
    return bad_use(word->name, what, operand);
}

static enum status run(char **arguments) {
    struct call call;
    size_t used;
    const struct word *word = word_of(arguments, &used);
    enum status status = take_arguments(word, arguments + used, &call);
    if (status != GOOD) {
        return status;
    }
    if (call.given[HELP] != NULL) {
        return help();
    }
    if (call.given[SHOW_VERSION] != NULL) {
        return put_string("wattleslate " VERSION "\n");
    }
    if (call.count < word->least) {
        return bad_use(word->name, " wants ", word->wants);
    }
    if (call.count > word->most) {
        return too_many(word, call.operands[word->most]);
    }
    return word->run(&call);
}

int main(int count, char **arguments) {
    /* A message is one write, a line. */
    (void)setvbuf(stderr, NULL, _IOLBF, BUFSIZ);
    /* A pipe that nobody reads and a file that may not grow are told as any other output that cannot be written. */
    (void)signal(SIGPIPE, SIG_IGN);
    (void)signal(SIGXFSZ, SIG_IGN);
    enum status status = run(count > 0 ? arguments + 1 : arguments);
    return (int)worse(status, close_output());
}
