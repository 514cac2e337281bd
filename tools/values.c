#include "values.h"

#include "digits.h"
#include "show.h"

#include <string.h>

/* What to type in a string for bytes that cannot stand there, and how much a table holds. */
#define ESCAPES                                                                                                        \
    "\\n \\t \\r \\\\ \\\" \\s \\h are newline, tab, return, backslash, quote, space and #, and \\xHH any byte"
#define CAPACITY "at most 1,024 values, those in lists too, and 65,536 bytes of strings"

/* The text of a value as far as it is read. */
struct source {
    const char *text;
    size_t length, at;
    struct complaint *complaint;
};

static int complain(struct source *source, size_t at, const char *wrong, const char *type)
{
    *source->complaint = (struct complaint){wrong, at, type, 0};
    return 0;
}

static int no_room(struct source *source, size_t at)
{
    complain(source, at, "the table is full", CAPACITY);
    source->complaint->full = 1;
    return 0;
}

static int ahead(const struct source *source, char byte)
{
    return source->at < source->length && source->text[source->at] == byte;
}

static int is_blank(char byte)
{
    return byte == ' ' || byte == '\t';
}

/* The value of a hexadecimal digit; 16 for any other byte. */
static unsigned hex_value(char byte)
{
    if (is_digit(byte))
        return (unsigned)(byte - '0');
    if (byte >= 'a' && byte <= 'f')
        return (unsigned)(byte - 'a') + 10;
    return byte >= 'A' && byte <= 'F' ? (unsigned)(byte - 'A') + 10 : 16;
}

/* The byte of two hexadecimal digits; 256 where they do not stand there. */
static unsigned hex_byte(const struct source *source, size_t at)
{
    if (at + 2 > source->length)
        return 256;
    const unsigned high = hex_value(source->text[at]), low = hex_value(source->text[at + 1]);
    return high > 15 || low > 15 ? 256 : 16 * high + low;
}

int whole_read(const char *text, size_t length, int64_t *number)
{
    const int negative = length > 0 && text[0] == '-';
    const uint64_t most = negative ? (uint64_t)1 << 63 : ((uint64_t)1 << 63) - 1;
    size_t i = length > 0 && (negative || text[0] == '+') ? 1 : 0;
    uint64_t size = 0;
    if (i == length)
        return 0;
    for (; i < length; i++) {
        const uint64_t digit = (uint64_t)(text[i] - '0');
        if (!is_digit(text[i]) || size > (most - digit) / 10)
            return 0;
        size = 10 * size + digit;
    }
    /* of a negative number, -1 - number fits */
    *number = negative && size > 0 ? -(int64_t)(size - 1) - 1 : (int64_t)size;
    return 1;
}

/* Whether a value may end here: before a blank, a bracket, a quote, or the end. */
static int ends_value(const struct source *source, size_t at)
{
    return at >= source->length || is_blank(source->text[at]) || strchr("()\"", source->text[at]) != NULL;
}

static int complain_parted(struct source *source, size_t at)
{
    return complain(source, at, "values of a list are parted by a space", "(1 \"a\" (2))");
}

static int complain_digits(struct source *source, size_t from, size_t end)
{
    size_t at = from + (is_digit(source->text[from]) ? 0 : 1);
    if (at == end)
        return complain(source, from, "a sign stands before digits", "a number is 850 or -3");
    while (at < end && is_digit(source->text[at]))
        at++;
    if (at == end)
        return complain(source, from, "it does not fit in 64 bits",
                        "whole numbers go from -9223372036854775808 to 9223372036854775807");
    if (source->text[0] == '(' && strchr("\n\r\v\f", source->text[at]) != NULL)
        return complain_parted(source, at);
    if (source->text[at] == ',')
        return complain(source, at, "a whole number has no comma", "values of a list are parted by spaces: (1 2)");
    return complain(source, at, "a whole number has only digits", "any other text is a string, in double quotes");
}

static int read_number(struct source *source, tilde_table *table)
{
    const size_t from = source->at;
    size_t end = from;
    int64_t number;
    while (!ends_value(source, end))
        end++;
    if (!whole_read(source->text + from, end - from, &number))
        return complain_digits(source, from, end);
    source->at = end;
    return tilde_table_integer(table, number) || no_room(source, from);
}

/* A character: #\ and one byte, or #\x and two hexadecimal digits. */
static int read_character(struct source *source, tilde_table *table)
{
    const size_t from = source->at;
    if (source->length - from < 3)
        return complain(source, from, "a character stands behind #\\", "#\\A or, by its number, #\\x41");
    const unsigned hex = source->text[from + 2] == 'x' ? hex_byte(source, from + 3) : 256;
    const unsigned character = hex < 256 ? hex : (unsigned char)source->text[from + 2];
    const size_t end = from + (hex < 256 ? 5 : 3);
    if (character > 127)
        return complain(source, from + 2, "a character is 0 to 127", "a byte above 127 may stand in a string");
    if (!ends_value(source, end))
        return complain(source, end, "one byte is behind #\\, or x and two hexadecimal digits",
                        "newline is #\\x0a, tab #\\x09, space #\\x20");
    source->at = end;
    return tilde_table_character(table, character) || no_room(source, from);
}

static int read_hash(struct source *source, tilde_table *table)
{
    const size_t from = source->at;
    const char next = from + 1 < source->length ? source->text[from + 1] : '\0';
    if (next == '\\')
        return read_character(source, table);
    if ((next != 't' && next != 'f') || !ends_value(source, from + 2))
        return complain(source, from, "this is no boolean and no character", "#t or #f, or a character as #\\A");
    source->at = from + 2;
    return tilde_table_boolean(table, next == 't') || no_room(source, from);
}

/* The byte of a string that stands here, or of its escape; 256 after a complaint. */
static unsigned read_byte(struct source *source)
{
    static const char letters[] = "ntr\\\"sh", meant[] = "\n\t\r\\\" #";
    const size_t from = source->at;
    if (source->text[from] != '\\') {
        source->at++;
        return (unsigned char)source->text[from];
    }
    const char next = from + 1 < source->length ? source->text[from + 1] : '\0';
    const char *letter = next == '\0' ? NULL : strchr(letters, next);
    if (letter != NULL) {
        source->at = from + 2;
        return (unsigned char)meant[letter - letters];
    }
    const unsigned byte = next == 'x' ? hex_byte(source, from + 2) : 256;
    source->at = from + 4;
    if (byte > 255)
        complain(source, from, "this is no escape", ESCAPES);
    return byte;
}

/* `\*NNN(c)`: how often the byte stands there; 0 after a complaint. What follows is the byte and a bracket. */
static size_t read_times(struct source *source)
{
    const size_t from = source->at;
    size_t times = 0;
    source->at += 2;
    while (source->at < source->length && is_digit(source->text[source->at]) && times <= TILDE_MOST_POOL)
        times = 10 * times + (size_t)(source->text[source->at++] - '0');
    if (times == 0 || times > TILDE_MOST_POOL || !ahead(source, '(') || source->length - source->at < 2) {
        complain(source, from, "this repeats no byte", "\\*80(-) stands for 80 times -, and at most 65,536 times");
        return 0;
    }
    source->at++;
    return times;
}

/* The next byte of a string, as often as it stands there, behind the others. */
static int read_part(struct source *source, uint8_t *bytes, size_t *length)
{
    const size_t from = source->at;
    const int repeats = ahead(source, '\\') && source->length - from > 1 && source->text[from + 1] == '*';
    const size_t times = repeats ? read_times(source) : 1;
    const unsigned byte = times > 0 ? read_byte(source) : 256;
    if (byte > 255)
        return 0;
    if (repeats && !ahead(source, ')'))
        return complain(source, source->at, "a bracket closes what is repeated", "\\*80(-) stands for 80 times -");
    source->at += repeats ? 1 : 0;
    if (times > TILDE_MOST_POOL - *length)
        return no_room(source, from);
    memset(bytes + *length, (int)byte, times);
    *length += times;
    return 1;
}

static int read_string(struct source *source, tilde_table *table)
{
    uint8_t bytes[TILDE_MOST_POOL];
    const size_t from = source->at;
    size_t length = 0;
    source->at++;
    while (source->at < source->length && source->text[source->at] != '"')
        if (!read_part(source, bytes, &length))
            return 0;
    if (source->at >= source->length)
        return complain(source, from, "the string has no quote at its end",
                        "a string is \"wind\", and a quote in it \\\"");
    source->at++;
    return tilde_table_string(table, bytes, length) || no_room(source, from);
}

static int read_scalar(struct source *source, tilde_table *table)
{
    const char first = source->text[source->at];
    if (first == '"')
        return read_string(source, table);
    if (first == '#')
        return read_hash(source, table);
    if (is_digit(first) || first == '-' || first == '+')
        return read_number(source, table);
    return complain(source, source->at, first == ')' ? "this bracket closes no list" : "no value begins so",
                    "a string stands in double quotes");
}

/* One value, or a bracket of a list, and the blanks inside lists around it. */
static int read_item(struct source *source, tilde_table *table, size_t *depth)
{
    const size_t from = source->at;
    if (ahead(source, '(')) {
        source->at++;
        ++*depth;
        return tilde_table_list_begin(table) || no_room(source, from);
    }
    if (*depth > 0 && ahead(source, ')')) {
        source->at++;
        --*depth;
        tilde_table_list_end(table);
    } else if (!read_scalar(source, table)) {
        return 0;
    }
    if (*depth > 0 && source->at < source->length && !is_blank(source->text[source->at]) && !ahead(source, ')'))
        return complain_parted(source, source->at);
    return 1;
}

int value_read(tilde_table *table, const char *text, size_t length, struct complaint *complaint)
{
    struct source source = {text, length, 0, complaint};
    size_t depth = 0;
    if (length == 0)
        return complain(&source, 0, "it is empty", "an empty string is \"\"");
    do {
        if (!read_item(&source, table, &depth))
            return 0;
        while (depth > 0 && source.at < length && is_blank(text[source.at]))
            source.at++;
    } while (depth > 0 && source.at < length);
    if (depth > 0)
        return complain(&source, length, "a list is not closed", "( and ) in pairs, as in (1 \"a\" (2))");
    if (source.at < length)
        return complain(&source, source.at, "more stands behind the value",
                        "a list of values is (1 2), and a quote in a string \\\"");
    return 1;
}

void value_complain(FILE *err, size_t number, const char *text, size_t length, const struct complaint *complaint)
{
    fprintf(err, "tilde: value %zu, ", number);
    show_word(err, text, length);
    if (complaint->full) {
        fprintf(err, ", is too much: %s; %s\n", complaint->wrong, complaint->type);
        return;
    }
    fprintf(err, ", is no value: %s, at byte %zu; %s\n", complaint->wrong, complaint->at, complaint->type);
    fputs("  Values, as a shell takes them: 850  '\"wind\"'  '#\\A'  '#t'  '(1 \"a\" (2))'\n", err);
    if (length == 0 || strchr("\"#()", text[0]) != NULL)
        return;
    fputs("  As a string: ", err);
    if (!show_string_word(err, text, length))
        fputs("in double quotes, and these in single ones", err);
    fputc('\n', err);
}
