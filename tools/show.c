#include "show.h"

#include "entries.h"

#include <inttypes.h>
#include <string.h>
#include <tilde.h>

/* A shortened string shows about so many bytes, a shortened list so many values. */
#define SHORT_STRING ((size_t)32)
#define SHORT_LIST ((size_t)4)
/* A word of a command line shows no more bytes than this. */
#define SHORT_WORD ((size_t)200)

size_t utf8_length(const uint8_t *bytes, size_t length)
{
    const uint8_t lead = bytes[0];
    const size_t wanted = lead < 0x80 ? 1 : lead < 0xc2 ? 0 : lead < 0xe0 ? 2 : lead < 0xf0 ? 3 : lead < 0xf5 ? 4 : 0;
    if (wanted > length)
        return 0;
    for (size_t i = 1; i < wanted; i++)
        if ((bytes[i] & 0xc0) != 0x80)
            return 0;
    /* too long a form, a surrogate, or above 0x10ffff */
    if ((lead == 0xe0 && bytes[1] < 0xa0) || (lead == 0xed && bytes[1] >= 0xa0) || (lead == 0xf0 && bytes[1] < 0x90) ||
        (lead == 0xf4 && bytes[1] >= 0x90))
        return 0;
    return wanted;
}

/* The number of the character of UTF-8 that has these bytes. */
static uint32_t number_of(const uint8_t *bytes, size_t taken)
{
    uint32_t number = taken == 1 ? bytes[0] : bytes[0] & (0x7fu >> taken);
    for (size_t i = 1; i < taken; i++)
        number = number << 6 | (bytes[i] & 0x3fu);
    return number;
}

/* Characters from one to another, and the columns of each where these matter. */
struct range {
    uint32_t first, last;
    size_t columns;
};

/* The range that a character is in; null where it is in none of them. */
static const struct range *range_of(const struct range *ranges, size_t count, uint32_t number)
{
    for (size_t i = 0; i < count; i++)
        if (number >= ranges[i].first && number <= ranges[i].last)
            return ranges + i;
    return NULL;
}

int is_text(const uint8_t *bytes, size_t taken)
{
    static const struct range controls[] = {
        {0, 8, 0},           {11, 31, 0},         {127, 0x9f, 0},     {0x61c, 0x61c, 0},
        {0x200e, 0x200f, 0}, {0x202a, 0x202e, 0}, {0x2066, 0x2069, 0}};
    return taken > 0 && range_of(controls, sizeof controls / sizeof controls[0], number_of(bytes, taken)) == NULL;
}

/* The columns of a text character that terminals agree on; 0 for all others, as combining marks and emoji. */
static size_t sure_columns(uint32_t number)
{
    static const struct range known[] = {
        {32, 126, 1},        {0xa0, 0xac, 1},     {0xae, 0x2ff, 1},    {0x370, 0x482, 1},   {0x48a, 0x52f, 1},
        {0x1e00, 0x1fff, 1}, {0x2010, 0x2027, 1}, {0x2030, 0x205e, 1}, {0x20a0, 0x20bf, 1}, {0x2190, 0x2193, 1},
        {0x2200, 0x22ff, 1}, {0x2500, 0x257f, 1}, {0x3001, 0x3029, 2}, {0x3041, 0x3096, 2}, {0x30a1, 0x30fa, 2},
        {0x4e00, 0x9fff, 2}, {0xac00, 0xd7a3, 2}, {0xff01, 0xff60, 2}};
    const struct range *range = range_of(known, sizeof known / sizeof known[0], number);
    return range == NULL ? 0 : range->columns;
}

static struct shown show_escaped(uint8_t byte)
{
    struct shown shown = {.bytes = 1, .columns = 4};
    snprintf(shown.text, sizeof shown.text, "\\x%02x", (unsigned)byte);
    return shown;
}

struct shown show_next(const uint8_t *bytes, size_t length)
{
    static const char controls[] = "\n\t\r\\", letters[] = "ntr\\";
    struct shown shown = {.bytes = utf8_length(bytes, length), .columns = 1};
    const char *control = bytes[0] == 0 ? NULL : strchr(controls, bytes[0]);
    if (control != NULL) {
        shown.text[0] = '\\';
        shown.text[1] = letters[control - controls];
        shown.columns = 2;
    } else if (is_text(bytes, shown.bytes)) {
        memcpy(shown.text, bytes, shown.bytes);
    } else {
        shown = show_escaped(bytes[0]);
    }
    return shown;
}

struct shown show_format(const uint8_t *bytes, size_t length, int escaped)
{
    static const struct shown backslash = {"\\", 1, 1};
    struct shown shown = show_next(bytes, length);
    if (bytes[0] == '\\')
        return escaped ? shown : backslash;
    if (shown.columns == 1)
        shown.columns = sure_columns(number_of(bytes, shown.bytes));
    return shown.columns == 0 ? show_escaped(bytes[0]) : shown;
}

int format_escaped(const uint8_t *bytes, size_t length)
{
    for (size_t i = 0; i < length;) {
        const struct shown shown = show_format(bytes + i, length - i, 0);
        if (shown.text[0] == '\\' && bytes[i] != '\\')
            return 1;
        i += shown.bytes;
    }
    return 0;
}

struct shown show_quoted(const uint8_t *bytes, size_t length)
{
    static const struct shown quote = {"\\x22", 1, 4};
    return bytes[0] == '"' ? quote : show_next(bytes, length);
}

void show_bytes(FILE *to, const uint8_t *bytes, size_t length)
{
    while (length > 0) {
        const struct shown shown = show_quoted(bytes, length);
        fputs(shown.text, to);
        bytes += shown.bytes;
        length -= shown.bytes;
    }
}

/* Whether a byte goes on with a character that began before it. */
static int goes_on(uint8_t byte)
{
    return (byte & 0xc0) == 0x80;
}

void show_string(FILE *to, const uint8_t *bytes, size_t length)
{
    size_t some = length;
    if (length > SHORT_STRING + 8) {
        some = SHORT_STRING;
        while (some > SHORT_STRING - 4 && goes_on(bytes[some]))
            some--;
    }
    fputc('"', to);
    show_bytes(to, bytes, some);
    fputs(some < length ? "..\"" : "\"", to);
}

void show_end(FILE *to, const uint8_t *bytes, size_t length, int more)
{
    size_t from = 0;
    if (length > SHORT_STRING + 8) {
        from = length - SHORT_STRING;
        while (from < length - SHORT_STRING + 4 && goes_on(bytes[from]))
            from++;
    }
    fputs(from > 0 || more ? "\".." : "\"", to);
    show_bytes(to, bytes + from, length - from);
    fputc('"', to);
}

static void show_character(FILE *to, int64_t character)
{
    if (character > 32 && character < 127)
        fprintf(to, "#\\%c", (char)character);
    else
        fprintf(to, "#\\x%02x", (unsigned)character);
}

/* Prints an entry; of a list inside a list only that it is one. */
static void show_member(FILE *to, const uint8_t *table, size_t i)
{
    const struct entry entry = entry_at(table, i);
    switch (entry.tag) {
    case TILDE_BOOLEAN:
        fputs(entry.number ? "#t" : "#f", to);
        break;
    case TILDE_INTEGER:
        fprintf(to, "%" PRId64, entry.number);
        break;
    case TILDE_CHARACTER:
        show_character(to, entry.number);
        break;
    case TILDE_STRING:
        show_string(to, entry.bytes, entry.length);
        break;
    default:
        fputs(entry.length > 0 ? "(..)" : "()", to);
    }
}

void show_value(FILE *to, const uint8_t *table, size_t i)
{
    const struct entry entry = entry_at(table, i);
    if (entry.tag != TILDE_LIST) {
        show_member(to, table, i);
        return;
    }
    fputc('(', to);
    for (size_t j = 0; j < entry.length && j < SHORT_LIST; j++) {
        fputs(j > 0 ? " " : "", to);
        show_member(to, table, entry.first + j);
    }
    fputs(entry.length > SHORT_LIST ? " ..)" : ")", to);
}

/* A byte that a shell takes as it stands, wherever it is in a word. */
static int is_plain(char byte)
{
    return (byte >= 'a' && byte <= 'z') || (byte >= 'A' && byte <= 'Z') || (byte >= '0' && byte <= '9') ||
           (byte != '\0' && strchr("-_.,/:@%+=", byte) != NULL);
}

/* What a word needs, the least first: no quotes, single ones, double ones, or those in which bytes can be escaped. */
enum quotes { QUOTES_NONE, QUOTES_SINGLE, QUOTES_DOUBLE, QUOTES_ESCAPING };

/* The quotes for a word with a single quote in it are double, if nothing in it has a meaning there. */
static enum quotes quotes_for(const char *text, size_t length)
{
    int plain = length > 0, single = 0, special = 0, escaped = 0;
    for (size_t i = 0; i < length;) {
        const struct shown shown = show_next((const uint8_t *)text + i, length - i);
        plain = plain && is_plain(text[i]);
        single = single || text[i] == '\'';
        special = special || (text[i] != '\0' && strchr("$`\\\"!", text[i]) != NULL);
        escaped = escaped || (shown.columns > 1 && text[i] != '\\');
        i += shown.bytes;
    }
    if (escaped || (single && special))
        return QUOTES_ESCAPING;
    return plain ? QUOTES_NONE : single ? QUOTES_DOUBLE : QUOTES_SINGLE;
}

void show_word(FILE *to, const char *text, size_t length)
{
    static const char *const begins[] = {"", "'", "\"", "$'"}, *const ends[] = {"", "'", "\"", "'"};
    const size_t some = length > SHORT_WORD + 8 ? SHORT_WORD : length;
    const enum quotes quotes = quotes_for(text, some);
    fputs(begins[quotes], to);
    for (size_t i = 0; i < some;) {
        const struct shown shown = show_next((const uint8_t *)text + i, length - i);
        if (quotes == QUOTES_ESCAPING)
            fputs(text[i] == '\'' ? "\\'" : shown.text, to);
        else
            fwrite(text + i, 1, shown.bytes, to);
        i += shown.bytes;
    }
    fprintf(to, "%s%s", some < length ? ".." : "", ends[quotes]);
}

int show_string_word(FILE *to, const char *text, size_t length)
{
    char string[SHORT_WORD] = "\"";
    size_t used = 1;
    for (size_t i = 0; i < length;) {
        const struct shown shown = show_quoted((const uint8_t *)text + i, length - i);
        const size_t size = strlen(shown.text);
        if (used + size + 1 > sizeof string)
            return 0;
        memcpy(string + used, shown.text, size);
        used += size;
        i += shown.bytes;
    }
    string[used++] = '"';
    show_word(to, string, used);
    return 1;
}
