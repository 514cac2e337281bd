#include "excerpt.h"

#include "show.h"

/* A part has at most so many columns, and so many of them before the place. */
#define MOST_COLUMNS ((size_t)72)
#define COLUMNS_BEFORE ((size_t)30)

/* Where the place stands, in columns from the start of the format, and how many columns it has; and whether bytes of
   the format are escaped. */
struct columns {
    size_t before, under, all;
    int escaped;
};

static struct columns measure(const uint8_t *format, size_t length, size_t start, size_t end)
{
    struct columns columns = {.escaped = format_escaped(format, length)};
    for (size_t i = 0; i < length;) {
        const struct shown shown = show_format(format + i, length - i, columns.escaped);
        if (i + shown.bytes <= start)
            columns.before += shown.columns;
        else if (i < end)
            columns.under += shown.columns;
        columns.all += shown.columns;
        i += shown.bytes;
    }
    return columns;
}

/* Prints the characters from one column to another. Answers the column of the first, which may be an escape that began
   before, and sets that behind the last. */
static size_t print_part(FILE *to, const uint8_t *format, size_t length, int escaped, size_t from, size_t *until)
{
    size_t column = 0, first = SIZE_MAX;
    for (size_t i = 0; i < length;) {
        const struct shown shown = show_format(format + i, length - i, escaped);
        if (column >= from && column + shown.columns <= *until) {
            first = first == SIZE_MAX ? column : first;
            fputs(shown.text, to);
        } else if (column >= from) {
            break;
        }
        column += shown.columns;
        i += shown.bytes;
    }
    *until = column;
    return first == SIZE_MAX ? column : first;
}

static void repeat(FILE *to, char byte, size_t times)
{
    for (size_t i = 0; i < times; i++)
        fputc(byte, to);
}

size_t excerpt_print(FILE *to, const uint8_t *format, size_t length, size_t start, size_t end)
{
    const struct columns columns = measure(format, length, start, end);
    const int whole = columns.all <= MOST_COLUMNS;
    const size_t from = whole || columns.before <= COLUMNS_BEFORE ? 0 : columns.before - COLUMNS_BEFORE;
    size_t until = from + MOST_COLUMNS;
    fputs(from > 0 ? "  .." : "  ", to);
    const size_t first = print_part(to, format, length, columns.escaped, from, &until);
    fputs(until < columns.all ? "..\n" : "\n", to);
    const size_t left = until - columns.before, under = columns.under < left ? columns.under : left;
    const size_t indent = (from > 0 ? 4 : 2) + columns.before - first, mark = under > 0 ? under : 1;
    repeat(to, ' ', indent);
    fputc('^', to);
    repeat(to, '~', mark - 1);
    return indent + mark;
}
