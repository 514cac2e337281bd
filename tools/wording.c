#include "wording.h"

#include <string.h>
#include <tilde_table.h>

#define MOST_NUMBERS 4

size_t print_numbers(FILE *to, const char *format, const uint64_t *numbers, size_t count)
{
    uint8_t room[TILDE_HEADER_BYTES + MOST_NUMBERS * TILDE_ENTRY_BYTES], text[256];
    size_t position, steps, written;
    tilde_table table;
    tilde_table_begin(&table, room, sizeof room);
    for (size_t i = 0; i < count; i++)
        tilde_table_integer(&table, (int64_t)numbers[i]);
    tilde_format((const uint8_t *)format, strlen(format), room, tilde_table_end(&table), text, sizeof text, &position,
                 &steps, &written);
    return fwrite(text, 1, written, to);
}

void print_number(FILE *to, uint64_t number)
{
    print_numbers(to, "~:d", &number, 1);
}

void print_ordinal(FILE *to, size_t number)
{
    static const char *const words[] = {"first", "second",  "third",  "fourth", "fifth",
                                        "sixth", "seventh", "eighth", "ninth",  "tenth"};
    if (number >= 1 && number <= 10) {
        fputs(words[number - 1], to);
        return;
    }
    const size_t last = number / 10 % 10 == 1 ? 0 : number % 10;
    fprintf(to, "%zu%s", number, last == 1 ? "st" : last == 2 ? "nd" : last == 3 ? "rd" : "th");
}

void print_count(FILE *to, uint64_t number, const char *thing)
{
    if (number == 0)
        fputs("no", to);
    else
        print_number(to, number);
    fprintf(to, " %s%s", thing, number > 1 ? "s" : "");
}
