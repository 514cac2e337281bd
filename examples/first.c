/* Formats one line and prints it:

       gcc -std=c99 -o first first.c $(pkg-config --cflags --libs tilde) */
#include <stdio.h>
#include <tilde_table.h>

int main(void)
{
    static const char format[] = "~12a ~5d hPa, ~d gust~:p~%";
    uint8_t room[256], line[256];
    size_t position, steps, written;
    tilde_table table;

    /* the values, in the order in which the format takes them */
    tilde_table_begin(&table, room, sizeof room);
    tilde_table_string(&table, "Harlingen", 9);
    tilde_table_integer(&table, 1013);
    tilde_table_integer(&table, 3);
    const size_t length = tilde_table_end(&table);

    const uint32_t code = tilde_format((const uint8_t *)format, sizeof format - 1, room, length, line, sizeof line,
                                       &position, &steps, &written);
    if (code != TILDE_DONE) {
        fprintf(stderr, "first: refused (%u): %s, at byte %zu\n", (unsigned)code, tilde_words(code), position);
        return 1;
    }
    if (fwrite(line, 1, written, stdout) != written || fflush(stdout) != 0) {
        perror("first: standard output");
        return 2;
    }
    return 0;
}
