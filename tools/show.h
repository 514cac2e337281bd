/* Bytes and values as a terminal can show them, in the notation of tests/vectors/README.md. */
#ifndef TOOLS_SHOW_H
#define TOOLS_SHOW_H

#include <stdint.h>
#include <stdio.h>

/* One character as it is shown, which is no longer than an escape or a character of UTF-8, and how many bytes it took
   and columns it takes. */
struct shown {
    char text[5];
    size_t bytes, columns;
};

/* How many bytes the character of UTF-8 at the start has; 0 where none stands there, or its bytes end too soon. */
size_t utf8_length(const uint8_t *bytes, size_t length);

/* Whether a terminal shows the first `taken` bytes, one character, as text: no control but newline and tab, and none
   that changes the direction of what follows. */
int is_text(const uint8_t *bytes, size_t taken);

/* The first character of at least one byte: as it is, or escaped if it is a control, a backslash or no UTF-8. */
struct shown show_next(const uint8_t *bytes, size_t length);

/* The same inside a string, where a quote is escaped too. */
struct shown show_quoted(const uint8_t *bytes, size_t length);

/* Whether a byte of a format is shown by an escape, a backslash aside. Only then is a backslash doubled: else the
   format is shown as it was typed. */
int format_escaped(const uint8_t *bytes, size_t length);

/* The first character of a format, where columns are counted: one whose columns are not known for sure is escaped. */
struct shown show_format(const uint8_t *bytes, size_t length, int escaped);

/* Prints all of the bytes as they stand in a string. */
void show_bytes(FILE *to, const uint8_t *bytes, size_t length);

/* Prints the bytes as a string, in quotes and shortened: the first ones of a long string and `..`. */
void show_string(FILE *to, const uint8_t *bytes, size_t length);

/* Prints the last ones of the bytes as a string, with `..` before them where there were more. */
void show_end(FILE *to, const uint8_t *bytes, size_t length, int more);

/* Prints an entry of a good table as a value, shortened. */
void show_value(FILE *to, const uint8_t *table, size_t entry);

/* Prints a text as one word of a shell's command line; of a very long one the first bytes and `..`. */
void show_word(FILE *to, const char *text, size_t length);

/* Prints as such a word the string that a text can be given as; answers 0 where it is too long to be of use. */
int show_string_word(FILE *to, const char *text, size_t length);

#endif
