/* Reads values in the notation of tests/vectors/README.md, 850, "wind", #\x41, #t, (1 "a" (2)), and two forms that
   people type: #\A for a character, and \" for a quote in a string. */
#ifndef TOOLS_VALUES_H
#define TOOLS_VALUES_H

#include <stdio.h>
#include <tilde_table.h>

/* Why a text cannot be taken as a value: what is wrong, the byte of the text where it is, what to type, and whether it
   is a value and the table is full. */
struct complaint {
    const char *wrong;
    size_t at;
    const char *type;
    int full;
};

/* Adds the value of a text to the table. Answers 1, or 0 with the complaint set; the table then takes no more. */
int value_read(tilde_table *table, const char *text, size_t length, struct complaint *complaint);

/* Reads a whole number of 64 bits with an optional sign from all of a text. Answers 0 for any other text. */
int whole_read(const char *text, size_t length, int64_t *number);

/* Prints a complaint about the value that has this number on the command line. */
void value_complain(FILE *err, size_t number, const char *text, size_t length, const struct complaint *complaint);

#endif
