/* Numbers in messages. */
#ifndef TOOLS_WORDING_H
#define TOOLS_WORDING_H

#include <stddef.h>
#include <stdint.h>
#include <stdio.h>

/* Prints a format over at most four numbers in one write, and answers how many bytes that are. */
size_t print_numbers(FILE *to, const char *format, const uint64_t *numbers, size_t count);

/* A number with a comma before each group of three digits. */
void print_number(FILE *to, uint64_t number);

/* `first` to `tenth`, then `11th` and so on. */
void print_ordinal(FILE *to, size_t number);

/* How many there are of a thing: `no argument`, `1 argument`, `2 arguments`. */
void print_count(FILE *to, uint64_t number, const char *thing);

#endif
