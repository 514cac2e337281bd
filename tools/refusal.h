/* A refusal as an operator reads it: code, words and position, the place in the format, what is wrong there and what to
   write instead. */
#ifndef TOOLS_REFUSAL_H
#define TOOLS_REFUSAL_H

#include "call.h"

#include <stdio.h>

/* Prints the refusal of a call of format, with what was written before it. */
void refusal_print(FILE *err, const struct call *call, uint32_t code, size_t position);

/* Prints the refusal of a call over the fields of a row as the rest of a line that names the row. */
void refusal_print_row(FILE *err, const struct call *call, uint32_t code, size_t position);

/* What a vet is asked. */
struct question {
    const uint8_t *format;
    size_t format_length;
    const uint8_t *kinds;
    size_t kinds_length, longest;
};

/* Prints the refusal of a vet. */
void refusal_print_vet(FILE *err, const struct question *question, uint32_t code, size_t position);

#endif
