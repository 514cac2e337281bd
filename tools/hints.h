/* What is wrong at a refused place of a format, in a few words, and what to write instead. Each prints one text without
   a newline. */
#ifndef TOOLS_HINTS_H
#define TOOLS_HINTS_H

#include "correcting.h"
#include "hand.h"
#include "walking.h"

/* Codes 3, 4 and 5, which the text alone decides. */
void hint_unknown(FILE *to, const struct format *format, const struct directive *directive);
void hint_block(FILE *to, const struct format *format, const struct directive *directive);
void hint_parameter(FILE *to, const struct format *format, const struct directive *directive);

/* Codes 6, 7 and 8; the hand is null where it could not be known. */
void hint_argument(FILE *to, const struct directive *directive, uint32_t code, const struct hand *hand);

/* Code 9, at any byte. */
void hint_steps(FILE *to, const struct call *call, size_t position);

/* Code 11 of a vet. */
void hint_not_plain(FILE *to, const struct format *format, const struct directive *directive, const struct hand *hand);

#endif
