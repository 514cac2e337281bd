/* What to write in place of a wrong directive. */
#ifndef TOOLS_CORRECTING_H
#define TOOLS_CORRECTING_H

#include "reading.h"

/* Prints a lead, a colon and the bytes that can stand in the format in place of those from `start` to `end`; nothing
   where the library would still find a fault in them. Answers whether it printed. */
int propose(FILE *to, const char *lead, const struct format *format, size_t start, size_t end,
            const struct spelling *instead);

/* The same without a lead for a directive, with all its parameters and modifiers made to fit its letter, or that of ~a
   for a ~c with a width; nothing where a parameter would be lost. Only those that have no place by the hint may go, and
   a precision, which is told. */
int propose_fitting(FILE *to, const struct format *format, const struct directive *directive);

/* Whether a byte stands where a number belongs, or a number where a byte does. */
int parameter_misfits(const struct parameter *parameter, const struct place *place);

/* The first place of the rule with a parameter that misfits or is out of range; that behind the last where all fit. */
size_t first_wrong(const struct directive *directive, const struct rule *rule);

/* Whether the directive has a rule, and its parameters fit that. */
int directive_fits(const struct directive *directive);

#endif
