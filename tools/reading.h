/* One directive of a format, read as far as it can be understood, and so past what is wrong in it. */
#ifndef TOOLS_READING_H
#define TOOLS_READING_H

#include "rules.h"

struct format {
    const uint8_t *bytes;
    size_t length;
};

/* What is written in a place: nothing, a number, a byte after a quote, v, or #. */
enum form { FORM_EMPTY, FORM_NUMBER, FORM_BYTE, FORM_NEXT, FORM_REMAINING };

/* What makes a number bad wherever it stands. */
enum badness { NUMBER_GOOD, SIGN_ALONE, NUMBER_BELOW, NUMBER_ABOVE };

/* A parameter: its value is that of the number without its sign, at most MOST_NUMBER + 1, or the byte. */
struct parameter {
    enum form form;
    unsigned value;
    enum badness badness;
};

/* The first thing at which the reading leaves the shape of a directive. */
enum slip { SLIP_NONE, SLIP_NUMBER, SLIP_MODIFIER, SLIP_LATE, SLIP_COMMA, SLIP_END };

/* What was written and is not among the parameters that are kept: nothing, a precision, which no directive has, or
   another parameter. */
enum loss { LOST_NOTHING, LOST_PRECISION, LOST_PARAMETER };

/* A directive from its tilde to behind its code. Of many parameters only those that could have a place are kept. */
struct directive {
    size_t start, end;
    struct parameter parameters[MOST_PLACES];
    size_t count;
    int colon, at;
    uint8_t code;
    /* a bad number, a modifier again, a parameter behind a modifier, one without its comma, or the end of the format */
    enum slip slip;
    enum loss lost;
};

/* Reads the directive whose tilde is at `start`. */
struct directive directive_read(const struct format *format, size_t start);

/* Prints its letter and modifiers, without parameters. */
void directive_name(FILE *to, const struct directive *directive);

/* Its rule; null for an unknown letter, or modifiers that it does not take. */
const struct rule *directive_rule(const struct directive *directive);

/* The first place with a v; MOST_PLACES where there is none. */
size_t directive_v(const struct directive *directive);

/* Whether it takes an argument of its own: ~c and ~[ do not where a number says all. */
int takes_argument(const struct directive *directive);

/* A directive as bytes. */
struct spelling {
    uint8_t bytes[64];
    size_t length;
};

/* The directive written out as the library reads it. */
struct spelling directive_spell(const struct directive *directive);

#endif
