/* The fields of a row, which tabs part, as the arguments of a table. */
#ifndef TOOLS_FIELDS_H
#define TOOLS_FIELDS_H

#include "values.h"

/* The kinds of the fields, a tilde_tag for each. */
struct kinds {
    uint8_t tags[TILDE_MOST_KINDS];
    size_t count;
};

/* Why a row gives no table. */
struct fault {
    /* the first bad field, from 1 on; 0 where the row has another number of fields than there are kinds */
    size_t field;
    /* those kinds, and the fields that the row has */
    size_t wanted, found;
    /* the kind and the bytes of the bad field */
    uint8_t kind;
    const uint8_t *bytes;
    size_t length;
    /* what it is not, and what the reader of values says of it, with wrong a null pointer where it says nothing */
    const char *wrong;
    struct complaint complaint;
};

/* Adds each field to a table that was begun. Answers 1, or 0 with the fault set; it lies in the row. */
int fields_read(tilde_table *table, const struct kinds *kinds, const uint8_t *row, size_t length, struct fault *fault);

/* Prints a fault behind the number of its row, and a newline. */
void fault_print(FILE *err, const struct fault *fault);

#endif
