/* The arguments in hand where a directive was refused. */
#ifndef TOOLS_HAND_H
#define TOOLS_HAND_H

#include "call.h"

#include <stdio.h>

/* How many arguments there are and the next one, from 0. They are entries of a table from `first` on, or without a
   table kinds alone. */
struct hand {
    const uint8_t *table, *kinds;
    size_t first, count, next;
};

/* Sets the hand at the directive at which a call is refused; answers 0 where it cannot be known. */
int hand_find(const struct call *call, uint32_t code, size_t position, struct hand *hand);

/* Sets the hand at the end of a line that is done; answers 0 where that cannot be known. */
int hand_at_end(const struct call *call, struct hand *hand);

/* The argument of the table, from 0, that argument i is, or whose list it is in. */
size_t hand_field(const struct hand *hand, size_t i);

/* The tilde_tag of argument i, which is there. */
unsigned hand_kind(const struct hand *hand, size_t i);

/* Prints which argument that is, as `the second argument`. */
void hand_name(FILE *to, const struct hand *hand, size_t i);

/* Prints its kind, and its value where that is known. */
void hand_show(FILE *to, const struct hand *hand, size_t i);

#endif
