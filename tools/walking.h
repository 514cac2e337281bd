/* A walk over the directives of a format, with the blocks that are open. */
#ifndef TOOLS_WALKING_H
#define TOOLS_WALKING_H

#include "reading.h"

/* An open block: its opener, how many separators came so far, the byte of a ~:; among them and 1, and how many
   arguments were taken where its clauses begin. */
struct block {
    struct directive opener;
    size_t separators, last, taken;
};

/* How far a walk has come, the open blocks, the outermost first, and how many arguments were taken on the way, as long
   as there are no jumps and no loops. */
struct walk {
    const struct format *format;
    size_t next;
    struct block open[MOST_LEVELS];
    size_t depth, taken;
};

/* Finds the next directive and stays before it; answers 0 at the end. */
int walk_find(struct walk *walk, struct directive *directive);

/* Goes past the directive that was found. A ninth level is not entered. */
void walk_past(struct walk *walk, const struct directive *directive);

/* The walk from the start up to a byte. */
struct walk walk_to(const struct format *format, size_t position);

/* The innermost open block; null where there is none. */
const struct block *walk_inside(const struct walk *walk);

/* The byte that closes a block, for the letter that opens it; 0 for any other letter. */
uint8_t closer_of(uint8_t letter);

/* Goes from a found opener to its closer, which is then found, and counts its separators; answers 0 where it is not
   closed. */
int walk_to_closer(struct walk *walk, const struct directive *opener, struct directive *closer, size_t *separators);

#endif
