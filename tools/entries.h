/* The entries of a good table, read back. */
#ifndef TOOLS_ENTRIES_H
#define TOOLS_ENTRIES_H

#include <stddef.h>
#include <stdint.h>

/* An entry: its tilde_tag, and by that a number (boolean, integer, character), the bytes of a string, or the first
   entry of a list; length is that of the string or list. */
struct entry {
    uint8_t tag;
    int64_t number;
    const uint8_t *bytes;
    size_t first, length;
};

struct entry entry_at(const uint8_t *table, size_t i);

/* How many arguments the table has. */
size_t arguments_of(const uint8_t *table);

#endif
