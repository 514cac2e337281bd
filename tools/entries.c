#include "entries.h"

#include <tilde.h>

static uint64_t big_endian(const uint8_t *from, size_t bytes)
{
    uint64_t number = 0;
    for (size_t i = 0; i < bytes; i++)
        number = number << 8 | from[i];
    return number;
}

size_t arguments_of(const uint8_t *table)
{
    return big_endian(table + 2, 2);
}

struct entry entry_at(const uint8_t *table, size_t i)
{
    const uint8_t *from = table + TILDE_HEADER_BYTES + TILDE_ENTRY_BYTES * i;
    const size_t pool = TILDE_HEADER_BYTES + TILDE_ENTRY_BYTES * big_endian(table, 2);
    struct entry entry = {.tag = from[0], .length = big_endian(from + 8, 4)};
    if (entry.tag == TILDE_STRING)
        entry.bytes = table + pool + big_endian(from + 4, 4);
    else if (entry.tag == TILDE_LIST)
        entry.first = big_endian(from + 4, 4);
    else
        entry.number = (int64_t)big_endian(from + 4, 8);
    return entry;
}
