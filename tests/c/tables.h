/* The table in hand, for the tests of tilde.h, not all of which have arguments of every kind: the builder of
   tilde_table.h with one table, every call of which is checked. Define _GNU_SOURCE before the first include. */
#ifndef TABLES_H
#define TABLES_H

#include "blocks.h"
#include <tilde_table.h>

/* The table in hand, its room, and its length once it is ended. */
static struct {
    tilde_table made;
    uint8_t bytes[TILDE_MOST_TABLE];
    size_t length;
} table;

static void begin(void)
{
    table.length = 0;
    expect(tilde_table_begin(&table.made, table.bytes, sizeof table.bytes), "a table begins", checks);
}

static inline void integer(int64_t number)
{
    expect(tilde_table_integer(&table.made, number), "an integer fits", checks);
}

static inline void character(uint8_t code)
{
    expect(tilde_table_character(&table.made, code), "a character fits", checks);
}

static inline void boolean(int truth)
{
    expect(tilde_table_boolean(&table.made, truth), "a boolean fits", checks);
}

static inline void bytes(const void *from, size_t length)
{
    expect(tilde_table_string(&table.made, from, length), "a string fits", checks);
}

static inline void list_begin(void)
{
    expect(tilde_table_list_begin(&table.made), "a list fits", checks);
}

static inline void list_end(void)
{
    expect(tilde_table_list_end(&table.made), "a list ends", checks);
}

/* Ends the table in hand where it is not ended yet. */
static size_t table_length(void)
{
    if (table.length == 0)
        table.length = tilde_table_end(&table.made);
    expect(table.length > 0, "a table ends", checks);
    return table.length;
}

/* The kinds of the arguments of the table in hand. */
static inline size_t argument_kinds(uint8_t *kinds)
{
    size_t ended = table_length(), count = (size_t)table.bytes[2] << 8 | table.bytes[3];
    expect(count <= ended / TILDE_ENTRY_BYTES, "arguments of a table", count);
    for (size_t i = 0; i < count; i++)
        kinds[i] = table.bytes[TILDE_HEADER_BYTES + TILDE_ENTRY_BYTES * i];
    return count;
}

/* Gives the list at an entry of the ended table other entries, below 256. The builder makes no lists that share any. */
static inline void share(size_t entry, uint8_t first, uint8_t count)
{
    uint8_t *list = table.bytes + TILDE_HEADER_BYTES + TILDE_ENTRY_BYTES * entry;
    expect(table_length() > 0 && list[0] == TILDE_LIST, "a list that can share", entry);
    list[7] = first;
    list[11] = count;
}

#endif
