/* Makes an argument table for tilde_format in lent room, value by value; takes no memory.

       uint8_t room[256];
       tilde_table table;
       tilde_table_begin(&table, room, sizeof room);
       tilde_table_string(&table, "Harlingen", 9);
       tilde_table_list_begin(&table);
       tilde_table_integer(&table, -3);
       tilde_table_boolean(&table, 1);
       tilde_table_list_end(&table);
       size_t length = tilde_table_end(&table);

   is the table of two arguments, a string and a list of two values. Each call answers 1 where what it adds fitted, and
   0 where it did not: the room is used up, there would be more than TILDE_MOST_ENTRIES values or TILDE_MOST_POOL bytes
   of strings, a character is above 127, or a list ends that was not begun. After the first 0, and after
   tilde_table_end, every call answers 0 until the next begin, so it is enough to look at what tilde_table_end answers.
   A table that it made passes the check of tilde_format: TILDE_BAD_TABLE never comes of it. It takes
   TILDE_HEADER_BYTES, TILDE_ENTRY_BYTES for each value, those inside lists and the lists themselves too, and the bytes
   of the strings; no more room is needed on the way, and nothing outside the room is written. What the room holds on
   the way, or after a 0, is no table. */
#ifndef TILDE_TABLE_H
#define TILDE_TABLE_H

#include "tilde.h"

#include <string.h>

#ifdef __cplusplus
extern "C" {
#endif

/* With so many bytes of room every table fits that there can be. */
#define TILDE_MOST_TABLE (TILDE_HEADER_BYTES + TILDE_ENTRY_BYTES * TILDE_MOST_ENTRIES + TILDE_MOST_POOL)

/* A table as it grows. Until the end its values stand behind the header in the order in which they came, a list before
   what it holds, and its strings at the far end of the room, the last one first. */
typedef struct {
    uint8_t *room;
    size_t size;
    /* the values so far, those of them outside every list, and the bytes of the strings so far */
    size_t entries, arguments, pool;
    /* the number of the innermost open list and 1; 0 outside every list */
    size_t list;
    /* whether all that came has fitted */
    int fits;
} tilde_table;

/* For the functions below alone: words of four bytes and values of eight, big-endian. Written out, without a loop, each
   is one or two instructions. */
static inline void tilde_table_put(uint8_t *to, uint32_t word)
{
    to[0] = (uint8_t)(word >> 24);
    to[1] = (uint8_t)(word >> 16);
    to[2] = (uint8_t)(word >> 8);
    to[3] = (uint8_t)word;
}

static inline void tilde_table_put_value(uint8_t *to, uint64_t value)
{
    to[0] = (uint8_t)(value >> 56);
    to[1] = (uint8_t)(value >> 48);
    to[2] = (uint8_t)(value >> 40);
    to[3] = (uint8_t)(value >> 32);
    to[4] = (uint8_t)(value >> 24);
    to[5] = (uint8_t)(value >> 16);
    to[6] = (uint8_t)(value >> 8);
    to[7] = (uint8_t)value;
}

static inline uint32_t tilde_table_get(const uint8_t *from)
{
    return (uint32_t)from[0] << 24 | (uint32_t)from[1] << 16 | (uint32_t)from[2] << 8 | from[3];
}

/* For the functions below alone: entry i, a word and a value. */
static inline uint8_t *tilde_table_entry(const tilde_table *table, size_t i)
{
    return table->room + TILDE_HEADER_BYTES + TILDE_ENTRY_BYTES * i;
}

/* Begins a table in `size` bytes of room. Null with size 0 is room in which nothing fits. */
static inline int tilde_table_begin(tilde_table *table, uint8_t *room, size_t size)
{
    table->room = room;
    /* no table takes more, and its strings stay near its entries */
    table->size = size < TILDE_MOST_TABLE ? size : TILDE_MOST_TABLE;
    table->entries = 0;
    table->arguments = 0;
    table->pool = 0;
    table->list = 0;
    table->fits = size >= TILDE_HEADER_BYTES;
    return table->fits;
}

/* For the functions below alone: an entry, with room for so many bytes of a string. Until the end its three zero bytes
   hold the list that it is in, as above, and how many values came before it elsewhere: outside that list, or inside any
   where it is in none. So they are zero as long as no list has a value. */
static inline int tilde_table_add(tilde_table *table, uint8_t tag, uint64_t value, size_t string)
{
    uint8_t *entry;
    size_t before = table->arguments;
    if (!table->fits || table->entries == TILDE_MOST_ENTRIES || string > TILDE_MOST_POOL - table->pool ||
        table->size - TILDE_HEADER_BYTES - TILDE_ENTRY_BYTES * table->entries - table->pool <
            TILDE_ENTRY_BYTES + string) {
        table->fits = 0;
        return 0;
    }
    if (table->list == 0) {
        table->arguments++;
    } else {
        entry = tilde_table_entry(table, table->list - 1);
        before = tilde_table_get(entry + 8);
        tilde_table_put(entry + 8, (uint32_t)before + 1);
    }
    entry = tilde_table_entry(table, table->entries);
    tilde_table_put(entry, (uint32_t)tag << 24 | (uint32_t)(table->list << 12 | (table->entries - before)));
    tilde_table_put_value(entry + 4, value);
    table->entries++;
    table->pool += string;
    return 1;
}

static inline int tilde_table_boolean(tilde_table *table, int truth)
{
    return tilde_table_add(table, TILDE_BOOLEAN, truth ? 1 : 0, 0);
}

static inline int tilde_table_integer(tilde_table *table, int64_t number)
{
    return tilde_table_add(table, TILDE_INTEGER, (uint64_t)number, 0);
}

/* A character, 0 to 127. */
static inline int tilde_table_character(tilde_table *table, unsigned character)
{
    table->fits = table->fits && character <= 127;
    return tilde_table_add(table, TILDE_CHARACTER, character, 0);
}

/* A copy of `length` bytes, which must not lie in the room. With length 0 the pointer may be null. */
static inline int tilde_table_string(tilde_table *table, const void *bytes, size_t length)
{
    /* until the end its offset is counted from the end of the pool backwards */
    const uint64_t offset = table->pool + length;
    if (!tilde_table_add(table, TILDE_STRING, offset << 32 | length, length))
        return 0;
    if (length > 0)
        memcpy(table->room + table->size - table->pool, bytes, length);
    return 1;
}

/* Begins a list: what comes up to its tilde_table_list_end is in it, other lists too. */
static inline int tilde_table_list_begin(tilde_table *table)
{
    /* until the end it holds the list around it, and how many values it has */
    const uint64_t around = table->list;
    if (!tilde_table_add(table, TILDE_LIST, around << 32, 0))
        return 0;
    table->list = table->entries;
    return 1;
}

static inline int tilde_table_list_end(tilde_table *table)
{
    table->fits = table->fits && table->list > 0;
    if (!table->fits)
        return 0;
    table->list = tilde_table_get(tilde_table_entry(table, table->list - 1) + 4);
    return 1;
}

/* For tilde_table_end alone: the offset of a string, and the first entry of a list. The values of a list stand together
   behind all that came before, so each list is before what it holds. */
static inline void tilde_table_settle(const tilde_table *table, size_t i, uint32_t *next)
{
    uint8_t *entry = tilde_table_entry(table, i);
    if (entry[0] == TILDE_LIST) {
        tilde_table_put(entry + 4, *next);
        *next += tilde_table_get(entry + 8);
    } else if (entry[0] == TILDE_STRING) {
        tilde_table_put(entry + 4, (uint32_t)table->pool - tilde_table_get(entry + 4));
    }
}

/* For tilde_table_end alone: the number that entry i is to have, instead of what tilde_table_add put there. */
static inline void tilde_table_number(const tilde_table *table, size_t i)
{
    uint8_t *entry = tilde_table_entry(table, i);
    const uint32_t word = tilde_table_get(entry), list = word >> 12 & 0xfff, elsewhere = word & 0xfff;
    const uint32_t first = list == 0 ? 0 : tilde_table_get(tilde_table_entry(table, list - 1) + 4);
    tilde_table_put(entry, (uint32_t)entry[0] << 24 | (first + (uint32_t)i - elsewhere));
}

/* For tilde_table_end alone: entry i is exchanged for others until it is the one that is to have this number. */
static inline void tilde_table_bring(const tilde_table *table, size_t i)
{
    uint8_t *entry = tilde_table_entry(table, i), *there, other[TILDE_ENTRY_BYTES];
    size_t number;
    while ((number = tilde_table_get(entry) & 0xffffff) != i) {
        there = tilde_table_entry(table, number);
        memcpy(other, there, TILDE_ENTRY_BYTES);
        memcpy(there, entry, TILDE_ENTRY_BYTES);
        memcpy(entry, other, TILDE_ENTRY_BYTES);
    }
    tilde_table_put(entry, (uint32_t)entry[0] << 24);
}

/* Ends the table and answers its length in bytes, from the start of the room; 0 if something did not fit or a list is
   still open. */
static inline size_t tilde_table_end(tilde_table *table)
{
    uint32_t next = (uint32_t)table->arguments;
    uint8_t *pool;
    size_t i;
    const int whole = table->fits && table->list == 0;
    /* what comes before the next begin does not fit */
    table->fits = 0;
    if (!whole)
        return 0;
    for (i = 0; i < table->entries; i++)
        tilde_table_settle(table, i, &next);
    /* without values in lists each has its number already */
    if (table->arguments < table->entries) {
        for (i = 0; i < table->entries; i++)
            tilde_table_number(table, i);
        for (i = 0; i < table->entries; i++)
            tilde_table_bring(table, i);
    }
    tilde_table_put(table->room, (uint32_t)(table->entries << 16 | table->arguments));
    tilde_table_put(table->room + 4, (uint32_t)table->pool);
    pool = tilde_table_entry(table, table->entries);
    memmove(pool, table->room + table->size - table->pool, table->pool);
    return (size_t)(pool - table->room) + table->pool;
}

#ifdef __cplusplus
}
#endif

#endif
