/* Plans of tables for the test of the builder: what is given to it, call by call, what it has to answer, and what has
   to stand in the table, read here from document 01's "The argument table" alone. Define _GNU_SOURCE before the first
   include. */
#ifndef PLANS_H
#define PLANS_H

#include "blocks.h"
#include <tilde_table.h>

uint32_t probe_check_table(const uint8_t *table, size_t table_length, size_t *position);

/* One call: a value by its tag, where TILDE_LIST begins a list, or the end of the innermost list. */
enum { LIST_END = TILDE_LIST + 1, GIVEN_TAGS };
struct given {
    int tag;
    int64_t number;
    const uint8_t *bytes;
    size_t length;
};

#define MOST_GIVEN 4096

/* The plan in hand, and its number for the message of a failed check. */
static struct given plan[MOST_GIVEN];
static size_t planned, plans = 0;

static void give(int tag, int64_t number, const uint8_t *from, size_t length)
{
    expect(planned < MOST_GIVEN, "room for a plan", plans);
    plan[planned++] = (struct given){tag, number, from, length};
}

/* What came so far, and whether all of it fitted. */
struct tally {
    size_t values, arguments, pool, open;
    int fits;
};

static size_t table_bytes(const struct tally *tally)
{
    return 8 + 12 * tally->values + tally->pool;
}

static int tally_one(struct tally *tally, const struct given *given, size_t size)
{
    if (given->tag == LIST_END) {
        tally->fits = tally->fits && tally->open > 0;
        tally->open -= tally->open > 0;
        return tally->fits;
    }
    tally->values++;
    tally->arguments += tally->open == 0;
    tally->open += given->tag == TILDE_LIST;
    tally->pool += given->length;
    if (given->tag == TILDE_CHARACTER && (given->number < 0 || given->number > 127))
        tally->fits = 0;
    tally->fits = tally->fits && tally->values <= 1024 && tally->pool <= 65536 && table_bytes(tally) <= size;
    return tally->fits;
}

static int build_one(tilde_table *table, const struct given *given)
{
    switch (given->tag) {
    case TILDE_BOOLEAN:
        return tilde_table_boolean(table, (int)given->number);
    case TILDE_INTEGER:
        return tilde_table_integer(table, given->number);
    case TILDE_CHARACTER:
        return tilde_table_character(table, (unsigned)given->number);
    case TILDE_STRING:
        return tilde_table_string(table, given->bytes, given->length);
    case TILDE_LIST:
        return tilde_table_list_begin(table);
    default:
        return tilde_table_list_end(table);
    }
}

/* A table as it is read: how often each entry and each byte of the pool was met, and how far the plan has come. */
static struct {
    const uint8_t *table;
    size_t entries, pool, next;
    uint8_t met[1024], covered[65536];
} reading;

static uint64_t number_at(const uint8_t *from, size_t bytes)
{
    uint64_t number = 0;
    for (size_t i = 0; i < bytes; i++)
        number = 256 * number + from[i];
    return number;
}

static void read_string(const uint8_t *entry, const struct given *given)
{
    size_t offset = (size_t)number_at(entry + 4, 4), length = (size_t)number_at(entry + 8, 4);
    const uint8_t *pool = reading.table + 8 + 12 * reading.entries;
    expect(length == given->length, "length of a string", plans);
    expect(offset <= reading.pool && length <= reading.pool - offset, "a string within the pool", plans);
    expect(same(pool + offset, given->bytes, length), "bytes of a string", plans);
    for (size_t i = offset; i < offset + length; i++)
        reading.covered[i]++;
}

/* The entries of a list, or the arguments, against what the plan has next; lists are read in depth. */
static void read_entries(size_t first, size_t count)
{
    for (size_t i = first; i < first + count; i++) {
        const uint8_t *entry = reading.table + 8 + 12 * i;
        expect(reading.next < planned, "no more entries than values", plans);
        const struct given *given = plan + reading.next++;
        reading.met[i]++;
        expect(entry[0] == given->tag, "tag of an entry", plans);
        expect(number_at(entry + 1, 3) == 0, "three zero bytes", plans);
        if (given->tag == TILDE_STRING) {
            read_string(entry, given);
        } else if (given->tag == TILDE_LIST) {
            size_t inner = (size_t)number_at(entry + 4, 4), inside = (size_t)number_at(entry + 8, 4);
            expect(inner > i && inner <= reading.entries && inside <= reading.entries - inner, "a list in the table",
                   plans);
            read_entries(inner, inside);
            expect(plan[reading.next++].tag == LIST_END, "end of a list", plans);
        } else {
            uint64_t number = given->tag == TILDE_BOOLEAN ? given->number != 0 : (uint64_t)given->number;
            expect(number_at(entry + 4, 8) == number, "number of an entry", plans);
        }
    }
}

static int each_once(const uint8_t *counts, size_t length)
{
    for (size_t i = 0; i < length; i++)
        if (counts[i] != 1)
            return 0;
    return 1;
}

/* The table has the values of the plan, each in an entry of its own, and a pool of their strings and nothing else. */
static void read_table(const uint8_t *table, size_t length, const struct tally *tally)
{
    size_t position = 999999;
    reading.table = table;
    reading.entries = (size_t)number_at(table, 2);
    reading.pool = (size_t)number_at(table + 4, 4);
    reading.next = 0;
    expect(reading.entries == tally->values && reading.pool == tally->pool, "entries and pool", plans);
    expect(number_at(table + 2, 2) == tally->arguments, "arguments", plans);
    expect(length == table_bytes(tally), "length of a table", plans);
    memset(reading.met, 0, reading.entries);
    memset(reading.covered, 0, reading.pool);
    read_entries(0, tally->arguments);
    expect(reading.next == planned, "all values", plans);
    expect(each_once(reading.met, reading.entries), "an entry for each value", plans);
    expect(each_once(reading.covered, reading.pool), "each byte of the pool in one string", plans);
    expect(probe_check_table(table, length, &position) == TILDE_DONE && position == 0, "the check of a table", plans);
}

#endif
