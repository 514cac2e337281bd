/* The exported calls of the crate probe as a program in C makes them. Each case is run on both sorts of block. */
#define _GNU_SOURCE
#include "blocks.h"

uint32_t probe_check_table(const uint8_t *table, size_t table_length, size_t *position);
size_t probe_digits(uint64_t base, uint64_t n, uint8_t *out, size_t out_length);

static void table_case(const uint8_t *bytes, size_t size, uint32_t code, size_t position, size_t of)
{
    for (int fenced = 0; fenced < 2; fenced++) {
        struct block table = take(size, fenced);
        size_t answered = 999999;
        if (size > 0)
            memcpy(table.bytes, bytes, size);
        expect(probe_check_table(table.bytes, size, &answered) == code, "code of a table", of);
        expect(answered == position, "position of a table", of);
        expect(size == 0 || memcmp(table.bytes, bytes, size) == 0, "a table is only read", of);
        give_back(table);
    }
}

/* The digits of n in a buffer of this room: all of them and the rest untouched, or nothing touched. */
static void digits_case(uint64_t base, uint64_t n, const char *digits, size_t room)
{
    size_t count = strlen(digits);
    size_t written = count <= room ? count : 0;
    for (int fenced = 0; fenced < 2; fenced++) {
        struct block out = take(room, fenced);
        if (room > 0)
            memset(out.bytes, 0xaa, room);
        expect(probe_digits(base, n, out.bytes, room) == written, "count of digits", (size_t)base);
        for (size_t i = 0; i < room; i++)
            expect(out.bytes[i] == (i < written ? (uint8_t)digits[i] : 0xaa), "bytes of a buffer", (size_t)base);
        give_back(out);
    }
}

/* One entry of each kind, and a pool of three bytes. */
static const uint8_t five[] = {
    0, 5, 0, 5, 0, 0, 0, 3,
    0, 0, 0, 0, 0, 0, 0, 0, 0, 0, 0, 1,
    1, 0, 0, 0, 255, 255, 255, 255, 255, 255, 255, 251,
    2, 0, 0, 0, 0, 0, 0, 0, 0, 0, 0, 65,
    3, 0, 0, 0, 0, 0, 0, 0, 0, 0, 0, 3,
    4, 0, 0, 0, 0, 0, 0, 5, 0, 0, 0, 0,
    'a', 'b', 'c',
};

static void tables(void)
{
    uint8_t changed[sizeof five];

    table_case(NULL, 0, 1, 0, 0);
    table_case(five, sizeof five, 0, 0, 1);
    for (size_t size = 0; size < sizeof five; size++)
        table_case(five, size, 1, size < 8 ? 0 : 4, size);
    /* a tag that there is not, in each entry */
    for (size_t i = 0; i < 5; i++) {
        memcpy(changed, five, sizeof five);
        changed[8 + 12 * i] = 5;
        table_case(changed, sizeof changed, 1, 8 + 12 * i, i);
    }
    /* m above n; a pool that is too long */
    memcpy(changed, five, sizeof five);
    changed[3] = 6;
    table_case(changed, sizeof changed, 1, 2, 0);
    memcpy(changed, five, sizeof five);
    changed[5] = 2;
    table_case(changed, sizeof changed, 1, 4, 0);
    /* a string that begins or ends one byte past the pool */
    memcpy(changed, five, sizeof five);
    changed[8 + 36 + 7] = 1;
    table_case(changed, sizeof changed, 1, 44, 0);
    memcpy(changed, five, sizeof five);
    changed[8 + 36 + 11] = 4;
    table_case(changed, sizeof changed, 1, 44, 1);
}

/* 1,024 entries, and one more; the last is good, and then bad. */
static void large_tables(void)
{
    size_t most = 8 + 12 * 1025;
    uint8_t *table = calloc(most, 1);
    if (table == NULL)
        exit(2);
    table[0] = 4;
    table_case(table, most - 12, 0, 0, 1024);
    table[8 + 12 * 1023] = 9;
    table_case(table, most - 12, 1, 8 + 12 * 1023, 1024);
    table[1] = 1;
    table_case(table, most, 1, 0, 1025);
    free(table);
}

static void digits(void)
{
    char expected[65];

    for (uint64_t base = 2; base <= 36; base++) {
        const uint64_t numbers[] = {0, 1, base - 1, base, base * base - 1, base * base, UINT64_MAX};
        for (size_t i = 0; i < sizeof numbers / sizeof *numbers; i++) {
            size_t at = sizeof expected - 1;
            uint64_t rest = numbers[i];
            expected[at] = 0;
            do {
                expected[--at] = "0123456789abcdefghijklmnopqrstuvwxyz"[rest % base];
                rest /= base;
            } while (rest > 0);
            for (size_t room = 0; room <= 66; room++)
                digits_case(base, numbers[i], expected + at, room);
        }
    }
    digits_case(10, INT64_MAX, "9223372036854775807", 19);
    digits_case(16, (uint64_t)INT64_MAX + 1, "8000000000000000", 16);
    /* other bases write nothing */
    digits_case(0, 5, "", 8);
    digits_case(1, 5, "", 8);
    digits_case(37, 5, "", 8);
    digits_case(UINT64_MAX, 5, "", 8);
    digits_case(0, 5, "", 0);
}

int main(void)
{
    tables();
    large_tables();
    digits();
    printf("%zu checks\n", checks);
    return 0;
}
