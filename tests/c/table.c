/* The builder of include/tilde_table.h: every answer of every call, in rooms of exactly the size needed, of one byte
   less and of many others, and what stands in the tables. Link with libprobe.a too, for its check of a table. */
#define _GNU_SOURCE
#include "drawing.h"
#include "plans.h"
#include <inttypes.h>
#include <limits.h>

/* Plans of up to this many calls of each sort are all tried, and so many are drawn, small and at the limits. */
#define ALL_CALLS 4
#define SMALL_PLANS 1000
#define LARGE_PLANS 60
#define PLENTY ((size_t)200000)

/* One builder for all tables, so that each begin comes after an end, a refusal or an open list. */
static tilde_table table;
static uint8_t source[TILDE_MOST_POOL + 4096];
/* the tables that were whole, those whose text was compared, and the most lists that were open at once */
static size_t whole = 0, spelled = 0, deepest = 0;

/* The directive for a call of the plan. */
static const char *directive_of(const struct given *given)
{
    if (given->tag == LIST_END)
        return "~}";
    if (given->tag != TILDE_LIST)
        return "~a";
    /* a body must not be empty, and that of an empty list writes nothing */
    return given[1].tag == LIST_END ? "~{x" : "~{";
}

/* What ~a writes for a value; its length. */
static size_t text_of(const struct given *given, uint8_t *text)
{
    switch (given->tag) {
    case TILDE_BOOLEAN:
        return (size_t)sprintf((char *)text, "%s", given->number != 0 ? "#t" : "#f");
    case TILDE_INTEGER:
        return (size_t)sprintf((char *)text, "%" PRId64, given->number);
    case TILDE_CHARACTER:
        *text = (uint8_t)given->number;
        return 1;
    case TILDE_STRING:
        if (given->length > 0)
            memcpy(text, given->bytes, given->length);
        return given->length;
    default:
        return 0;
    }
}

/* A format that writes every value of the plan, and its text; 0 where it would be too long or too deep. */
static int spell(char *format, uint8_t *text, size_t *written)
{
    size_t open = 0, used = 0;
    *written = 0;
    format[0] = '\0';
    for (size_t i = 0; i < planned; i++) {
        open += plan[i].tag == TILDE_LIST;
        if (open > 8 || used + 3 > TILDE_MOST_FORMAT)
            return 0;
        open -= plan[i].tag == LIST_END;
        used += (size_t)sprintf(format + used, "%s", directive_of(plan + i));
        *written += text_of(plan + i, text + *written);
    }
    return 1;
}

/* No format finds the table bad, and one of its own writes its values. */
static void format_table(const uint8_t *made, size_t length)
{
    static const char *const formats[] = {"", "~a", "~@{~a~}", "~{~s~}", "~#*~:*~p"};
    static char own[TILDE_MOST_FORMAT + 1];
    static uint8_t buffer[PLENTY], text[PLENTY];
    size_t position, steps, written, count;
    uint32_t code;

    for (size_t i = 0; i < sizeof formats / sizeof *formats; i++) {
        code = tilde_format((const uint8_t *)formats[i], strlen(formats[i]), made, length, buffer, PLENTY, &position,
                            &steps, &written);
        expect(code != TILDE_BAD_TABLE, "a good table", plans);
    }
    if (!spell(own, text, &count))
        return;
    code = tilde_format((const uint8_t *)own, strlen(own), made, length, buffer, PLENTY, &position, &steps, &written);
    expect(code == TILDE_DONE && written == count && same(buffer, text, count), "text of a table", plans);
    spelled++;
}

/* After the end every call answers 0, and changes nothing in the table. */
static void after_the_end(void)
{
    for (int tag = 0; tag < GIVEN_TAGS; tag++) {
        const struct given one = {tag, 1, source, 1};
        expect(build_one(&table, &one) == 0, "a call after the end", plans);
    }
    expect(tilde_table_end(&table) == 0, "a second end", plans);
}

/* The plan in hand in a block of so many bytes, of which the builder is told another size. */
static void build_told(size_t block, size_t told, int fenced)
{
    struct block room = take(block, fenced);
    struct tally tally = {0, 0, 0, 0, told >= 8};
    if (block > 0)
        memset(room.bytes, UNTOUCHED, block);
    expect(tilde_table_begin(&table, room.bytes, told) == tally.fits, "the begin of a table", plans);
    for (size_t i = 0; i < planned; i++)
        expect(build_one(&table, plan + i) == tally_one(&tally, plan + i, told), "whether a value fits", plans);
    size_t length = tilde_table_end(&table);
    expect(length == (tally.fits && tally.open == 0 ? table_bytes(&tally) : 0), "the end of a table", plans);
    after_the_end();
    if (length > 0) {
        read_table(room.bytes, length, &tally);
        format_table(room.bytes, length);
        whole++;
    }
    if (block > TILDE_MOST_TABLE)
        expect(untouched(room.bytes + TILDE_MOST_TABLE, block - TILDE_MOST_TABLE), "bytes beyond any table", plans);
    give_back(room);
}

static void build(size_t size, int fenced)
{
    build_told(size, size, fenced);
}

/* What the plan in hand needs, were there no limits. */
static size_t needed(void)
{
    struct tally tally = {0, 0, 0, 0, 1};
    for (size_t i = 0; i < planned; i++)
        tally_one(&tally, plan + i, SIZE_MAX);
    return table_bytes(&tally);
}

/* Exactly the bytes needed on both sorts of block, one byte less, and more. */
static void build_about_needed(void)
{
    size_t exact = needed();
    build(exact, 0);
    build(exact, 1);
    build(exact - 1, 0);
    build(exact - 1, 1);
    build(exact + 1, 1);
    build(below(exact), 0);
    build(TILDE_MOST_TABLE + below(100), 0);
}

static void open_plan(void)
{
    planned = 0;
    plans++;
}

/* Every plan of few calls, the senseless ones too, in every small room. */
static void all_small_plans(void)
{
    static const struct given sorts[] = {
        {TILDE_BOOLEAN, -1, NULL, 0},    {TILDE_INTEGER, INT64_MIN, NULL, 0}, {TILDE_CHARACTER, 127, NULL, 0},
        {TILDE_CHARACTER, 128, NULL, 0}, {TILDE_STRING, 0, NULL, 0},          {TILDE_STRING, 0, source, 3},
        {TILDE_LIST, 0, NULL, 0},        {LIST_END, 0, NULL, 0},
    };
    const size_t count = sizeof sorts / sizeof *sorts;
    size_t all = 1;

    for (size_t calls = 0; calls <= ALL_CALLS; calls++, all *= count)
        for (size_t chosen = 0; chosen < all; chosen++) {
            open_plan();
            for (size_t i = 0, rest = chosen; i < calls; i++, rest /= count)
                plan[planned++] = sorts[rest % count];
            /* the largest, four strings of three bytes, needs 68 */
            for (size_t size = 0; size <= 69; size++)
                build(size, size % 2 != 0);
        }
}

static void give_value(size_t longest)
{
    int tag = (int)below(TILDE_LIST);
    size_t length = below(longest + 1);
    int64_t number = (int64_t)word();
    number >>= below(64);
    if (tag == TILDE_STRING)
        give(tag, 0, length == 0 ? NULL : source + below(sizeof source - length), length);
    else
        give(tag, tag == TILDE_BOOLEAN ? number & 1 : tag == TILDE_CHARACTER ? number & 127 : number, NULL, 0);
}

/* A plan of so many values, with lists begun and ended up to so many times in a hundred. */
static void draw_plan(size_t values, size_t most_begins, size_t most_ends, size_t longest)
{
    size_t begins = below(most_begins + 1), ends = below(most_ends + 1), open = 0, drawn = 0;
    open_plan();
    while (drawn < values || open > 0) {
        if (open > 0 && (drawn == values || below(100) < ends)) {
            give(LIST_END, 0, NULL, 0);
            open--;
        } else if (drawn++, below(100) < begins) {
            give(TILDE_LIST, 0, NULL, 0);
            deepest = ++open > deepest ? open : deepest;
        } else {
            give_value(longest);
        }
    }
}

static void small_plans(void)
{
    for (size_t i = 0; i < SMALL_PLANS; i++) {
        draw_plan(below(20), 60, 60, 9);
        build_about_needed();
        for (size_t size = 0; size <= 64; size++)
            build(size, size % 2 != 0);
    }
}

/* About 1,024 values: flat, in lists, and hundreds of lists deep; about 65,536 bytes of strings. */
static void large_plans(void)
{
    for (size_t i = 0; i < LARGE_PLANS; i++) {
        draw_plan(1021 + i % 6, 50, 60, 60);
        build_about_needed();
        draw_plan(1021 + i % 6, 100, 10, 3);
        build_about_needed();
        open_plan();
        for (size_t left = 65533 + i % 6, length; left > 0; left -= length) {
            length = below(3) ? 1 + below(left) : left;
            give(TILDE_STRING, 0, source + below(100), length);
        }
        build_about_needed();
    }
}

/* As much of everything as fits, in a room whose size is told too large; and one value or one byte more. */
static void largest_tables(void)
{
    const size_t part = TILDE_MOST_POOL / TILDE_MOST_ENTRIES;

    open_plan();
    for (size_t i = 0; i < TILDE_MOST_ENTRIES; i++)
        give(TILDE_STRING, 0, source + i, part);
    expect(needed() == TILDE_MOST_TABLE, "TILDE_MOST_TABLE", needed());
    build(TILDE_MOST_TABLE, 1);
    build_told(TILDE_MOST_TABLE, SIZE_MAX, 0);
    build_told(TILDE_MOST_TABLE, SIZE_MAX, 1);
    give(TILDE_STRING, 0, NULL, 0);
    build_told(TILDE_MOST_TABLE, SIZE_MAX, 1);
    planned -= 2;
    give(TILDE_STRING, 0, source, part + 1);
    build_told(TILDE_MOST_TABLE, SIZE_MAX, 1);
}

/* So many lists, each in the one before. */
static void deepest_tables(void)
{
    for (size_t lists = TILDE_MOST_ENTRIES - 1; lists <= TILDE_MOST_ENTRIES + 1; lists++) {
        open_plan();
        for (size_t i = 0; i < 2 * lists; i++)
            give(i < lists ? TILDE_LIST : LIST_END, 0, NULL, 0);
        build_about_needed();
    }
}

/* Lengths and characters near the ends of their types, which nothing reads. */
static void out_of_range(void)
{
    static const size_t lengths[] = {65537, SIZE_MAX / 2, SIZE_MAX - 12, SIZE_MAX - 11, SIZE_MAX - 3, SIZE_MAX};
    static const unsigned characters[] = {128, 255, 256, UINT_MAX / 2 + 1, UINT_MAX - 127, UINT_MAX};

    open_plan();
    for (size_t i = 0; i < sizeof lengths / sizeof *lengths; i++) {
        uint8_t room[64];
        expect(tilde_table_begin(&table, room, sizeof room) == 1, "a room of 64 bytes", i);
        expect(tilde_table_string(&table, "abc", 3) == 1, "a string that fits", i);
        expect(tilde_table_string(&table, "abc", lengths[i]) == 0, "a string that is too long", i);
        expect(tilde_table_integer(&table, 1) == 0 && tilde_table_end(&table) == 0, "what comes after it", i);
        expect(tilde_table_begin(&table, room, sizeof room) == 1, "a room once more", i);
        expect(tilde_table_character(&table, characters[i]) == 0, "a character that is none", i);
        expect(tilde_table_character(&table, 'a') == 0 && tilde_table_end(&table) == 0, "what comes after it", i);
    }
}

int main(void)
{
    seed = 7;
    for (size_t i = 0; i < sizeof source; i++)
        source[i] = (uint8_t)word();
    all_small_plans();
    small_plans();
    large_plans();
    largest_tables();
    deepest_tables();
    out_of_range();
    expect(spelled > SMALL_PLANS && deepest > TILDE_MOST_ENTRIES / 2, "texts compared, and deep lists", deepest);
    printf("%zu plans, %zu tables, the text of %zu compared, %zu checks\n", plans, whole, spelled, checks);
    return 0;
}
