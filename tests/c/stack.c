/* How much stack a call takes. No call goes deeper than TILDE_STACK_BYTES, and the deepest of each that were tried
   runs on a stack that has no byte more. */
#define _GNU_SOURCE
#include "drawing.h"
#include "painted.h"
#include "tables.h"
#include <stdarg.h>

/* A stack to the end of which no call comes, so that one above the limit is measured and not stopped. */
#define AMPLE ((size_t)64 * 1024)
#define ROOM ((size_t)200000)
#define LEVELS 8
#define RANDOM_NESTS 20000

_Static_assert(TILDE_STACK_BYTES % 16 == 0, "stacks are aligned to 16 bytes");

/* which call, with its name */
enum which { FORMAT, VET, RESUME };
static const char *const names[] = {"tilde_format", "tilde_vet", "tilde_resume"};

struct call {
    enum which which;
    size_t format_length;
    size_t given_length;
    size_t room;
    /* a table, or kinds */
    const uint8_t *given;
    uint8_t format[TILDE_MOST_FORMAT + 1];
};

/* of each call the deepest, and how deep it went */
static struct call job, deepest[3];
static size_t depths[3];
static uint8_t buffer[ROOM];
static struct stack ample;

static const tilde_state fresh;

static void make_the_call(void)
{
    size_t one, two, three;
    caller = __builtin_frame_address(0);
    if (job.which == VET)
        tilde_vet(job.format, job.format_length, job.given, job.given_length, TILDE_MOST_LONGEST, &one, &two);
    else if (job.which == RESUME)
        tilde_resume(job.format, job.format_length, job.given, job.given_length, buffer, job.room, fresh);
    else
        tilde_format(job.format, job.format_length, job.given, job.given_length, buffer, job.room, &one, &two, &three);
}

static void show_deepest(FILE *to, enum which which)
{
    const struct call *call = &deepest[which];
    fprintf(to, "%s takes %zu bytes of stack, of %d: ", names[which], depths[which], TILDE_STACK_BYTES);
    for (size_t i = 0; i < call->format_length && i < 200; i++)
        fputc(call->format[i] < ' ' ? ' ' : call->format[i], to);
    fputs(call->format_length > 200 ? "...\n" : "\n", to);
}

static void measure_one(enum which which, const uint8_t *given, size_t given_length, size_t room)
{
    job.which = which;
    job.given = given;
    job.given_length = given_length;
    job.room = room;
    size_t taken = depth_on(ample, make_the_call);
    if (taken > depths[which]) {
        depths[which] = taken;
        deepest[which] = job;
    }
    if (taken > TILDE_STACK_BYTES)
        show_deepest(stderr, which);
    expect(taken <= TILDE_STACK_BYTES, "TILDE_STACK_BYTES is too small", checks);
}

/* A vet; or a format, and the same line through a window. */
static void measure(int vets, const uint8_t *given, size_t given_length, size_t room)
{
    measure_one(vets ? VET : FORMAT, given, given_length, room);
    if (!vets)
        measure_one(RESUME, given, given_length, room);
}

/* The arguments: lists within lists, and behind them values of each kind. A list has all entries that follow it, so its
   first argument is the next list, and entry n is argument n - k of the list at depth k. */
enum { ZERO = LEVELS, ONE, LEAST, MANY, QUOTES, LONG, ODD, STAR, FALSE, TRUE, EMPTY, ENTRIES };

static uint8_t kinds_given[TILDE_MOST_KINDS];

static void fill_arguments(void)
{
    static uint8_t pool[TILDE_MOST_POOL];
    const size_t quotes = 10;

    memset(pool, '"', sizeof pool);
    begin();
    for (size_t i = 0; i < LEVELS; i++) {
        list_begin();
        list_end();
    }
    integer(0);
    integer(1);
    integer(INT64_MIN);
    integer(1234567);
    bytes(pool, quotes);
    bytes(pool + quotes, sizeof pool - quotes);
    character(8);
    character('*');
    boolean(0);
    boolean(1);
    list_begin();
    list_end();
    for (uint8_t i = 0; i < LEVELS; i++)
        share(i, (uint8_t)(i + 1), (uint8_t)(ENTRIES - i - 1));
    expect(argument_kinds(kinds_given) == ENTRIES, "an argument for each name", ENTRIES);
}

/* A format as it grows. */
__attribute__((format(printf, 1, 2))) static void put(const char *format, ...)
{
    char text[64];
    va_list values;
    va_start(values, format);
    size_t length = (size_t)vsnprintf(text, sizeof text, format, values);
    va_end(values);
    expect(length < sizeof text && length <= TILDE_MOST_FORMAT - job.format_length, "room for a format", length);
    memcpy(job.format + job.format_length, text, length);
    job.format_length += length;
}

/* What stands in a block, and the entry at which it begins. */
struct piece {
    size_t entry;
    const char *text;
};

static const struct piece pieces[] = {
    {ZERO, "literal bytes"},  {LEAST, "~d"},            {LEAST, "~:b"},              {LEAST, "~,,,1:b"},
    {MANY, "~20,'*:x"},       {MANY, "~10,'*,'/,2:d"},  {LEAST, "~4096,'*,'.,1:@o"}, {ZERO, "~v,'0:@d"},
    {LEAST, "~a"},            {LEAST, "~30,4,2,'.@s"},  {QUOTES, "~a"},              {QUOTES, "~s"},
    {QUOTES, "~40,3,2,'*s"},  {QUOTES, "~40,3,2,'*@s"}, {LONG, "~a"},                {LONG, "~s"},
    {LONG, "~4096,7,9,'-@s"}, {ODD, "~c"},              {ODD, "~:c"},                {ODD, "~@c"},
    {ODD, "~20@s"},           {ZERO, "~v@c"},           {ZERO, "~8@c"},              {FALSE, "~a"},
    {TRUE, "~9,2s"},          {ONE, "~p"},              {MANY, "~@p"},               {ONE, "~:@p"},
    {ZERO, "~100%"},          {ONE, "~v~"},             {ZERO, "~#_"},               {ZERO, "~\n   "},
    {ZERO, "~@\n   "},        {ZERO, "~:\n   "},        {ONE, "~*"},                 {ONE, "~:*"},
    {ONE, "~v*"},             {ZERO, "~^"},             {EMPTY, "~*~^"},
};

static const struct piece refusals[] = {
    {EMPTY, "~a"},          {EMPTY, "~p~s"}, {LONG, "~d"},   {TRUE, "~va"},    {MANY, "~v%"},
    {MANY, "~[x~]"},        {ONE, "~999@*"}, {ZERO, "~:@c"}, {ZERO, "~4097d"}, {ZERO, "~q"},
    {ZERO, "~4096%~4096%"}, {ZERO, "~;"},    {ZERO, "~]"},   {ZERO, "~}"},     {ZERO, "~{"},
    {ZERO, "~"},
};

/* A block, and the entry at which it begins: entry 0 stands for the first argument, whichever it is. Within ~{ the
   arguments are those of the next list. A jump to the end makes the first pass the last. */
static const struct {
    size_t entry;
    size_t lists;
    const char *opens, *closes;
} blocks[] = {
    {0, 1, "~{", "~#*~}"},
    {0, 1, "~1{", "~}"},
    {0, 0, "~@{", "~#*~}"},
    {0, 0, "~1@{", "~}"},
    {0, 0, "~#@{", "~#*~}"},
    {ONE, 0, "~v@{", "~}"},
    {ZERO, 0, "~[", "~;x~]"},
    {ONE, 0, "~[x~;", "~]"},
    {MANY, 0, "~[x~:;", "~]"},
    {0, 0, "~1[x~;", "~;~]"},
    {ONE, 0, "~v[x~;", "~]"},
    {0, 0, "~#[~:;", "~]"},
    {FALSE, 0, "~:[", "~;x~]"},
    {TRUE, 0, "~:[x~;", "~]"},
    {0, 0, "~@[", "~]"},
};

#define COUNT(array) (sizeof array / sizeof *array)

static void put_at(size_t entry, size_t lists, const char *text)
{
    put("~%zu@*%s", entry < lists ? 0 : entry - lists, text);
}

/* Blocks within one another, and in the innermost a piece. */
static void put_nest(const size_t *chosen, size_t levels, struct piece piece)
{
    size_t lists = 0;
    for (size_t i = 0; i < levels; i++) {
        put_at(blocks[chosen[i]].entry, lists, blocks[chosen[i]].opens);
        lists += blocks[chosen[i]].lists;
    }
    put_at(piece.entry, lists, piece.text);
    for (size_t i = levels; i-- > 0;)
        put("%s", blocks[chosen[i]].closes);
}

static void measure_nest(const size_t *chosen, size_t levels, struct piece piece, size_t room)
{
    job.format_length = 0;
    put_nest(chosen, levels, piece);
    measure(0, table.bytes, table_length(), room);
    measure(1, kinds_given, ENTRIES, 0);
}

/* Nests of two sorts of block by turns, with each piece and each refusal inside; and a ninth level. */
static void regular_nests(void)
{
    for (size_t one = 0; one < COUNT(blocks); one++)
        for (size_t other = 0; other < COUNT(blocks); other++) {
            size_t chosen[LEVELS + 1];
            for (size_t i = 0; i <= LEVELS; i++)
                chosen[i] = i % 2 ? other : one;
            for (size_t i = 0; i < COUNT(pieces); i++)
                measure_nest(chosen, LEVELS, pieces[i], ROOM);
            for (size_t i = 0; i < COUNT(refusals); i++)
                measure_nest(chosen, LEVELS, refusals[i], 5000);
            measure_nest(chosen, LEVELS + 1, pieces[0], ROOM);
        }
}

static void random_nests(void)
{
    for (size_t i = 0; i < RANDOM_NESTS; i++) {
        size_t chosen[LEVELS];
        size_t levels = below(LEVELS + 1);
        for (size_t j = 0; j < levels; j++)
            chosen[j] = below(COUNT(blocks));
        struct piece piece = below(4) ? pieces[below(COUNT(pieces))] : refusals[below(COUNT(refusals))];
        measure_nest(chosen, levels, piece, below(2) ? ROOM : below(40));
    }
}

/* Formats of the greatest length, of one piece over and over, as a format and as a vet over each kind. */
static void long_formats(void)
{
    static uint8_t kinds[TILDE_LIST + 1][TILDE_MOST_KINDS];

    for (size_t i = 0; i < COUNT(pieces); i++) {
        size_t length = strlen(pieces[i].text);
        for (job.format_length = 0; job.format_length + length <= TILDE_MOST_FORMAT;)
            put("%s", pieces[i].text);
        measure(0, table.bytes, table_length(), ROOM);
        for (uint8_t tag = TILDE_BOOLEAN; tag <= TILDE_LIST; tag++) {
            memset(kinds[tag], tag, TILDE_MOST_KINDS);
            measure(1, kinds[tag], TILDE_MOST_KINDS, 0);
        }
    }
}

/* Conditionals into which a vet goes, and the kind of the argument that each takes, or NONE. */
enum { NONE = TILDE_LIST + 1 };

static const struct {
    const char *opens, *closes;
    uint8_t takes;
} conditionals[] = {
    {"~[", "~]", TILDE_INTEGER}, {"~[x~;", "~:;x~]", TILDE_INTEGER}, {"~1[x~;", "~]", NONE},
    {"~#[x~:;", "~]", NONE},     {"~:[x~;", "~]", TILDE_STRING},     {"~@[", "~]", NONE},
};

/* A nest without jumps, as a vet over the kinds that it takes: a count goes down to its piece, and one over booleans
   goes down ~@[. */
static void vet_nest(size_t one, size_t other, struct piece piece)
{
    uint8_t kinds[LEVELS + 2], booleans[LEVELS + 2] = {0};
    size_t taken = 0;
    job.format_length = 0;
    for (size_t i = 0; i < LEVELS; i++) {
        size_t chosen = i % 2 ? other : one;
        put("%s", conditionals[chosen].opens);
        if (conditionals[chosen].takes != NONE)
            kinds[taken++] = conditionals[chosen].takes;
    }
    put("%s", piece.text);
    for (size_t i = LEVELS; i-- > 0;)
        put("%s", conditionals[i % 2 ? other : one].closes);
    kinds[taken] = kinds[taken + 1] = kinds_given[piece.entry];
    measure(1, kinds, taken + 2, 0);
    measure(1, booleans, taken + 2, 0);
}

static void vetted_nests(void)
{
    for (size_t one = 0; one < COUNT(conditionals); one++)
        for (size_t other = 0; other < COUNT(conditionals); other++) {
            for (size_t i = 0; i < COUNT(pieces); i++)
                vet_nest(one, other, pieces[i]);
            for (size_t i = 0; i < COUNT(refusals); i++)
                vet_nest(one, other, refusals[i]);
        }
}

/* Nests that go on to the last step. */
static void endless_nests(void)
{
    static const char *const openers[] = {"~{", "~@{", "~1000{"};

    for (size_t i = 0; i < COUNT(openers); i++) {
        job.format_length = 0;
        for (size_t level = 0; level < LEVELS; level++)
            put("~0@*%s", openers[i]);
        put("~2@*~s");
        for (size_t level = 0; level < LEVELS; level++)
            put("~}");
        measure(0, table.bytes, table_length(), ROOM);
    }
}

/* The deepest of a call again, on a stack that ends TILDE_STACK_BYTES below its caller's frame: one byte more stops it. */
static void on_no_more(enum which which, size_t above)
{
    struct stack exact = stack_of(TILDE_STACK_BYTES + above);
    job = deepest[which];
    run_on(exact, make_the_call);
    expect(caller - exact.bottom == TILDE_STACK_BYTES, "a stack of TILDE_STACK_BYTES", exact.size);
}

int main(void)
{
    seed = 5;
    ample = stack_of(AMPLE);
    fill_arguments();
    regular_nests();
    random_nests();
    vetted_nests();
    long_formats();
    endless_nests();
    /* what lies above the caller's frame is the same in each */
    const size_t above = (size_t)(ample.bottom + ample.size - caller);
    for (enum which which = FORMAT; which <= RESUME; which++) {
        on_no_more(which, above);
        show_deepest(stdout, which);
    }
    printf("%zu checks\n", checks);
    return 0;
}
