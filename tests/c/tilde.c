/* Format and vet as the collector calls them, through its headers alone. Each case is run on both sorts of block:
   its answer, its text, every byte beyond it and the blocks that are only read are compared. */
#define _GNU_SOURCE
#include "tables.h"

#define PLENTY 16384

/* What tilde_format answers, and what it has written. */
struct answer {
    uint32_t code;
    size_t position;
    size_t steps;
    size_t written;
    const uint8_t *text;
};

/* The case in hand, for the message of a failed check. */
static size_t cases = 0;

/* The codes that were answered. */
static int met[TILDE_BAD_KINDS + 1];

static void string(const char *text)
{
    bytes(text, strlen(text));
}

static void integers(int64_t from, int64_t to)
{
    for (int64_t i = from; i <= to; i++)
        integer(i);
}

/* One call on blocks that are already there. */
static void call(struct block format, size_t format_length, struct block given, size_t given_length, size_t room,
                 int fenced, const struct answer *want)
{
    struct block buffer = take(room, fenced);
    size_t position = 999999, steps = 999999, written = 999999;
    if (room > 0)
        memset(buffer.bytes, UNTOUCHED, room);
    uint32_t code = tilde_format(format.bytes, format_length, given.bytes, given_length, buffer.bytes, room, &position,
                                 &steps, &written);
    expect(code == want->code, "code of a format", cases);
    met[code] = 1;
    expect(position == want->position, "position of a format", cases);
    expect(steps == want->steps, "steps of a format", cases);
    expect(written == want->written, "bytes written", cases);
    expect(same(buffer.bytes, want->text, want->written), "text", cases);
    expect(written == room || untouched(buffer.bytes + written, room - written), "bytes beyond the text", cases);
    give_back(buffer);
}

/* A format of any bytes over a table of any bytes. */
static void raw_case(const void *format, size_t format_length, const void *given, size_t given_length, size_t room,
                     struct answer want)
{
    cases++;
    for (int fenced = 0; fenced < 2; fenced++) {
        struct block one = copy_of(format, format_length, fenced);
        struct block other = copy_of(given, given_length, fenced);
        call(one, format_length, other, given_length, room, fenced, &want);
        expect(same(one.bytes, format, format_length), "a format is only read", cases);
        expect(same(other.bytes, given, given_length), "a table is only read", cases);
        give_back(one);
        give_back(other);
    }
}

/* A format over the table in hand. */
static void format_case(const char *format, size_t room, struct answer want)
{
    raw_case(format, strlen(format), table.bytes, table_length(), room, want);
}

static struct answer answer(uint32_t code, size_t position, size_t steps, const char *text)
{
    return (struct answer){code, position, steps, strlen(text), (const uint8_t *)text};
}

/* The text comes out in exactly its room and in more. */
static void yields(const char *format, size_t steps, const char *text)
{
    format_case(format, strlen(text), answer(TILDE_DONE, 0, steps, text));
    format_case(format, strlen(text) + 9, answer(TILDE_DONE, 0, steps, text));
}

/* The same for a text of one piece: one byte too few, and nothing is written. */
static void piece(const char *format, const char *text)
{
    yields(format, 1, text);
    format_case(format, strlen(text) - 1, answer(TILDE_NO_ROOM, 0, 1, ""));
}

/* Refused with these bytes kept, in plenty of room. */
static void refuses(const char *format, uint32_t code, size_t position, size_t steps, const char *kept)
{
    format_case(format, PLENTY, answer(code, position, steps, kept));
}

/* 01's frame, byte by byte, and the same table as it is built here. */
static void whole_case(void)
{
    static const uint8_t frame[] = {0, 1, 0, 1, 0, 0, 0, 3, 3, 0, 0, 0, 0, 0, 0, 0, 0, 0, 0, 3, 'a', 'b', 'c'};

    raw_case("~a!", 3, frame, sizeof frame, PLENTY, answer(TILDE_DONE, 0, 2, "abc!"));
    begin();
    string("abc");
    expect(table_length() == sizeof frame && same(table.bytes, frame, sizeof frame), "a table as 01 writes it", 0);
    yields("~a!", 2, "abc!");
    format_case("~a!", 3, answer(TILDE_NO_ROOM, 2, 2, "abc"));
    format_case("~a!", 2, answer(TILDE_NO_ROOM, 0, 1, ""));
    format_case("~a!", 0, answer(TILDE_NO_ROOM, 0, 1, ""));
}

static void lines_of_strings(void)
{
    begin();
    string("abc");
    piece("~5,1,4a", "abc    ");
    piece("~5,,,'-@a", "--abc");
    begin();
    string("a");
    string("b");
    string("c");
    string("d");
    yields("~#*~2:*~a", 3, "c");
    begin();
    string("a\"b\\c");
    piece("~s", "\"a\\\"b\\\\c\"");
    piece("~a", "a\"b\\c");
    begin();
    character('\n');
    piece("~:c", "^J");
    piece("~@c", "#\\newline");
    begin();
    boolean(1);
    boolean(0);
    yields("~a~s", 2, "#t#f");
}

static void lines_of_integers(void)
{
    begin();
    integer(12345);
    piece("~10,'*,'/,2:d", "***1/23/45");
    begin();
    integer(12);
    piece("~@b", "+1100");
    begin();
    integer(0);
    piece("~@d", "0");
    begin();
    integers(1, 4);
    yields("~d ~2*~d", 4, "1 4");
    begin();
    integers(1, 3);
    yields("~d~d~d ~1@*~d~d", 7, "123 23");
    yields("~@{~d~}", 7, "123");
    begin();
    integer(5);
    yields("~d pupp~:@p", 7, "5 puppies");
    refuses("~:p", TILDE_NO_ARGUMENT, 0, 1, "");
    begin();
    integer(INT64_MIN);
    piece("~d", "-9223372036854775808");
    piece("~x", "-8000000000000000");
}

static void lines_of_lists(void)
{
    begin();
    list_begin();
    integers(1, 4);
    list_end();
    yields("~2{~d~}", 5, "12");
    yields("~{~d~^/~}", 16, "1/2/3/4");
    begin();
    list_begin();
    integers(1, 2);
    list_end();
    list_begin();
    string("x");
    character('y');
    boolean(1);
    list_end();
    boolean(0);
    yields("~{~d~}~{~s~}~:[no~;yes~]", 15, "12\"x\"#\\y#tno");
    format_case("~{~d~}~{~s~}", 4, answer(TILDE_NO_ROOM, 8, 8, "12"));
}

/* 01's lines about limits. */
static void lines_of_limits(void)
{
    uint8_t *many = malloc(TILDE_MOST_STEPS);
    if (many == NULL)
        exit(2);
    begin();
    memset(many, '\n', TILDE_MOST_FORMAT);
    format_case("~4096%", 4096, (struct answer){TILDE_DONE, 0, 1, 4096, many});
    format_case("~4096%", 4095, answer(TILDE_NO_ROOM, 0, 1, ""));
    refuses("~4097%", TILDE_BAD_PARAMETER, 0, 0, "");
    begin();
    integer(1);
    memset(many, 'x', TILDE_MOST_STEPS);
    format_case("~@{x~}", 65536, (struct answer){TILDE_STEP_LIMIT, 3, TILDE_MOST_STEPS, 32767, many});
    format_case("~@{x~}", 32767, (struct answer){TILDE_STEP_LIMIT, 3, TILDE_MOST_STEPS, 32767, many});
    format_case("~@{x~}", 32766, (struct answer){TILDE_NO_ROOM, 3, 65535, 32766, many});
    struct answer longest = {TILDE_DONE, 0, TILDE_MOST_FORMAT, TILDE_MOST_FORMAT, many};
    raw_case(many, TILDE_MOST_FORMAT, table.bytes, table_length(), TILDE_MOST_FORMAT, longest);
    raw_case(many, TILDE_MOST_FORMAT + 1, table.bytes, table_length(), PLENTY, answer(TILDE_LONG_FORMAT, 4096, 0, ""));
    /* a bad table comes first */
    raw_case(many, TILDE_MOST_FORMAT + 1, table.bytes, table_length() - 1, PLENTY, answer(TILDE_BAD_TABLE, 4, 0, ""));
    free(many);
}

/* A good format over tables with one fault each. */
static void bad_tables(void)
{
    static const struct {
        size_t at;
        uint8_t byte;
        size_t position;
    } faults[] = {{0, 5, 0}, {3, 3, 2}, {5, 2, 4}, {7, 4, 4}, {9, 1, 8}, {20, 5, 20}, {31, 4, 20}};

    begin();
    integer(7);
    string("abc");
    size_t whole = table_length();
    for (size_t i = 0; i < sizeof faults / sizeof *faults; i++) {
        uint8_t was = table.bytes[faults[i].at];
        table.bytes[faults[i].at] = faults[i].byte;
        raw_case("x~d", 3, table.bytes, whole, PLENTY, answer(TILDE_BAD_TABLE, faults[i].position, 0, ""));
        table.bytes[faults[i].at] = was;
    }
    for (size_t length = 0; length < whole; length++)
        raw_case("x~d", 3, table.bytes, length, PLENTY, answer(TILDE_BAD_TABLE, length < 8 ? 0 : 4, 0, ""));
    raw_case("x~d", 3, table.bytes, whole, PLENTY, answer(TILDE_DONE, 0, 2, "x7"));
}

static void refusals(void)
{
    begin();
    string("abc");
    integer(5000);
    refuses("ab~q", TILDE_UNKNOWN_CODE, 2, 0, "");
    refuses("ab~5", TILDE_UNKNOWN_CODE, 2, 0, "");
    refuses("ab~{x", TILDE_BAD_BLOCK, 2, 0, "");
    refuses("ab~]", TILDE_BAD_BLOCK, 2, 0, "");
    refuses("~a~{~}", TILDE_BAD_BLOCK, 2, 0, "");
    refuses("ab~:a", TILDE_BAD_PARAMETER, 2, 0, "");
    refuses("~a ~d!~a", TILDE_NO_ARGUMENT, 6, 5, "abc 5000!");
    refuses("x~d", TILDE_WRONG_KIND, 1, 2, "x");
    refuses("~a ~v%", TILDE_OUT_OF_RANGE, 3, 3, "abc ");
    format_case("~a ~d", 7, answer(TILDE_NO_ROOM, 3, 3, "abc "));
    format_case("~a ~d", 8, answer(TILDE_DONE, 0, 3, "abc 5000"));
}

/* Null pointers go with length 0. */
static void nothing(void)
{
    begin();
    raw_case(NULL, 0, NULL, 0, 0, answer(TILDE_BAD_TABLE, 0, 0, ""));
    raw_case("~a", 2, NULL, 0, 5, answer(TILDE_BAD_TABLE, 0, 0, ""));
    format_case("", 0, answer(TILDE_DONE, 0, 0, ""));
    format_case("", 5, answer(TILDE_DONE, 0, 0, ""));
    format_case("a", 0, answer(TILDE_NO_ROOM, 0, 1, ""));
    begin();
    string("");
    yields("~a", 1, "");
}

/* Format and table are only read, so the format may be a string of the table. */
static void shared(void)
{
    begin();
    string("<~a>");
    struct block given = copy_of(table.bytes, table_length(), 0);
    struct block format = {given.bytes + TILDE_HEADER_BYTES + TILDE_ENTRY_BYTES, NULL, 0};
    struct answer want = answer(TILDE_DONE, 0, 3, "<<~a>>");
    cases++;
    call(format, 4, given, table_length(), 6, 0, &want);
    give_back(given);
}

/* As many entries, and as long a pool, as there may be. */
static void large_tables(void)
{
    static uint8_t text[TILDE_MOST_POOL];
    static char format[2 * TILDE_MOST_ENTRIES + 1];
    const size_t part = TILDE_MOST_POOL / TILDE_MOST_ENTRIES;

    for (size_t i = 0; i < sizeof text; i++)
        text[i] = (uint8_t)('A' + (i / part + 3 * (i % part)) % 64);
    begin();
    for (size_t i = 0; i < TILDE_MOST_ENTRIES; i++) {
        bytes(text + part * i, part);
        memcpy(format + 2 * i, "~a", 3);
    }
    format_case(format, TILDE_MOST_POOL, (struct answer){TILDE_DONE, 0, TILDE_MOST_ENTRIES, TILDE_MOST_POOL, text});
    format_case(format, TILDE_MOST_POOL - 1,
                (struct answer){TILDE_NO_ROOM, 2046, TILDE_MOST_ENTRIES, TILDE_MOST_POOL - part, text});
}

/* A vet of a format of any bytes. */
static void raw_vet(const void *format, size_t format_length, const uint8_t *kinds, size_t kinds_length, size_t longest,
                    uint32_t code, size_t position, size_t count)
{
    cases++;
    for (int fenced = 0; fenced < 2; fenced++) {
        struct block one = copy_of(format, format_length, fenced);
        struct block other = copy_of(kinds, kinds_length, fenced);
        size_t at = 999999, counted = 999999;
        uint32_t answered = tilde_vet(one.bytes, format_length, other.bytes, kinds_length, longest, &at, &counted);
        expect(answered == code, "code of a vet", cases);
        met[answered] = 1;
        expect(at == position, "position of a vet", cases);
        expect(counted == count, "count of a vet", cases);
        expect(same(one.bytes, format, format_length), "a format is only read", cases);
        expect(same(other.bytes, kinds, kinds_length), "kinds are only read", cases);
        give_back(one);
        give_back(other);
    }
}

/* The kinds of the table in hand. */
static void vet_case(const char *format, size_t longest, uint32_t code, size_t position, size_t count)
{
    uint8_t kinds[TILDE_MOST_KINDS];
    raw_vet(format, strlen(format), kinds, argument_kinds(kinds), longest, code, position, count);
}

/* The count is enough for the table in hand, which fills it: it is refused in every smaller buffer. */
static void filled(const char *format, size_t longest, size_t steps, const char *text)
{
    struct block given = copy_of(table.bytes, table_length(), 0);
    vet_case(format, longest, TILDE_DONE, 0, strlen(text));
    yields(format, steps, text);
    for (size_t room = 0; room < strlen(text); room++) {
        uint8_t buffer[128];
        size_t position, done, written;
        uint32_t code = tilde_format((const uint8_t *)format, strlen(format), given.bytes, table_length(), buffer, room,
                                     &position, &done, &written);
        expect(code == TILDE_NO_ROOM && written <= room, "one byte fewer is too few", cases);
        expect(same(buffer, text, written), "pieces kept", cases);
    }
    give_back(given);
}

/* 01's counts, each with a table that needs all of it; the longest string is not the worst. */
static void counts(void)
{
    begin();
    string("a");
    vet_case("~5,4a", 5, TILDE_DONE, 0, 8);
    yields("~5,4a", 1, "a    ");
    begin();
    string("");
    filled("~5,4a", 5, 1, "        ");
    begin();
    string("abcd");
    filled("~5,4a", 5, 1, "abcd    ");
    begin();
    string("abcde");
    yields("~5,4a", 1, "abcde");
    begin();
    integer(INT64_MIN);
    filled("~d item~:p", 0, 7, "-9223372036854775808 items");
    begin();
    integer(-123456789012345678);
    filled("~20,10a~:p", 0, 2, "-123456789012345678          s");
    begin();
    character(8);
    string("\"\\");
    filled("~s ~s", 2, 3, "#\\backspace \"\\\"\\\\\"");
}

static void refused_vets(void)
{
    uint8_t many[TILDE_MOST_FORMAT + 1] = {0};

    begin();
    integer(5);
    list_begin();
    list_end();
    vet_case("~d~*", 0, TILDE_NOT_PLAIN, 2, 0);
    vet_case("~c~vd", 0, TILDE_NOT_PLAIN, 2, 0);
    vet_case("~*~q", 0, TILDE_UNKNOWN_CODE, 2, 0);
    vet_case("~d~[", 0, TILDE_BAD_BLOCK, 2, 0);
    vet_case("~d~4097%", 0, TILDE_BAD_PARAMETER, 2, 0);
    vet_case("x~p~p~p", 0, TILDE_NO_ARGUMENT, 5, 0);
    vet_case("~d ~a", 0, TILDE_WRONG_KIND, 3, 0);
    vet_case("~p~p~,#a", 0, TILDE_OUT_OF_RANGE, 4, 0);
    vet_case("", TILDE_MOST_LONGEST, TILDE_DONE, 0, 0);
    vet_case("", TILDE_MOST_LONGEST + 1, TILDE_BAD_KINDS, 0, 0);
    vet_case("", SIZE_MAX, TILDE_BAD_KINDS, 0, 0);
    raw_vet(NULL, 0, NULL, 0, 0, TILDE_DONE, 0, 0);
    raw_vet("", 0, many, TILDE_MOST_KINDS, 0, TILDE_DONE, 0, 0);
    raw_vet("", 0, many, TILDE_MOST_KINDS + 1, 0, TILDE_BAD_KINDS, 0, 0);
    raw_vet(many, TILDE_MOST_FORMAT, NULL, 0, 0, TILDE_DONE, 0, TILDE_MOST_FORMAT);
    raw_vet(many, TILDE_MOST_FORMAT + 1, NULL, 0, 0, TILDE_LONG_FORMAT, 4096, 0);
    many[3] = TILDE_LIST + 1;
    raw_vet("", 0, many, 4, 0, TILDE_BAD_KINDS, 0, 0);
    raw_vet("", 0, many, 3, 0, TILDE_DONE, 0, 0);
}

/* A conditional counts as its longest clause, whichever is picked; what no vet takes is told at its tilde. */
static void conditional_vets(void)
{
    const char *line = "~[calm~;light~:;~:[steady~;gusts~]~] at ~d~@[ ~a~]";

    begin();
    integer(0);
    boolean(1);
    integer(5);
    boolean(0);
    vet_case(line, 0, TILDE_NOT_PLAIN, 0, 0);
    line = "~[calm~;light~:;wind~] ~:[steady~;gusts~] ~d~@[ ~a~]";
    vet_case(line, 0, TILDE_DONE, 0, 5 + 1 + 6 + 1 + 20 + 3);
    format_case(line, 36, answer(TILDE_DONE, 0, 15, "calm gusts 5"));
    vet_case("~[a~]~*", 0, TILDE_NOT_PLAIN, 5, 0);
    vet_case("~d~@[x~]", 0, TILDE_NOT_PLAIN, 2, 0);
    vet_case("~@[~d~]", 0, TILDE_NOT_PLAIN, 0, 0);
    vet_case("~d~:[~c~;~d~]", 0, TILDE_WRONG_KIND, 5, 0);
    vet_case("~0[a~;~d~d~]", 0, TILDE_WRONG_KIND, 8, 0);
    yields("~0[a~;~d~d~]", 2, "a");
}

/* A vet's 6 to 8 are the answers of every table of those kinds that has room for what comes before. */
static void refused_alike(void)
{
    begin();
    integer(5);
    list_begin();
    list_end();
    refuses("x~p~p~p", TILDE_NO_ARGUMENT, 5, 4, "xss");
    refuses("~d ~a", TILDE_WRONG_KIND, 3, 3, "5 ");
    refuses("~p~p~,#a", TILDE_OUT_OF_RANGE, 4, 3, "ss");
    format_case("~d ~a", 1, answer(TILDE_NO_ROOM, 2, 2, "5"));
}

static void observation(const char *station, int64_t height, int64_t hour, int64_t minute, int64_t wind)
{
    begin();
    string(station);
    integer(height);
    integer(hour);
    integer(minute);
    integer(wind);
}

/* The collector's way: one vet for a format, then each line in a buffer of its count. */
static void bulletin(void)
{
    const char *line = "~4a ~5d ~2,'0d:~2,'0d wind ~d knot~:p~%";
    const size_t count = 4 + 1 + 20 + 1 + 20 + 1 + 20 + 6 + 20 + 5 + 1 + 1;

    observation("EGPA", 21, 9, 50, 17);
    vet_case(line, 4, TILDE_DONE, 0, count);
    format_case(line, count, answer(TILDE_DONE, 0, 21, "EGPA    21 09:50 wind 17 knots\n"));
    observation("LSZ", 1416, 12, 5, 1);
    format_case(line, count, answer(TILDE_DONE, 0, 21, "LSZ   1416 12:05 wind 1 knot\n"));
    observation("EHAM", INT64_MIN, INT64_MIN, INT64_MIN, INT64_MIN);
    filled(line, 4, 21,
           "EHAM -9223372036854775808 -9223372036854775808:-9223372036854775808 wind -9223372036854775808 knots\n");
}

int main(void)
{
    whole_case();
    lines_of_strings();
    lines_of_integers();
    lines_of_lists();
    lines_of_limits();
    bad_tables();
    refusals();
    nothing();
    shared();
    large_tables();
    counts();
    refused_vets();
    conditional_vets();
    refused_alike();
    bulletin();
    for (size_t code = 0; code < sizeof met / sizeof *met; code++)
        expect(met[code], "each code is met", code);
    printf("%zu checks\n", checks);
    return 0;
}
