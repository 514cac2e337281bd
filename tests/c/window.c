/* Lines through small windows, through its headers alone: every call of tilde_resume and of tilde_window against
   what one call of tilde_format writes. Each window is a block of exactly its size. */
#define _GNU_SOURCE
#include "drawing.h"
#include "tables.h"

#define PLENTY ((size_t)70000)
/* A line is not cut into more windows than this. */
#define MOST_WINDOWS ((size_t)1500)
#define FORGED 1500
#define COUNT(array) (sizeof array / sizeof *array)

/* A format over a table, and the answer of one call with room enough. */
struct line {
    struct block format, table;
    size_t format_length, table_length;
    uint32_t code;
    size_t position, steps, written;
    uint8_t text[PLENTY];
};

struct told {
    uint32_t code;
    size_t position, steps, written;
};

/* The line in hand, the codes that ends had, and the line's number for the message of a failed check. */
static struct line line;
static int met[TILDE_NO_ROOM + 1];
static size_t lines = 0;

/* One call, which leaves the state that it answers in the place of the one that it was given. */
typedef struct told way(tilde_state *state, uint8_t *window, size_t size);

static struct told by_value(tilde_state *state, uint8_t *window, size_t size)
{
    tilde_resumed resumed = tilde_resume(line.format.bytes, line.format_length, line.table.bytes, line.table_length,
                                         window, size, *state);
    *state = resumed.state;
    return (struct told){resumed.code, resumed.position, resumed.steps, resumed.written};
}

static struct told by_pointer(tilde_state *state, uint8_t *window, size_t size)
{
    struct told told = {0, 999999, 999999, 999999};
    told.code = tilde_window(state, line.format.bytes, line.format_length, line.table.bytes, line.table_length, window,
                             size, &told.position, &told.steps, &told.written);
    return told;
}

static struct block window_of(size_t size, int fenced)
{
    struct block window = take(size, fenced);
    if (size > 0)
        memset(window.bytes, UNTOUCHED, size);
    return window;
}

/* One call, and the same again with a copy of its state: it answers what is wanted, and writes the text alone. */
static void lend(way *call, tilde_state *state, size_t size, int fenced, struct told want, const uint8_t *text)
{
    tilde_state copy = *state;
    for (int again = 0; again < 2; again++) {
        struct block window = window_of(size, fenced);
        struct told told = call(again ? &copy : state, window.bytes, size);
        expect(told.code == want.code, "code of a window", lines);
        expect(told.position == want.position && told.steps == want.steps, "position and steps of a window", lines);
        expect(told.written == want.written, "bytes written in a window", lines);
        expect(same(window.bytes, text, want.written), "text of a window", lines);
        expect(size == want.written || untouched(window.bytes + want.written, size - want.written), "bytes beyond it",
               lines);
        give_back(window);
    }
    /* whichever of the two goes on */
    if (lines % 2)
        *state = copy;
}

/* The line in hand through windows of these sizes by turns, until its end and beyond. */
static void drain(way *call, const size_t *sizes, size_t count, int fenced)
{
    tilde_state state = {0};
    size_t given = 0;
    struct told end = {line.code, line.position, line.steps, 0};
    struct told more = {TILDE_MORE, 0, 0, 0};

    for (size_t i = 0;; i++) {
        size_t size = sizes[i % count], rest = line.written - given;
        int ends = size > 0 && rest <= size;
        struct told want = ends ? end : more;
        want.written = ends ? rest : size;
        lend(call, &state, size, fenced, want, line.text + given);
        given += want.written;
        if (ends)
            break;
    }
    expect(given == line.written, "windows joined", lines);
    lend(call, &state, 7, fenced, end, NULL);
    lend(call, &state, 0, fenced, end, NULL);
    lend(call, &state, 512, fenced, end, NULL);
}

static void drain_all_ways(int fenced)
{
    static const size_t each[] = {1, 2, 3, 7, 64, 512};
    static const size_t mixed[] = {0, 1, 0, 0, 7, 64, 0, 512, 2, 0, 3};
    static way *const ways[] = {by_value, by_pointer};

    for (size_t i = 0; i < COUNT(ways); i++) {
        for (size_t j = 0; j < COUNT(each); j++)
            if (line.written / each[j] < MOST_WINDOWS)
                drain(ways[i], each + j, 1, fenced);
        drain(ways[i], mixed, COUNT(mixed), fenced);
    }
}

/* Makes a format of any bytes over a table of any bytes the line in hand. */
static void open_line(const void *format, size_t format_length, const void *given, size_t given_length, int fenced)
{
    lines++;
    line.format = copy_of(format, format_length, fenced);
    line.table = copy_of(given, given_length, fenced);
    line.format_length = format_length;
    line.table_length = given_length;
    line.code = tilde_format(line.format.bytes, format_length, line.table.bytes, given_length, line.text, PLENTY,
                             &line.position, &line.steps, &line.written);
    expect(line.code != TILDE_NO_ROOM, "room enough", lines);
    met[line.code] = 1;
}

static void close_line(void)
{
    give_back(line.format);
    give_back(line.table);
}

static void raw_line(const void *format, size_t format_length, const void *given, size_t given_length)
{
    for (int fenced = 0; fenced < 2; fenced++) {
        open_line(format, format_length, given, given_length, fenced);
        drain_all_ways(fenced);
        expect(same(line.format.bytes, format, format_length), "a format is only read", lines);
        expect(same(line.table.bytes, given, given_length), "a table is only read", lines);
        close_line();
    }
}

/* The arguments of every line: an integer, a string, a character, a boolean, and a list of three lists, the first of
   which has entries of its own and shares the last two of them with the second. */
enum { INTEGER, STRING, CHARACTER, BOOLEAN, LISTS, ARGUMENTS };

static void fill_arguments(void)
{
    begin();
    integer(-1234567);
    bytes("a \"quoted\\ name", 15);
    character(8);
    boolean(0);
    list_begin();
    list_begin();
    integer(1);
    integer(20);
    integer(300);
    list_end();
    list_begin();
    list_end();
    list_begin();
    list_end();
    list_end();
    share(ARGUMENTS + 1, ARGUMENTS + 4, 2);
}

/* Each begins at the first argument. */
static const char *const formats[] = {
    "",
    "literal bytes only",
    "~0%~\n   ~*",
    "~d ~a ~a ~a",
    "~20,'*,'.,2:@d|~,,,1:d|",
    "~b ~:*~o ~:*~x",
    "~*~30,7,3,'-a|~:*~30,7,3,'-@s|",
    "~2*~c~:*~:c~:*~@c~:*~s",
    "~d item~:p, ~:*~d entr~:@p",
    "~600_~%~3~~2|~4/",
    "~@\n   x~:\n   y",
    "~3*~:[no~;yes~]~@[never~]",
    "~#[none~;one~:;~d and ~s~] left",
    "~4@*~{<~{~d~^, ~}>~^; ~}.",
    "~4@*~2{~{~d~}~}~0{~}",
    "~4@*~2{~{~d~} ~}",
    "~1@{~1@{~1@{~1@{~1@{~1@{~1@{~1@{~8d ~s~}~}~}~}~}~}~}~}!",
    "~4@*~{~1@{~:[~;~1@{~#[~;~;~;~:;~]~:*~{~#[~;~:;~1@{~10,'.d~}~]~}~]~}~}",
    "~d ~:*~v%",
    "~d~2*~a~*~d",
    "~d ~a ~d",
    "abc~5*~,#a",
    "~4@*~{~a~}",
    "~d~99*",
    "~@{x~}",
    "~1@{~@{~0%~}~}",
    "tail~q",
    "tail~[",
    "tail~:a",
    "~@{~a~}",
};

static void lines_of_formats(void)
{
    for (size_t i = 0; i < COUNT(formats); i++)
        raw_line(formats[i], strlen(formats[i]), table.bytes, table_length());
}

static void other_lines(void)
{
    static uint8_t many[TILDE_MOST_FORMAT + 1];

    memset(many, 'x', sizeof many);
    raw_line(many, TILDE_MOST_FORMAT, table.bytes, table_length());
    raw_line(many, TILDE_MOST_FORMAT + 1, table.bytes, table_length());
    raw_line("~d", 2, table.bytes, table_length() - 1);
    raw_line("~d", 2, NULL, 0);
    raw_line(NULL, 0, NULL, 0);
}

/* No piece of these lines is longer, and a run has at most one for each step. */
#define LONGEST_PIECE ((size_t)5000)

/* A state that no call gave, over the line in hand: the same calls answer the same, stay in their windows, and end. */
static void follow(tilde_state state, int fenced)
{
    size_t calls = 0, size = 1, most = 20 + TILDE_MOST_STEPS * LONGEST_PIECE / PLENTY;
    struct told told = {TILDE_MORE, 0, 0, 1};

    /* an ended state writes nothing, and repeats a code that may be any */
    while (told.code == TILDE_MORE && told.written > 0) {
        tilde_state copy = state;
        struct block one = window_of(size, fenced), other = window_of(size, fenced);
        told = by_value(&state, one.bytes, size);
        struct told again = by_pointer(&copy, other.bytes, size);
        expect(told.written <= size && again.written == told.written, "bytes written by a forged state", lines);
        expect(told.code == again.code && told.position == again.position && told.steps == again.steps &&
                   same(one.bytes, other.bytes, size),
               "the same again", lines);
        expect(untouched(one.bytes + told.written, size - told.written), "bytes beyond the text", lines);
        give_back(one);
        give_back(other);
        expect(calls++ < most, "the end of a forged state", lines);
        size = 2 * size < PLENTY ? 2 * size : PLENTY;
    }
}

/* Numbers of all sizes in every field; what the line has begun goes on from them. */
static void random_state(tilde_state *state)
{
    uint64_t words[sizeof *state / 8];
    for (size_t i = 0; i < COUNT(words); i++)
        words[i] = word() >> word() % 64;
    memcpy(state, words, sizeof words);
    state->stage = word() % 8 ? 1 : word() % 4;
}

static void forged_states(void)
{
    tilde_state state;

    _Static_assert(sizeof state % 8 == 0, "a state is made of words");
    for (size_t i = 0; i < FORGED; i++) {
        const char *format = formats[word() % COUNT(formats)];
        int fenced = word() % 2;
        open_line(format, strlen(format), table.bytes, table_length(), fenced);
        memset(&state, 0xff, sizeof state);
        follow(state, fenced);
        state.stage = 1;
        follow(state, fenced);
        random_state(&state);
        follow(state, fenced);
        close_line();
    }
}

int main(void)
{
    seed = 11;
    fill_arguments();
    lines_of_formats();
    other_lines();
    for (uint32_t code = TILDE_DONE; code < TILDE_NO_ROOM; code++)
        expect(met[code], "each code is met", code);
    forged_states();
    printf("%zu checks\n", checks);
    return 0;
}
