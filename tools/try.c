#include "entries.h"
#include "hand.h"
#include "options.h"
#include "refusal.h"
#include "running.h"
#include "values.h"
#include "verbs.h"
#include "walking.h"
#include "wording.h"

const char try_help[] =
    "usage: tilde try [--raw] FORMAT [VALUE]...\n"
    "\n"
    "Prints the line that a format makes of the values, and a newline where the line\n"
    "has none at its end; or, on standard error, what is wrong with it. Values are\n"
    "\n"
    "  850           a whole number of 64 bits\n"
    "  \"wind\"        a string\n"
    "  #\\A  #\\x41    a character, 0 to 127\n"
    "  #t  #f        a boolean\n"
    "  (1 \"a\" (2))   a list\n"
    "\n"
    "In a string \\n \\t \\r \\\\ \\\" \\s \\h are newline, tab, return, backslash, quote,\n"
    "space and #, \\xHH is any byte, and \\*80(-) is 80 times -. A shell takes ~ # \" and\n"
    "brackets for itself: put each word in single quotes, or in double quotes where\n"
    "it has a single one in it.\n"
    "\n"
    "  tilde try '~a: ~d hPa' '\"wind\"' 850\n"
    "  tilde try \"~5,'0d\" 42\n"
    "\n"
    "A line with bytes that are no text for a terminal is shown with these escapes,\n"
    "and a note on standard error says so; text is UTF-8, whatever the locale. Another\n"
    "note says how many values the line did not use.\n"
    "  --raw  writes the bytes as they are, and adds no newline and no note\n"
    "  --     ends the options; a negative number is a value anyway\n"
    "\n"
    "Status: 0 done, 1 refused, 2 wrong usage, or an output that failed.\n";

/* Adds the values to a table; answers its length, 0 after a complaint. */
static size_t read_values(int argc, char **argv, uint8_t *room, size_t size, FILE *err)
{
    tilde_table table;
    tilde_table_begin(&table, room, size);
    for (int i = 0; i < argc; i++) {
        struct complaint complaint;
        if (!value_read(&table, argv[i], strlen(argv[i]), &complaint)) {
            value_complain(err, (size_t)i + 1, argv[i], strlen(argv[i]), &complaint);
            return 0;
        }
    }
    return tilde_table_end(&table);
}

/* Whether a walk is inside a loop over a list, whose values are what a directive sees there. */
static int in_list(const struct walk *walk)
{
    for (size_t i = 0; i < walk->depth; i++)
        if (walk->open[i].opener.code == '{' && !walk->open[i].opener.at)
            return 1;
    return 0;
}

/* Whether a directive looks at arguments without taking them, or goes to others: what is left may have been used. */
static int looks_around(const struct directive *directive)
{
    for (size_t i = 0; i < directive->count && i < MOST_PLACES; i++)
        if (directive->parameters[i].form == FORM_REMAINING)
            return 1;
    return directive->code == '*' || (directive->code == '[' && directive->at);
}

/* Says how many values the line did not use, where that is known. */
static void note_left(const struct call *call, FILE *err)
{
    const struct format format = {call->format, call->format_length};
    struct walk walk = {.format = &format};
    struct directive directive;
    struct hand hand;
    /* how many were taken where a ~^ last looked at the next one */
    size_t looked = SIZE_MAX;
    for (; walk_find(&walk, &directive); walk_past(&walk, &directive)) {
        if (looks_around(&directive))
            return;
        if (directive.code == '^' && !in_list(&walk))
            looked = walk.taken;
    }
    if (looked == walk.taken)
        return;
    if (arguments_of(call->table) == 0 || !hand_at_end(call, &hand) || hand.next == hand.count)
        return;
    fputs("tilde: ", err);
    print_count(err, hand.count - hand.next, "value");
    fprintf(err, " %s not used\n", hand.count - hand.next == 1 ? "was" : "were");
}

static void print_line(const struct call *call, const struct learned *learned, const struct streams *io)
{
    if (!learned->is_text) {
        line_show(call, io->out);
        fputc('\n', io->out);
    } else {
        line_write(call, io->out);
        if (learned->tail_length == 0 || learned->tail[learned->tail_length - 1] != '\n')
            fputc('\n', io->out);
    }
    /* notes come behind the line; whether it could be written is looked at in the end */
    fflush(io->out);
    if (!learned->is_text)
        fputs("tilde: the line has bytes that are no text for a terminal, so it is shown escaped; "
              "--raw writes it as it is\n",
              io->err);
    note_left(call, io->err);
}

int verb_try(int argc, char **argv, const struct streams *io)
{
    uint8_t table[TILDE_MOST_TABLE];
    int raw = 0;
    const struct option options[] = {{"--raw", &raw, NULL}};
    argc = options_take("try", argc, argv, options, 1, io->err);
    if (argc < 1) {
        if (argc == 0)
            fputs("tilde try: the format is missing; type tilde try FORMAT VALUE..\n", io->err);
        return STATUS_USAGE;
    }
    const size_t length = read_values(argc - 1, argv + 1, table, sizeof table, io->err);
    if (length == 0)
        return STATUS_USAGE;
    const struct call call = {(const uint8_t *)argv[0], strlen(argv[0]), table, length};
    const struct learned learned = line_learn(&call);
    if (learned.ending.code != TILDE_DONE) {
        refusal_print(io->err, &call, learned.ending.code, learned.ending.position);
        return STATUS_REFUSED;
    }
    if (raw)
        line_write(&call, io->out);
    else
        print_line(&call, &learned, io);
    return STATUS_DONE;
}
