#include "kinds.h"
#include "lines_run.h"
#include "options.h"
#include "refusal.h"
#include "walking.h"
#include "wording.h"

#include <string.h>

const char lines_help[] =
    "usage: tilde lines [--strict] [--all] FORMAT KIND..\n"
    "\n"
    "Reads rows of fields from standard input, with a tab between two fields, and\n"
    "writes the line that the format makes of each row. There is one KIND for each\n"
    "field, a word or its first letter:\n"
    "\n"
    "  integer    a whole number of 64 bits, as -850\n"
    "  string     the bytes of the field as they stand; quotes are bytes of it\n"
    "  boolean    #t or #f\n"
    "  character  one byte of 0 to 127, or its number as #\\x41\n"
    "  list       values in brackets, as for tilde try: (1 \"a\" (2))\n"
    "\n"
    "  tilde lines '~8a ~3d ~a~%' string integer string <stations >report\n"
    "\n"
    "Nothing is added to what the format writes. With ~% at its end each line stands\n"
    "on its own, and without that the lines are joined.\n"
    "\n"
    "A row ends with a newline, which the last one may lack. A return at the end of a\n"
    "row is dropped, so that files with \\r\\n are read like others. A row has at most\n"
    "524,288 bytes, with 65,536 bytes of strings and 1,024 values, those in lists too.\n"
    "\n"
    "A row with a bad field, or one that the format refuses, gives no line: it is told\n"
    "on standard error with its number, and the other rows go on. The first 20 such\n"
    "rows are told, and a summary at the end says how many there were.\n"
    "  --strict  stops at the first such row\n"
    "  --all     tells all of them\n"
    "  --        ends the options\n"
    "\n"
    "Status: 0 done, 1 refused (the format, or at least one row), 2 wrong usage, or an\n"
    "input or output that failed. A reader of the lines that is gone, as head, is not\n"
    "told.\n";

/* The longest row has room for all that a table holds, with each byte of a string as an escape of four. */
static const struct lines_sizes usual = {.longest = 524288, .chunk = 65536, .held = 131072};

/* Sets the kinds from their words; 0 after a complaint. */
static int read_kinds(struct kinds *kinds, int argc, char **argv, FILE *err)
{
    if (argc == 0)
        fputs("tilde lines: the kinds of the fields are missing; type one for each: tilde lines FORMAT KIND..\n", err);
    if (argc > TILDE_MOST_KINDS)
        print_numbers(err, "tilde lines: there are ~:d kinds, and a row has at most ~:d fields~%",
                     (uint64_t[]){(uint64_t)argc, TILDE_MOST_KINDS}, 2);
    if (argc == 0 || argc > TILDE_MOST_KINDS)
        return 0;
    for (kinds->count = 0; kinds->count < (size_t)argc; kinds->count++)
        if (!kind_read(argv[kinds->count], &kinds->tags[kinds->count])) {
            kind_complain(err, argv[kinds->count]);
            return 0;
        }
    return 1;
}

static int has_conditional(const struct lines_job *job)
{
    const struct format format = {job->format, job->format_length};
    struct walk walk = {.format = &format};
    struct directive directive;
    while (walk_find(&walk, &directive)) {
        if (directive.code == '[')
            return 1;
        walk_past(&walk, &directive);
    }
    return 0;
}

/* Whether no row can have a line, which is told: the text is wrong, or it is plain and wrong for the kinds. Of a format
   with a conditional the vet judges clauses that no row may pick. */
static int refuses_all(const struct lines_job *job, FILE *err)
{
    const struct question question = {job->format, job->format_length, job->kinds.tags, job->kinds.count, 0};
    size_t position, count;
    const uint32_t code = tilde_vet(question.format, question.format_length, question.kinds, question.kinds_length,
                                    question.longest, &position, &count);
    if (code < TILDE_LONG_FORMAT || code > (has_conditional(job) ? TILDE_BAD_PARAMETER : TILDE_OUT_OF_RANGE))
        return 0;
    refusal_print_vet(err, &question, code, position);
    return 1;
}

int verb_lines(int argc, char **argv, const struct streams *io)
{
    struct lines_job job = {.strict = 0, .all = 0};
    const struct option options[] = {{"--strict", &job.strict, NULL}, {"--all", &job.all, NULL}};
    argc = options_take("lines", argc, argv, options, sizeof options / sizeof options[0], io->err);
    if (argc < 1) {
        if (argc == 0)
            fputs("tilde lines: the format is missing; type tilde lines FORMAT KIND..\n", io->err);
        return STATUS_USAGE;
    }
    if (!read_kinds(&job.kinds, argc - 1, argv + 1, io->err))
        return STATUS_USAGE;
    job.format = (const uint8_t *)argv[0];
    job.format_length = strlen(argv[0]);
    return refuses_all(&job, io->err) ? STATUS_REFUSED : lines_run(&job, &usual, report_clock, io);
}
