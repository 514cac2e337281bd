#include "examples.h"
#include "options.h"
#include "show.h"
#include "values.h"
#include "verbs.h"

const char explain_help[] =
    "usage: tilde explain [CODE]\n"
    "\n"
    "Says what a code means, and shows a wrong format and its correction with what\n"
    "comes of both. Without a code it lists all.\n"
    "\n"
    "  tilde explain 5\n"
    "\n"
    "Status: 0 done, 2 wrong usage, or an output that failed.\n";

/* A call that no command makes: `times` copies of a format over the one argument 42, whose entry has this tag, into so
   much room. */
struct direct {
    const char *what, *format;
    size_t times;
    uint8_t tag;
    size_t room;
};

/* What a code means; two commands by their verb and words, of which the first is wrong, or two such calls. */
static const struct explanation {
    const char *means, *verb;
    const char *wrong[MOST_WORDS], *right[MOST_WORDS];
    struct direct calls[2];
} explanations[] = {
    [TILDE_DONE] = {.means = "The line is whole. Arguments that are left over are ignored.\n",
                    .verb = "try",
                    .right = {"~a ~d", "\"wind\"", "12", "850"}},
    [TILDE_BAD_TABLE] = {.means = "The argument table is not made as it has to be; the byte is one of the table.\n"
                                  "No value typed here comes to that: it is a fault of the program that makes it.\n",
                         .calls = {{"a table whose entry has the tag 9", "~d", 1, 9, 8},
                                   {"the same with the tag 1, an integer", "~d", 1, TILDE_INTEGER, 8}}},
    [TILDE_LONG_FORMAT] = {.means = "The format has more than 4,096 bytes.\n",
                           .calls = {{"a format of 4,097 bytes", "-", TILDE_MOST_FORMAT + 1, TILDE_INTEGER, 8192},
                                     {"a format of 4,096 bytes", "-", TILDE_MOST_FORMAT, TILDE_INTEGER, 8192}}},
    [TILDE_UNKNOWN_CODE] = {.means = "No directive has this letter, or the format ends inside a directive. To print a\n"
                                     "tilde, write ~~.\n",
                            .verb = "try",
                            .wrong = {"~5,2f", "\"3.14\""},
                            .right = {"~5@a", "\"3.14\""}},
    [TILDE_BAD_BLOCK] = {.means = "A block ~[..~] or ~{..~} is not closed, or closed by the wrong one; its clauses\n"
                                  "are too many, too few or wrongly parted; its body is empty; or it is the ninth\n"
                                  "inside another.\n",
                         .verb = "try",
                         .wrong = {"~:[no wind~]", "#f"},
                         .right = {"~:[no wind~;wind~]", "#f"}},
    [TILDE_BAD_PARAMETER] = {.means =
                                 "A parameter is out of range, stands in a place of another sort, or is one too\n"
                                 "many; or a modifier is not allowed. `tilde directives a` has the places of ~a.\n",
                             .verb = "try",
                             .wrong = {"~5,'0a", "\"0123\""},
                             .right = {"~5,,,'0a", "\"0123\""}},
    [TILDE_NO_ARGUMENT] = {.means = "A directive, or a v, takes an argument when none is left; or ~* or ~:p goes\n"
                                    "outside of them.\n",
                           .verb = "try",
                           .wrong = {"~d of ~d", "5"},
                           .right = {"~d of ~d", "5", "12"}},
    [TILDE_WRONG_KIND] = {.means = "A directive, or a v, meets an argument of a kind that it does not take.\n",
                          .verb = "try",
                          .wrong = {"~d", "\"850\""},
                          .right = {"~d", "850"}},
    [TILDE_OUT_OF_RANGE] = {.means = "The value that v takes from an argument, or the number that # stands for, is\n"
                                     "outside the range of its place.\n",
                            .verb = "try",
                            .wrong = {"~vd", "-6", "850"},
                            .right = {"~vd", "6", "850"}},
    [TILDE_STEP_LIMIT] = {.means = "The line needs more than 65,536 steps. Each byte of text, each directive and each\n"
                                   "pass of a loop is a step. Most often a loop takes no argument, and never ends.\n",
                          .verb = "try",
                          .wrong = {"~@{wind~^, ~}", "5", "12"},
                          .right = {"~@{wind ~d~^, ~}", "5", "12"}},
    [TILDE_NO_ROOM] = {.means = "The buffer of a program has no room for the next piece. `tilde try` prints lines\n"
                                "of any length, so this comes only from a call of tilde_format.\n",
                       .calls = {{"~5d in 4 bytes", "~5d", 1, TILDE_INTEGER, 4},
                                 {"~5d in 5 bytes", "~5d", 1, TILDE_INTEGER, 5}}},
    [TILDE_NOT_PLAIN] = {.means = "A vet takes no ~* ~{ ~^ and no v, since it does not know the values; no\n"
                                  "conditional whose ways take different numbers of arguments; and ~@[ for a\n"
                                  "boolean alone.\n",
                         .verb = "vet",
                         .wrong = {"~*~d", "integer", "integer"},
                         .right = {"~d", "integer"}},
    [TILDE_BAD_KINDS] = {.means = "A vet takes at most 1,024 kinds, and a longest of at most 4,096 bytes.\n",
                         .verb = "vet",
                         .wrong = {"~a", "string", "--longest", "5000"},
                         .right = {"~a", "string", "--longest", "4096"}},
};

#define CODES (sizeof explanations / sizeof explanations[0])

/* The table of one argument, 42. */
static size_t table_of(uint8_t tag, uint8_t *room, size_t size)
{
    tilde_table table;
    tilde_table_begin(&table, room, size);
    tilde_table_integer(&table, 42);
    const size_t length = tilde_table_end(&table);
    room[TILDE_HEADER_BYTES] = tag;
    return length;
}

static void direct_run(const struct direct *call, FILE *out)
{
    uint8_t format[2 * TILDE_MOST_FORMAT], table[64], buffer[2 * TILDE_MOST_FORMAT];
    const size_t length = strlen(call->format), table_length = table_of(call->tag, table, sizeof table);
    size_t position, steps, written;
    for (size_t i = 0; i < call->times; i++)
        memcpy(format + i * length, call->format, length);
    const uint32_t code = tilde_format(format, length * call->times, table, table_length, buffer, call->room, &position,
                                       &steps, &written);
    fprintf(out, "  %s\n", call->what);
    if (code == TILDE_DONE)
        fprintf(out, "%s, %zu bytes\n", tilde_words(code), written);
    else
        fprintf(out, "refused (%u): %s, at byte %zu\n", (unsigned)code, tilde_words(code), position);
}

/* One of the two sides of an explanation, below its title. */
static void print_side(const struct explanation *explanation, int right, FILE *out)
{
    fputs(right ? "\nright:\n" : "\nwrong:\n", out);
    if (explanation->verb == NULL)
        direct_run(explanation->calls + right, out);
    else
        example_run(explanation->verb, right ? explanation->right : explanation->wrong, out);
}

static void explain_code(size_t code, FILE *out)
{
    const struct explanation *explanation = explanations + code;
    fprintf(out, "%zu: %s\n%s", code, tilde_words((uint32_t)code), explanation->means);
    if (code != TILDE_DONE)
        print_side(explanation, 0, out);
    print_side(explanation, 1, out);
}

static void list_codes(FILE *out)
{
    for (size_t i = 0; i < CODES; i++)
        fprintf(out, "%2zu  %s\n", i, tilde_words((uint32_t)i));
    fputs("\nType tilde explain CODE for more of one.\n", out);
}

int verb_explain(int argc, char **argv, const struct streams *io)
{
    int64_t code;
    argc = options_take("explain", argc, argv, NULL, 0, io->err);
    if (argc < 0)
        return STATUS_USAGE;
    if (argc == 0) {
        list_codes(io->out);
        return STATUS_DONE;
    }
    if (argc > 1 || !whole_read(argv[0], strlen(argv[0]), &code) || code < 0 || code >= (int64_t)CODES) {
        fprintf(io->err, "tilde explain: ");
        show_word(io->err, argv[argc > 1 ? 1 : 0], strlen(argv[argc > 1 ? 1 : 0]));
        fprintf(io->err, " is %s; type tilde explain and a number of 0 to %zu\n",
                argc > 1 ? "one word too many" : "no code", CODES - 1);
        return STATUS_USAGE;
    }
    explain_code((size_t)code, io->out);
    return STATUS_DONE;
}
