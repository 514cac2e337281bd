#include "kinds.h"
#include "options.h"
#include "refusal.h"
#include "values.h"
#include "verbs.h"

#include <stdlib.h>

const char vet_help[] =
    "usage: tilde vet [--longest N] FORMAT [KIND]...\n"
    "\n"
    "Prints how many bytes the longest line can have that the format makes of\n"
    "arguments of these kinds: so much room is enough for every one of them. A kind\n"
    "is boolean, integer, character, string or list, or its first letter.\n"
    "\n"
    "  tilde vet --longest 20 '~a: ~d hPa' string integer\n"
    "\n"
    "  --longest N  no string argument has more than N bytes, 0 to 4096\n"
    "  --           ends the options\n"
    "\n"
    "With a string among the kinds --longest has to be there: the count is only as\n"
    "good as that number, so none is taken in its place. Strings inside lists do not\n"
    "count.\n"
    "\n"
    "The format may have conditionals whose ways all take as many arguments, but no\n"
    "~* ~{ ~^ and no v.\n"
    "\n"
    "Status: 0 done, 1 refused, 2 wrong usage, or an output that failed.\n";

/* Reads the kinds; answers 0 after a complaint. */
static int read_kinds(int argc, char **argv, uint8_t *kinds, int *strings, FILE *err)
{
    for (int i = 0; i < argc; i++) {
        if (!kind_read(argv[i], kinds + i)) {
            kind_complain(err, argv[i]);
            return 0;
        }
        *strings += kinds[i] == TILDE_STRING;
    }
    return 1;
}

/* Sets the longest from the text of its option, which is null without one; answers 0 after a complaint. */
static int read_longest(const char *text, int strings, size_t *longest, FILE *err)
{
    int64_t number = 0;
    if (text == NULL && strings > 0) {
        fputs("tilde vet: there is a string, so say how many bytes the longest has; type tilde vet --longest N "
              "FORMAT KIND..\n",
              err);
        return 0;
    }
    if (text != NULL && (!whole_read(text, strlen(text), &number) || number < 0)) {
        fputs("tilde vet: --longest takes a number of bytes, 0 to 4096, as --longest 20\n", err);
        return 0;
    }
    *longest = (size_t)number;
    return 1;
}

static int answer(const struct question *question, const struct streams *io)
{
    size_t position, count;
    const uint32_t code = tilde_vet(question->format, question->format_length, question->kinds, question->kinds_length,
                                    question->longest, &position, &count);
    if (code != TILDE_DONE) {
        refusal_print_vet(io->err, question, code, position);
        return STATUS_REFUSED;
    }
    fprintf(io->out, "%zu\n", count);
    return STATUS_DONE;
}

int verb_vet(int argc, char **argv, const struct streams *io)
{
    const char *text = NULL;
    const struct option options[] = {{"--longest", NULL, &text}};
    int strings = 0, status = STATUS_USAGE;
    argc = options_take("vet", argc, argv, options, 1, io->err);
    if (argc < 1) {
        if (argc == 0)
            fputs("tilde vet: the format is missing; type tilde vet FORMAT KIND..\n", io->err);
        return STATUS_USAGE;
    }
    uint8_t *kinds = malloc((size_t)argc);
    if (kinds == NULL) {
        fputs("tilde vet: no memory for the kinds\n", io->err);
        return STATUS_USAGE;
    }
    struct question question = {(const uint8_t *)argv[0], strlen(argv[0]), kinds, (size_t)argc - 1, 0};
    if (read_kinds(argc - 1, argv + 1, kinds, &strings, io->err) &&
        read_longest(text, strings, &question.longest, io->err))
        status = answer(&question, io);
    free(kinds);
    return status;
}
