#include "options.h"
#include "rules.h"
#include "show.h"
#include "verbs.h"

#include <errno.h>
#include <string.h>
#include <tilde.h>

static const struct verb {
    const char *name, *summary, *help;
    int (*run)(int argc, char **argv, const struct streams *io);
} verbs[] = {
    {"try", "the line that a format makes of values, or what is wrong", try_help, verb_try},
    {"vet", "how long a line can get, for arguments of given kinds", vet_help, verb_vet},
    {"explain", "what a code means, with a wrong format and its correction", explain_help, verb_explain},
    {"directives", "what each directive takes, with an example", directives_help, verb_directives},
    {"lines", "a line for each row of values on standard input", lines_help, verb_lines},
};

#define VERBS (sizeof verbs / sizeof verbs[0])

static const struct verb *verb_named(const char *name)
{
    for (size_t i = 0; i < VERBS; i++)
        if (strcmp(verbs[i].name, name) == 0)
            return verbs + i;
    return NULL;
}

static void print_overview(FILE *to)
{
    fputs("usage: tilde VERB ..\n\n", to);
    for (size_t i = 0; i < VERBS; i++)
        fprintf(to, "  tilde %-11s %s\n", verbs[i].name, verbs[i].summary);
    fputs("  tilde help VERB   what to type behind a verb\n"
          "  tilde --version   the version\n\n"
          "Status: 0 done, 1 refused, 2 wrong usage, or an input or output that failed; a\n"
          "reader of the output that is gone, as head, is not told.\n",
          to);
}

/* How many bytes have to be put in, taken out or exchanged to make one word of the other; long words count as far. */
static size_t distance(const char *one, const char *other)
{
    enum { MOST = 16 };
    size_t row[MOST + 1];
    const size_t length = strlen(other);
    if (length > MOST || strlen(one) > MOST)
        return MOST;
    for (size_t j = 0; j <= length; j++)
        row[j] = j;
    for (size_t i = 0; one[i] != '\0'; i++) {
        size_t corner = row[0]++;
        for (size_t j = 1; j <= length; j++) {
            const size_t exchanged = corner + (one[i] != other[j - 1]);
            const size_t shorter = row[j] < row[j - 1] ? row[j] + 1 : row[j - 1] + 1;
            corner = row[j];
            row[j] = exchanged < shorter ? exchanged : shorter;
        }
    }
    return row[length];
}

/* How far a word is from the name that it may be meant as; the start of a name is near, and so are capitals. */
static size_t farness(const char *word, const char *name)
{
    char small[32];
    size_t length = 0;
    for (; word[length] != '\0' && length + 1 < sizeof small; length++)
        small[length] = (char)lower((uint8_t)word[length]);
    small[length] = '\0';
    return length > 2 && strncmp(small, name, length) == 0 ? 0 : distance(small, name);
}

/* The name of a verb, or an option in its place, that a word is meant as; null where it is far from all of them. */
static const char *nearest(const char *word)
{
    const char *near = "--help";
    if (farness(word, "--version") < farness(word, near))
        near = "--version";
    for (size_t i = 0; i < VERBS; i++)
        if (farness(word, verbs[i].name) < farness(word, near))
            near = verbs[i].name;
    return farness(word, near) <= 2 ? near : NULL;
}

static int complain_verb(const char *name, FILE *err)
{
    const char *const near = nearest(name);
    fputs("tilde: ", err);
    show_word(err, name, strlen(name));
    if (near != NULL && strchr(name, '~') == NULL) {
        fprintf(err, " is no %s; did you mean tilde %s?\n", name[0] == '-' ? "option" : "verb", near);
    } else if (name[0] == '-') {
        fputs(" is no option; there are --help and --version, and those of a verb, which stand behind it\n", err);
    } else if (strchr(name, '~') != NULL) {
        fputs(" is no verb; to see the line of a format type tilde try ", err);
        show_word(err, name, strlen(name));
        fputs(" VALUE..\n", err);
    } else {
        fputs(" is no verb; there are", err);
        for (size_t i = 0; i < VERBS; i++)
            fprintf(err, " %s", verbs[i].name);
        fputs(", and tilde --help shows them\n", err);
    }
    return STATUS_USAGE;
}

static int help(const char *name, const struct streams *io)
{
    const struct verb *verb = name == NULL ? NULL : verb_named(name);
    if (name != NULL && verb == NULL)
        return complain_verb(name, io->err);
    if (verb == NULL)
        print_overview(io->out);
    else
        fputs(verb->help, io->out);
    return STATUS_DONE;
}

static int run(int argc, char **argv, const struct streams *io)
{
    const char *name = argc > 1 ? argv[1] : NULL;
    if (name == NULL) {
        print_overview(io->err);
        return STATUS_USAGE;
    }
    const int asks_help = strcmp(name, "--help") == 0 || strcmp(name, "-h") == 0 || strcmp(name, "help") == 0;
    if (asks_help && argc > 3) {
        fputs("tilde help: one verb at a time; type tilde help VERB\n", io->err);
        return STATUS_USAGE;
    }
    if (asks_help)
        return help(argc > 2 && !options_ask_help(1, argv + 2) ? argv[2] : NULL, io);
    if (strcmp(name, "--version") == 0 && argc > 2) {
        fputs("tilde --version: nothing stands behind it\n", io->err);
        return STATUS_USAGE;
    }
    if (strcmp(name, "--version") == 0) {
        fprintf(io->out, "tilde %s\n", TILDE_VERSION);
        return STATUS_DONE;
    }
    const struct verb *verb = verb_named(name);
    if (verb == NULL)
        return complain_verb(name, io->err);
    if (options_ask_help(argc - 2, argv + 2))
        return help(name, io);
    return verb->run(argc - 2, argv + 2, io);
}

int tilde_command(int argc, char **argv, FILE *in, FILE *out, FILE *err)
{
    const struct streams io = {in, out, err};
    errno = 0;
    const int status = run(argc, argv, &io);
    /* where a write failed on the way, errno is still what it set */
    int cause = ferror(out) ? errno : 0;
    const int flushed = fflush(out) == 0;
    cause = flushed ? cause : errno;
    /* a verb that answers STATUS_USAGE has told why, and a reader who has gone is told nothing */
    if ((!flushed || ferror(out)) && status != STATUS_USAGE) {
        if (cause != EPIPE)
            fprintf(err, "tilde: cannot write the output: %s\n", cause != 0 ? strerror(cause) : "a write failed");
        return STATUS_USAGE;
    }
    return fflush(err) != 0 || ferror(err) ? STATUS_USAGE : status;
}
