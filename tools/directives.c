#include "examples.h"
#include "options.h"
#include "rules.h"
#include "show.h"
#include "verbs.h"

#include <string.h>

const char directives_help[] =
    "usage: tilde directives [LETTER]\n"
    "\n"
    "Shows each directive: its places, what they take and what they are where\n"
    "nothing is written, its modifiers, the argument that it takes, and an example\n"
    "with what comes of it. With a letter, as a or newline, only that one.\n"
    "\n"
    "  tilde directives a\n"
    "\n"
    "Status: 0 done, 2 wrong usage, or an output that failed.\n";

static void print_rule(FILE *out, const struct rule *rule)
{
    print_directive(out, rule->letter, rule->modifiers);
    fprintf(out, "  %s\n", rule->does);
    for (size_t i = 0; i < places_of(rule); i++) {
        fprintf(out, "  %-10s %s, ", i > 0 ? "" : "places", rule->places[i].name);
        print_takes(out, rule->places + i);
        fprintf(out, "; if empty %s\n", rule->places[i].otherwise);
    }
    if (rule->changes[0] != '\0')
        fprintf(out, "  %-10s %s\n", "modifiers", rule->changes);
    if (rule->kinds != 0) {
        fprintf(out, "  %-10s ", "argument");
        print_kinds(out, rule->kinds);
        fputc('\n', out);
    }
    example_run("try", rule->example, out);
}

/* The letter that a word names, with or without tilde and modifiers; 0 for no letter. */
static uint8_t letter_of(const char *word)
{
    word += word[0] == '~' && word[1] != '\0' ? 1 : 0;
    word += (word[0] == ':' || word[0] == '@') && word[1] != '\0' ? strspn(word, ":@") : 0;
    if (strcmp(word, "newline") == 0)
        return '\n';
    return word[0] != '\0' && word[1] == '\0' ? lower((uint8_t)word[0]) : 0;
}

static int complain(const char *word, FILE *err)
{
    const char *instead = guile_only(letter_of(word));
    fputs("tilde directives: ", err);
    show_word(err, word, strlen(word));
    if (instead != NULL)
        fprintf(err, " is not supported: in Guile it is %s\n  directives are ", instead);
    else
        fputs(" is no directive; there are ", err);
    print_all_directives(err);
    fputc('\n', err);
    return STATUS_USAGE;
}

int verb_directives(int argc, char **argv, const struct streams *io)
{
    argc = options_take("directives", argc, argv, NULL, 0, io->err);
    if (argc < 0)
        return STATUS_USAGE;
    if (argc > 1) {
        fputs("tilde directives: one letter at a time; type tilde directives LETTER, or no letter for all\n", io->err);
        return STATUS_USAGE;
    }
    const uint8_t letter = argc == 0 ? 0 : letter_of(argv[0]);
    if (argc == 1 && modifiers_allowed(letter) == 0)
        return complain(argv[0], io->err);
    for (size_t i = 0, shown = 0; i < rules_count; i++) {
        if (argc == 1 && rules[i].letter != letter)
            continue;
        fputs(shown++ > 0 ? "\n" : "", io->out);
        print_rule(io->out, rules + i);
    }
    return STATUS_DONE;
}
