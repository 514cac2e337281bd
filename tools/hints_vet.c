#include "hints.h"

#include <tilde.h>

/* The most clauses whose ends a hint names. */
#define MOST_CLAUSES ((size_t)5)

/* How many arguments each clause takes, and that none may run where no clause is for all other numbers. */
static void print_ways(FILE *to, struct walk *walk, const struct directive *opener)
{
    const size_t depth = walk->depth;
    size_t clauses = 0, last = 0;
    struct directive directive;
    walk_past(walk, opener);
    const size_t begins = walk->taken;
    while (walk_find(walk, &directive) && walk->depth > depth) {
        if (walk->depth == depth + 1 && (directive.code == ';' || directive.code == ']') && clauses++ < MOST_CLAUSES)
            fprintf(to, "%s%zu", clauses > 1 ? ", " : "", walk->taken - begins);
        last = walk->open[depth].last;
        walk_past(walk, &directive);
    }
    if (clauses > MOST_CLAUSES)
        fputs(", ..", to);
    if (last == 0 && !opener->colon && !opener->at)
        fputs(", and 0 where none runs", to);
}

static void hint_conditional(FILE *to, const struct format *format, const struct directive *directive,
                             const struct hand *hand)
{
    struct walk walk = walk_to(format, directive->start);
    if (directive->at && hand->next < hand->count && hand_kind(hand, hand->next) != TILDE_BOOLEAN) {
        fputs("a vet takes ~@[ for a boolean alone, and ", to);
        hand_name(to, hand, hand->next);
        fputs(" is ", to);
        hand_show(to, hand, hand->next);
        return;
    }
    fputs(directive->at ? "#f takes one argument, so its clause has to take one too, and takes "
                        : "each way has to take the same number of arguments; its clauses take ",
          to);
    print_ways(to, &walk, directive);
}

void hint_not_plain(FILE *to, const struct format *format, const struct directive *directive, const struct hand *hand)
{
    const struct rule *rule = directive_rule(directive);
    const size_t place = directive_v(directive);
    if (rule == NULL)
        return;
    if (place < MOST_PLACES) {
        fprintf(to, "the v of its %s takes a value that a vet does not know; write a %s there",
                rule->places[place].name, rule->places[place].character ? "character" : "number");
    } else if (rule->letter == '[') {
        hint_conditional(to, format, directive, hand);
    } else {
        directive_name(to, directive);
        fprintf(to, " %s, so a vet cannot count the line; tilde try shows it for one row of values",
                rule->letter == '*'   ? "jumps"
                : rule->letter == '{' ? "repeats"
                                      : "may end it early");
    }
}
