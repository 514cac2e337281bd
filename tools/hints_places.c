#include "hints.h"
#include "meaning.h"
#include "wording.h"

/* The first parameter with a bad number. */
static const struct parameter *bad_number(const struct directive *directive)
{
    for (size_t i = 0; i < MOST_PLACES && i < directive->count; i++)
        if (directive->parameters[i].badness != NUMBER_GOOD)
            return directive->parameters + i;
    return NULL;
}

static void hint_number(FILE *to, const struct parameter *parameter)
{
    if (parameter != NULL && parameter->badness == SIGN_ALONE) {
        fputs("a sign is written before digits", to);
        return;
    }
    fputs("a parameter is 0 to ", to);
    print_number(to, MOST_NUMBER);
    if (parameter != NULL)
        fputs(parameter->badness == NUMBER_BELOW ? ", and this one is below" : ", and this one is above", to);
}

static void hint_modifiers(FILE *to, const struct directive *directive)
{
    const unsigned allowed = modifiers_allowed(directive->code);
    print_directive(to, directive->code, BARE);
    if ((allowed & (COLON | AT)) == (COLON | AT))
        fputs(" takes : or @, not both", to);
    else if ((allowed & (COLON | AT)) == 0)
        fputs(" takes no modifier", to);
    else
        fprintf(to, " takes %s and no other modifier", allowed & COLON ? ":" : "@");
}

static void hint_many(FILE *to, const struct directive *directive, const struct rule *rule)
{
    const size_t places = places_of(rule);
    directive_name(to, directive);
    if (places == 0 || rule->letter == 'c') {
        fputs(places == 0 ? " takes no parameter" : " has no width, only a charnum; ~a shows a character in a width",
              to);
        return;
    }
    fputs(" has ", to);
    print_count(to, places, "place");
    for (size_t i = 0; i < places; i++)
        fprintf(to, "%s%s", i == 0 ? " (" : ", ", rule->places[i].name);
    fprintf(to, "), and %zu are written, empty ones too", directive->count);
}

/* The first place of the rule that is for characters, MOST_PLACES where it has none. */
static size_t character_place(const struct rule *rule)
{
    for (size_t i = 0; i < places_of(rule); i++)
        if (rule->places[i].character)
            return i;
    return MOST_PLACES;
}

static void hint_place(FILE *to, const struct directive *directive, const struct rule *rule, size_t i)
{
    const struct parameter *parameter = directive->parameters + i;
    const struct place *place = rule->places + i;
    const size_t character = character_place(rule);
    if (i == places_of(rule))
        return;
    fputs("the ", to);
    print_ordinal(to, i + 1);
    fputs(" place of ", to);
    print_directive(to, rule->letter, rule->modifiers);
    fprintf(to, " is %s, ", place->name);
    if (!parameter_misfits(parameter, place)) {
        print_takes(to, place);
        return;
    }
    if (place->character) {
        fputs("a character behind a quote", to);
        /* where other formatters have a precision */
        if (i == 1 && parameter->value > 0)
            fputs("; there is no precision", to);
        return;
    }
    fputs("a number", to);
    if (parameter->value > '0' && parameter->value <= '9') {
        fputs(", which has no quote", to);
    } else if (character < MOST_PLACES) {
        fprintf(to, "; its %s is the ", rule->places[character].name);
        print_ordinal(to, character + 1);
    }
}

void hint_parameter(FILE *to, const struct format *format, const struct directive *directive)
{
    const struct rule *rule = directive_rule(directive);
    struct meaning meaning;
    if (directive_meaning(format, directive, &meaning) &&
        propose(to, meaning.wrong, format, directive->start, meaning.end, &meaning.instead))
        return;
    if (directive->slip == SLIP_NUMBER)
        hint_number(to, bad_number(directive));
    else if (rule == NULL)
        hint_modifiers(to, directive);
    else if (directive->count > places_of(rule))
        hint_many(to, directive, rule);
    else
        hint_place(to, directive, rule, first_wrong(directive, rule));
    propose_fitting(to, format, directive);
}
