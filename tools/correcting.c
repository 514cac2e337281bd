#include "correcting.h"

#include "show.h"

#include <string.h>
#include <tilde.h>

/* The first fault of the text with some bytes in the place of those from `start` to `end`; TILDE_DONE for none. A vet
   of no kinds reads the whole text first and runs nothing. */
static uint32_t fault_with(const struct format *format, size_t start, size_t end, const struct spelling *instead,
                           size_t *position)
{
    uint8_t bytes[TILDE_MOST_FORMAT];
    const size_t length = format->length - (end - start) + instead->length, behind = format->length - end;
    size_t count;
    *position = start;
    if (length > sizeof bytes)
        return TILDE_LONG_FORMAT;
    memcpy(bytes, format->bytes, start);
    memcpy(bytes + start, instead->bytes, instead->length);
    memcpy(bytes + start + instead->length, format->bytes + end, behind);
    const uint32_t code = tilde_vet(bytes, length, NULL, 0, 0, position, &count);
    return code <= TILDE_BAD_PARAMETER ? code : TILDE_DONE;
}

/* Whether the library finds no fault in the bytes, once they stand in the format. A fault behind them is another
   matter, and so is one before them, as a block that is not closed, if it is there without them too. */
static int holds(const struct format *format, size_t start, size_t end, const struct spelling *instead)
{
    const struct spelling nothing = {.length = 0};
    size_t position, without;
    const uint32_t code = fault_with(format, start, end, instead, &position);
    if (code == TILDE_DONE || position >= start + instead->length)
        return 1;
    return position < start && fault_with(format, start, end, &nothing, &without) == code && without == position;
}

int propose(FILE *to, const char *lead, const struct format *format, size_t start, size_t end,
            const struct spelling *instead)
{
    if (!holds(format, start, end, instead))
        return 0;
    const int escaped = format_escaped(instead->bytes, instead->length);
    fprintf(to, "%s: ", lead);
    for (size_t i = 0; i < instead->length;) {
        const struct shown shown = show_format(instead->bytes + i, instead->length - i, escaped);
        fputs(shown.text, to);
        i += shown.bytes;
    }
    return 1;
}

int parameter_misfits(const struct parameter *parameter, const struct place *place)
{
    if (parameter->form == FORM_EMPTY || parameter->form == FORM_NEXT)
        return 0;
    return place->character != (parameter->form == FORM_BYTE);
}

/* Whether a parameter is wrong in its place, by its form or as a number outside the range. */
static int is_wrong(const struct parameter *parameter, const struct place *place)
{
    return parameter_misfits(parameter, place) ||
           (parameter->form == FORM_NUMBER && (parameter->value < place->least || parameter->value > place->most));
}

size_t first_wrong(const struct directive *directive, const struct rule *rule)
{
    size_t i = 0;
    while (i < places_of(rule) && !is_wrong(directive->parameters + i, rule->places + i))
        i++;
    return i;
}

int directive_fits(const struct directive *directive)
{
    const struct rule *rule = directive_rule(directive);
    return rule != NULL && directive->count <= places_of(rule) && first_wrong(directive, rule) == places_of(rule);
}

/* A number as near as its place allows. */
static void fit_number(struct parameter *parameter, const struct place *place)
{
    if (parameter->badness == SIGN_ALONE)
        parameter->form = FORM_EMPTY;
    else if (parameter->form == FORM_NUMBER && parameter->value < place->least)
        parameter->value = place->least;
    else if (parameter->form == FORM_NUMBER && parameter->value > place->most)
        parameter->value = place->most;
    parameter->badness = NUMBER_GOOD;
}

/* What may stand in a place for characters where a number was written: # and 0 are meant as bytes. Any other digit
   would be read as one of the number that is padded. */
static struct parameter as_byte(const struct parameter *parameter)
{
    if (parameter->form == FORM_REMAINING)
        return (struct parameter){.form = FORM_BYTE, .value = '#'};
    if (parameter->value > 0 || parameter->badness != NUMBER_GOOD)
        return (struct parameter){.form = FORM_EMPTY};
    return (struct parameter){.form = FORM_BYTE, .value = '0'};
}

/* A byte in a place for numbers that stands for a number: of a character, or a digit. 0 is more likely a padchar, where
   the directive has one. */
static int as_number(struct parameter *parameter, const struct rule *rule, int padded)
{
    const unsigned value = parameter->value;
    if (rule->letter == 'c' && value <= rule->places[0].most)
        *parameter = (struct parameter){.form = FORM_NUMBER, .value = value};
    else if (value >= (padded ? '1' : '0') && value <= '9')
        *parameter = (struct parameter){.form = FORM_NUMBER, .value = value - '0'};
    else
        return 0;
    return 1;
}

static void lose(struct directive *directive, enum loss loss)
{
    if (directive->lost < loss)
        directive->lost = loss;
}

static int is_empty(const struct parameter *parameter)
{
    return parameter->form == FORM_EMPTY || parameter->badness == SIGN_ALONE;
}

/* The padchar, if nothing is written there, else with : the commachar; MOST_PLACES where a byte would do nothing. */
static size_t free_character(const struct directive *directive, const struct rule *rule)
{
    for (size_t i = 0, characters = 0; i < places_of(rule); i++) {
        if (!rule->places[i].character)
            continue;
        if (is_empty(directive->parameters + i) && (characters == 0 || directive->colon))
            return i;
        characters++;
    }
    return MOST_PLACES;
}

/* Whether a padchar has something to fill: a minwidth or, for ~a and ~s, a minpad. */
static int has_padding(const struct directive *directive, const struct rule *rule)
{
    return !is_empty(directive->parameters) || (!rule->places[2].character && !is_empty(directive->parameters + 2));
}

/* A number where a character belongs. Before a place for numbers, as commachar before commawidth, it is one place too
   early. Right behind the minwidth it is a precision, which there is not, and a byte behind that one the padchar. */
static void fit_character(struct directive *directive, const struct rule *rule, size_t i)
{
    struct parameter *parameter = directive->parameters + i;
    const struct parameter was = *parameter;
    const int early = i + 1 < places_of(rule) && !rule->places[i + 1].character;
    *parameter = (struct parameter){.form = FORM_EMPTY};
    if (was.badness == SIGN_ALONE)
        return;
    if (early && was.form == FORM_NUMBER && was.value > 0 && is_empty(parameter + 1)) {
        parameter[1] = was;
    } else if (i == 1 && was.form == FORM_NUMBER && was.value > 0 && !is_empty(directive->parameters)) {
        lose(directive, LOST_PRECISION);
        if (!directive->colon && parameter[1].form == FORM_BYTE) {
            parameter[0] = parameter[1];
            parameter[1] = (struct parameter){.form = FORM_EMPTY};
        }
    } else {
        if (!early || was.form != FORM_NUMBER)
            *parameter = as_byte(&was);
        if (is_empty(parameter))
            lose(directive, LOST_PARAMETER);
    }
}

/* Makes the parameter in place i fit. A byte among numbers goes to the place for characters, and a number that stands
   there comes back in exchange. */
static void fit_place(struct directive *directive, const struct rule *rule, size_t i)
{
    struct parameter *parameter = directive->parameters + i;
    size_t to = free_character(directive, rule);
    if (!parameter_misfits(parameter, rule->places + i))
        return;
    if (rule->places[i].character) {
        fit_character(directive, rule, i);
        return;
    }
    const int exchanged = i + 1 < places_of(rule) && parameter_misfits(parameter + 1, rule->places + i + 1);
    if (as_number(parameter, rule, exchanged || to < MOST_PLACES))
        return;
    const struct parameter byte = *parameter;
    *parameter = exchanged ? parameter[1] : (struct parameter){.form = FORM_EMPTY};
    to = exchanged ? i + 1 : to;
    if (to < MOST_PLACES && has_padding(directive, rule))
        directive->parameters[to] = byte;
    else
        lose(directive, LOST_PARAMETER);
}

/* The directive with its parameters made to fit the rule. Those beyond its places may go where the hint tells of
   them. */
static struct directive fitted(const struct directive *directive, const struct rule *rule, int told)
{
    struct directive made = *directive;
    const size_t places = places_of(rule);
    made.lost = told ? LOST_NOTHING : made.lost;
    for (size_t i = places; i < MOST_PLACES; i++) {
        if (!told && !is_empty(made.parameters + i))
            lose(&made, LOST_PARAMETER);
        made.parameters[i] = (struct parameter){.form = FORM_EMPTY};
    }
    made.count = places;
    for (size_t i = 0; i < places; i++)
        fit_place(&made, rule, i);
    for (size_t i = 0; i < places; i++)
        if (!rule->places[i].character)
            fit_number(made.parameters + i, rule->places + i);
    return made;
}

/* Tries the directive with these modifiers. */
static int propose_with(FILE *to, const struct format *format, const struct directive *directive, int colon, int at)
{
    struct directive made = *directive;
    made.colon = colon;
    made.at = at;
    const struct rule *rule = directive_rule(&made);
    const struct parameter *first = made.parameters;
    /* the nearest charnum is another character, and of no use */
    if (rule == NULL || (rule->letter == 'c' && first->form == FORM_NUMBER &&
                         (first->badness == NUMBER_BELOW || first->value > rule->places[0].most)))
        return 0;
    const int told = directive->slip == SLIP_NONE && directive_rule(directive) == rule;
    made = fitted(&made, rule, told);
    const struct spelling spelling = directive_spell(&made);
    /* the hint of the second place tells it as well */
    const int tells = made.lost == LOST_PRECISION && !(told && first_wrong(directive, rule) == 1);
    return made.lost != LOST_PARAMETER && propose(to, tells ? "; there is no precision" : "", format,
                                                  directive->start, directive->end, &spelling);
}

int propose_fitting(FILE *to, const struct format *format, const struct directive *directive)
{
    const int colon = directive->colon, at = directive->at;
    /* ~c with a number takes no argument, so what has more places was meant as a width */
    if (lower(directive->code) == 'c' && directive->count > 1) {
        struct directive shown = *directive;
        shown.code = 'a';
        return directive->slip == SLIP_NONE && directive->lost == LOST_NOTHING &&
               propose_with(to, format, &shown, 0, at);
    }
    /* a jump by a number below 0 is one back */
    if (directive->code == '*' && directive->parameters[0].badness == NUMBER_BELOW && !colon && !at)
        return propose_with(to, format, directive, 1, 0);
    return propose_with(to, format, directive, colon, at) || (at && propose_with(to, format, directive, 0, at)) ||
           (colon && propose_with(to, format, directive, colon, 0)) || propose_with(to, format, directive, 0, 0);
}
