#include "reading.h"

#include "digits.h"

/* The format, and how far the directive is read. */
struct source {
    const struct format *format;
    size_t next;
};

static int at_end(const struct source *source)
{
    return source->next >= source->format->length;
}

/* The byte that comes next; 0 at the end, which begins no parameter and is no modifier. */
static uint8_t peek(const struct source *source)
{
    return at_end(source) ? 0 : source->format->bytes[source->next];
}

static int is_modifier(uint8_t byte)
{
    return byte == ':' || byte == '@';
}

static int begins_parameter(uint8_t byte)
{
    return is_digit(byte) || byte == '+' || byte == '-' || byte == '\'' || byte == 'v' || byte == 'V' || byte == '#';
}

static void slip(struct directive *directive, enum slip slip)
{
    if (directive->slip == SLIP_NONE)
        directive->slip = slip;
}

static struct parameter read_number(struct source *source)
{
    struct parameter number = {.form = FORM_NUMBER};
    const int negative = peek(source) == '-';
    source->next += is_digit(peek(source)) ? 0 : 1;
    if (!is_digit(peek(source)))
        number.badness = SIGN_ALONE;
    for (; is_digit(peek(source)); source->next++)
        if (number.value <= MOST_NUMBER)
            number.value = 10 * number.value + peek(source) - '0';
    if (number.value > MOST_NUMBER)
        number.value = MOST_NUMBER + 1;
    if (number.value > 0 && negative)
        number.badness = NUMBER_BELOW;
    else if (number.value > MOST_NUMBER)
        number.badness = NUMBER_ABOVE;
    return number;
}

/* The parameter that begins here. A quote at the end of the format has no byte, so nothing is written there. */
static struct parameter read_parameter(struct source *source)
{
    const uint8_t byte = peek(source);
    if (is_digit(byte) || byte == '+' || byte == '-')
        return read_number(source);
    source->next++;
    if (byte != '\'')
        return (struct parameter){.form = byte == '#' ? FORM_REMAINING : FORM_NEXT};
    if (at_end(source))
        return (struct parameter){.form = FORM_EMPTY};
    const struct parameter quoted = {.form = FORM_BYTE, .value = peek(source)};
    source->next++;
    return quoted;
}

/* A number right behind a parameter: behind the byte of the first place it is the width, which belongs there, and
   behind the same digit as a byte it is nothing more. Any other has no place. */
static void take_loose(struct directive *directive, struct parameter number)
{
    const size_t last = directive->count - 1;
    const int byte = last < MOST_PLACES && directive->parameters[last].form == FORM_BYTE;
    if (byte && last == 0) {
        directive->parameters[1] = directive->parameters[0];
        directive->parameters[0] = number;
        directive->count = 2;
    } else if (!byte || number.value + '0' != directive->parameters[last].value) {
        directive->lost = LOST_PARAMETER;
    }
}

/* Puts a parameter into the place in hand, and says what is wrong with where it stands. */
static void take_parameter(struct directive *directive, struct source *source, int filled)
{
    if (directive->colon || directive->at)
        slip(directive, SLIP_LATE);
    else if (filled)
        slip(directive, SLIP_COMMA);
    const struct parameter parameter = read_parameter(source);
    if (parameter.badness != NUMBER_GOOD)
        slip(directive, SLIP_NUMBER);
    if (filled && parameter.form == FORM_NUMBER) {
        take_loose(directive, parameter);
        return;
    }
    if (directive->count == 0 || filled)
        directive->count++;
    if (directive->count <= MOST_PLACES)
        directive->parameters[directive->count - 1] = parameter;
    else
        directive->lost = LOST_PARAMETER;
}

static void take_comma(struct directive *directive, struct source *source)
{
    if (directive->colon || directive->at)
        slip(directive, SLIP_LATE);
    directive->count += directive->count == 0 ? 2 : 1;
    source->next++;
}

static void take_modifier(struct directive *directive, struct source *source)
{
    int *modifier = peek(source) == ':' ? &directive->colon : &directive->at;
    source->next++;
    if (*modifier)
        slip(directive, SLIP_MODIFIER);
    *modifier = 1;
}

struct directive directive_read(const struct format *format, size_t start)
{
    struct directive directive = {.start = start};
    struct source source = {format, start + 1};
    /* whether the place in hand holds a parameter already */
    int filled = 0;
    for (;;) {
        const uint8_t byte = peek(&source);
        if (begins_parameter(byte)) {
            take_parameter(&directive, &source, filled);
            filled = 1;
        } else if (byte == ',') {
            take_comma(&directive, &source);
            filled = 0;
        } else if (is_modifier(byte)) {
            take_modifier(&directive, &source);
        } else {
            break;
        }
    }
    directive.code = peek(&source);
    if (at_end(&source))
        slip(&directive, SLIP_END);
    directive.end = source.next + (at_end(&source) ? 0 : 1);
    return directive;
}

void directive_name(FILE *to, const struct directive *directive)
{
    print_directive(to, directive->code, modifiers_of(directive->colon, directive->at));
}

const struct rule *directive_rule(const struct directive *directive)
{
    return rule_for(directive->code, modifiers_of(directive->colon, directive->at));
}

size_t directive_v(const struct directive *directive)
{
    size_t place = 0;
    while (place < MOST_PLACES && directive->parameters[place].form != FORM_NEXT)
        place++;
    return place;
}

int takes_argument(const struct directive *directive)
{
    const struct rule *rule = directive_rule(directive);
    const int given = directive->count > 0 && directive->parameters[0].form != FORM_EMPTY;
    return rule != NULL && rule->kinds != 0 && !(given && (rule->letter == 'c' || rule->letter == '['));
}

static void spell_parameter(struct spelling *spelling, const struct parameter *parameter)
{
    uint8_t *to = spelling->bytes + spelling->length;
    const size_t room = sizeof spelling->bytes - spelling->length;
    switch (parameter->form) {
    case FORM_NUMBER:
        spelling->length += (size_t)snprintf((char *)to, room, "%u", parameter->value);
        break;
    case FORM_BYTE:
        to[0] = '\'';
        to[1] = (uint8_t)parameter->value;
        spelling->length += 2;
        break;
    case FORM_NEXT:
    case FORM_REMAINING:
        to[0] = parameter->form == FORM_NEXT ? 'v' : '#';
        spelling->length++;
        break;
    case FORM_EMPTY:
        break;
    }
}

struct spelling directive_spell(const struct directive *directive)
{
    struct spelling spelling = {.bytes = {'~'}, .length = 1};
    size_t count = directive->count < MOST_PLACES ? directive->count : MOST_PLACES;
    while (count > 0 && directive->parameters[count - 1].form == FORM_EMPTY)
        count--;
    for (size_t i = 0; i < count; i++) {
        if (i > 0)
            spelling.bytes[spelling.length++] = ',';
        spell_parameter(&spelling, directive->parameters + i);
    }
    if (directive->colon)
        spelling.bytes[spelling.length++] = ':';
    if (directive->at)
        spelling.bytes[spelling.length++] = '@';
    spelling.bytes[spelling.length++] = directive->code;
    return spelling;
}
