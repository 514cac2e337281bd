#include "hints.h"
#include "meaning.h"
#include "show.h"

#include <string.h>

static void hint_shape(FILE *to, const struct directive *directive)
{
    switch (directive->slip) {
    case SLIP_MODIFIER:
        fputs("a modifier, : or @, is written once", to);
        break;
    case SLIP_LATE:
        fputs("parameters are written before the modifiers", to);
        break;
    default:
        fputs("behind a parameter stands a comma, a modifier or the letter", to);
    }
}

/* Whether the format ends behind a quote, which is not itself a byte behind a quote. */
static int lacks_byte(const struct format *format, const struct directive *directive)
{
    return format->bytes[directive->end - 1] == '\'' && directive->count > 0 && directive->count <= MOST_PLACES &&
           directive->parameters[directive->count - 1].form == FORM_EMPTY;
}

/* The format ends inside the directive: a tilde alone may be meant as text, and parameters lack a letter. */
static void hint_end(FILE *to, const struct format *format, const struct directive *directive)
{
    static const uint8_t letters[] = "adc";
    struct directive made = *directive;
    if (directive->end == directive->start + 1) {
        const struct spelling tilde = {.bytes = "~~", .length = 2};
        fputs("the format ends behind this tilde; to print a tilde, write it twice", to);
        propose(to, "", format, directive->start, directive->end, &tilde);
        return;
    }
    if (lacks_byte(format, directive)) {
        fputs("the byte behind the quote is missing", to);
        made.parameters[made.count - 1] = (struct parameter){.form = FORM_BYTE, .value = '0'};
    } else {
        fputs("the format ends before the letter of this directive", to);
    }
    for (size_t i = 0; letters[i] != '\0'; i++) {
        made.code = letters[i];
        const struct spelling spelling = directive_spell(&made);
        if (propose(to, ", as in", format, directive->start, directive->end, &spelling))
            return;
    }
}

/* A letter that no directive has: what it is in Guile, or what it may be meant as, and those that there are. */
static void hint_letter(FILE *to, const struct format *format, const struct directive *directive)
{
    const size_t at = directive->end - 1;
    const uint8_t code = directive->code;
    const char *instead = guile_only(code);
    const int blank = code == ' ' || code == '\t', escaped = format_escaped(format->bytes, format->length);
    const struct shown shown = show_format(format->bytes + at, format->length - at, escaped);
    if (instead != NULL)
        fprintf(to, "~%c is not supported: in Guile it is %s", code, instead);
    else if (code == '\r')
        fputs("a tilde at the end of a line stands right before the newline, and here a return is between", to);
    else if (code == '.')
        fputs("parameters are parted by commas, and there are no fractions here", to);
    else if (blank && at > directive->start + 1)
        fputs("no blank stands inside a directive; to print a tilde, write ~~", to);
    else
        fprintf(to, "~%s is no directive; to print a tilde, write ~~", blank ? " and a blank" : shown.text);
    fputs("\n  directives are ", to);
    print_all_directives(to);
}

/* A character of several bytes where one belongs: behind a quote its first byte is taken, and the next one is no
   directive; the quote may be missing behind a comma. */
static int hint_wide(FILE *to, const struct format *format, const struct directive *directive)
{
    const size_t end = directive->end;
    if (directive->code < 0x80 || directive->count == 0)
        return 0;
    const int quoted = format->bytes[end - 3] == '\'';
    if (!quoted && format->bytes[end - 2] != ',')
        return 0;
    const size_t at = quoted ? end - 2 : end - 1;
    const size_t bytes = utf8_length(format->bytes + at, format->length - at);
    const struct shown shown = show_next(format->bytes + at, format->length - at);
    if (bytes > 1)
        fprintf(to, "one byte stands behind a quote, and %s has %zu", shown.text, bytes);
    return bytes > 1;
}

void hint_unknown(FILE *to, const struct format *format, const struct directive *directive)
{
    struct meaning meaning;
    if (directive->slip == SLIP_END) {
        hint_end(to, format, directive);
    } else if (directive_meaning(format, directive, &meaning) &&
               propose(to, meaning.wrong, format, directive->start, meaning.end, &meaning.instead)) {
        return;
    } else if (directive->slip == SLIP_NONE || directive->slip == SLIP_NUMBER) {
        if (!hint_wide(to, format, directive))
            hint_letter(to, format, directive);
    } else {
        hint_shape(to, directive);
        propose_fitting(to, format, directive);
    }
}

/* A separator that may not stand here. */
static void hint_separator(FILE *to, const struct format *format, const struct directive *directive,
                           const struct block *inside)
{
    const struct spelling plain = {.bytes = "~;", .length = 2};
    if (inside == NULL || inside->opener.code != '[') {
        fputs("~; parts the clauses of a ~[, and ", to);
        if (inside == NULL)
            fputs("no block is open here; take it away", to);
        else
            fprintf(to, "the block open here is the ~{ at byte %zu; take it away", inside->opener.start);
    } else if (inside->last > 0) {
        fprintf(to, "the clause behind the ~:; at byte %zu is the last; put this one before it", inside->last - 1);
    } else {
        fputs("~:; belongs to a ~[ that picks by number, and ", to);
        directive_name(to, &inside->opener);
        fputs(inside->opener.colon ? " parts its two clauses by a plain one" : " has one clause; take it away", to);
        if (inside->opener.colon)
            propose(to, "", format, directive->start, directive->end, &plain);
    }
}

static void hint_closer(FILE *to, const struct format *format, const struct directive *directive,
                        const struct block *inside)
{
    if (inside == NULL) {
        fprintf(to, "~%c closes a block that ~%c opens, and none is open here; take it away", directive->code,
                directive->code == ']' ? '[' : '{');
        return;
    }
    const uint8_t letter = closer_of(inside->opener.code);
    const struct spelling closer = {.bytes = {'~', letter}, .length = 2};
    const struct spelling both = {.bytes = {'~', letter, '~', directive->code}, .length = 4};
    fputs("the block open here is the ", to);
    directive_name(to, &inside->opener);
    fprintf(to, " at byte %zu, which ~%c closes", inside->opener.start, letter);
    /* in its place, or before it where it closes a block around that one */
    if (!propose(to, "", format, directive->start, directive->end, &closer))
        propose(to, "", format, directive->start, directive->end, &both);
}

/* A conditional with a number of clauses that it does not have: another one has that number, or one is missing. */
static void hint_clauses(FILE *to, const struct format *format, const struct directive *opener, size_t clauses)
{
    directive_name(to, opener);
    fputs(opener->colon ? " has two clauses, for #f and for all else" : " has one clause, for all but #f", to);
    fprintf(to, clauses == 1 ? ", and here is %zu" : ", and here are %zu", clauses);
    if (clauses == 1) {
        /* it may be meant for either */
        fputs("; put ~; behind it, or before it where it is for all else", to);
        return;
    }
    struct directive other = *opener;
    other.colon = clauses == 2;
    other.at = 0;
    const struct spelling spelling = directive_spell(&other);
    propose(to, clauses == 2 ? "; two for #f and all else are begun by" : "; more of them, picked by number, are begun by",
            format, opener->start, opener->end, &spelling);
}

static void hint_opener(FILE *to, const struct format *format, const struct directive *opener, struct walk *walk)
{
    struct spelling spelling = directive_spell(opener);
    struct directive closer;
    size_t separators;
    if (walk->depth == MOST_LEVELS) {
        fprintf(to, "blocks nest at most %d deep; end one of those before it, at bytes", MOST_LEVELS);
        for (size_t i = 0; i < walk->depth; i++)
            fprintf(to, "%s %zu", i > 0 ? "," : "", walk->open[i].opener.start);
    } else if (!walk_to_closer(walk, opener, &closer, &separators)) {
        directive_name(to, opener);
        fprintf(to, " is not closed; write ~%c where it ends", closer_of(opener->code));
    } else if (opener->code == '[') {
        hint_clauses(to, format, opener, separators + 1);
    } else {
        fputs("nothing stands between ~{ and ~}; write there what each pass does", to);
        memcpy(spelling.bytes + spelling.length, "~a~}", 4);
        spelling.length += 4;
        propose(to, "", format, opener->start, closer.end, &spelling);
    }
}

void hint_block(FILE *to, const struct format *format, const struct directive *directive)
{
    struct walk walk = walk_to(format, directive->start);
    if (directive->code == ';')
        hint_separator(to, format, directive, walk_inside(&walk));
    else if (closer_of(directive->code) == 0)
        hint_closer(to, format, directive, walk_inside(&walk));
    else
        hint_opener(to, format, directive, &walk);
}
