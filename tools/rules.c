#include "rules.h"

#include "kinds.h"
#include "wording.h"

#include <tilde.h>

#define KIND(tag) (1u << (tag))
#define INTEGER KIND(TILDE_INTEGER)
#define SCALAR (KIND(TILDE_BOOLEAN) | INTEGER | KIND(TILDE_CHARACTER) | KIND(TILDE_STRING))
#define ANY (SCALAR | KIND(TILDE_LIST))

static const struct place none[] = {{.name = NULL}};
static const struct place showing[] = {
    {"minwidth", 0, 0, MOST_NUMBER, "0"},
    {"padinc", 0, 1, MOST_NUMBER, "1"},
    {"minpad", 0, 0, MOST_NUMBER, "0"},
    {"padchar", 1, 0, 0, "space"},
    {.name = NULL},
};
static const struct place digits[] = {
    {"minwidth", 0, 0, MOST_NUMBER, "0"},
    {"padchar", 1, 0, 0, "space"},
    {"commachar", 1, 0, 0, ","},
    {"commawidth", 0, 1, MOST_NUMBER, "3"},
    {.name = NULL},
};
static const struct place charnum[] = {{"charnum", 0, 0, 127, "the argument"}, {.name = NULL}};
static const struct place times[] = {{"n", 0, 0, MOST_NUMBER, "1"}, {.name = NULL}};
static const struct place goal[] = {{"n", 0, 0, MOST_NUMBER, "0"}, {.name = NULL}};
static const struct place clause[] = {{"n", 0, 0, MOST_NUMBER, "the argument"}, {.name = NULL}};
static const struct place passes[] = {{"passes", 0, 0, MOST_NUMBER, "no limit"}, {.name = NULL}};

static const char padding[] = "@ puts the padding on the left";
static const char signs[] = ": groups digits, commawidth at a time; @ puts + before numbers above 0";

const struct rule rules[] = {
    {'a', BARE | AT, showing, SCALAR, "a value as it is read, padding on its right", padding,
     {"~8a~8@a", "\"wind\"", "850"}},
    {'s', BARE | AT, showing, SCALAR, "a value as it is typed, a string in quotes, padding on its right", padding,
     {"~s ~s", "\"wind\"", "#\\A"}},
    {'d', BARE | COLON | AT | BOTH, digits, INTEGER, "an integer in decimal, padding on its left", signs,
     {"~8,'0d ~:d", "850", "1234567"}},
    {'x', BARE | COLON | AT | BOTH, digits, INTEGER, "an integer in hexadecimal, padding on its left", signs,
     {"~x", "65261"}},
    {'o', BARE | COLON | AT | BOTH, digits, INTEGER, "an integer in octal, padding on its left", signs,
     {"~o", "64"}},
    {'b', BARE | COLON | AT | BOTH, digits, INTEGER, "an integer in binary, padding on its left", signs,
     {"~8,'0b ~@b", "12", "12"}},
    {'c', BARE | COLON | AT, charnum, KIND(TILDE_CHARACTER), "a character: charnum, or its argument",
     ": writes 0 to 31 as ^ and a letter; @ writes it as it is typed", {"~c~65c~10@c", "#\\x"}},
    {'p', BARE | COLON | AT | BOTH, none, ANY, "nothing for the integer 1, s for all else",
     ": first goes back one argument; @ writes y or ies", {"~d cat~:p", "9"}},
    {'*', BARE | COLON, times, 0, "goes on by n arguments", ": goes back", {"~d~*~d ~2:*~d", "1", "2", "3"}},
    {'*', AT, goal, 0, "goes to argument n, the first being 0", "", {"~d~d ~0@*~d", "1", "2"}},
    {'~', BARE, times, 0, "n tildes", "", {"~~~3~"}},
    {'%', BARE, times, 0, "n newlines", "", {"wind~%850"}},
    {'_', BARE, times, 0, "n spaces", "", {"wind~3_850"}},
    {'|', BARE, times, 0, "n form feeds", "", {"~|"}},
    {'/', BARE, times, 0, "n tabs", "", {"wind~/850"}},
    {'\n', BARE | COLON | AT, none, 0, "nothing: it skips the newline of the format and the blanks behind it",
     ": skips the newline alone; @ writes the newline and skips the blanks", {"wind~\n   850"}},
    {'[', BARE, clause, INTEGER, "clause n of those up to ~], from 0; if there is none such, that behind ~:;", "",
     {"~[calm~;light~:;strong~]", "1"}},
    {'[', COLON, none, ANY, "the first of two clauses for #f, the second for all else", "",
     {"~:[no wind~;wind~]", "#f"}},
    {'[', AT, none, ANY, "nothing for #f; else the one clause, which takes the argument itself", "",
     {"~@[gust ~d~]", "17"}},
    {';', BARE | COLON, none, 0, "ends a clause of ~[ and begins the next",
     ": begins the last clause of a ~[, for all other numbers", {"~[calm~;light~]", "0"}},
    {']', BARE, none, 0, "closes ~[", "", {"~[calm~]", "0"}},
    {'{', BARE, passes, KIND(TILDE_LIST), "what stands up to ~}, again and again until the list is used up", "",
     {"~{~d~^, ~}", "(5 12 17)"}},
    {'{', AT, passes, 0, "the same over the arguments that are left", "", {"~a:~@{ ~d~}", "\"wind\"", "5", "12"}},
    {'}', BARE, none, 0, "closes ~{", "", {"~2{~d ~}..", "(5 12 17)"}},
    {'^', BARE, none, 0, "ends the innermost ~{, or else the line, if no argument remains", "",
     {"~d~^, gust ~d", "12"}},
};

const size_t rules_count = sizeof rules / sizeof rules[0];

/* Guile's directives that are not supported here. */
static const struct {
    char letter;
    const char *instead;
} guile[] = {
    {'f', "a decimal fraction; there are no fractions here, so give a string and show it by ~a"},
    {'e', "a number with an exponent; there are no fractions here, so give a string and show it by ~a"},
    {'g', "a general fraction; there are no fractions here, so give a string and show it by ~a"},
    {'h', "a number in the way of a locale; ~:d groups the digits of an integer"},
    {'$', "an amount of money; there are no fractions here, so give a string and show it by ~a"},
    {'i', "a complex number; an integer is shown by ~d"},
    {'r', "a number in words or another base; the bases here are ~d, ~x, ~o and ~b"},
    {'y', "a value printed over several lines; ~s shows one as it is typed"},
    {'t', "a column; give ~a a width, as ~20a, or write a tab by ~/"},
    {'&', "a newline where the line has begun; ~% writes a newline always"},
    {'?', "a format from an argument; write the format itself"},
    {'k', "a format from an argument; write the format itself"},
    {'(', "a change of case; write the text in the case that is wanted"},
    {')', "the end of a change of case"},
    {'!', "a flush; it is not needed"},
    {'q', "a notice of copyright"},
};

uint8_t lower(uint8_t letter)
{
    return letter >= 'A' && letter <= 'Z' ? (uint8_t)(letter - 'A' + 'a') : letter;
}

unsigned modifiers_of(int colon, int at)
{
    return colon ? (at ? BOTH : COLON) : (at ? AT : BARE);
}

const struct rule *rule_for(uint8_t letter, unsigned modifiers)
{
    for (size_t i = 0; i < rules_count; i++)
        if (rules[i].letter == lower(letter) && (rules[i].modifiers & modifiers) != 0)
            return rules + i;
    return NULL;
}

unsigned modifiers_allowed(uint8_t letter)
{
    unsigned allowed = 0;
    for (size_t i = 0; i < rules_count; i++)
        if (rules[i].letter == lower(letter))
            allowed |= rules[i].modifiers;
    return allowed;
}

size_t places_of(const struct rule *rule)
{
    size_t count = 0;
    while (rule->places[count].name != NULL)
        count++;
    return count;
}

const char *guile_only(uint8_t letter)
{
    for (size_t i = 0; i < sizeof guile / sizeof guile[0]; i++)
        if ((uint8_t)guile[i].letter == lower(letter))
            return guile[i].instead;
    return NULL;
}

void print_directive(FILE *to, uint8_t letter, unsigned modifiers)
{
    const char *marks = modifiers & BARE ? "" : modifiers & COLON ? ":" : modifiers & AT ? "@" : ":@";
    if (letter == '\n')
        fprintf(to, "~%snewline", marks);
    else
        fprintf(to, "~%s%c", marks, letter);
}

void print_all_directives(FILE *to)
{
    for (size_t i = 0; i < rules_count; i++) {
        if (i > 0 && rules[i].letter == rules[i - 1].letter)
            continue;
        fputs(i > 0 ? " " : "", to);
        print_directive(to, rules[i].letter, BARE);
    }
}

void print_takes(FILE *to, const struct place *place)
{
    if (place->character) {
        fputs("a character", to);
        return;
    }
    fprintf(to, "a number of %u to ", place->least);
    print_number(to, place->most);
}

void print_kinds(FILE *to, unsigned kinds)
{
    unsigned left = kinds;
    if (kinds == ANY) {
        fputs("a value of any kind", to);
        return;
    }
    for (unsigned tag = 0; left != 0; tag++) {
        if ((left & KIND(tag)) == 0)
            continue;
        const char *before = left == kinds ? "" : left == KIND(tag) ? " or " : ", ";
        fprintf(to, "%s%s", before, kind_with_article(tag));
        left &= ~KIND(tag);
    }
}
