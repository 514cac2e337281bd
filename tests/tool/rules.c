/* The table of directives against the library: which letters, modifiers and parameters it takes, which kinds, and what
   a place is where nothing is written. */
#define _GNU_SOURCE
#include "../../tools/correcting.h"
#include "../c/expect.h"
#include <string.h>
#include <tilde_table.h>

#define COUNT(array) (sizeof array / sizeof *array)
#define MOST_PARAMETERS 5

static const char *const parameters[] = {"", "0", "1", "127", "128", "4096", "'x", "v", "#"};
static size_t fitting, misfitting, unknown, kinds_taken, defaults;

/* What has to stand before and behind a directive for it to have no fault of its blocks. */
static void surround(uint8_t letter, unsigned modifiers, const char **before, const char **behind)
{
    *before = letter == ';' || letter == ']' ? "~[x" : letter == '}' ? "~{x" : "";
    *behind = letter == '[' ? (modifiers == COLON ? "x~;x~]" : "x~]") : letter == ';' ? "x~]" : "";
    *behind = letter == '{' ? "x~}" : letter == '*' ? "~a" : *behind;
}

static size_t put(uint8_t *to, size_t at, const char *text)
{
    memcpy(to + at, text, strlen(text));
    return at + strlen(text);
}

/* One directive, judged by the table and by the library, which is asked for the whole text. */
static void judge(uint8_t letter, unsigned modifiers, const size_t *chosen, size_t count)
{
    static const char *const marks[] = {[BARE] = "", [COLON] = ":", [AT] = "@", [BOTH] = ":@"};
    const char *before, *behind;
    uint8_t format[80];
    size_t length, start, position, most;
    surround(letter, modifiers, &before, &behind);
    start = length = put(format, 0, before);
    length = put(format, length, "~");
    for (size_t i = 0; i < count; i++) {
        length = put(format, length, i > 0 ? "," : "");
        length = put(format, length, parameters[chosen[i]]);
    }
    length = put(format, length, marks[modifiers]);
    format[length++] = letter;
    length = put(format, length, behind);
    const struct directive directive = directive_read(&(struct format){format, length}, start);
    const uint32_t code = tilde_vet(format, length, NULL, 0, 0, &position, &most);
    const size_t of = letter + 1000 * modifiers;
    const int at = position == start;
    expect(directive.end == length - strlen(behind) && directive.code == letter, "the end of a directive", of);
    if (modifiers_allowed(letter) == 0)
        expect(code == TILDE_UNKNOWN_CODE && at, "an unknown letter", of);
    else if (directive_fits(&directive))
        expect(code != TILDE_BAD_PARAMETER && code != TILDE_UNKNOWN_CODE, "a directive that fits", of);
    else if (letter == '[' && modifiers == BOTH)
        expect(code >= TILDE_BAD_BLOCK && code <= TILDE_BAD_PARAMETER, "a conditional that does not fit", of);
    else
        expect(code == TILDE_BAD_PARAMETER && at, "a directive that does not fit", of);
    fitting += code > TILDE_BAD_PARAMETER || code == TILDE_DONE;
    misfitting += code == TILDE_BAD_PARAMETER;
    unknown += code == TILDE_UNKNOWN_CODE;
}

/* Bytes that begin a parameter, or are a comma or a modifier, are no code. */
static int is_code(unsigned byte)
{
    return byte != 0 && strchr("0123456789+-'vV#,:@", (int)byte) == NULL;
}

static void judge_all(void)
{
    size_t chosen[MOST_PARAMETERS], several = 1;
    for (size_t count = 0; count <= MOST_PARAMETERS; count++, several *= COUNT(parameters))
        for (size_t i = 0; i < several; i++) {
            for (size_t j = 0, rest = i; j < count; j++, rest /= COUNT(parameters))
                chosen[j] = rest % COUNT(parameters);
            /* one empty parameter is none */
            if (count == 1 && chosen[0] == 0)
                continue;
            for (unsigned letter = 0; letter < 256; letter++)
                if (is_code(letter) && (count < 3 || modifiers_allowed((uint8_t)letter) != 0))
                    for (unsigned modifiers = BARE; modifiers <= BOTH && (count < 5 || i % 7 == 0); modifiers *= 2)
                        judge((uint8_t)letter, modifiers, chosen, count);
        }
}

/* A table of one argument of a kind; answers its length. */
static size_t table_of(unsigned kind, uint8_t *room, size_t size)
{
    tilde_table table;
    tilde_table_begin(&table, room, size);
    if (kind == TILDE_BOOLEAN)
        tilde_table_boolean(&table, 1);
    else if (kind == TILDE_INTEGER)
        tilde_table_integer(&table, 1234567);
    else if (kind == TILDE_CHARACTER)
        tilde_table_character(&table, 'A');
    else if (kind == TILDE_STRING)
        tilde_table_string(&table, "wind", 4);
    else {
        tilde_table_list_begin(&table);
        tilde_table_list_end(&table);
    }
    return tilde_table_end(&table);
}

/* Modifiers of the rule: a colon where it may be left out too, since that has the places for groups at work. */
static const char *modifier_of(const struct rule *rule)
{
    const unsigned modifiers = rule->modifiers;
    return modifiers == (BARE | COLON | AT | BOTH) || modifiers == COLON ? ":" : modifiers == AT ? "@" : "";
}

/* A directive of the rule with some parameters, over one argument; answers the code and sets the text. */
static uint32_t run(const struct rule *rule, const char *given, unsigned kind, char *text, size_t *written)
{
    const char *before, *behind;
    uint8_t room[64];
    char format[80];
    size_t position, steps;
    surround(rule->letter, rule->modifiers, &before, &behind);
    snprintf(format, sizeof format, "%s~%s%s%c%s", before, given, modifier_of(rule), rule->letter, behind);
    return tilde_format((uint8_t *)format, strlen(format), room, table_of(kind, room, sizeof room), (uint8_t *)text, 64,
                        &position, &steps, written);
}

/* Which kinds a rule takes. */
static void run_kinds(const struct rule *rule)
{
    char text[64];
    size_t written;
    for (unsigned kind = TILDE_BOOLEAN; kind <= TILDE_LIST && rule->kinds != 0; kind++) {
        const uint32_t code = run(rule, "", kind, text, &written);
        expect((code == TILDE_WRONG_KIND) == ((rule->kinds >> kind & 1u) == 0), "the kinds of a directive",
               rule->letter);
        kinds_taken++;
    }
}

/* What a place is where nothing is written: with that written out nothing changes. The other places behind the first
   have a width to fill. */
static void run_defaults(const struct rule *rule)
{
    for (size_t i = 0; i < places_of(rule); i++) {
        const struct place *place = rule->places + i;
        char given[16] = "", plain[64], full[64];
        size_t plain_length, length;
        /* an argument or no limit cannot be written there */
        if (strchr(place->otherwise, ' ') != NULL)
            continue;
        const char *width = i > 0 ? "12" : "", *value = place->otherwise[0] == 's' ? " " : place->otherwise;
        snprintf(given, sizeof given, "%s%.*s%s%s", width, (int)i, ",,,,", place->character ? "'" : "", value);
        const uint32_t code = run(rule, width, TILDE_INTEGER, plain, &plain_length);
        const int same = run(rule, given, TILDE_INTEGER, full, &length) == code && length == plain_length;
        expect(same && memcmp(plain, full, length) == 0, "what a place is otherwise", rule->letter);
        defaults++;
    }
}

int main(void)
{
    judge_all();
    for (size_t i = 0; i < rules_count; i++) {
        run_kinds(rules + i);
        run_defaults(rules + i);
    }
    printf("tests/tool/rules.c: %zu checks: %zu directives that fit, %zu that do not, %zu unknown; %zu kinds, %zu "
           "defaults\n",
           checks, fitting, misfitting, unknown, kinds_taken, defaults);
    return 0;
}
