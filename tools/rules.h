/* What each directive takes, in one table. */
#ifndef TOOLS_RULES_H
#define TOOLS_RULES_H

#include <stddef.h>
#include <stdint.h>
#include <stdio.h>

/* The greatest number that can be written as a parameter, and the most places of a directive. */
#define MOST_NUMBER 4096u
#define MOST_PLACES 4
#define MOST_LEVELS 8

/* A place of a directive: a character, or a number of this range; and what it is where nothing is written. */
struct place {
    const char *name;
    int character;
    unsigned least, most;
    const char *otherwise;
};

/* The ways of writing modifiers, to make sets of. */
enum { BARE = 1, COLON = 2, AT = 4, BOTH = 8 };

/* A directive with some ways of writing its modifiers: its letter in lower case, its places up to one without a name,
   the kinds of its own argument as a set of 1 << tilde_tag (none where it takes no argument), what it does, what its
   modifiers change, and an example as the words of a command. */
struct rule {
    uint8_t letter;
    unsigned modifiers;
    const struct place *places;
    unsigned kinds;
    const char *does, *changes;
    const char *example[4];
};

extern const struct rule rules[];
extern const size_t rules_count;

/* A letter in lower case; any other byte as it is. */
uint8_t lower(uint8_t letter);

/* The way in which these modifiers are written. */
unsigned modifiers_of(int colon, int at);

/* The rule for a letter, in either case, with these modifiers; null where there is none. */
const struct rule *rule_for(uint8_t letter, unsigned modifiers);

/* All ways of writing modifiers that a letter allows; 0 where no directive has the letter. */
unsigned modifiers_allowed(uint8_t letter);

size_t places_of(const struct rule *rule);

/* The directive of a Guile that is not supported here, and what serves instead; null where Guile has none either. */
const char *guile_only(uint8_t letter);

/* Prints a directive by its letter, as ~a; the newline by name. */
void print_directive(FILE *to, uint8_t letter, unsigned modifiers);

/* Prints all directives once, a space between them. */
void print_all_directives(FILE *to);

/* Prints what a place takes, as `a number of 0 to 4,096`. */
void print_takes(FILE *to, const struct place *place);

/* Prints a set of kinds, as `an integer or a string`. */
void print_kinds(FILE *to, unsigned kinds);

#endif
