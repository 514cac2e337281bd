/* Options of a verb. */
#ifndef TOOLS_OPTIONS_H
#define TOOLS_OPTIONS_H

#include <stdio.h>

/* An option: its name with the dashes, and what it sets. A flag is set to 1; a text is what stands behind `=` or in the
   next word. One of the two is null. */
struct option {
    const char *name;
    int *flag;
    const char **text;
};

/* Takes the options of a verb out of argv, which keeps the other words in their order, and answers how many these are;
   -1 after a complaint. Options may stand anywhere before `--`, which is taken out too. A dash alone, or before a
   digit, or a word with a tilde, which is a format, begins no option. */
int options_take(const char *verb, int argc, char **argv, const struct option *options, size_t count, FILE *err);

/* Whether --help or -h stands before any `--`. */
int options_ask_help(int argc, char **argv);

#endif
