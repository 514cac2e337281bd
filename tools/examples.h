/* Commands that the help shows, with what they print now. */
#ifndef TOOLS_EXAMPLES_H
#define TOOLS_EXAMPLES_H

#include <stdio.h>

/* The most words behind the verb of an example. */
#define MOST_WORDS 4

/* Prints a command, `tilde` and its verb and words up to a null, and below it all that it prints. */
void example_run(const char *verb, const char *const words[MOST_WORDS], FILE *out);

#endif
