/* The verbs of the command tilde, and what each is handed. */
#ifndef TOOLS_VERBS_H
#define TOOLS_VERBS_H

#include <stdio.h>

struct streams {
    FILE *in, *out, *err;
};

/* What the command answers its shell: the work is done, the library refused it, or the command was wrongly typed or
   could not write. */
enum { STATUS_DONE = 0, STATUS_REFUSED = 1, STATUS_USAGE = 2 };

/* The whole command; argv[0] is its name. The order of argv may change. */
int tilde_command(int argc, char **argv, FILE *in, FILE *out, FILE *err);

/* The verbs, with what stands after the verb, and their help. */
int verb_try(int argc, char **argv, const struct streams *io);
int verb_vet(int argc, char **argv, const struct streams *io);
int verb_explain(int argc, char **argv, const struct streams *io);
int verb_directives(int argc, char **argv, const struct streams *io);
int verb_lines(int argc, char **argv, const struct streams *io);
extern const char try_help[];
extern const char vet_help[];
extern const char explain_help[];
extern const char directives_help[];
extern const char lines_help[];

#endif
