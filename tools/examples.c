#include "examples.h"

#include "show.h"
#include "verbs.h"

#include <string.h>

void example_run(const char *verb, const char *const words[MOST_WORDS], FILE *out)
{
    const struct streams io = {NULL, out, out};
    char *given[MOST_WORDS];
    int count = 0;
    fprintf(out, "  $ tilde %s", verb);
    for (; count < MOST_WORDS && words[count] != NULL; count++) {
        given[count] = (char *)words[count];
        fputc(' ', out);
        show_word(out, words[count], strlen(words[count]));
    }
    fputc('\n', out);
    if (strcmp(verb, "vet") == 0)
        verb_vet(count, given, &io);
    else
        verb_try(count, given, &io);
}
