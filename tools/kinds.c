#include "kinds.h"

#include "show.h"

#include <string.h>
#include <tilde.h>

static const char *const names[] = {
    [TILDE_BOOLEAN] = "a boolean", [TILDE_INTEGER] = "an integer", [TILDE_CHARACTER] = "a character",
    [TILDE_STRING] = "a string",   [TILDE_LIST] = "a list",
};

#define KINDS (sizeof names / sizeof names[0])

const char *kind_with_article(unsigned tag)
{
    return tag < KINDS ? names[tag] : "no kind";
}

const char *kind_name(unsigned tag)
{
    return strchr(kind_with_article(tag), ' ') + 1;
}

int kind_read(const char *text, uint8_t *tag)
{
    for (uint8_t i = 0; i < KINDS; i++) {
        const char *name = kind_name(i);
        if (strcmp(text, name) == 0 || (text[0] == name[0] && text[1] == '\0')) {
            *tag = i;
            return 1;
        }
    }
    return 0;
}

/* Whether two words begin with the same two letters, in either case: int and Integer are near integer. */
static int is_near(const char *text, const char *name)
{
    return text[0] != '\0' && (text[0] | 32) == name[0] && (text[1] | 32) == name[1];
}

void kind_complain(FILE *err, const char *text)
{
    fputs("tilde: ", err);
    show_word(err, text, strlen(text));
    fputs(" is no kind; type ", err);
    for (unsigned i = 0; i < KINDS; i++)
        if (is_near(text, kind_name(i)))
            fprintf(err, "%s, or another, ", kind_name(i));
    fputs("one of these for each argument:", err);
    for (unsigned i = 0; i < KINDS; i++)
        fprintf(err, " %s", kind_name(i));
    fputs(" (or", err);
    for (unsigned i = 0; i < KINDS; i++)
        fprintf(err, " %c", kind_name(i)[0]);
    fputs(")\n", err);
}
