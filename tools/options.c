#include "options.h"

#include "digits.h"
#include "show.h"

#include <string.h>

static int is_option(const char *word)
{
    return word[0] == '-' && word[1] != '\0' && !is_digit(word[1]) && strchr(word, '~') == NULL;
}

int options_ask_help(int argc, char **argv)
{
    for (int i = 0; i < argc && strcmp(argv[i], "--") != 0; i++)
        if (strcmp(argv[i], "--help") == 0 || strcmp(argv[i], "-h") == 0)
            return 1;
    return 0;
}

static const struct option *option_named(const char *word, const struct option *options, size_t count)
{
    const size_t length = strcspn(word, "=");
    for (size_t i = 0; i < count; i++)
        if (strlen(options[i].name) == length && memcmp(options[i].name, word, length) == 0)
            return options + i;
    return NULL;
}

static int complain_unknown(const char *verb, const char *word, const struct option *options, size_t count, FILE *err)
{
    fprintf(err, "tilde %s: ", verb);
    show_word(err, word, strlen(word));
    fprintf(err, " is no option; there %s", count == 0 ? "is none" : count == 1 ? "is " : "are ");
    for (size_t i = 0; i < count; i++)
        fprintf(err, "%s%s", i == 0 ? "" : i + 1 < count ? ", " : " and ", options[i].name);
    fprintf(err, ".\n  What begins with a dash and is no option comes after --: tilde %s -- ", verb);
    show_word(err, word, strlen(word));
    fputc('\n', err);
    return -1;
}

/* Sets an option from its word and the next one; answers how many words that took, or -1 after a complaint. */
static int take_option(const char *verb, const struct option *option, char **words, int left, FILE *err)
{
    const char *equals = strchr(words[0], '=');
    if (option->flag != NULL && equals == NULL) {
        *option->flag = 1;
        return 1;
    }
    if (option->text != NULL && (equals != NULL || left > 1)) {
        *option->text = equals != NULL ? equals + 1 : words[1];
        return equals != NULL ? 1 : 2;
    }
    fprintf(err,
            option->flag != NULL ? "tilde %s: %s takes no value; type %s alone\n"
                                 : "tilde %s: %s takes a value; type it behind: %s N\n",
            verb, option->name, option->name);
    return -1;
}

int options_take(const char *verb, int argc, char **argv, const struct option *options, size_t count, FILE *err)
{
    int kept = 0, ended = 0;
    for (int i = 0; i < argc;) {
        if (ended || !is_option(argv[i])) {
            argv[kept++] = argv[i++];
            continue;
        }
        if (strcmp(argv[i], "--") == 0) {
            ended = 1;
            i++;
            continue;
        }
        const struct option *option = option_named(argv[i], options, count);
        if (option == NULL)
            return complain_unknown(verb, argv[i], options, count, err);
        const int took = take_option(verb, option, argv + i, argc - i, err);
        if (took < 0)
            return -1;
        i += took;
    }
    return kept;
}
