#include "walking.h"

int walk_find(struct walk *walk, struct directive *directive)
{
    const struct format *format = walk->format;
    while (walk->next < format->length && format->bytes[walk->next] != '~')
        walk->next++;
    if (walk->next >= format->length)
        return 0;
    *directive = directive_read(format, walk->next);
    return 1;
}

uint8_t closer_of(uint8_t letter)
{
    return letter == '[' ? ']' : letter == '{' ? '}' : 0;
}

/* How many arguments a directive goes on by. ~@[ leaves its argument to its clause; ~:p takes again the one before. */
static size_t takes(const struct directive *directive)
{
    if (!takes_argument(directive))
        return 0;
    return (directive->code == '[' && directive->at) || (lower(directive->code) == 'p' && directive->colon) ? 0 : 1;
}

void walk_past(struct walk *walk, const struct directive *directive)
{
    struct block *inside = walk->depth > 0 ? walk->open + walk->depth - 1 : NULL;
    walk->next = directive->end;
    walk->taken += takes(directive);
    if (closer_of(directive->code) != 0 && walk->depth < MOST_LEVELS) {
        walk->open[walk->depth++] = (struct block){.opener = *directive, .taken = walk->taken};
    } else if (inside != NULL && directive->code == ';') {
        inside->separators++;
        inside->last = directive->colon ? directive->start + 1 : inside->last;
        walk->taken = inside->taken;
    } else if (inside != NULL && directive->code == closer_of(inside->opener.code)) {
        walk->depth--;
    }
}

struct walk walk_to(const struct format *format, size_t position)
{
    struct walk walk = {.format = format};
    struct directive directive;
    while (walk_find(&walk, &directive) && directive.start < position)
        walk_past(&walk, &directive);
    return walk;
}

const struct block *walk_inside(const struct walk *walk)
{
    return walk->depth > 0 ? walk->open + walk->depth - 1 : NULL;
}

int walk_to_closer(struct walk *walk, const struct directive *opener, struct directive *closer, size_t *separators)
{
    const size_t depth = walk->depth;
    walk_past(walk, opener);
    while (walk_find(walk, closer)) {
        if (walk->depth == depth + 1 && closer->code == closer_of(opener->code)) {
            *separators = walk->open[depth].separators;
            return 1;
        }
        walk_past(walk, closer);
    }
    return 0;
}
