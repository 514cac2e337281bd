#define _POSIX_C_SOURCE 200809L
#include "refusal.h"

#include "entries.h"
#include "excerpt.h"
#include "hints.h"
#include "judging.h"
#include "kinds.h"
#include "meaning.h"
#include "running.h"
#include "show.h"
#include "wording.h"

#include <stdlib.h>
#include <string.h>
#include <tilde.h>

/* A hint goes on in another line where it would have more columns than this. */
#define MOST_COLUMNS ((size_t)100)

/* The bytes that a refusal marks: a whole directive, a whole iteration of no body, or one byte of text. */
static size_t end_of(const struct format *format, uint32_t code, size_t position, struct directive *directive)
{
    struct directive closer;
    struct meaning meaning;
    size_t separators;
    if (code == TILDE_LONG_FORMAT || position >= format->length || format->bytes[position] != '~')
        return position + 1;
    *directive = directive_read(format, position);
    if ((code == TILDE_UNKNOWN_CODE || code == TILDE_BAD_PARAMETER) && directive_meaning(format, directive, &meaning))
        return meaning.end;
    struct walk walk = walk_to(format, position);
    if (code == TILDE_BAD_BLOCK && directive->code == '{' && walk_to_closer(&walk, directive, &closer, &separators) &&
        closer.start == directive->end)
        return closer.end;
    return directive->end;
}

static void print_head(FILE *err, uint32_t code, size_t position)
{
    fprintf(err, "refused (%u): %s, at byte %zu", (unsigned)code, tilde_words(code), position);
}

/* How many bytes of a text come before a break: up to the last semicolon that a line of so many columns can have, or
   else the first one, or all up to a newline. That of a ~; ends no part. */
static size_t part_length(const char *text, size_t columns)
{
    const size_t all = strcspn(text, "\n");
    size_t part = all;
    for (size_t i = 1; all > columns && i + 1 < all && (part == all || i < columns); i++)
        if (text[i] == ';' && text[i + 1] == ' ' && text[i - 1] != '~' && text[i - 1] != ':')
            part = i + 1;
    return part;
}

/* Prints a hint behind a mark that has so many columns, and a newline. */
static void print_broken(FILE *err, const char *hint, size_t columns)
{
    size_t left = columns + 2 < MOST_COLUMNS ? MOST_COLUMNS - columns - 2 : 0;
    while (*hint != '\0') {
        const size_t part = part_length(hint, left);
        fprintf(err, "  %.*s\n", (int)part, hint);
        hint += part;
        hint += strspn(hint, "\n ");
        left = MOST_COLUMNS - 2;
    }
}

static void print_text_hint(FILE *err, const struct format *format, uint32_t code, const struct directive *directive)
{
    if (code == TILDE_LONG_FORMAT) {
        fputs("the format has ", err);
        print_count(err, format->length, "byte");
        fputs("; this one and all behind it are too many", err);
    } else if (code == TILDE_UNKNOWN_CODE) {
        hint_unknown(err, format, directive);
    } else if (code == TILDE_BAD_BLOCK) {
        hint_block(err, format, directive);
    } else {
        hint_parameter(err, format, directive);
    }
}

static void print_written(FILE *err, const struct call *call)
{
    const struct learned learned = line_learn(call);
    if (learned.written == 0) {
        fputs("  nothing was written before it\n", err);
        return;
    }
    fputs("  before it ", err);
    print_count(err, learned.written, "byte");
    fprintf(err, " %s written: ", learned.written == 1 ? "was" : "were");
    show_end(err, learned.tail, learned.tail_length, learned.written > learned.tail_length);
    fputc('\n', err);
}

/* What a refusal is about: a call, or what a vet is asked, with the hand at the refused directive where it is known. */
struct refused {
    struct format format;
    uint32_t code;
    size_t position;
    struct directive directive;
    const struct hand *hand;
    /* null for a vet */
    const struct call *call;
};

static void print_hint(FILE *to, const struct refused *refused)
{
    if (refused->code <= TILDE_BAD_PARAMETER)
        print_text_hint(to, &refused->format, refused->code, &refused->directive);
    else if (refused->code == TILDE_STEP_LIMIT)
        hint_steps(to, refused->call, refused->position);
    else if (refused->code == TILDE_NOT_PLAIN)
        hint_not_plain(to, &refused->format, &refused->directive, refused->hand);
    else
        hint_argument(to, &refused->directive, refused->code, refused->hand);
}

/* Prints the place in the format, and the hint, which is held as a text to be broken into lines. */
static void print_place(FILE *err, struct refused *refused)
{
    const struct format *format = &refused->format;
    const size_t end = end_of(format, refused->code, refused->position, &refused->directive);
    const size_t columns = excerpt_print(err, format->bytes, format->length, refused->position, end);
    char *hint = NULL;
    size_t length;
    FILE *text = open_memstream(&hint, &length);
    if (text != NULL)
        print_hint(text, refused);
    if (text != NULL && fclose(text) == 0) {
        print_broken(err, hint, columns);
    } else {
        /* memory is short: the hint in one line */
        fputs("  ", err);
        print_hint(err, refused);
        fputc('\n', err);
    }
    free(hint);
}

void refusal_print(FILE *err, const struct call *call, uint32_t code, size_t position)
{
    struct refused refused = {{call->format, call->format_length}, code, position, {.start = position}, NULL, call};
    struct hand hand;
    print_head(err, code, position);
    fputc('\n', err);
    if (code == TILDE_BAD_TABLE) {
        fputs("  byte and refusal are of the table\n", err);
        return;
    }
    if (code > TILDE_BAD_PARAMETER && code < TILDE_STEP_LIMIT && hand_find(call, code, position, &hand))
        refused.hand = &hand;
    print_place(err, &refused);
    if (code > TILDE_BAD_PARAMETER)
        print_written(err, call);
}

/* Prints the field that is wrong, or has the list that the arguments in hand come from. */
static void print_field(FILE *err, const struct refused *refused)
{
    const struct hand *hand = refused->hand;
    const struct finding finding = directive_judge(&refused->directive, directive_rule(&refused->directive), hand);
    if (cause_code(finding.cause) != refused->code || (hand->first == 0 && !cause_in_argument(finding.cause)))
        return;
    const size_t field = hand_field(hand, finding.argument);
    fprintf(err, ", field %zu (%s)", field + 1, kind_name(entry_at(hand->table, field).tag));
}

void refusal_print_row(FILE *err, const struct call *call, uint32_t code, size_t position)
{
    struct refused refused = {{call->format, call->format_length}, code, position, {.start = position}, NULL, call};
    struct hand hand;
    if (code > TILDE_BAD_PARAMETER && code < TILDE_STEP_LIMIT) {
        refused.directive = directive_read(&refused.format, position);
        refused.hand = hand_find(call, code, position, &hand) ? &hand : NULL;
    }
    if (refused.hand != NULL)
        print_field(err, &refused);
    fputs(": ", err);
    print_head(err, code, position);
    if (code > TILDE_BAD_PARAMETER) {
        fputs(": ", err);
        print_hint(err, &refused);
    }
    fputc('\n', err);
}

static void print_question(FILE *err, const struct question *question)
{
    if (question->longest > TILDE_MOST_LONGEST) {
        fputs("  the longest is ", err);
        print_number(err, question->longest);
        fputs(" bytes, and may be at most ", err);
        print_number(err, TILDE_MOST_LONGEST);
    } else {
        fputs("  there are ", err);
        print_count(err, question->kinds_length, "kind");
        fputs(", and there may be at most ", err);
        print_number(err, TILDE_MOST_KINDS);
    }
    fputc('\n', err);
}

void refusal_print_vet(FILE *err, const struct question *question, uint32_t code, size_t position)
{
    const struct format format = {question->format, question->format_length};
    struct refused refused = {format, code, position, {.start = position}, NULL, NULL};
    const struct walk walk = walk_to(&refused.format, position);
    const struct hand hand = {NULL, question->kinds, 0, question->kinds_length, walk.taken};
    refused.hand = &hand;
    print_head(err, code, position);
    fputc('\n', err);
    if (code == TILDE_BAD_KINDS)
        print_question(err, question);
    else
        print_place(err, &refused);
}
