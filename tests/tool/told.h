/* What a refusal has to say: the code, words and position of the library, a mark under the place, a hint, what it
   proposes, and which argument it names. */
#ifndef TOLD_H
#define TOLD_H

#include "../../tools/values.h"
#include "../c/expect.h"
#include "words.h"

/* The number of the command line in hand, for the message of a failed check. */
static size_t number;
static size_t proposals, repaired, named;

/* The start of line i of a text; a text that has no such line is refused. */
static const char *line_at(const char *text, size_t i)
{
    for (; i > 0; i--) {
        text = strchr(text, '\n');
        expect(text != NULL, "as many lines as a refusal has", number);
        text++;
    }
    return text;
}

static int is_simple(const struct typed *word)
{
    for (size_t i = 0; i < word->length; i++)
        if (word->bytes[i] < 32 || word->bytes[i] == 127)
            return 0;
    return word->length <= 72;
}

/* The first fault of a format with other bytes in the place of some. */
static uint32_t fault_with(const struct typed *format, size_t from, size_t taken, const char *bytes, size_t length,
                           size_t *place)
{
    uint8_t made[256];
    const size_t rest = format->length - from - taken;
    size_t count;
    memcpy(made, format->bytes, from);
    memcpy(made + from, bytes, length);
    memcpy(made + from + length, format->bytes + from + taken, rest);
    const uint32_t code = tilde_vet(made, from + length + rest, NULL, 0, 0, place, &count);
    return code <= TILDE_BAD_PARAMETER ? code : TILDE_DONE;
}

/* The bytes that a hint proposes in place of the marked ones: with them the library finds no fault there any more, and
   none before them that is not there without them. */
static void expect_repaired(const struct typed *format, size_t position, size_t marked, const char *hint)
{
    const char *proposal = NULL;
    size_t place, without;
    for (const char *found = strstr(hint, ": ~"); found != NULL; found = strstr(found + 1, ": ~"))
        proposal = found + 2;
    if (proposal == NULL)
        return;
    const size_t size = strcspn(proposal, "\n");
    const uint32_t code = fault_with(format, position, marked, proposal, size, &place);
    const uint32_t left = fault_with(format, position, marked, "", 0, &without);
    expect(code == TILDE_DONE || place >= position + size || (place < position && code == left && place == without),
           "a proposal that the library accepts", number);
    proposals++;
    repaired += code == TILDE_DONE ? 1 : 0;
}

/* The lines of a refusal: its code, words and position, the format with a mark under the place, and a hint. */
static void expect_refusal(const char *err, const struct typed *format, uint32_t code, size_t position)
{
    char head[200];
    snprintf(head, sizeof head, "refused (%u): %s, at byte %zu\n", (unsigned)code, tilde_words(code), position);
    expect(strncmp(err, head, strlen(head)) == 0, "code, words and position of the library", number);
    if (code == TILDE_BAD_KINDS) {
        expect(strlen(line_at(err, 1)) > 10, "a hint", number);
        return;
    }
    const char *mark = line_at(err, 2);
    const size_t before = strspn(mark, " "), marked = 1 + strspn(mark + before + 1, "~");
    const char *hint = mark + before + marked;
    expect(mark[before] == '^' && strncmp(hint, "  ", 2) == 0 && strcspn(hint + 2, "\n") > 10, "a hint", number);
    if (!is_simple(format))
        return;
    expect(before == position + 2, "the mark under the place", number);
    if (code >= TILDE_UNKNOWN_CODE && code <= TILDE_BAD_PARAMETER)
        expect_repaired(format, position, marked, hint);
}

static void expect_written(const char *err, uint64_t written)
{
    const char *line = strstr(err, written > 0 ? "\n  before it " : "\n  nothing was written");
    unsigned long long told = 0;
    expect(line != NULL, "a line of what was written before", number);
    line++;
    for (const char *digit = line + strlen("  before it "); written > 0 && *digit != ' '; digit++)
        told = *digit == ',' ? told : 10 * told + (unsigned long long)(*digit - '0');
    expect(written > 0 ? told == written : strcmp(line, "  nothing was written before it\n") == 0,
           "how much was written before", number);
}

/* The table of some words that are values, with the one that has this number given as `instead`, or one more behind the
   last. Answers its length. */
static size_t table_with(const struct typed *values, size_t count, size_t which, const char *instead, uint8_t *room,
                         size_t size)
{
    tilde_table table;
    struct complaint complaint;
    tilde_table_begin(&table, room, size);
    for (size_t i = 0; i < count + (which == count); i++) {
        const char *text = i == which ? instead : values[i].bytes;
        expect(value_read(&table, text, i == which ? strlen(instead) : values[i].length, &complaint), "a value",
               number);
    }
    return tilde_table_end(&table);
}

/* The number of the argument that a hint names, from 0; `none` where it names no argument. */
static size_t named_argument(const char *hint, size_t none)
{
    static const char *const ordinals[] = {"first", "second", "third", "fourth", "fifth", "sixth"};
    const char *found = strstr(hint, " argument");
    for (size_t i = 0; found != NULL && i < COUNT(ordinals); i++) {
        const size_t length = strlen(ordinals[i]);
        if ((size_t)(found - hint) > length && memcmp(found - length, ordinals[i], length) == 0)
            return i;
    }
    return none;
}

/* A value of the kind that a hint says is taken, or in range. */
static const char *wanted_value(const char *hint)
{
    const char *takes = strstr(hint, "takes ");
    if (takes == NULL || strstr(hint, "takes a list") != NULL)
        return "()";
    return strncmp(takes, "takes a character", 17) == 0 ? "#\\A"
           : strncmp(takes, "takes a boolean", 15) == 0 ? "#t"
                                                        : "1";
}

/* The argument that the hint of codes 6 to 8 names is the one: with a value in its place that the hint asks for, the
   line comes further. A directive with v may be refused again for the next one, and # counts what is put in. */
static void expect_named(const char *err, const struct typed *format, const struct typed *values, size_t count,
                         uint32_t code, size_t position, size_t steps)
{
    static uint8_t room[TILDE_MOST_TABLE], buffer[1 << 16];
    const char *hint = line_at(err, 2);
    const size_t which = named_argument(hint, TILDE_MOST_ENTRIES);
    size_t place, done, written;
    expect(strstr(hint, ", and ") != NULL || format->length + 2 > TILDE_MOST_FORMAT || 3 * steps > TILDE_MOST_STEPS,
           "a hint from the arguments in hand", number);
    if (which > count || strpbrk(format->bytes, "#vV") != NULL)
        return;
    const size_t length = table_with(values, count, which, wanted_value(hint), room, sizeof room);
    const uint32_t now = tilde_format((const uint8_t *)format->bytes, format->length, room, length, buffer,
                                      sizeof buffer, &place, &done, &written);
    expect(now != code || place != position || done > steps, "the argument that is refused", number);
    named++;
}

#endif
