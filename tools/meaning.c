#include "meaning.h"

#include <string.h>

/* How many bytes stand here that people type, or paste, for a quote. */
static size_t other_quote(const struct format *format, size_t at)
{
    static const char *const quotes[] = {"\"", "`", "\xc2\xb4", "\xe2\x80\x98", "\xe2\x80\x99"};
    for (size_t i = 0; i < sizeof quotes / sizeof quotes[0]; i++) {
        const size_t length = strlen(quotes[i]);
        if (length <= format->length - at && memcmp(format->bytes + at, quotes[i], length) == 0)
            return length;
    }
    return 0;
}

static size_t blanks_at(const struct format *format, size_t at)
{
    size_t count = 0;
    while (at + count < format->length && (format->bytes[at + count] == ' ' || format->bytes[at + count] == '\t'))
        count++;
    return count;
}

/* Reads the directive that begins at `start` with some text in the place of the bytes from `at` to `from`. */
static int reads_well(const struct format *format, size_t start, size_t at, const char *text, size_t from,
                      struct meaning *meaning)
{
    const size_t before = at - start, length = strlen(text), rest = format->length - from;
    struct spelling *made = &meaning->instead;
    if (before > sizeof made->bytes / 2)
        return 0;
    made->length = before + length;
    memcpy(made->bytes, format->bytes + start, before);
    memcpy(made->bytes + before, text, length);
    const size_t room = sizeof made->bytes - made->length, taken = rest < room ? rest : room;
    memcpy(made->bytes + made->length, format->bytes + from, taken);
    const struct format whole = {made->bytes, made->length + taken};
    const struct directive read = directive_read(&whole, 0);
    if (read.slip != SLIP_NONE || !directive_fits(&read) || read.end <= made->length)
        return 0;
    meaning->end = from + read.end - made->length;
    made->length = read.end;
    return 1;
}

static size_t quote_at(const struct format *format, size_t at)
{
    return at >= format->length ? 0 : format->bytes[at] == '\'' ? 1 : other_quote(format, at);
}

/* Reads the directive without the quote behind the first character that has one before it and one behind it. */
static int reads_unclosed(const struct format *format, const struct directive *directive, struct meaning *meaning)
{
    meaning->wrong = "a character has a ' before it and no quote behind it";
    for (size_t at = directive->start + 1; at < directive->end; at++) {
        const size_t behind = at + quote_at(format, at) + 1;
        if (behind == at + 1)
            continue;
        const size_t closing = quote_at(format, behind);
        if (closing > 0) {
            const char text[] = {'\'', (char)format->bytes[behind - 1], '\0'};
            return reads_well(format, directive->start, at, text, behind + closing, meaning);
        }
        at = behind - 1;
    }
    return 0;
}

int directive_meaning(const struct format *format, const struct directive *directive, struct meaning *meaning)
{
    const size_t start = directive->start, at = directive->end - 1;
    if (directive->slip != SLIP_NONE && directive->slip != SLIP_COMMA)
        return 0;
    if (reads_unclosed(format, directive, meaning))
        return 1;
    if (directive->slip == SLIP_COMMA)
        return 0;
    meaning->wrong = "no blank stands before the letter, and ~~ prints a tilde";
    const size_t blanks = blanks_at(format, at), quote = other_quote(format, at);
    if (blanks > 0)
        return reads_well(format, start, at, "", at + blanks, meaning);
    meaning->wrong = "the quote before a character is '";
    if (quote > 0)
        return reads_well(format, start, at, "'", at + quote, meaning);
    meaning->wrong = "a character is written behind a quote";
    return format->bytes[at - 1] == ',' && reads_well(format, start, at, "'", at, meaning);
}
