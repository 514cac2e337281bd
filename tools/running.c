#include "running.h"

#include "show.h"

#include <string.h>
#include <tilde.h>

#define WINDOW ((size_t)16384)
/* A character of UTF-8 that a window cut has at most so many bytes before the cut. */
#define MOST_LEFT ((size_t)3)

struct ending line_run(const struct call *call, sink *take, void *to)
{
    uint8_t bytes[MOST_LEFT + WINDOW];
    tilde_state state = {0};
    struct ending ending;
    size_t held = 0, written, taken;
    do {
        ending.code = tilde_window(&state, call->format, call->format_length, call->table, call->table_length,
                                   bytes + held, WINDOW, &ending.position, &ending.steps, &written);
        held += written;
        taken = take(to, bytes, held, ending.code != TILDE_MORE);
        if (taken == SINK_STOPS)
            break;
        memmove(bytes, bytes + taken, held - taken);
        held -= taken;
    } while (ending.code == TILDE_MORE);
    return ending;
}

static void keep_tail(struct learned *learned, const uint8_t *bytes, size_t length)
{
    const size_t most = sizeof learned->tail, from = length > most ? length - most : 0, fresh = length - from;
    const size_t kept = learned->tail_length + fresh > most ? most - fresh : learned->tail_length;
    memmove(learned->tail, learned->tail + learned->tail_length - kept, kept);
    memcpy(learned->tail + kept, bytes + from, fresh);
    learned->tail_length = kept + fresh;
}

/* How many of the bytes at the start are text of one byte each. */
static size_t simple_run(const uint8_t *bytes, size_t length)
{
    size_t i = 0;
    while (i < length && ((bytes[i] >= 32 && bytes[i] < 127) || bytes[i] == '\n' || bytes[i] == '\t'))
        i++;
    return i;
}

/* How many of the bytes are whole characters; a cut one at the end counts only where no more come. */
static size_t whole_characters(struct learned *learned, const uint8_t *bytes, size_t length, int ends)
{
    size_t i = simple_run(bytes, length);
    while (learned->is_text && i < length && (ends || length - i > MOST_LEFT)) {
        const size_t taken = utf8_length(bytes + i, length - i);
        learned->is_text = is_text(bytes + i, taken);
        i += taken;
        i += simple_run(bytes + i, length - i);
    }
    return learned->is_text ? i : length;
}

static size_t learn(void *to, const uint8_t *bytes, size_t length, int ends)
{
    struct learned *learned = to;
    const size_t taken = whole_characters(learned, bytes, length, ends);
    keep_tail(learned, bytes, taken);
    learned->written += taken;
    return taken;
}

struct learned line_learn(const struct call *call)
{
    struct learned learned = {.is_text = 1};
    learned.ending = line_run(call, learn, &learned);
    return learned;
}

static size_t write_bytes(void *to, const uint8_t *bytes, size_t length, int ends)
{
    (void)ends;
    return fwrite(bytes, 1, length, to) == length ? length : SINK_STOPS;
}

void line_write(const struct call *call, FILE *out)
{
    line_run(call, write_bytes, out);
}

static size_t write_shown(void *to, const uint8_t *bytes, size_t length, int ends)
{
    size_t i = 0;
    while (i < length && (ends || length - i > MOST_LEFT)) {
        const struct shown shown = show_next(bytes + i, length - i);
        if (fputs(shown.text, to) < 0)
            return SINK_STOPS;
        i += shown.bytes;
    }
    return i;
}

void line_show(const struct call *call, FILE *out)
{
    line_run(call, write_shown, out);
}
