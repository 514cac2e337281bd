#define _POSIX_C_SOURCE 200809L
#include "rows.h"

#include <errno.h>
#include <poll.h>
#include <stdlib.h>
#include <string.h>
#include <unistd.h>

int rows_begin(struct rows *rows, FILE *in, size_t longest, size_t chunk)
{
    /* the longest row may wait with its return */
    *rows = (struct rows){.in = in, .longest = longest, .chunk = chunk, .buffer = malloc(longest + 1 + chunk)};
    return rows->buffer != NULL;
}

void rows_end(struct rows *rows)
{
    free(rows->buffer);
    rows->buffer = NULL;
}

/* The bytes of the row that stands in the buffer up to `end`. */
static size_t length_to(const struct rows *rows, size_t end)
{
    return end - rows->from - (end > rows->from && rows->buffer[end - 1] == '\r' ? 1 : 0);
}

/* No newline is in the buffer: whether the row there has its end all the same, that of the stream. */
static int ends_here(struct rows *rows)
{
    rows->searched = rows->to;
    if (length_to(rows, rows->to) > rows->longest) {
        rows->over = 1;
        rows->from = rows->to;
    }
    return rows->ended && (rows->over || rows->from < rows->to);
}

enum row rows_next(struct rows *rows, const uint8_t **row, size_t *length)
{
    const uint8_t *const newline = memchr(rows->buffer + rows->searched, '\n', rows->to - rows->searched);
    if (newline == NULL && !ends_here(rows))
        return rows->ended ? ROW_END : ROW_WAIT;
    const size_t end = newline == NULL ? rows->to : (size_t)(newline - rows->buffer);
    *row = rows->buffer + rows->from;
    *length = length_to(rows, end);
    const int over = rows->over || *length > rows->longest;
    rows->from = rows->searched = newline == NULL ? end : end + 1;
    rows->over = 0;
    return over ? ROW_LONG : ROW_READ;
}

/* Whether to read again after a read that failed: it was interrupted, or what does not wait by itself now has bytes. */
static int again(int from)
{
    struct pollfd waits = {.fd = from, .events = POLLIN};
    return errno == EINTR || (errno == EAGAIN && (poll(&waits, 1, -1) >= 0 || errno == EINTR));
}

/* A stream with a descriptor is read past its own buffer, because fread would wait for a whole chunk. */
static ssize_t take(FILE *in, uint8_t *into, size_t room)
{
    const int from = fileno(in);
    ssize_t taken;
    if (from < 0) {
        const size_t count = fread(into, 1, room, in);
        return count == 0 && ferror(in) ? -1 : (ssize_t)count;
    }
    do
        taken = read(from, into, room);
    while (taken < 0 && again(from));
    return taken;
}

int rows_fill(struct rows *rows)
{
    /* rows_next has left at most a longest row and a return */
    if (rows->from > 0)
        memmove(rows->buffer, rows->buffer + rows->from, rows->to - rows->from);
    rows->to -= rows->from;
    rows->searched -= rows->from;
    rows->from = 0;
    const ssize_t taken = take(rows->in, rows->buffer + rows->to, rows->chunk);
    if (taken < 0)
        return 0;
    rows->ended = taken == 0;
    rows->to += (size_t)taken;
    return 1;
}
