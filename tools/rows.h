/* The rows of a stream, which newlines part. The last one may lack its newline. A return at the end of a row is no part
   of it. */
#ifndef TOOLS_ROWS_H
#define TOOLS_ROWS_H

#include <stddef.h>
#include <stdint.h>
#include <stdio.h>

enum row {
    /* a row is in hand */
    ROW_READ,
    /* a row was longer than the longest, and all of it has been dropped */
    ROW_LONG,
    /* rows_fill has to bring more */
    ROW_WAIT,
    /* there is no other row */
    ROW_END
};

struct rows {
    FILE *in;
    /* the bytes of the longest row, and of what is read at once; the buffer has room for both and a return */
    size_t longest, chunk;
    uint8_t *buffer;
    /* what was read and is still to be handed out stands from `from` to `to`, with no newline before `searched` */
    size_t from, searched, to;
    /* whether the stream has ended, and whether the row at `from` is the rest of one that is too long */
    int ended, over;
};

/* 0 where memory is short. */
int rows_begin(struct rows *rows, FILE *in, size_t longest, size_t chunk);

void rows_end(struct rows *rows);

/* Reads nothing. A row that it hands out stands until the next rows_fill. */
enum row rows_next(struct rows *rows, const uint8_t **row, size_t *length);

/* Reads what there is, up to a chunk, and waits only where there is nothing; 0 where that fails, with errno set. */
int rows_fill(struct rows *rows);

#endif
