/* A line of any length through windows, so that it is never held. */
#ifndef TOOLS_RUNNING_H
#define TOOLS_RUNNING_H

#include "call.h"

#include <stdio.h>

/* How a line ends. */
struct ending {
    uint32_t code;
    size_t position, steps;
};

/* What a sink answers to end a line early. */
#define SINK_STOPS SIZE_MAX

/* Takes the next bytes of a line, and answers how many it took: all at the end, else all but at most three, which come
   again before those that follow. */
typedef size_t sink(void *to, const uint8_t *bytes, size_t length, int ends);

/* Runs a call from its start to its end into a sink. */
struct ending line_run(const struct call *call, sink *take, void *to);

/* What can be said of a line without holding it. */
struct learned {
    struct ending ending;
    uint64_t written;
    /* its last bytes */
    uint8_t tail[64];
    size_t tail_length;
    /* whether a terminal shows all of it as text */
    int is_text;
};

struct learned line_learn(const struct call *call);

/* Write a line that was learned to end with TILDE_DONE, as it is or in the notation of the vectors. A write that fails
   ends it; the error stays in the stream. */
void line_write(const struct call *call, FILE *out);
void line_show(const struct call *call, FILE *out);

#endif
