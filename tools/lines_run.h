/* A line for each row of a stream. */
#ifndef TOOLS_LINES_RUN_H
#define TOOLS_LINES_RUN_H

#include "fields.h"
#include "report.h"

/* What is to be done. */
struct lines_job {
    const uint8_t *format;
    size_t format_length;
    struct kinds kinds;
    /* whether the first refused row ends it, and whether all of them are told */
    int strict, all;
};

/* The bytes of the longest row, of what is read at once, and of the lines that are held before they are written. */
struct lines_sizes {
    size_t longest, chunk, held;
};

/* Reads rows and writes lines until the rows end; answers a status of the command. The clock says when progress is
   shown. */
int lines_run(const struct lines_job *job, const struct lines_sizes *sizes, clock_read *now, const struct streams *io);

#endif
