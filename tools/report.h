/* What tilde lines says on standard error: the rows that are refused, how far it has come, and a summary. */
#ifndef TOOLS_REPORT_H
#define TOOLS_REPORT_H

#include "verbs.h"

#include <stdint.h>

/* The milliseconds of a clock that only goes forward. */
typedef int64_t clock_read(void);

/* That of the machine. */
int64_t report_clock(void);

struct report {
    FILE *err;
    clock_read *now;
    /* the rows so far, those of them that were refused, and how many of these are told */
    uint64_t rows, refused, most_told;
    /* whether a terminal shows what is said, and whether it shows progress; when that is shown next, in milliseconds,
       and how many columns of it stand on the screen */
    int seen, followed;
    int64_t next;
    size_t columns;
};

/* Progress is shown where standard error is a terminal to which no lines go. */
void report_begin(struct report *report, const struct streams *io, int all, clock_read *now);

/* Call it for every row: it shows how far it has come where it is time for that. */
void report_row(struct report *report);

/* Whether another refused row is told. */
int report_tells(const struct report *report);

/* Refuses the row in hand. Answers whether that is told: then its number is printed, and the caller prints why. */
int report_refuse(struct report *report);

/* Says what cannot be done, and the cause that errno has; nothing where that is a reader who has gone. */
void report_failure(struct report *report, const char *what);

/* Prints the summary where rows were refused; to a person, also that the last line lacks a newline. */
void report_end(struct report *report, int stopped, int unended);

#endif
