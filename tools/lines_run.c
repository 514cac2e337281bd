#include "lines_run.h"

#include "refusal.h"
#include "rows.h"
#include "running.h"
#include "wording.h"

#include <stdlib.h>
#include <string.h>

/* A job at work. */
struct work {
    const struct lines_job *job;
    const struct streams *io;
    struct rows rows;
    struct report report;
    /* lines that are done and still to be written, and whether the lines so far end without a newline */
    uint8_t *lines;
    size_t held, used;
    int unended;
    uint8_t table[TILDE_MOST_TABLE];
};

/* The job goes on, it stops at a refused row, or reading or writing failed, which was told. */
enum step { GOES_ON, STOPS, FAILS };

static enum step fail(struct work *work, const char *what)
{
    report_failure(&work->report, what);
    return FAILS;
}

static enum step write_held(struct work *work)
{
    const size_t used = work->used;
    work->used = 0;
    if (used > 0 && (fwrite(work->lines, 1, used, work->io->out) < used || fflush(work->io->out) != 0))
        return fail(work, "write the lines");
    return GOES_ON;
}

/* Refuses the row in hand for a fault, or for how the line of its call ends, or else for its length. */
static enum step refuse(struct work *work, const struct fault *fault, const struct call *call,
                        const struct ending *ending)
{
    FILE *const err = work->io->err;
    /* the lines before it come before the message */
    if (report_tells(&work->report) && write_held(work) == FAILS)
        return FAILS;
    const int told = report_refuse(&work->report);
    if (told && fault != NULL) {
        fault_print(err, fault);
    } else if (told && call != NULL) {
        refusal_print_row(err, call, ending->code, ending->position);
    } else if (told) {
        const uint64_t longest = work->rows.longest;
        print_numbers(err, ": a row has at most ~:d bytes, and this one has more~%", &longest, 1);
    }
    return work->job->strict ? STOPS : GOES_ON;
}

/* A line that is longer than all that is held. Nothing of it is written before it is known to be done. */
static enum step write_long(struct work *work, const struct call *call)
{
    const struct learned learned = line_learn(call);
    if (learned.ending.code != TILDE_DONE)
        return refuse(work, NULL, call, &learned.ending);
    line_write(call, work->io->out);
    if (ferror(work->io->out) || fflush(work->io->out) != 0)
        return fail(work, "write the lines");
    work->unended = learned.tail[learned.tail_length - 1] != '\n';
    return GOES_ON;
}

/* The line of a call behind those that are held. */
static struct ending format_held(struct work *work, const struct call *call, size_t *written)
{
    struct ending ending;
    ending.code = tilde_format(call->format, call->format_length, call->table, call->table_length,
                               work->lines + work->used, work->held - work->used, &ending.position, &ending.steps,
                               written);
    return ending;
}

static enum step take_call(struct work *work, const struct call *call)
{
    size_t written;
    struct ending ending = format_held(work, call, &written);
    if (ending.code == TILDE_NO_ROOM && work->used > 0) {
        if (write_held(work) == FAILS)
            return FAILS;
        ending = format_held(work, call, &written);
    }
    if (ending.code == TILDE_NO_ROOM)
        return write_long(work, call);
    if (ending.code != TILDE_DONE)
        return refuse(work, NULL, call, &ending);
    work->used += written;
    if (written > 0)
        work->unended = work->lines[work->used - 1] != '\n';
    return GOES_ON;
}

static enum step take_row(struct work *work, const uint8_t *row, size_t length)
{
    tilde_table table;
    struct fault fault;
    tilde_table_begin(&table, work->table, sizeof work->table);
    if (!fields_read(&table, &work->job->kinds, row, length, &fault))
        return refuse(work, &fault, NULL, NULL);
    const size_t table_length = tilde_table_end(&table);
    return take_call(work, &(struct call){work->job->format, work->job->format_length, work->table, table_length});
}

/* Lines that are done do not wait with the input. */
static enum step wait_for_rows(struct work *work)
{
    if (write_held(work) == FAILS)
        return FAILS;
    return rows_fill(&work->rows) ? GOES_ON : fail(work, "read the rows");
}

static enum step take_rows(struct work *work)
{
    enum step step = GOES_ON;
    while (step == GOES_ON) {
        const uint8_t *bytes;
        size_t length;
        const enum row row = rows_next(&work->rows, &bytes, &length);
        if (row == ROW_END)
            return write_held(work);
        if (row == ROW_WAIT) {
            step = wait_for_rows(work);
            continue;
        }
        report_row(&work->report);
        step = row == ROW_READ ? take_row(work, bytes, length) : refuse(work, NULL, NULL, NULL);
    }
    return step;
}

int lines_run(const struct lines_job *job, const struct lines_sizes *sizes, clock_read *now, const struct streams *io)
{
    struct work work = {.job = job, .io = io, .lines = malloc(sizes->held), .held = sizes->held};
    const int ready = rows_begin(&work.rows, io->in, sizes->longest, sizes->chunk) && work.lines != NULL;
    enum step step = FAILS;
    if (ready) {
        report_begin(&work.report, io, job->all, now);
        step = take_rows(&work);
    } else {
        fputs("tilde lines: there is no memory for the rows\n", io->err);
    }
    if (step != FAILS)
        report_end(&work.report, step == STOPS, work.unended);
    rows_end(&work.rows);
    free(work.lines);
    return step == FAILS ? STATUS_USAGE : work.report.refused > 0 ? STATUS_REFUSED : STATUS_DONE;
}
