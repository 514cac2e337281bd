#define _POSIX_C_SOURCE 200809L
#include "report.h"

#include "wording.h"

#include <errno.h>
#include <inttypes.h>
#include <string.h>
#include <time.h>
#include <unistd.h>

#define TOLD ((uint64_t)20)
/* Before progress is first shown, and between two times, in milliseconds. */
#define PATIENCE 1000
#define PAUSE 250

int64_t report_clock(void)
{
    struct timespec time;
    if (clock_gettime(CLOCK_MONOTONIC, &time) != 0)
        return 0;
    return (int64_t)time.tv_sec * 1000 + time.tv_nsec / 1000000;
}

void report_begin(struct report *report, const struct streams *io, int all, clock_read *now)
{
    *report = (struct report){.err = io->err, .now = now, .most_told = all ? UINT64_MAX : TOLD};
    report->seen = isatty(fileno(io->err));
    report->followed = report->seen && !isatty(fileno(io->out));
    report->next = now() + PATIENCE;
    if (report->seen && isatty(fileno(io->in)))
        fputs("tilde lines: type rows, with a tab between two fields; Ctrl-D ends them\n", io->err);
}

/* Makes way for a message. */
static void clear_progress(struct report *report)
{
    if (report->columns > 0)
        fprintf(report->err, "\r%*s\r", (int)report->columns, "");
    report->columns = 0;
}

void report_row(struct report *report)
{
    report->rows++;
    const int64_t time = report->followed ? report->now() : 0;
    if (!report->followed || time < report->next)
        return;
    const uint64_t counts[] = {report->rows, report->refused};
    fputc('\r', report->err);
    report->columns = print_numbers(report->err, "~:d row~:p, ~:d refused", counts, 2);
    fflush(report->err);
    report->next = time + PAUSE;
}

int report_tells(const struct report *report)
{
    return report->refused < report->most_told;
}

int report_refuse(struct report *report)
{
    const int told = report_tells(report);
    report->refused++;
    if (!told)
        return 0;
    clear_progress(report);
    fprintf(report->err, "row %" PRIu64, report->rows);
    return 1;
}

void report_failure(struct report *report, const char *what)
{
    const int cause = errno;
    clear_progress(report);
    if (cause == EPIPE)
        return;
    fprintf(report->err, "tilde lines: cannot %s: %s; stopped after ", what, strerror(cause));
    print_numbers(report->err, "~:d row~:p~%", &report->rows, 1);
}

static void print_summary(struct report *report, int stopped)
{
    const uint64_t untold = report->refused > report->most_told ? report->refused - report->most_told : 0;
    const uint64_t counts[] = {report->rows, report->rows - report->refused, report->refused, untold};
    print_numbers(report->err, "~:d row~:p: ~:d line~:p, ~:d refused", counts, 3);
    if (untold > 0)
        print_numbers(report->err, "; ~3*~:d of them not told, --all tells them", counts, 4);
    fputs(stopped ? "; stopped there, as --strict says\n" : "\n", report->err);
}

void report_end(struct report *report, int stopped, int unended)
{
    clear_progress(report);
    if (report->seen && unended)
        fprintf(report->err,
                "%stilde lines: the last line has no newline at its end, and none is added; ~%% writes one\n",
                report->followed ? "" : "\n");
    if (report->refused > 0)
        print_summary(report, stopped);
}
