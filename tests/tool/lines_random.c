/* Random rows through tilde lines in one process, with buffers of many sizes: what it writes, what it tells and its
   status are compared with what made.h has from direct calls of tilde_format. */
#define _GNU_SOURCE
#include "../c/expect.h"
#include "../c/needed.h"
#include "made.h"

#define JOBS 1200

static size_t runs, faults, counts, longs, named, refusals[TILDE_NO_ROOM];

/* A check of the job in hand, which is shown with what was told where it does not hold. */
static void check(int holds, const char *what, const struct made *made, const char *told)
{
    if (!holds)
        fprintf(stderr, "format %s\nrows\n%.2000s\nlines\n%.2000s\nmessages\n%.2000s\ntold\n%.2000s\n", made->format,
                made->rows, made->out, made->err, told);
    expect(holds, what, runs);
}

static FILE *text_open(char **text, size_t *length)
{
    FILE *file = open_memstream(text, length);
    need(file != NULL, "open_memstream");
    return file;
}

/* The line of a good row, or that it is refused; answers whether it has one. */
static int expect_line(const struct made *made, const uint8_t *table, size_t table_length, FILE *out, FILE *err)
{
    static uint8_t line[LONGEST_LINE];
    size_t position, steps, written;
    const uint32_t code = tilde_format(made->job.format, made->job.format_length, table, table_length, line,
                                       sizeof line, &position, &steps, &written);
    check(code < TILDE_NO_ROOM && code != TILDE_BAD_TABLE, "a line of the test has no room", made, "");
    refusals[code]++;
    if (code == TILDE_DONE) {
        fwrite(line, 1, written, out);
        return 1;
    }
    fprintf(err, "row %zu%c: refused (%u): %s, at byte %zu", made->all, ANY_FIELD, (unsigned)code, tilde_words(code),
            position);
    if (code > TILDE_BAD_PARAMETER)
        fprintf(err, ": %c", ANY_REST);
    fputc('\n', err);
    return 0;
}

/* Why a row of this length without its return, which gives no table, is refused; answers 0 where it gives one. */
static int expect_refusal(const struct made *made, size_t length, size_t more, size_t field, FILE *err)
{
    const struct kinds *kinds = &made->job.kinds;
    if (length > made->longest)
        fprintf(err, "row %zu: a row has at most %s bytes, and this one has more\n", made->all, made->longest_told);
    else if (more > 0)
        fprintf(err, "row %zu: %zu fields for %zu kind%s; a tab parts two fields\n", made->all, kinds->count + more,
                kinds->count, kinds->count > 1 ? "s" : "");
    else if (field > 0)
        fprintf(err, "row %zu, field %zu (%s): \"%c\n", made->all, field, kind_words[kinds->tags[field - 1]], ANY_REST);
    else
        return 0;
    *(length > made->longest ? &longs : more > 0 ? &counts : &faults) += 1;
    return 1;
}

/* Adds a row to the rows of a job, and what is expected of it; answers whether it has a line. Without its newline a row
   of no bytes would be none. */
static int make_row(struct made *made, FILE *rows, FILE *out, FILE *err, int bad, int newline)
{
    static uint8_t room[TILDE_MOST_TABLE];
    const size_t more = bad && once_in(3) ? 1 + below(2) : 0, returns = once_in(10) ? 1 : 0;
    char *bytes;
    size_t length;
    tilde_table table;
    tilde_table_begin(&table, room, sizeof room);
    FILE *row = text_open(&bytes, &length);
    const size_t field = make_fields(&made->job.kinds, row, &table, bad && more == 0);
    fprintf(row, "%.*s%s", (int)more, "\t\t", returns ? "\r" : "");
    need(fclose(row) == 0, "fclose");
    made->all++;
    fwrite(bytes, 1, length, rows);
    fputs(newline || length == 0 ? "\n" : "", rows);
    free(bytes);
    return !expect_refusal(made, length - returns, more, field, err) &&
           expect_line(made, room, tilde_table_end(&table), out, err);
}

static void make_summary(const struct made *made, FILE *err, int stopped)
{
    if (made->refused == 0)
        return;
    fprintf(err, "%zu row%s: %zu line%s, %zu refused", made->all, made->all == 1 ? "" : "s", made->lines,
            made->lines == 1 ? "" : "s", made->refused);
    if (!made->job.all && made->refused > 20)
        fprintf(err, "; %zu of them not told, --all tells them", made->refused - 20);
    fputs(stopped ? "; stopped there, as --strict says\n" : "\n", err);
}

/* Rows, of which one in `odds` is bad. Behind the row that stops a strict job others stand that are not looked at. */
static void make_rows(struct made *made, size_t count, size_t odds)
{
    FILE *rows = text_open(&made->rows, &made->rows_length), *out = text_open(&made->out, &made->out_length);
    FILE *err = text_open(&made->err, &made->err_length), *nowhere = fopen("/dev/null", "w");
    int stopped = 0;
    need(nowhere != NULL, "/dev/null");
    for (size_t i = 0; i < count && !stopped; i++) {
        FILE *const told = made->job.all || made->refused < 20 ? err : nowhere;
        const int has_line = make_row(made, rows, out, told, once_in(odds), i + 1 < count || once_in(2));
        made->lines += has_line ? 1 : 0;
        made->refused += has_line ? 0 : 1;
        stopped = !has_line && made->job.strict;
    }
    fputs(stopped ? "\n\t\nrest" : "", rows);
    make_summary(made, err, stopped);
    made->status = made->refused > 0 ? STATUS_REFUSED : STATUS_DONE;
    need(fclose(rows) == 0 && fclose(out) == 0 && fclose(err) == 0 && fclose(nowhere) == 0, "fclose");
}

static void make_job(struct made *made)
{
    static const size_t odds[] = {2, 5, 50, 1000};
    static const struct {
        size_t bytes;
        const char *told;
    } longest[] = {{20, "20"}, {300, "300"}, {4000, "4,000"}, {524288, "524,288"}};
    const size_t i = once_in(4) ? below(4) : 3;
    *made = (struct made){.longest = longest[i].bytes, .longest_told = longest[i].told};
    made->job.strict = once_in(6);
    made->job.all = once_in(4);
    made->job.kinds.count = 1 + below(6);
    for (size_t j = 0; j < made->job.kinds.count; j++)
        made->job.kinds.tags[j] = (uint8_t)below(5);
    choose_format(made);
    make_rows(made, once_in(20) ? below(2) : below(40), odds[below(4)]);
}

/* The rows as a stream with a descriptor, or as one without. */
static FILE *rows_open(const struct made *made)
{
    const int file = made->rows_length == 0 || once_in(2);
    FILE *in = file ? file_open() : fmemopen(made->rows, made->rows_length, "r");
    need(in != NULL, "fmemopen");
    need(!file || fwrite(made->rows, 1, made->rows_length, in) == made->rows_length, "fwrite");
    rewind(in);
    return in;
}

/* The length of the field that is named here, which is one of the job; 0 where none is, or it is not. */
static size_t field_told(const struct made *made, const char *told)
{
    char name[64];
    const size_t field = strncmp(told, ", field ", 8) == 0 ? strtoul(told + 8, NULL, 10) : 0;
    if (field == 0 || field > made->job.kinds.count)
        return 0;
    snprintf(name, sizeof name, ", field %zu (%s)", field, kind_words[made->job.kinds.tags[field - 1]]);
    named += strncmp(told, name, strlen(name)) == 0 ? 1 : 0;
    return strncmp(told, name, strlen(name)) == 0 ? strlen(name) : 0;
}

/* Whether what was told is as expected, and shows no control. */
static int as_expected(const struct made *made, const char *expected, const char *told)
{
    for (; *expected != '\0'; expected++, told++) {
        if (*expected == ANY_FIELD) {
            told += field_told(made, told);
            expected++;
        }
        if (*expected == ANY_REST) {
            while ((unsigned char)*told >= 32)
                told++;
            expected++;
        }
        if (*expected != *told)
            return 0;
    }
    return *told == '\0';
}

static void run(const struct made *made, size_t chunk, size_t held)
{
    const struct lines_sizes sizes = {made->longest, chunk, held};
    char *out, *err;
    size_t out_length, err_length;
    const struct streams io = {rows_open(made), text_open(&out, &out_length), text_open(&err, &err_length)};
    const int status = lines_run(&made->job, &sizes, report_clock, &io);
    need(fclose(io.in) == 0 && fclose(io.out) == 0 && fclose(io.err) == 0, "fclose");
    check(out_length == made->out_length && memcmp(out, made->out, out_length) == 0, "other lines", made, err);
    check(as_expected(made, made->err, err), "other messages", made, err);
    check(status == made->status, "another status", made, err);
    free(out);
    free(err);
    runs++;
}

/* An output that takes less than all: what it took is the start of the lines, and the failure is told. */
static void run_full(const struct made *made, size_t held)
{
    const struct lines_sizes sizes = {made->longest, 64, held};
    char *const took = calloc(made->out_length, 1), *err;
    size_t err_length;
    need(took != NULL, "calloc");
    const struct streams io = {rows_open(made), fmemopen(took, 1 + below(made->out_length - 1), "w"),
                               text_open(&err, &err_length)};
    need(io.out != NULL, "fmemopen");
    const int status = lines_run(&made->job, &sizes, report_clock, &io);
    fclose(io.in);
    fclose(io.out);
    fclose(io.err);
    check(status == STATUS_USAGE, "the status of a full output", made, err);
    check(strstr(err, "tilde lines: cannot write the lines: ") != NULL, "a full output is told", made, err);
    size_t same = 0, rest = made->out_length;
    while (same < rest && took[same] == made->out[same])
        same++;
    while (rest > same && took[rest - 1] == 0)
        rest--;
    check(same == rest, "what a full output took", made, err);
    free(took);
    free(err);
}

int main(void)
{
    static const size_t chunks[] = {65536, 64, 7, 3, 2, 1}, held[] = {1, 16, 64, 1000, 65536};
    size_t rows = 0, lines = 0;
    for (size_t i = 0; i < JOBS; i++) {
        struct made made;
        make_job(&made);
        /* a read for each byte or two of long rows would take long */
        for (size_t j = 0; j < (made.rows_length > 5000 ? 3 : 6); j++)
            run(&made, chunks[j], held[below(5)]);
        if (made.out_length > 1)
            run_full(&made, held[below(5)]);
        rows += made.all;
        lines += made.lines;
        free(made.rows);
        free(made.out);
        free(made.err);
    }
    printf("lines_random: %d jobs in %zu runs, %zu rows: %zu lines, %zu bad fields, %zu wrong counts, %zu too long",
           JOBS, runs, rows, lines, faults, counts, longs);
    for (uint32_t code = TILDE_LONG_FORMAT; code < TILDE_NO_ROOM; code++)
        printf(", %zu refused (%u)", refusals[code], (unsigned)code);
    printf("; %zu fields of these named; %zu checks\n", named, checks);
    return 0;
}
