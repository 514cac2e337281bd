/* What tilde lines shows a person: progress, and notes, on a terminal that is the other end of a pseudo-terminal. */
#define _GNU_SOURCE
#include "../../tools/lines_run.h"
#include "../c/expect.h"
#include "../c/needed.h"

#include <errno.h>
#include <fcntl.h>
#include <string.h>
#include <termios.h>
#include <unistd.h>

#define UNENDED "tilde lines: the last line has no newline at its end, and none is added; ~% writes one\n"

static void check(int holds, const char *what, const char *shown)
{
    if (!holds)
        fprintf(stderr, "shown: %s\n", shown);
    expect(holds, what, checks);
}

/* A terminal that adds nothing to what is written to it: the end of the person, and that of the command. */
struct terminal {
    int person;
    FILE *command;
};

static struct terminal terminal_open(void)
{
    struct terminal terminal = {.person = posix_openpt(O_RDWR | O_NOCTTY)};
    struct termios settings;
    need(terminal.person >= 0 && grantpt(terminal.person) == 0 && unlockpt(terminal.person) == 0, "posix_openpt");
    const int end = open(ptsname(terminal.person), O_RDWR | O_NOCTTY);
    need(end >= 0 && tcgetattr(end, &settings) == 0, "open a terminal");
    settings.c_oflag &= ~(tcflag_t)OPOST;
    settings.c_lflag &= ~(tcflag_t)ECHO;
    need(tcsetattr(end, TCSANOW, &settings) == 0, "tcsetattr");
    terminal.command = fdopen(end, "r+");
    need(terminal.command != NULL, "fdopen");
    return terminal;
}

/* All that the command showed; it has ended. */
static void terminal_close(struct terminal terminal, char *shown, size_t room)
{
    size_t length = 0;
    ssize_t taken = 0;
    fclose(terminal.command);
    do {
        length += taken > 0 ? (size_t)taken : 0;
        taken = read(terminal.person, shown + length, room - 1 - length);
    } while (taken > 0 || (taken < 0 && errno == EINTR));
    shown[length] = '\0';
    close(terminal.person);
}

static void write_text(int to, const char *text)
{
    need(write(to, text, strlen(text)) == (ssize_t)strlen(text), "write");
}

/* A few rows at the end of a pipe. */
static FILE *rows_from(const char *rows)
{
    int ends[2];
    need(pipe(ends) == 0, "pipe");
    write_text(ends[1], rows);
    close(ends[1]);
    FILE *in = fdopen(ends[0], "r");
    need(in != NULL, "fdopen");
    return in;
}

#define MOST_ROWS 6

/* A run over rows of one integer, and what a person then sees. The clock says these milliseconds at the start and at
   each row, so that no machine is too slow. */
struct run {
    const char *what, *format, *rows;
    /* whether the lines go to the terminal too, and not only what is said */
    int both, status;
    int64_t times[1 + MOST_ROWS];
    const char *shown;
};

static const struct run runs[] = {
    {"progress after a second, and again after a quarter of one", "~d~%", "1\n2\n3\n4\nx\n6\n", 0, STATUS_REFUSED,
     {0, 1, 2, 999, 1000, 1249, 1250},
     "\r4 rows, 0 refused\r                 \rrow 5, field 1 (integer): \"x\" is no whole number\n"
     "\r6 rows, 1 refused\r                 \r6 rows: 5 lines, 1 refused\n"},
    {"no progress within a second", "~d~%", "1\n2\n3\n", 0, STATUS_DONE, {5000, 5000, 5998, 5999}, ""},
    {"no progress between lines, which show it", "~d~%", "1\n2\n3\n", 1, STATUS_DONE, {0, 5000, 6000, 7000},
     "1\n2\n3\n"},
    {"a note of the newline", "~d,", "1\n2\n3\n", 0, STATUS_DONE, {0}, UNENDED},
    {"a note of the newline on a line of its own", "~d,", "1\n2\n3\n", 1, STATUS_DONE, {0}, "1,2,3,\n" UNENDED},
    {"a note of the newline before an empty line", "~[calm~;~]", "0\n1\n", 0, STATUS_DONE, {0}, UNENDED},
    {"no note where nothing is written", "~[calm~;~]", "1\n1\n", 0, STATUS_DONE, {0}, ""},
};

static const int64_t *times;
static size_t asked;

static int64_t next_time(void)
{
    expect(asked <= MOST_ROWS, "a clock that is asked once for each row", asked);
    return times[asked++];
}

static int lines_of(const struct run *run, FILE *in, FILE *out, FILE *err)
{
    const struct lines_sizes sizes = {1000, 100, 100};
    const struct lines_job job = {.format = (const uint8_t *)run->format,
                                  .format_length = strlen(run->format),
                                  .kinds = {.tags = {TILDE_INTEGER}, .count = 1}};
    times = run->times;
    asked = 0;
    const int status = lines_run(&job, &sizes, next_time, &(struct streams){in, out, err});
    need(fflush(out) == 0 && fflush(err) == 0, "fflush");
    return status;
}

static void check_run(const struct run *run)
{
    char shown[1000];
    struct terminal terminal = terminal_open();
    FILE *in = rows_from(run->rows), *out = run->both ? terminal.command : file_open();
    const int status = lines_of(run, in, out, terminal.command);
    fclose(in);
    if (!run->both)
        fclose(out);
    terminal_close(terminal, shown, sizeof shown);
    check(strcmp(shown, run->shown) == 0, run->what, shown);
    check(status == run->status, "another status", shown);
}

/* Rows that a person types. */
static void check_typed(void)
{
    static const struct run typed = {.format = "~d~%"};
    char shown[1000];
    struct terminal terminal = terminal_open();
    write_text(terminal.person, "7\n8\n\4");
    check(lines_of(&typed, terminal.command, terminal.command, terminal.command) == STATUS_DONE, "another status", "");
    terminal_close(terminal, shown, sizeof shown);
    check(strcmp(shown, "tilde lines: type rows, with a tab between two fields; Ctrl-D ends them\n7\n8\n") == 0,
           "a word to who types rows", shown);
}

/* Whether this machine gives terminals. */
static int has_terminals(void)
{
    const int person = posix_openpt(O_RDWR | O_NOCTTY);
    if (person < 0)
        return 0;
    close(person);
    return 1;
}

int main(void)
{
    if (!has_terminals()) {
        puts("lines_terminal: skipped, since this machine gives no terminal");
        return 0;
    }
    for (size_t i = 0; i < sizeof runs / sizeof runs[0]; i++)
        check_run(runs + i);
    check_typed();
    printf("lines_terminal: %zu checks\n", checks);
    return 0;
}
