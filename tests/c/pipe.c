/* Runs examples/pipe.c, whose program and what runs it are the words of the command line, and compares what comes out
   at the other end of its pipe with one call of tilde_format. */
#define _GNU_SOURCE
#include "needed.h"
#include "tables.h"
#include <errno.h>
#include <inttypes.h>
#include <sys/wait.h>

#define PLENTY ((size_t)400000)
#define MOST_WORDS 40

/* The command, and behind it the format and the arguments of a line. */
static char *command[MOST_WORDS + 1];
static size_t own_words, all_words;
static size_t lines = 0;

static void add_word(const char *word)
{
    expect(all_words < MOST_WORDS, "room for words", lines);
    command[all_words] = strdup(word);
    expect(command[all_words] != NULL, "memory for a word", lines);
    command[++all_words] = NULL;
}

/* The table in hand gets the arguments, and the command the words for them. */
static void open_line(const char *format)
{
    for (size_t i = own_words; i < all_words; i++)
        free(command[i]);
    begin();
    lines++;
    all_words = own_words;
    add_word(format);
}

static void add_string(const char *text)
{
    bytes(text, strlen(text));
    add_word(text);
}

static void add_integer(int64_t number)
{
    char digits[32];
    snprintf(digits, sizeof digits, "%" PRId64, number);
    integer(number);
    add_word(digits);
}

/* All that arrives on a file descriptor. */
static size_t read_all(int from, uint8_t *into)
{
    size_t length = 0;
    for (;;) {
        ssize_t taken = read(from, into + length, PLENTY - length);
        if (taken < 0 && errno == EINTR)
            continue;
        need(taken >= 0, "read");
        expect(length + (size_t)taken < PLENTY, "room for all that arrives", lines);
        if (taken == 0)
            return length;
        length += (size_t)taken;
    }
}

/* What the command prints, what it says on standard error, and its status. */
struct run {
    uint8_t printed[PLENTY];
    char says[PLENTY];
    size_t length;
    int status;
};

static void run(struct run *run)
{
    int ends[2];
    FILE *said = file_open();
    need(pipe(ends) == 0, "pipe");
    pid_t child = fork();
    need(child >= 0, "fork");
    if (child == 0) {
        if (dup2(ends[1], STDOUT_FILENO) >= 0 && dup2(fileno(said), STDERR_FILENO) >= 0 && close(ends[0]) == 0 &&
            close(ends[1]) == 0)
            execvp(command[0], command);
        _exit(127);
    }
    close(ends[1]);
    run->length = read_all(ends[0], run->printed);
    close(ends[0]);
    while (waitpid(child, &run->status, 0) < 0)
        expect(errno == EINTR, "a child", lines);
    rewind(said);
    run->says[fread(run->says, 1, sizeof run->says - 1, said)] = '\0';
    fclose(said);
}

/* The line in hand: what arrives is what one call writes, and a refusal is told and is no success. */
static void arrives(uint32_t code)
{
    static struct run ran;
    static uint8_t buffer[PLENTY];
    const char *format = command[own_words];
    char told[200] = "";
    size_t position, steps, written;

    struct block given = copy_of(table.bytes, table_length(), 0);
    uint32_t answered = tilde_format((const uint8_t *)format, strlen(format), given.bytes, table_length(), buffer,
                                     PLENTY, &position, &steps, &written);
    give_back(given);
    expect(answered == code, "code of one call", lines);
    if (code != TILDE_DONE)
        snprintf(told, sizeof told, "pipe: %s, at byte %zu of the format\n", tilde_words(code), position);
    run(&ran);
    expect(ran.length == written && same(ran.printed, buffer, written), "what arrives is what one call writes", lines);
    expect(WIFEXITED(ran.status) && WEXITSTATUS(ran.status) == (code == TILDE_DONE ? 0 : 1), "status of the example",
           lines);
    expect(strcmp(ran.says, told) == 0, "a refusal is told", lines);
}

/* Arguments that no table holds: nothing is sent, and the limits are told. */
static void no_table(void)
{
    static struct run ran;
    static char wide[TILDE_MOST_POOL + 1];

    memset(wide, 'x', sizeof wide - 1);
    open_line("never");
    add_string(wide);
    add_word("y");
    run(&ran);
    expect(ran.length == 0, "nothing is sent without a table", lines);
    expect(WIFEXITED(ran.status) && WEXITSTATUS(ran.status) == 2, "status without a table", lines);
    expect(strcmp(ran.says, "pipe: more than 1024 arguments, or strings of more than 65536 bytes together\n") == 0,
           "the limits are told", lines);
}

static void whole_lines(void)
{
    char wide[32];

    open_line("~a: ~@{~4d~^,~}~%");
    add_string("wind");
    for (int64_t i = 5; i < 8; i++)
        add_integer(i * i - 40);
    arrives(TILDE_DONE);
    open_line("~s ~:d ~b");
    add_string("a \"quoted\\ name");
    add_integer(INT64_MAX);
    add_integer(INT64_MIN);
    arrives(TILDE_DONE);
    open_line("");
    arrives(TILDE_DONE);
    /* about one window and about two */
    for (int width = 511; width <= 1025; width += width == 513 ? 510 : 1) {
        snprintf(wide, sizeof wide, "~%d,'.d", width);
        open_line(wide);
        add_integer(width);
        arrives(TILDE_DONE);
    }
    /* more than a pipe holds */
    open_line("~4096_~40@{~4096a~:*~}");
    add_string("x");
    arrives(TILDE_DONE);
}

static void refused_lines(void)
{
    open_line("~a ~d");
    add_string("kept");
    add_string("no integer");
    arrives(TILDE_WRONG_KIND);
    open_line("~700_~a");
    arrives(TILDE_NO_ARGUMENT);
    open_line("~a~@{x~}");
    add_integer(1);
    add_integer(2);
    arrives(TILDE_STEP_LIMIT);
    open_line("never~q");
    arrives(TILDE_UNKNOWN_CODE);
    open_line("never~{");
    arrives(TILDE_BAD_BLOCK);
}

int main(int argc, char **argv)
{
    if (argc < 2 || argc > MOST_WORDS / 2)
        return 2;
    own_words = (size_t)argc - 1;
    memcpy(command, argv + 1, own_words * sizeof *command);
    all_words = own_words;
    whole_lines();
    refused_lines();
    no_table();
    for (size_t i = own_words; i < all_words; i++)
        free(command[i]);
    printf("%zu checks\n", checks);
    return 0;
}
