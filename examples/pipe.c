/* Sends a line to another process through a pipe, with 512 bytes of room however long the line is:

       pipe FORMAT [ARGUMENT]...

   An ARGUMENT that is a whole number is an integer, any other a string. The other process is cat, which prints what
   arrives. From the top of the repository, after `make`:

       gcc -std=c11 -O2 -Iinclude -o build/pipe examples/pipe.c build/libtilde.a
       build/pipe '~a: ~@{~4d~^,~}~%' wind 5 12 17 */
#define _POSIX_C_SOURCE 200809L
#include <errno.h>
#include <signal.h>
#include <stdio.h>
#include <stdlib.h>
#include <string.h>
#include <sys/wait.h>
#include <tilde_table.h>
#include <unistd.h>

/* A pipe may take a part of what it is given, and a signal may come first. */
static int write_all(int to, const uint8_t *bytes, size_t length)
{
    while (length > 0) {
        ssize_t taken = write(to, bytes, length);
        if (taken < 0 && errno != EINTR)
            return -1;
        if (taken > 0) {
            bytes += taken;
            length -= (size_t)taken;
        }
    }
    return 0;
}

/* Fills the window and empties it into the pipe until the line ends. */
static int send_line(int to, const char *format, const uint8_t *table, size_t table_length)
{
    uint8_t window[512];
    tilde_state state = {0};
    size_t position, steps, written;
    uint32_t code;
    do {
        code = tilde_window(&state, (const uint8_t *)format, strlen(format), table, table_length, window, sizeof window,
                            &position, &steps, &written);
        if (write_all(to, window, written) != 0) {
            perror("pipe: write");
            return -1;
        }
    } while (code == TILDE_MORE);
    if (code != TILDE_DONE) {
        fprintf(stderr, "pipe: %s, at byte %zu of the format\n", tilde_words(code), position);
        return -1;
    }
    return 0;
}

/* A word as a value of the table. Whether it fits is asked at the end. */
static void add_value(tilde_table *table, const char *given)
{
    char *end;
    errno = 0;
    const long long number = strtoll(given, &end, 10);
    if (end != given && *end == '\0' && errno == 0)
        tilde_table_integer(table, number);
    else
        tilde_table_string(table, given, strlen(given));
}

/* Starts cat at the other end of a pipe; the end to write to, or -1. */
static int start_reader(pid_t *reader)
{
    int ends[2];
    if (pipe(ends) != 0 || (*reader = fork()) < 0)
        return -1;
    if (*reader == 0) {
        if (dup2(ends[0], STDIN_FILENO) >= 0 && close(ends[0]) == 0 && close(ends[1]) == 0)
            execlp("cat", "cat", (char *)NULL);
        perror("pipe: cat");
        _exit(127);
    }
    return close(ends[0]) == 0 ? ends[1] : -1;
}

int main(int argc, char **argv)
{
    static uint8_t room[TILDE_MOST_TABLE];
    tilde_table table;
    pid_t reader;
    int status = -1;
    if (argc < 2) {
        fputs("usage: pipe FORMAT [ARGUMENT]...\n", stderr);
        return 2;
    }
    tilde_table_begin(&table, room, sizeof room);
    for (int i = 2; i < argc; i++)
        add_value(&table, argv[i]);
    size_t length = tilde_table_end(&table);
    if (length == 0) {
        fprintf(stderr, "pipe: more than %d arguments, or strings of more than %d bytes together\n", TILDE_MOST_ENTRIES,
                TILDE_MOST_POOL);
        return 2;
    }
    int to = start_reader(&reader);
    if (to < 0) {
        perror("pipe");
        return 2;
    }
    /* a reader that is gone is an error of write, not a signal */
    signal(SIGPIPE, SIG_IGN);
    int sent = send_line(to, argv[1], room, length);
    if (close(to) != 0) {
        perror("pipe: close");
        sent = -1;
    }
    while (waitpid(reader, &status, 0) < 0 && errno == EINTR)
        ;
    return sent == 0 && WIFEXITED(status) && WEXITSTATUS(status) == 0 ? 0 : 1;
}
