#define _POSIX_C_SOURCE 200809L
#include "verbs.h"

#include <fcntl.h>
#include <signal.h>
#include <unistd.h>

/* A closed standard error is one that nobody reads, and no failure. */
static int messages_open(void)
{
    static char line[65536];
    if (fcntl(STDERR_FILENO, F_GETFD) < 0 && freopen("/dev/null", "w", stderr) == NULL)
        return 0;
    /* a message of many parts is one write; where this fails it is only slower */
    (void)setvbuf(stderr, line, _IOLBF, sizeof line);
    return 1;
}

int main(int argc, char **argv)
{
    /* a reader that is gone is an error of a write, with its status, and not a signal */
    signal(SIGPIPE, SIG_IGN);
    if (!messages_open())
        return STATUS_USAGE;
    const int status = tilde_command(argc, argv, stdin, stdout, stderr);
    if (fclose(stdout) == 0 || status == STATUS_USAGE)
        return status;
    perror("tilde: cannot close the output");
    return STATUS_USAGE;
}
