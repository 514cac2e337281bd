/* Stands before libc in a program that reads standard input and writes standard output: the calls of read and write on
   those two move less than was asked, or fail, as the environment says. CALLS_READ and CALLS_WRITE are words, one for
   each call: a number is the most that it moves, `interrupted` and `failed` are errors. After the last word comes the
   first again. */
#define _GNU_SOURCE
#include <errno.h>
#include <stdlib.h>
#include <string.h>
#include <sys/syscall.h>
#include <unistd.h>

struct calls {
    const char *words, *next;
};

/* How many bytes the next call may move, or below 0 an error. */
static long next_call(struct calls *calls, const char *name, int failure)
{
    if (calls->words == NULL)
        calls->next = calls->words = getenv(name);
    if (calls->words == NULL)
        return 1L << 30;
    calls->next += strspn(calls->next, " ");
    if (*calls->next == 0)
        calls->next = calls->words;
    const char *word = calls->next;
    size_t length = strcspn(word, " ");
    calls->next += length;
    if (strncmp(word, "interrupted", length) == 0)
        return -EINTR;
    if (strncmp(word, "failed", length) == 0)
        return -failure;
    return strtol(word, NULL, 10);
}

static long moved(long number, int file, void *bytes, size_t asked, long most)
{
    if (most >= 0)
        return syscall(number, file, bytes, asked < (size_t)most ? asked : (size_t)most);
    errno = (int)-most;
    return -1;
}

ssize_t read(int file, void *bytes, size_t asked)
{
    static struct calls calls;
    return moved(SYS_read, file, bytes, asked, file == 0 ? next_call(&calls, "CALLS_READ", EIO) : 1L << 30);
}

ssize_t write(int file, const void *bytes, size_t asked)
{
    static struct calls calls;
    return moved(SYS_write, file, (void *)(size_t)bytes, asked,
                 file == 1 ? next_call(&calls, "CALLS_WRITE", ENOSPC) : 1L << 30);
}
