/* What a test needs from the system: without it the test says the cause and ends with status 2. Include it after
   _GNU_SOURCE is defined. */
#ifndef NEEDED_H
#define NEEDED_H

#include <stdio.h>
#include <stdlib.h>
#include <sys/mman.h>

static void need(int holds, const char *what)
{
    if (!holds) {
        perror(what);
        exit(2);
    }
}

/* A file in memory: tmpfile needs a folder that can be written, and does not look at TMPDIR. */
static FILE *file_open(void)
{
    const int end = memfd_create("test", MFD_CLOEXEC);
    FILE *const file = end < 0 ? NULL : fdopen(end, "w+");
    need(file != NULL, "memfd_create");
    return file;
}

#endif
