/* What the tests of the collector share: counted checks and whole files. The collector is a part of their programs: its
   collector.c is compiled with main called collector_main. */
#ifndef RUNS_H
#define RUNS_H

#include <stdint.h>
#include <stdio.h>
#include <stdlib.h>
#include <string.h>
#include <unistd.h>

#define MOST_BYTES ((size_t)1 << 20)

int collector_main(int argc, char **argv);

static size_t checks = 0;

/* What a run said on both outputs, and how it ended: its status, or 256 and the signal. */
struct answer {
    int status;
    char said[8192];
};

static inline int says(const struct answer *answer, const char *text)
{
    return strstr(answer->said, text) != NULL;
}

static void expect(int holds, const char *what, size_t of, const struct answer *answer)
{
    checks++;
    if (holds)
        return;
    fprintf(stderr, "%s: %s (case %zu)\n", __BASE_FILE__, what, of);
    if (answer != NULL)
        fprintf(stderr, "it ended with %d and said: %s\n", answer->status, answer->said);
    exit(1);
}

/* A file with room for its bytes, or none if it is not there. */
struct bytes {
    size_t length;
    uint8_t *at;
};

static struct bytes read_whole(const char *path)
{
    struct bytes bytes = {0, NULL};
    FILE *const file = fopen(path, "rb");
    if (file == NULL)
        return bytes;
    bytes.at = malloc(MOST_BYTES);
    if (bytes.at != NULL)
        bytes.length = fread(bytes.at, 1, MOST_BYTES, file);
    if (bytes.at == NULL || bytes.length == MOST_BYTES || ferror(file) || fclose(file) != 0)
        exit(2);
    return bytes;
}

static void write_whole(const char *path, const void *bytes, size_t length)
{
    FILE *const file = fopen(path, "wb");
    if (file == NULL || fwrite(bytes, 1, length, file) != length || fclose(file) != 0) {
        perror(path);
        exit(2);
    }
}

#endif
