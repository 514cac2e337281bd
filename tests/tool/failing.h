/* What a failure of a run of random command lines shows: the seed, and the command line as a shell takes it. */
#ifndef FAILING_H
#define FAILING_H

#include "told.h"

#include <signal.h>

/* The command line in hand, and the seed that it was drawn from. */
static const struct typed *words_given;
static size_t words_count;
static uint64_t seed_given;
/* whether there is nothing more to show */
static int passed;

static void print_word(const struct typed *word)
{
    fputs(" $'", stderr);
    for (size_t i = 0; i < word->length; i++) {
        const unsigned char byte = (unsigned char)word->bytes[i];
        fprintf(stderr, byte < 32 || byte > 126 || byte == '\'' || byte == '\\' ? "\\x%02x" : "%c", byte);
    }
    fputs("'", stderr);
}

/* At the end of the program. */
static void show_failure(void)
{
    if (passed)
        return;
    fprintf(stderr, "seed %llu, command line %zu:\ntilde", (unsigned long long)seed_given, number);
    for (size_t i = 0; i < words_count; i++)
        print_word(words_given + i);
    fputc('\n', stderr);
    passed = 1;
}

static void on_abort(int signal)
{
    (void)signal;
    show_failure();
}

const char *__asan_default_options(void);
const char *__ubsan_default_options(void);

/* A sanitizer that finds something aborts, so that the failure is shown. */
const char *__asan_default_options(void)
{
    return "abort_on_error=1";
}

const char *__ubsan_default_options(void)
{
    return "abort_on_error=1:print_stacktrace=1";
}

static void show_failures(void)
{
    expect(atexit(show_failure) == 0 && signal(SIGABRT, on_abort) != SIG_ERR, "what shows a failure", 0);
}

#endif
