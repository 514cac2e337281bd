/* Format, vet and windows from four threads, from the main flow, and from a timer's signal handler that interrupts the
   main flow, all at the same time: every answer and text is that of the first call, which ran alone. With
   -fsanitize=thread the code of this test is watched; that of the archives is not instrumented. */
#define _GNU_SOURCE
#include "tables.h"
#include <pthread.h>
#include <signal.h>
#include <stdatomic.h>
#include <sys/time.h>
#include <time.h>

#define THREADS 4
#define ROUNDS 4000
#define SIGNALS 1000
/* Only against waiting forever: a slow machine may take long. */
#define SECONDS 600
#define PLENTY ((size_t)8192)

/* A line, and what was answered when one call ran at a time. */
struct line {
    const char *format;
    size_t window;
    uint32_t code, vet_code;
    size_t position, steps, written, vet_position, count;
    uint8_t text[PLENTY];
};

static struct line lines[] = {
    {.format = "~8a ~3d ~5,'0d ~a~%", .window = 16},
    {.format = "~5a|~:d|~20,'*@x|~@c|~:[no~;yes~]", .window = 7},
    {.format = "~6*~{<~{~d~^, ~}>~^; ~}.", .window = 3},
    {.format = "~@{~0@*~s ~#*~}~600_~0@*~40,7,3,'-@s", .window = 64},
    {.format = "~a ~d and more~a~d", .window = 5},
    {.format = "never~[", .window = 9},
    {.format = "~4096,'.a~:*~s", .window = 512},
};
#define LINES (sizeof lines / sizeof *lines)

static uint8_t kinds[TILDE_MOST_KINDS];
static size_t kind_count;
#define LONGEST 20

static void fill_arguments(void)
{
    begin();
    bytes("Harl\"ingen", 10);
    integer(-1234567);
    integer(INT64_MIN);
    character(8);
    boolean(1);
    integer(12);
    list_begin();
    for (int64_t i = 0; i < 5; i++) {
        list_begin();
        for (int64_t j = 0; j < i; j++)
            integer(i * j);
        list_end();
    }
    list_end();
    kind_count = argument_kinds(kinds);
}

static uint32_t format_line(const struct line *line, uint8_t *buffer, size_t *position, size_t *steps, size_t *written)
{
    return tilde_format((const uint8_t *)line->format, strlen(line->format), table.bytes, table.length, buffer, PLENTY,
                        position, steps, written);
}

static uint32_t vet_line(const struct line *line, size_t *position, size_t *count)
{
    return tilde_vet((const uint8_t *)line->format, strlen(line->format), kinds, kind_count, LONGEST, position, count);
}

/* The line through its windows, joined in a buffer. */
static uint32_t drain_line(const struct line *line, uint8_t *buffer, size_t *position, size_t *steps, size_t *written)
{
    tilde_state state = {0};
    size_t given = 0;
    uint32_t code;
    do {
        size_t room = line->window < PLENTY - given ? line->window : PLENTY - given;
        code = tilde_window(&state, (const uint8_t *)line->format, strlen(line->format), table.bytes, table.length,
                            buffer + given, room, position, steps, written);
        given += *written;
    } while (code == TILDE_MORE && given < PLENTY);
    *written = given;
    return code;
}

/* Whether format, vet and windows answer what they did alone. No memory is taken, so a signal handler may call it. */
static int right(const struct line *line, uint8_t *buffer)
{
    size_t position, steps, written;
    uint32_t code = format_line(line, buffer, &position, &steps, &written);
    if (code != line->code || position != line->position || steps != line->steps || written != line->written ||
        !same(buffer, line->text, written))
        return 0;
    code = drain_line(line, buffer, &position, &steps, &written);
    if (code != line->code || position != line->position || steps != line->steps || written != line->written ||
        !same(buffer, line->text, written))
        return 0;
    code = vet_line(line, &position, &written);
    return code == line->vet_code && position == line->vet_position && written == line->count;
}

static size_t calls_of(const struct line *line)
{
    return 3 + line->written / line->window;
}

static atomic_int running = THREADS;

/* Every line over and over, each thread from another one on; the calls made, or 0. */
static void *thread(void *numbered)
{
    uint8_t buffer[PLENTY];
    size_t *calls = numbered, from = *calls;
    *calls = 0;
    for (size_t i = 0; i < ROUNDS * LINES; i++) {
        const struct line *line = lines + (from + i) % LINES;
        if (!right(line, buffer)) {
            *calls = 0;
            break;
        }
        *calls += calls_of(line);
    }
    atomic_fetch_sub(&running, 1);
    return NULL;
}

/* What the handler did: how often it came, how often into calls of the main flow, and whether an answer was wrong. */
static volatile sig_atomic_t handled = 0, interrupted = 0, wrong = 0, inside = 0;

static void on_timer(int number)
{
    static uint8_t buffer[PLENTY];
    (void)number;
    interrupted += inside;
    if (!right(lines + (size_t)handled % LINES, buffer))
        wrong = 1;
    handled++;
}

static void start_timer(void)
{
    const struct itimerval each = {{0, 200}, {0, 200}};
    struct sigaction action;
    sigset_t timer;

    memset(&action, 0, sizeof action);
    action.sa_handler = on_timer;
    action.sa_flags = SA_RESTART;
    sigemptyset(&timer);
    sigaddset(&timer, SIGALRM);
    expect(sigaction(SIGALRM, &action, NULL) == 0, "a handler", 0);
    expect(pthread_sigmask(SIG_UNBLOCK, &timer, NULL) == 0, "a signal for the main flow alone", 0);
    expect(setitimer(ITIMER_REAL, &each, NULL) == 0, "a timer", 0);
}

static void stop_timer(void)
{
    const struct itimerval never = {{0, 0}, {0, 0}};
    expect(setitimer(ITIMER_REAL, &never, NULL) == 0, "the end of a timer", 0);
}

/* The main flow calls until the threads have ended and the handler came often enough. */
static size_t main_flow(void)
{
    static uint8_t buffer[PLENTY];
    size_t calls = 0;
    time_t began = time(NULL);
    for (size_t i = 0; atomic_load(&running) > 0 || interrupted < SIGNALS; i++) {
        const struct line *line = lines + i % LINES;
        inside = 1;
        int holds = right(line, buffer);
        inside = 0;
        expect(holds, "answers of an interrupted flow", i);
        calls += calls_of(line);
        expect(time(NULL) - began < SECONDS, "threads that end and signals that come", (size_t)interrupted);
    }
    return calls;
}

/* What each line answers alone; its windows and its text are the same. */
static void answer_alone(void)
{
    static uint8_t buffer[PLENTY];
    for (size_t i = 0; i < LINES; i++) {
        struct line *line = lines + i;
        line->code = format_line(line, line->text, &line->position, &line->steps, &line->written);
        line->vet_code = vet_line(line, &line->vet_position, &line->count);
        expect(right(line, buffer), "the same answers again", i);
    }
    expect(same(lines[0].text, "Harl\"ingen -1234567 -9223372036854775808 ", 41), "a line known before", 0);
}

int main(void)
{
    pthread_t threads[THREADS];
    size_t calls[THREADS], all = 0;
    sigset_t timer;

    fill_arguments();
    answer_alone();
    sigemptyset(&timer);
    sigaddset(&timer, SIGALRM);
    expect(pthread_sigmask(SIG_BLOCK, &timer, NULL) == 0, "threads without the signal", 0);
    for (size_t i = 0; i < THREADS; i++) {
        calls[i] = i;
        expect(pthread_create(threads + i, NULL, thread, calls + i) == 0, "a thread", i);
    }
    start_timer();
    size_t flow = main_flow();
    stop_timer();
    for (size_t i = 0; i < THREADS; i++) {
        expect(pthread_join(threads[i], NULL) == 0, "the end of a thread", i);
        expect(calls[i] > 0, "answers of a thread", i);
        all += calls[i];
    }
    expect(!wrong, "answers of a handler", (size_t)handled);
    printf("%zu calls of four threads, %zu of a flow that a handler interrupted %d times\n", all, flow,
           (int)interrupted);
    return 0;
}
