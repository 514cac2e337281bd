/* Random command lines, given to tilde_command in this process: what it prints is compared with what the library
   answers to the same format and values, drawn beside the words. */
#define _GNU_SOURCE
#include "../../tools/verbs.h"
#include "failing.h"

#define ROOM ((size_t)1 << 20)
#define MOST_WORDS 12
#define CODES (TILDE_BAD_KINDS + 1)

/* What one command printed and answered. */
struct ran {
    char *out, *err;
    size_t out_length, err_length;
    int status;
};

static struct typed words[MOST_WORDS];
static uint8_t room[TILDE_MOST_TABLE];
static uint8_t buffer[ROOM];
static size_t met[CODES], vets[CODES], usages, helps, notes;

/* The command of the first words; `tilde` itself goes before them. */
static struct ran run(size_t count)
{
    struct ran ran = {NULL, NULL, 0, 0, 0};
    char *argv[MOST_WORDS + 2] = {"tilde"};
    FILE *in = fopen("/dev/null", "r"), *out = open_memstream(&ran.out, &ran.out_length),
         *err = open_memstream(&ran.err, &ran.err_length);
    expect(in != NULL && out != NULL && err != NULL, "streams", number);
    words_given = words;
    words_count = count;
    for (size_t i = 0; i < count; i++)
        argv[i + 1] = words[i].bytes;
    ran.status = tilde_command((int)count + 1, argv, in, out, err);
    fclose(in);
    expect(fclose(out) == 0 && fclose(err) == 0, "closed streams", number);
    expect(ran.status >= 0 && ran.status <= 2, "a status of 0, 1 or 2", number);
    return ran;
}

static void forget(struct ran *ran)
{
    free(ran->out);
    free(ran->err);
}

static void set(size_t i, const char *text)
{
    words[i].length = 0;
    words[i].bytes[0] = '\0';
    add(words + i, text);
}

static unsigned hex(char digit)
{
    return (unsigned)(digit <= '9' ? digit - '0' : digit - 'a' + 10);
}

/* The bytes that an escaped line stands for, put into its own place; answers how many. */
static size_t unescape(char *text, size_t length)
{
    size_t made = 0;
    for (size_t i = 0; i < length; i++) {
        if (text[i] != '\\') {
            text[made++] = text[i];
        } else if (text[++i] == 'x') {
            text[made++] = (char)(16 * hex(text[i + 1]) + hex(text[i + 2]));
            i += 2;
        } else {
            text[made++] = text[i] == 'n' ? '\n' : text[i] == 't' ? '\t' : text[i] == 'r' ? '\r' : text[i];
        }
    }
    return made;
}

/* A line that is done, as it is or as a terminal shows it. */
static void expect_line(struct ran *ran, int raw, size_t written)
{
    expect(ran->status == 0, "status 0", number);
    if (!raw) {
        const int escaped = strstr(ran->err, "shown escaped") != NULL;
        const int added = escaped || written == 0 || buffer[written - 1] != '\n';
        expect(ran->out_length > 0 && ran->out[ran->out_length - 1] == '\n', "a newline at the end", number);
        ran->out_length -= added ? 1 : 0;
        if (escaped)
            ran->out_length = unescape(ran->out, ran->out_length);
    } else {
        expect(ran->err_length == 0, "no note", number);
    }
    expect(ran->out_length == written && memcmp(ran->out, buffer, written) == 0, "the line of the library", number);
}

/* Without the values that a note says were not used the line is the same, unless ~^ or ~@{ asks whether there are any;
   without a note the last one was needed. */
static void expect_note(const char *err, const struct typed *format, const struct typed *values, size_t count,
                        size_t written)
{
    static uint8_t fewer[TILDE_MOST_TABLE], line[ROOM];
    const char *note = strstr(err, " not used\n");
    const size_t left = note == NULL ? 0 : strtoul(strstr(err, "tilde: ") + 7, NULL, 10);
    const int known = strpbrk(format->bytes, left > 0 ? "^" : "*#@^") == NULL && strstr(format->bytes, "@{") == NULL;
    size_t position, steps, now;
    expect((note == NULL) == (left == 0) && left <= count, "a number of values that are there", number);
    if (!known || count == 0 || format->length + 2 > TILDE_MOST_FORMAT)
        return;
    const size_t kept = count - (left > 0 ? left : 1);
    const size_t length = table_with(values, kept, TILDE_MOST_ENTRIES, "", fewer, sizeof fewer);
    const uint32_t code = tilde_format((const uint8_t *)format->bytes, format->length, fewer, length, line, ROOM,
                                       &position, &steps, &now);
    if (left > 0)
        expect(code == TILDE_DONE && now == written && memcmp(line, buffer, now) == 0, "values not used", number);
    else
        expect(code != TILDE_DONE, "a note of values not used", number);
    notes += left > 0 ? 1 : 0;
}

static void expect_refused(const struct ran *ran, const struct typed *format, uint32_t code, size_t position)
{
    expect(ran->status == 1 && ran->out_length == 0, "status 1 and nothing on the output", number);
    expect_refusal(ran->err, format, code, position);
}

static void try_once(void)
{
    tilde_table table;
    size_t count = 0, position, steps, written;
    const int raw = below(2) == 0;
    set(count++, "try");
    if (raw)
        set(count++, "--raw");
    const struct typed *format = words + count;
    draw_format(words + count++);
    if (format->bytes[0] == '-' || below(4) == 0) {
        memmove(words + count, words + count - 1, sizeof *words);
        set(count - 1, "--");
        format = words + count++;
    }
    tilde_table_begin(&table, room, sizeof room);
    for (size_t i = below(6); i > 0; i--) {
        set(count, "");
        draw_value(words + count++, &table, 3);
    }
    const size_t length = tilde_table_end(&table);
    const uint32_t code = tilde_format((const uint8_t *)format->bytes, format->length, room, length, buffer, ROOM,
                                       &position, &steps, &written);
    struct ran ran = run(count);
    if (code == TILDE_DONE)
        expect_line(&ran, raw, written);
    if (code == TILDE_DONE && !raw)
        expect_note(strstr(ran.err, "as it is\n") != NULL ? strstr(ran.err, "as it is\n") : ran.err, format, format + 1,
                    (size_t)(words + count - format) - 1, written);
    if (code != TILDE_DONE && code != TILDE_NO_ROOM)
        expect_refused(&ran, format, code, position);
    if (code > TILDE_BAD_PARAMETER && code < TILDE_NO_ROOM)
        expect_written(ran.err, written);
    if (code > TILDE_BAD_PARAMETER && code < TILDE_STEP_LIMIT)
        expect_named(ran.err, format, format + 1, (size_t)(words + count - format) - 1, code, position, steps);
    met[code]++;
    forget(&ran);
}

static void vet_once(void)
{
    static const char *const names[] = {"boolean", "integer", "character", "string", "list", "b", "i", "c", "s", "l"};
    uint8_t kinds[8];
    size_t count = 0, position, most, kind_count = below(6);
    char longest[32];
    const size_t longest_number = below(20) == 0 ? 4090 + below(20) : below(30);
    snprintf(longest, sizeof longest, "--longest=%zu", longest_number);
    set(count++, "vet");
    set(count++, longest);
    set(count++, "--");
    draw_format(words + count++);
    for (size_t i = 0; i < kind_count; i++) {
        const size_t name = below(COUNT(names));
        set(count++, names[name]);
        kinds[i] = (uint8_t)(name % 5);
    }
    const uint32_t code = tilde_vet((const uint8_t *)words[3].bytes, words[3].length, kinds, kind_count, longest_number,
                                    &position, &most);
    struct ran ran = run(count);
    if (code == TILDE_DONE)
        expect(ran.status == 0 && strtoull(ran.out, NULL, 10) == most, "the count of the library", number);
    else
        expect_refused(&ran, words + 3, code, position);
    vets[code]++;
    forget(&ran);
}

/* Words of all sorts, in which verbs and options come often. */
static void any_once(void)
{
    static const char *const some[] = {
        "try",       "vet",     "explain",   "directives",  "lines",    "help",    "--help", "-h",
        "--version", "--raw",   "--longest", "--longest=5", "--strict", "--",      "-",      "-5",
        "3",         "12",      "99",        "a",           "[",        "newline", "~:{",    "~f",
        "tri",       "integer", "string",    "5x",          "\"a",      "(1 2",    "#\\"};
    const size_t count = below(6);
    for (size_t i = 0; i < count; i++) {
        set(i, some[below(i == 0 ? 9 : COUNT(some))]);
        if (below(6) == 0)
            draw_format(words + i);
        for (size_t j = below(6) == 0 ? below(4) : 0; j > 0; j--)
            spoil(words + i);
        words[i].bytes[words[i].length] = '\0';
    }
    struct ran ran = run(count);
    if (ran.status == 2)
        expect(ran.err_length > 10, "what to type", number);
    usages += ran.status == 2 ? 1 : 0;
    forget(&ran);
}

static void help_once(void)
{
    static const char *const verbs[] = {"try", "vet", "explain", "directives", "lines"};
    const size_t verb = below(COUNT(verbs));
    set(0, below(2) ? verbs[verb] : "help");
    set(1, strcmp(words[0].bytes, "help") == 0 ? verbs[verb] : "--help");
    struct ran ran = run(2);
    expect(ran.status == 0 && ran.err_length == 0 && strncmp(ran.out, "usage: tilde ", 13) == 0, "help on the output",
           number);
    expect(strncmp(ran.out + 13, verbs[verb], strlen(verbs[verb])) == 0, "help of the verb", number);
    helps++;
    forget(&ran);
}

static void print_counts(const char *verb, const size_t *counts)
{
    printf("tests/tool/random.c: %s, by code:", verb);
    for (size_t i = 0; i < CODES; i++)
        if (counts[i] > 0)
            printf(" %zu: %zu", i, counts[i]);
    printf("\n");
}

static void run_seed(uint64_t given, size_t most)
{
    seed = seed_given = given;
    for (number = 1; number <= most; number++) {
        const size_t what = below(20);
        if (what < 12)
            try_once();
        else if (what < 16)
            vet_once();
        else if (what < 19)
            any_once();
        else
            help_once();
    }
}

/* Its words are how many command lines to draw from each seed, and the seeds. */
int main(int argc, char **argv)
{
    static char usual[] = "20240229", *const usual_seeds[] = {usual};
    char *const *seeds = argc > 2 ? argv + 2 : usual_seeds;
    const size_t each = argc > 1 ? strtoul(argv[1], NULL, 10) : 50000, count = argc > 2 ? (size_t)argc - 2 : 1;
    const size_t most = each * count;
    show_failures();
    for (size_t i = 0; i < count; i++)
        run_seed(strtoull(seeds[i], NULL, 10), each);
    passed = 1;
    print_counts("try", met);
    print_counts("vet", vets);
    printf("tests/tool/random.c: %zu command lines, %zu checks; %zu wrong usages, %zu helps; %zu proposals, of which "
           "%zu make "
           "the whole format right; %zu arguments named; %zu notes of values not used\n",
           most, checks, usages, helps, proposals, repaired, named, notes);
    return 0;
}
