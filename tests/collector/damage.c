/* Damages a small pack in every way that one bit, one number or one cut can, and gives it to the collector: check has
   to refuse it, and neither check nor list may do harm. The layout is read here by own code, as pack.h describes it.
   The pack is the word of the command line. Its members have names, lengths and lines of equal length, and its format
   has letters in directives alone. Linked with --wrap=exit, so that a run that stops comes back. */
#define _POSIX_C_SOURCE 200809L
#include "runs.h"
#include <fcntl.h>
#include <setjmp.h>

static char path[] = "damaged.pack";
static struct bytes whole;
/* where the outputs of a run go, and where those of the test go */
static int said, own_output, own_error;

static jmp_buf back;
static volatile int running = 0, status = 0;

_Noreturn void __real_exit(int number);
_Noreturn void __wrap_exit(int number);

void __wrap_exit(int number)
{
    if (!running)
        __real_exit(number);
    status = number;
    longjmp(back, 1);
}

static void send_outputs(int output, int error)
{
    fflush(stdout);
    if (dup2(output, STDOUT_FILENO) < 0 || dup2(error, STDERR_FILENO) < 0)
        exit(2);
}

/* Runs the collector on the damaged pack; what a stopped run left open is closed. */
static struct answer run(char *verb)
{
    char *words[] = {"collector", verb, path, NULL};
    struct answer answer = {0, ""};
    if (ftruncate(said, 0) != 0)
        exit(2);
    send_outputs(said, said);
    running = 1;
    if (setjmp(back) == 0)
        status = collector_main(3, words);
    running = 0;
    send_outputs(own_output, own_error);
    for (int file = STDERR_FILENO + 1; file < said; file++)
        close(file);
    if (pread(said, answer.said, sizeof answer.said - 1, 0) < 0)
        exit(2);
    answer.status = status;
    return answer;
}

static size_t number_at(const uint8_t *bytes, size_t offset)
{
    return (size_t)bytes[offset] << 24 | (size_t)bytes[offset + 1] << 16 | (size_t)bytes[offset + 2] << 8 |
           bytes[offset + 3];
}

static void put(uint8_t *to, size_t number)
{
    for (size_t i = 0; i < 4; i++)
        to[i] = (uint8_t)(number >> (24 - 8 * i) & 0xff);
}

/* The parts of the whole pack, and entry i of its index. */
static size_t members, format_at, lines_at, index_at;

static size_t entry_at(size_t i)
{
    size_t at = index_at;
    while (i-- > 0)
        at += 24 + number_at(whole.at, at + 20);
    return at;
}

/* What check answers to these bytes; list has to bear them too. */
static int judged(const uint8_t *bytes, size_t length, size_t of)
{
    struct answer answer;
    write_whole(path, bytes, length);
    answer = run("list");
    expect(answer.status == 0 || answer.status == 1, "list answers 0 or 1", of, &answer);
    expect(answer.status == 0 || says(&answer, " is damaged") || says(&answer, " is no pack"), "list says why", of,
           &answer);
    answer = run("check");
    expect(answer.status == 0 || answer.status == 1, "check answers 0 or 1", of, &answer);
    expect(strncmp(answer.said, answer.status == 0 ? path : "collector: ", 11) == 0, "check says what it found", of,
           &answer);
    return answer.status;
}

/* A copy of the whole pack, to be damaged. */
static uint8_t *copied(void)
{
    uint8_t *const bytes = malloc(whole.length + 1);
    if (bytes == NULL)
        exit(2);
    memcpy(bytes, whole.at, whole.length);
    bytes[whole.length] = 0;
    return bytes;
}

/* Nothing depends on whether a directive of the format has a small letter or a capital. */
static int same_letter(size_t at, uint8_t byte)
{
    return at >= format_at && at < lines_at && (whole.at[at] ^ byte) == 0x20 && (byte | 0x20) >= 'a' &&
           (byte | 0x20) <= 'z';
}

static void flip_bits(void)
{
    uint8_t *const bytes = copied();
    for (size_t i = 0; i < 8 * whole.length; i++) {
        const size_t at = i / 8;
        bytes[at] = (uint8_t)(whole.at[at] ^ 1u << i % 8);
        expect(judged(bytes, whole.length, at) == !same_letter(at, bytes[at]), "a flipped bit", at, NULL);
        bytes[at] = whole.at[at];
    }
    free(bytes);
}

static void cut(void)
{
    uint8_t *const bytes = copied();
    for (size_t length = 0; length <= whole.length + 1; length++)
        expect(judged(bytes, length, length) == (length != whole.length), "another length", length, NULL);
    free(bytes);
}

/* Each number of the header and of the index becomes each of these. */
static void set_number(uint8_t *bytes, size_t at)
{
    const size_t numbers[] = {0,          1,          23,         24,         25,
                              200,        201,        0x7fffffff, 0x80000000, 0xfffffffe,
                              0xffffffff, whole.length - 1, whole.length, whole.length + 1};
    for (size_t i = 0; i < sizeof numbers / sizeof numbers[0]; i++) {
        put(bytes + at, numbers[i]);
        expect(judged(bytes, whole.length, at) == (numbers[i] != number_at(whole.at, at)), "another number", at, NULL);
    }
    memcpy(bytes + at, whole.at + at, 4);
}

static void set_numbers(void)
{
    uint8_t *const bytes = copied();
    for (size_t i = 0; i < 4; i++)
        set_number(bytes, 8 + 4 * i);
    for (size_t i = 0; i < 6 * members; i++)
        set_number(bytes, entry_at(i / 6) + 4 * (i % 6));
    free(bytes);
}

/* Two members change something of the same length. */
static void swap(size_t one, size_t other, size_t length, size_t also_one, size_t also_other, const char *what)
{
    uint8_t *const bytes = copied();
    memcpy(bytes + one, whole.at + other, length);
    memcpy(bytes + other, whole.at + one, length);
    memcpy(bytes + also_one, whole.at + also_other, 4);
    memcpy(bytes + also_other, whole.at + also_one, 4);
    expect(memcmp(bytes, whole.at, whole.length) != 0 && judged(bytes, whole.length, one) == 1, what, one, NULL);
    free(bytes);
}

static void swap_members(void)
{
    const size_t one = entry_at(0), other = entry_at(1), size = other - one;
    const size_t line = number_at(whole.at, one + 4), length = number_at(whole.at, one + 12);
    expect(line == number_at(whole.at, other + 4) && length == number_at(whole.at, other + 12) &&
               size == entry_at(2) - other,
           "members of equal lengths", 0, NULL);
    /* all offsets, lengths and checksums are then good, and the lines show it */
    swap(number_at(whole.at, one), number_at(whole.at, other), line, 0, 0, "lines changed");
    swap(number_at(whole.at, one + 8), number_at(whole.at, other + 8), length, one + 16, other + 16,
         "bytes and checksums changed");
    swap(number_at(whole.at, one + 8), number_at(whole.at, other + 8), length, 0, 0, "bytes changed");
    swap(one, other, 8, 0, 0, "offsets of lines changed");
    swap(one, other, size, 0, 0, "entries changed");
    swap(one + 24, other + 24, size - 24, 0, 0, "names changed");
}

/* A pack of two empty members, made as pack.h describes it. Its format has no bytes, so its lines have none either.
   After the members, the lines and the index may stand as many bytes as are asked for. */
static void make_pack(const char *one, const char *other, const size_t stray[3], size_t line, int good)
{
    uint8_t bytes[1024] = "tildepk1";
    const size_t lengths[] = {strlen(one), strlen(other)};
    const size_t format = 24 + stray[0], index = format + line + stray[1], end = index + 48 + lengths[0] + lengths[1];
    const size_t header[] = {2, format, format, index};
    for (size_t i = 0; i < 4; i++)
        put(bytes + 8 + 4 * i, header[i]);
    for (size_t i = 0; i < 2; i++) {
        uint8_t *const entry = bytes + index + (i == 0 ? 0 : 24 + lengths[0]);
        put(entry, i == 0 ? format : format + line);
        put(entry + 4, i == 0 ? line : 0);
        put(entry + 8, 24);
        put(entry + 20, lengths[i]);
        memcpy(entry + 24, i == 0 ? one : other, lengths[i]);
    }
    expect(judged(bytes, end + stray[2], lengths[0]) == !good, good ? "a good pack" : "a bad pack", lengths[0], NULL);
}

static void make_packs(void)
{
    static const size_t none[3] = {0}, strays[3][3] = {{1, 0, 0}, {0, 1, 0}, {0, 0, 1}};
    char longest[202] = "";
    make_pack("a", "b", none, 0, 1);
    make_pack("a", "ab", none, 0, 1);
    make_pack("\x7f", "\xff", none, 0, 1);
    make_pack("b", "a", none, 0, 0);
    make_pack("a", "a", none, 0, 0);
    make_pack("ab", "a", none, 0, 0);
    make_pack("", "a", none, 0, 0);
    make_pack("\xff", "\x7f", none, 0, 0);
    memset(longest, 'n', 200);
    make_pack(longest, "z", none, 0, 1);
    longest[200] = 'n';
    make_pack(longest, "z", none, 0, 0);
    /* bytes that belong to no member, and a line that goes on after what the format makes */
    for (size_t i = 0; i < 3; i++)
        make_pack("a", "b", strays[i], 0, 0);
    make_pack("a", "b", none, 1, 0);
}

/* Parts that begin inside the header, where the room for members would be less than none. */
static void move_parts(void)
{
    uint8_t bytes[24 + 24 + 1] = "tildepk1";
    const size_t numbers[] = {1, 0, 0, 24, 0, 0, 24, 1000, 0, 1};
    for (size_t i = 0; i < sizeof numbers / sizeof numbers[0]; i++)
        put(bytes + 8 + 4 * i, numbers[i]);
    bytes[48] = 'a';
    expect(judged(bytes, sizeof bytes, 0) == 1, "parts inside the header", 0, NULL);
}

static void scatter(void)
{
    uint64_t seed = 1;
    for (size_t i = 0; i < 2000; i++) {
        uint8_t *const bytes = copied();
        for (size_t j = 0; j < 2 + i % 7; j++) {
            seed = seed * 6364136223846793005u + 1442695040888963407u;
            bytes[(seed >> 33) % whole.length] = (uint8_t)(seed >> 24 & 0xff);
        }
        judged(bytes, whole.length, i);
        free(bytes);
    }
}

int main(int argc, char **argv)
{
    own_output = fcntl(STDOUT_FILENO, F_DUPFD, 20);
    own_error = fcntl(STDERR_FILENO, F_DUPFD, 20);
    said = open("said", O_RDWR | O_CREAT | O_TRUNC | O_APPEND, 0600);
    said = fcntl(said, F_DUPFD, 10);
    if (argc != 2 || own_output < 0 || own_error < 0 || said < 0)
        return 2;
    whole = read_whole(argv[1]);
    expect(whole.length > 24, "a pack", 0, NULL);
    members = number_at(whole.at, 8);
    format_at = number_at(whole.at, 12);
    lines_at = number_at(whole.at, 16);
    index_at = number_at(whole.at, 20);
    flip_bits();
    cut();
    set_numbers();
    swap_members();
    make_packs();
    move_parts();
    scatter();
    printf("tests/collector/damage.c: %zu checks over a pack of %zu bytes\n", checks, whole.length);
    free(whole.at);
    return 0;
}
