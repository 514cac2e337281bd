/* What the headers say by themselves, in C99 and in C++17: the words for the codes, the version, a fresh state, and
   the table of the example in tilde_table.h. */
#include "expect.h"
#include <ctype.h>
#include <tilde_table.h>

#define MOST_NUMBERS ((uint32_t)70000)

static int is_answer(uint32_t number)
{
    return number <= TILDE_BAD_KINDS || number == TILDE_MORE;
}

/* Words of their own for every answer of a call, and the same words for all other numbers. */
static void words(void)
{
    const char *other = tilde_words(UINT32_MAX);
    uint32_t i, j;

    expect(strlen(other) > 0, "words for no code", 0);
    for (i = 0; i <= MOST_NUMBERS; i++)
        expect((strcmp(tilde_words(i), other) == 0) == !is_answer(i), "words for a number", i);
    for (i = 0; i <= TILDE_MORE; i++)
        for (j = 0; is_answer(i) && j < i; j++)
            expect(!is_answer(j) || strcmp(tilde_words(i), tilde_words(j)) != 0, "words for one code", i);
    for (i = 0; i <= TILDE_MORE; i++)
        expect(strlen(tilde_words(i)) > 0 && strchr(tilde_words(i), '.') == NULL, "words without a full stop", i);
}

/* Three numbers with full stops between, and nothing else. */
static void version(void)
{
    const char *from = TILDE_VERSION;
    size_t numbers = 0;

    for (;;) {
        expect(isdigit((unsigned char)*from), "a number of the version", numbers);
        expect(*from != '0' || !isdigit((unsigned char)from[1]), "no zero before a number", numbers);
        while (isdigit((unsigned char)*from))
            from++;
        numbers++;
        if (*from != '.')
            break;
        from++;
    }
    expect(numbers == 3 && *from == '\0', "three numbers", numbers);
}

/* A fresh state, as tilde.h has it for each language, has no warning and no number but zero. */
static void fresh(void)
{
#ifdef __cplusplus
    const tilde_state state = {};
#else
    const tilde_state state = {0};
#endif
    static tilde_state zeros;

    expect(state.stage == 0 && state.code == 0 && state.place == 0 && state.depth == 0, "a fresh state", 0);
    expect(memcmp(state.positions, zeros.positions, sizeof state.positions) == 0 && state.pad == 0, "all of it", 0);
}

static void table(void)
{
    static const uint8_t wanted[] = {
        0, 4, 0, 2, 0, 0, 0, 9,
        3, 0, 0, 0, 0, 0, 0, 0, 0, 0, 0, 9,
        4, 0, 0, 0, 0, 0, 0, 2, 0, 0, 0, 2,
        1, 0, 0, 0, 255, 255, 255, 255, 255, 255, 255, 253,
        0, 0, 0, 0, 0, 0, 0, 0, 0, 0, 0, 1,
        'H', 'a', 'r', 'l', 'i', 'n', 'g', 'e', 'n',
    };
    uint8_t room[256];
    tilde_table made;
    size_t length;

    tilde_table_begin(&made, room, sizeof room);
    tilde_table_string(&made, "Harlingen", 9);
    tilde_table_list_begin(&made);
    tilde_table_integer(&made, -3);
    tilde_table_boolean(&made, 1);
    tilde_table_list_end(&made);
    length = tilde_table_end(&made);
    expect(length == sizeof wanted && memcmp(room, wanted, length) == 0, "the table of the example", length);
    tilde_table_begin(&made, room, sizeof room);
    expect(!tilde_table_character(&made, 128) && tilde_table_end(&made) == 0, "a character that is none", 128);
}

int main(void)
{
    words();
    version();
    fresh();
    table();
    printf("%zu checks\n", checks);
    return 0;
}
