/* What the collector says. */
#define _POSIX_C_SOURCE 200809L
#include "pack.h"

#include <errno.h>
#include <stdarg.h>
#include <stdlib.h>
#include <unistd.h>

static int shows_progress = 0;

void progress(size_t done, size_t of)
{
    if (done % 1000 == 999 && isatty(STDERR_FILENO)) {
        fprintf(stderr, "\r%zu of %zu", done + 1, of);
        shows_progress = 1;
    } else if (of == 0 && shows_progress) {
        fputs("\r\033[K", stderr);
        shows_progress = 0;
    }
}

/* How many bytes the character of UTF-8 at the start has; 0 where none stands there, as for a surrogate or above
   0x10ffff, or a control: 127, and what is below the least of one and of two bytes. */
static size_t text_length(const uint8_t *bytes, size_t left)
{
    static const uint32_t least[] = {0, 0x20, 0xa0, 0x800, 0x10000};
    const uint8_t lead = bytes[0];
    const size_t length = lead < 0x80 ? 1 : lead < 0xc2 ? 0 : lead < 0xe0 ? 2 : lead < 0xf0 ? 3 : lead < 0xf5 ? 4 : 0;
    uint32_t code = length == 1 ? lead : lead & 0x7fu >> length;
    if (length > left)
        return 0;
    for (size_t i = 1; i < length; i++) {
        if ((bytes[i] & 0xc0) != 0x80)
            return 0;
        code = code << 6 | (bytes[i] & 0x3f);
    }
    const int none = (code >= 0xd800 && code < 0xe000) || code > 0x10ffff;
    return none || code < least[length] || code == 127 ? 0 : length;
}

void show(FILE *to, const char *bytes, size_t length)
{
    static const char escaped[] = "\n\t\r\\", letters[] = "ntr\\";
    size_t text = 0;
    for (size_t i = 0; i < length; i++) {
        const char *const found = memchr(escaped, bytes[i], sizeof escaped - 1);
        if (text == 0)
            text = text_length((const uint8_t *)bytes + i, length - i);
        if (found != NULL)
            fprintf(to, "\\%c", letters[found - escaped]);
        else if (text == 0)
            fprintf(to, "\\x%02x", (unsigned)(uint8_t)bytes[i]);
        else
            putc(bytes[i], to);
        text -= text > 0;
    }
}

/* Says a message, which may have a path in it, as one row; without its values where there is no memory for them. */
static void say_text(const char *format, va_list values)
{
    char some[256], *text = some;
    va_list again;
    va_copy(again, values);
    const int length = vsnprintf(some, sizeof some, format, again);
    va_end(again);
    if (length >= (int)sizeof some) {
        text = malloc((size_t)length + 1);
        if (text != NULL)
            vsnprintf(text, (size_t)length + 1, format, values);
    }
    if (length < 0 || text == NULL)
        fputs(format, stderr);
    else
        show(stderr, text, (size_t)length);
    if (text != some)
        free(text);
}

static void say(const struct member *of, const char *format, va_list values)
{
    progress(0, 0);
    fputs("collector: ", stderr);
    if (of != NULL) {
        putc('"', stderr);
        show(stderr, of->name, of->name_length);
        fputs("\": ", stderr);
    }
    say_text(format, values);
    putc('\n', stderr);
}

void complain(const struct member *of, const char *format, ...)
{
    va_list values;
    va_start(values, format);
    say(of, format, values);
    va_end(values);
}

void stop(enum status status, const struct member *of, const char *format, ...)
{
    va_list values;
    va_start(values, format);
    say(of, format, values);
    va_end(values);
    exit((int)status);
}

void cannot(const char *what, const char *path)
{
    stop(FAILED, NULL, "cannot %s %s: %s", what, path, strerror(errno));
}
