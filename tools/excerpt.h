/* The part of a format round a place, with a mark under it. */
#ifndef TOOLS_EXCERPT_H
#define TOOLS_EXCERPT_H

#include <stddef.h>
#include <stdint.h>
#include <stdio.h>

/* Prints two lines: the format, or the part of it round the bytes from `start` to `end`, escaped as far as a terminal
   needs it; and a mark under those bytes, without a newline behind it. Answers the columns of that second line. */
size_t excerpt_print(FILE *to, const uint8_t *format, size_t length, size_t start, size_t end);

#endif
