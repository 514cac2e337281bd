/* The kinds of values, by word or letter. */
#ifndef TOOLS_KINDS_H
#define TOOLS_KINDS_H

#include <stdint.h>
#include <stdio.h>

/* The word for a tilde_tag, as `boolean`. */
const char *kind_name(unsigned tag);

/* The same with its article, as `an integer`. */
const char *kind_with_article(unsigned tag);

/* Sets the tilde_tag that a word or a letter names: boolean integer character string list, b i c s l. Answers 0 for any
   other text. */
int kind_read(const char *text, uint8_t *tag);

/* Prints a text that names no kind, and those that there are. */
void kind_complain(FILE *err, const char *text);

#endif
