/* What a directive is meant to be where a byte of it went wrong. */
#ifndef TOOLS_MEANING_H
#define TOOLS_MEANING_H

#include "correcting.h"

/* What went wrong, where the directive ends that is meant, and how that is written. */
struct meaning {
    const char *wrong;
    size_t end;
    struct spelling instead;
};

/* Finds a quote that is missing or mistyped before a character, or stands behind it too, or a blank before the letter:
   without that mistake the directive fits. Answers 0 where there is none. */
int directive_meaning(const struct format *format, const struct directive *directive, struct meaning *meaning);

#endif
