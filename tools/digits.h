/* Decimal digits, the same in every locale. */
#ifndef TOOLS_DIGITS_H
#define TOOLS_DIGITS_H

static inline int is_digit(int byte)
{
    return byte >= '0' && byte <= '9';
}

#endif
