/* A call of the library. */
#ifndef TOOLS_CALL_H
#define TOOLS_CALL_H

#include <stddef.h>
#include <stdint.h>

/* A format over a table. */
struct call {
    const uint8_t *format;
    size_t format_length;
    const uint8_t *table;
    size_t table_length;
};

#endif
