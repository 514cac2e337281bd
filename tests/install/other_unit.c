#include "unit.h"

#include <tilde.h>
#include <tilde_table.h>

unsigned values_of_other_unit(void)
{
    uint8_t room[TILDE_HEADER_BYTES + 3 * TILDE_ENTRY_BYTES];
    tilde_table table;
    tilde_table_begin(&table, room, sizeof room);
    tilde_table_list_begin(&table);
    tilde_table_integer(&table, 1);
    tilde_table_integer(&table, 2);
    tilde_table_list_end(&table);
    return tilde_table_end(&table) == sizeof room ? room[1] + 0u : 0;
}
