/* Two units that both include the headers are one program; other_unit.c is the other. */
#include <stdio.h>
#include <tilde_table.h>

#include "unit.h"

int main(void)
{
    uint8_t room[TILDE_HEADER_BYTES + 3 * TILDE_ENTRY_BYTES];
    tilde_table table;
    tilde_table_begin(&table, room, sizeof room);
    tilde_table_boolean(&table, 1);
    tilde_table_character(&table, 'A');
    tilde_table_integer(&table, -1);
    if (tilde_table_end(&table) != sizeof room)
        return 1;
    return printf("%u values, %u values, tilde %s\n", room[1] + 0u, values_of_other_unit(), tilde_version()) < 0;
}
