#ifndef UNIT_H
#define UNIT_H

/* How many values stand in a table that the other unit makes; 0 if it cannot. */
unsigned values_of_other_unit(void);

#endif
