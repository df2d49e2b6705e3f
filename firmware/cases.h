/* What the cases count beside their sums: cuts of which order is promised, and how many of them turned back; pairs of times
 * that one table dated, and how many of them the wrong way round. */
#ifndef CASES_H
#define CASES_H

#include <stdint.h>

extern uint32_t promised, turned_back;
extern uint32_t pairs, exchanged;

#endif
