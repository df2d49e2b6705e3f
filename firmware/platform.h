/* What the check asks of its platform: text out; and where the stack is measured, to paint what is below the caller and to say
 * how far of it lost its paint. */
#ifndef PLATFORM_H
#define PLATFORM_H

#include <stdint.h>

void put(const char *text);

#ifdef MEASURE_STACK
void paint(void);
uint32_t depth(void);
#else
static inline void paint(void) {}
static inline uint32_t depth(void) { return 0; }
#endif

/* the check itself, over so many cases of each call; how it goes through which of them is no business of the platform */
int check(uint32_t cases);

#endif
