// What the files of the judge of the square roots share.
#ifndef ROOTS_H
#define ROOTS_H

#include <math.h>
#include <stdint.h>
#include <string.h>

#include "../include/nyerdzumak.h"

// The table has an entry for the leading digits 256 to 1023 of a number.
enum { FIRST = 256, LAST = 1023, ENTRIES = LAST - FIRST + 1 };

// The least whole number of 53 digits, and the pattern of the least normal number of binary64.
static const uint64_t LEAST = 1ull << 52;

static inline float f32(uint32_t b) { float x; memcpy(&x, &b, 4); return x; }
static inline double f64(uint64_t b) { double x; memcpy(&x, &b, 8); return x; }
static inline uint32_t bits32(float x) { uint32_t b; memcpy(&b, &x, 4); return b; }
static inline uint64_t bits64(double x) { uint64_t b; memcpy(&b, &x, 8); return b; }

// Bit for bit, a zero's sign too, but any NaN is any other.
static inline int same32(uint32_t a, uint32_t b) {
    return a == b || (a << 1 > 0xff000000 && b << 1 > 0xff000000);
}

static inline int same64(uint64_t a, uint64_t b) {
    return a == b || (a << 1 > 0xffe0000000000000 && b << 1 > 0xffe0000000000000);
}

// Where a number stands: its pattern, and if it is finite and above zero its digits, 53 of them, whether they stand for an odd
// power of two more than a square can have, the table's entry that they lead to, and the processor's root and what it leaves.
typedef struct {
    uint64_t b, digits, root;
    int above, odd;
    uint32_t k;
    __int128 rest; // digits << (52 + odd), less the root's square
} Place;

Place place64(uint64_t b, uint64_t root);
// The same of an f32, whose 24 digits and root are told as they are; the rest is that of 24 digits.
Place place32(uint32_t b, uint32_t root);

// A class of inputs: how one is made, and what it is a mark of, or -1 where it is none; all its marks have to be met.
typedef struct {
    const char *name;
    uint64_t (*make)(uint64_t *state);
    int (*mark)(const Place *p);
    int marks;
} Class;

enum { CLASSES = 11, MARKS = 4096 };
extern const Class classes[CLASSES];

// The next random number.
uint64_t next(uint64_t *state);
// The state from which the inputs of a block are made.
uint64_t block_state(uint64_t seed, uint64_t block);

// The wrong roots, one after the other; whether one was not seen.
int spoiled(uint64_t seed);
// Whether the judge does not tell that a class is not met, of any class.
int missed_untold(uint64_t seed);
// Two threads, each doing `work` with the same argument and the numbers 0 and 1.
void both(void (*work)(void *, int), void *with);

#endif
