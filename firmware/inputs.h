/* Seeded inputs and sums of what came out. Inputs are made by whole-number arithmetic alone, so that how floats are computed
 * has no part in them. */
#ifndef INPUTS_H
#define INPUTS_H

#include <stdbool.h>
#include <stdint.h>

#include "nyerdzumak.h"
#include "platform.h"

/* begins the inputs of the i-th case of the call that has this name */
void begin(const char *name, uint32_t i);

uint32_t draw(void);
uint32_t below(uint32_t bound);
bool one_in(uint32_t n);

float of_bits(uint32_t bits);
uint32_t bits_of(float x);
double of_bits64(uint64_t bits);
uint64_t bits_of64(double x);

/* a float of any kind: any bits, subnormal, special, near the last one, with products that underflow or overflow, ordinary */
float number(void);
float finite_number(void);
void numbers(float *out, int count);
/* an ordinary float above 0 and below 1, or of any kind */
float part(void);
/* a double of any kind: any bits, subnormal, in the range of floats, half-way between two, ordinary */
double wide(void);
/* a whole number of milliseconds, now and then beyond what a table takes */
float millisecond(void);
/* a length that mostly is enough */
nz_len length_for(uint32_t need);
/* a float that is no answer of a call, to see what is written and what not */
void fill(float *out, int count);
void fill_words(uint32_t *out, int count);

/* how two floats that are no NaN compare: the greater has the greater key, and -0 that of 0 */
int32_t key(float x);

/* what came out, added to the sum of the call; NaN counts as one, whatever its bits */
void start_sum(void);
uint64_t summed(void);
void add_word(uint32_t word);
void add_length(nz_len length);
void add_float(float x);
void add_double(double x);
void add_floats(const float *x, int count);
void add_words(const uint32_t *x, int count);

/* the most stack that a call took so far */
extern uint32_t deepest;
void note_depth(void);
#define CALLED(statement) (paint(), statement, note_depth())

#endif
