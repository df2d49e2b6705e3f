// A model of the library's square roots in whole numbers, which can be spoiled in one way.
#ifndef ROOTS_MODEL_H
#define ROOTS_MODEL_H

#include "roots.h"

typedef enum {
    NOTHING,
    // of the table
    ENTRIES_SHIFTED,
    WORDS_SHIFTED,
    READ_NEXT,
    READ_BEFORE,
    ENTRIES_OFF,
    // of the steps
    EVEN_AS_ODD,
    ODD_AS_EVEN,
    NEAR_LEFT_OUT,
    NO_ROOM,
    NO_CORRECTION,
    ALWAYS_CORRECTED,
    CORRECTED_AT_EQUAL,
    // of the exponent, and of numbers below the normal range
    EXPONENT_OFF,
    ZEROS_OFF,
    SHIFT_OFF,
    ZEROS_FOR_EXPONENT_OFF,
    // of what is no number above zero
    MINUS_ZERO_LOST,
    SIGN_LOST,
    INFINITY_LOST,
    NAN_LOST,
} Spoil;

typedef struct {
    Spoil spoil;
    int off;             // for ENTRIES_OFF: what each entry is too large by
    uint32_t words[256]; // the table, four entries to a word
} Model;

void model(Model *m, Spoil spoil, int off);
uint32_t model32(const Model *m, uint32_t b);
uint64_t model64(const Model *m, uint64_t b);

#endif
