// Wrong roots, each with one spoil, on fewer inputs: of binary32 every number of two exponents, and every one below the normal
// range, and of binary64 the judge's classes. Each line says how many inputs tell the spoil, and for how many entries of the table:
// an input reads one entry, so that what spoils each of them is seen for each alone.
#include <stdatomic.h>
#include <stdio.h>
#include <stdlib.h>

#include "roots_model.h"

// So many inputs of binary64 for each spoil.
enum { TRIED = 8000000 };

static const uint32_t ranges[][2] = {
    {0x00000000, 0x00800010}, {0x3f000000, 0x40000000}, {0x7f7ffff0, 0x7f800010}, {0x7fc00000, 0x7fc00010},
    {0x80000000, 0x80000010}, {0xbf800000, 0xbf800010}, {0xff7ffff0, 0xff800010},
};

// Where a spoil has to be seen: by neither width, as nothing can show it; by one of them; by each; by each for all entries. The
// steps come from below, so that they heal an entry that is a little too small, the more so the fewer digits are asked for.
typedef enum { BY_NONE, BY_ONE, BY_EACH, FOR_ALL } Must;

static const struct { Spoil spoil; int off; Must must; const char *name; } cases[] = {
    {NOTHING, 0, BY_NONE, "nothing spoiled"},
    {ENTRIES_SHIFTED, 0, BY_ONE, "the table shifted by one entry"},
    {WORDS_SHIFTED, 0, BY_EACH, "the table shifted by one word"},
    {READ_NEXT, 0, FOR_ALL, "the table read by k + 1"},
    {READ_BEFORE, 0, BY_ONE, "the table read by k - 1"},
    {ENTRIES_OFF, 1, FOR_ALL, "one entry 1 too large, each in turn"},
    {ENTRIES_OFF, -1, BY_NONE, "one entry 1 too small, each in turn"},
    {ENTRIES_OFF, -2, BY_ONE, "one entry 2 too small, each in turn"},
    {ENTRIES_OFF, -4, BY_ONE, "one entry 4 too small, each in turn"},
    {ENTRIES_OFF, -8, BY_ONE, "one entry 8 too small, each in turn"},
    {ENTRIES_OFF, -16, BY_ONE, "one entry 16 too small, each in turn"},
    {EVEN_AS_ODD, 0, BY_EACH, "an even exponent taken for an odd one"},
    {ODD_AS_EVEN, 0, BY_EACH, "an odd exponent taken for an even one"},
    {NEAR_LEFT_OUT, 0, BY_EACH, "the step from the table left out"},
    {NO_ROOM, 0, BY_ONE, "the last quotient by 2 * s alone"},
    {NO_CORRECTION, 0, FOR_ALL, "the last correction left out"},
    {ALWAYS_CORRECTED, 0, FOR_ALL, "the last correction always made"},
    {CORRECTED_AT_EQUAL, 0, BY_EACH, "the last correction made at equal"},
    {EXPONENT_OFF, 0, FOR_ALL, "the exponent one too large"},
    {ZEROS_OFF, 0, BY_EACH, "below the normal range, one zero too many counted"},
    {SHIFT_OFF, 0, BY_EACH, "below the normal range, shifted by one too few"},
    {ZEROS_FOR_EXPONENT_OFF, 0, BY_EACH, "below the normal range, the exponent one too small"},
    {MINUS_ZERO_LOST, 0, BY_EACH, "0 for -0"},
    {SIGN_LOST, 0, BY_EACH, "below zero, the root of the number above zero"},
    {INFINITY_LOST, 0, BY_EACH, "the largest number for infinity"},
    {NAN_LOST, 0, BY_EACH, "0 for NaN"},
};

enum { CASES = sizeof cases / sizeof *cases };

typedef struct { uint64_t inputs, told, entries[ENTRIES]; } Told;

typedef struct { uint64_t seed; atomic_int next; Told told[CASES][2]; } Spoils;

static void tell(Told *told, int differs, const Place *p) {
    told->told += (uint64_t)differs;
    if (differs && p->above) told->entries[p->k - FIRST]++;
}

static void tried32(const Model *m, Told *told) {
    for (unsigned r = 0; r < sizeof ranges / sizeof *ranges; r++) {
        for (uint32_t b = ranges[r][0]; b < ranges[r][1]; b++) {
            uint32_t right = bits32(sqrtf(f32(b)));
            told->inputs++;
            if (same32(model32(m, b), right)) continue;
            Place p = place32(b, right);
            tell(told, 1, &p);
        }
    }
}

static void tried64(const Model *m, uint64_t seed, Told *told) {
    uint64_t state = block_state(seed, 0);
    for (int i = 0; i < TRIED; i++) {
        uint64_t b = classes[i % CLASSES].make(&state), right = bits64(sqrt(f64(b)));
        told->inputs++;
        if (same64(model64(m, b), right)) continue;
        Place p = place64(b, right);
        tell(told, 1, &p);
    }
}

static void some_cases(void *with, int thread) {
    (void)thread;
    Spoils *s = with;
    int c;
    while ((c = atomic_fetch_add(&s->next, 1)) < CASES) {
        Model m;
        model(&m, cases[c].spoil, cases[c].off);
        tried32(&m, &s->told[c][0]);
        tried64(&m, s->seed, &s->told[c][1]);
    }
}

static int entries_told(const Told *t) {
    int n = 0;
    for (int k = 0; k < ENTRIES; k++) n += t->entries[k] != 0;
    return n;
}

static int unseen(Must must, const Told *t) {
    int entries[2] = {entries_told(&t[0]), entries_told(&t[1])};
    switch (must) {
    case BY_NONE: return t[0].told != 0 || t[1].told != 0;
    case BY_ONE: return t[0].told == 0 && t[1].told == 0;
    case BY_EACH: return t[0].told == 0 || t[1].told == 0;
    default: return entries[0] != ENTRIES || entries[1] != ENTRIES;
    }
}

static void told_by(const char *width, const Told *t) {
    uint64_t least = -1ull;
    for (int k = 0; k < ENTRIES; k++) {
        if (t->entries[k] < least) least = t->entries[k];
    }
    printf("; %s: %llu of %llu inputs", width, (unsigned long long)t->told, (unsigned long long)t->inputs);
    printf(", %d entries", entries_told(t));
    if (least) printf(", each by %llu or more", (unsigned long long)least);
}

static int cases_unseen(Spoils *s) {
    int all = 0;
    for (int c = 0; c < CASES; c++) {
        const Told *t = s->told[c];
        int not = unseen(cases[c].must, t);
        printf("%s", cases[c].name);
        told_by("f32", &t[0]);
        told_by("f64", &t[1]);
        int heals = (t[0].told == 0) + 2 * (t[1].told == 0);
        if (heals && cases[c].spoil != NOTHING) printf("; healed by %s", heals == 1 ? "f32" : heals == 2 ? "f64" : "both");
        printf("%s\n", not ? ": NOT as it must be" : "");
        all += not;
    }
    return all;
}

// For each digit of each word how many inputs tell that it is wrong.
typedef struct { uint64_t seed, told[2][256][32]; } Digits;

// The same number with each digit that it reads wrong, one after the other.
static void each_digit(Model *m, uint32_t k, int width, uint64_t b, uint64_t right, Digits *d) {
    uint32_t j = k >> 2, first = 5 * (k % 4);
    for (uint32_t i = 0; i < 17; i++) {
        uint32_t digit = i < 5 ? first + i : 15 + i;
        m->words[j] ^= 1u << digit;
        int same = width ? same64(model64(m, b), right) : same32(model32(m, (uint32_t)b), (uint32_t)right);
        m->words[j] ^= 1u << digit;
        d->told[width][j][digit] += !same;
    }
}

static void digits(void *with, int width) {
    Digits *d = with;
    Model m;
    model(&m, NOTHING, 0);
    uint64_t state = block_state(d->seed, 1), count = width ? TRIED : ranges[1][1] - ranges[1][0];
    for (uint64_t i = 0; i < count; i++) {
        uint64_t b = width ? classes[i % CLASSES].make(&state) : ranges[1][0] + i;
        uint64_t right = width ? bits64(sqrt(f64(b))) : bits32(sqrtf(f32((uint32_t)b)));
        Place p = width ? place64(b, right) : place32((uint32_t)b, (uint32_t)right);
        if (p.above) each_digit(&m, p.k, width, b, right, d);
    }
}

// A wrong digit of a word that makes entries too large must be seen by each width. One that makes them too small may be healed by
// the steps: then it is said how much too small an entry was at most.
static int digits_unseen(const Digits *d) {
    static const char *names[4] = {"f32 and f64", "f64 alone", "f32 alone", "neither"};
    uint64_t raised[4] = {0}, lowered[4] = {0}, most[4] = {0};
    Model m;
    model(&m, NOTHING, 0);
    for (int j = 64; j < 256; j++) {
        for (int digit = 0; digit < 32; digit++) {
            int lowers = m.words[j] >> digit & 1, who = (d->told[0][j][digit] == 0) + 2 * (d->told[1][j][digit] == 0);
            uint64_t by = digit < 20 ? 1ull << digit % 5 : 1ull << (digit - 20);
            (lowers ? lowered : raised)[who]++;
            if (lowers && by > most[who]) most[who] = by;
        }
    }
    for (int who = 0; who < 4; who++) {
        printf("one digit of a packed word wrong, each in turn; seen by %s: ", names[who]);
        printf("%llu that make entries too large, ", (unsigned long long)raised[who]);
        printf("%llu too small, by %llu at most\n", (unsigned long long)lowered[who], (unsigned long long)most[who]);
    }
    return raised[1] + raised[2] + raised[3] != 0;
}

int spoiled(uint64_t seed) {
    Spoils *s = calloc(1, sizeof *s);
    Digits *d = calloc(1, sizeof *d);
    if (!s || !d) exit(2);
    s->seed = d->seed = seed;
    both(some_cases, s);
    both(digits, d);
    int all = cases_unseen(s) + digits_unseen(d);
    free(s);
    free(d);
    return all;
}
