// The design of the library's square roots in unsigned whole numbers: a table, steps that only ever come from below, and a last
// correction. It is written apart from the library, so that one part of it can be made wrong.
#include "roots_model.h"

// The largest whole number whose square is at most n.
static uint32_t whole_root(uint32_t n) {
    uint32_t r = 0;
    for (uint32_t bit = 1u << 15; bit; bit >>= 1) {
        if ((r | bit) * (uint64_t)(r | bit) <= n) r |= bit;
    }
    return r;
}

// The table's entry for the leading digits k.
static uint32_t right_entry(uint32_t k) { return whole_root(k * 65536); }

// Word j has the entries for 4 * j to 4 * j + 3: the first less 4096, and what each is above the first in five digits.
static uint32_t packed(const Model *m, uint32_t j) {
    uint32_t first = 0, word = 0;
    for (uint32_t i = 0; i < 4; i++) {
        uint32_t k = 4 * j + i, entry = right_entry(m->spoil == ENTRIES_SHIFTED && k > FIRST ? k - 1 : k);
        if (i == 0) first = entry;
        word |= (entry - first) << 5 * i;
    }
    return word | (first - 4096) << 20;
}

void model(Model *m, Spoil spoil, int off) {
    m->spoil = spoil;
    m->off = off;
    for (uint32_t j = 0; j < 256; j++) {
        uint32_t from = spoil == WORDS_SHIFTED && j > 64 ? j - 1 : j;
        m->words[j] = j < 64 ? 0 : packed(m, from);
    }
}

static uint32_t entry(const Model *m, uint32_t k) {
    k += (m->spoil == READ_NEXT) - (uint32_t)(m->spoil == READ_BEFORE);
    uint32_t word = m->words[k >> 2 & 255], off = m->spoil == ENTRIES_OFF ? (uint32_t)m->off : 0;
    return 4096 + (word >> 20) + (word >> 5 * (k % 4)) % 32 + off;
}

// A number a little below the root of n, which has 31 or 32 digits.
static uint32_t near(const Model *m, uint32_t n) {
    uint32_t x = entry(m, n >> 22) << 3;
    if (m->spoil == NEAR_LEFT_OUT) return x;
    return x + (((n - x * x) >> 11) * (7 * (98304 - x)) >> 24);
}

static int corrected(const Model *m, uint64_t rest, uint64_t above) {
    switch (m->spoil) {
    case NO_CORRECTION: return 0;
    case ALWAYS_CORRECTED: return 1;
    case CORRECTED_AT_EQUAL: return rest >= above;
    default: return rest > above;
    }
}

// By how many digits n is shifted down: one if the exponent is even.
static int lowered(const Model *m, int odd) { return m->spoil == EVEN_AS_ODD ? 0 : m->spoil == ODD_AS_EVEN ? 1 : 1 - odd; }

static uint32_t nearest24(const Model *m, int odd, uint32_t t) {
    uint32_t n = (t % 0x80000000 + 0x80000000) >> lowered(m, odd);
    uint32_t s = near(m, n), d = s + s;
    t = (n - s * s) << 8;
    uint32_t p = t / (d + (m->spoil == NO_ROOM ? 0 : 11) + !d), r = (s << 8) + p;
    return r + (uint32_t)corrected(m, (uint32_t)((t - p * d) << 8), (uint32_t)(p * p + r));
}

static uint64_t near27(const Model *m, uint64_t n) {
    uint32_t h = (uint32_t)(n >> 22), s = near(m, h), low = (uint32_t)(n % 0x400000 >> 11);
    uint32_t q = (((h - s * s) << 11) + low) / (s + s + 11);
    return (s << 11) + q;
}

static uint64_t nearest53(const Model *m, int odd, uint64_t t) {
    uint64_t n = (t % (2 * LEAST) + 2 * LEAST) >> lowered(m, odd);
    uint64_t s = near27(m, n), d = s + s;
    t = (n - s * s) << 26;
    uint64_t p = t / (d + (m->spoil == NO_ROOM ? 0 : 2) + !d), r = (s << 26) + p;
    return r + (uint64_t)corrected(m, (t - p * d) << 26, p * p + r);
}

// The exponent and the digits of a number above zero, whose digits end at the bit `behind` of `width`.
static void parts(const Model *m, uint64_t b, int behind, int bias, uint64_t *g, uint64_t *t) {
    uint64_t field = b >> behind;
    int up = behind == 23 ? 8 : 1;
    *g = field + (uint64_t)bias - 2;
    *t = b << up;
    if (!field) {
        // so many zeros that the first digit comes to where a normal number's is
        int zeros = __builtin_clzll(b) - (63 - behind);
        if (m->spoil == ZEROS_OFF) zeros++;
        *t = b << (zeros + up - (m->spoil == SHIFT_OFF));
        *g = (uint64_t)(bias - 1 - zeros) - (m->spoil == ZEROS_FOR_EXPONENT_OFF);
    }
    if (m->spoil == EXPONENT_OFF) *g += 1;
}

uint32_t model32(const Model *m, uint32_t b) {
    uint32_t infinity = 0x7f800000;
    if (m->spoil == SIGN_LOST && b > 0x80000000) b -= 0x80000000;
    if (m->spoil == MINUS_ZERO_LOST && b == 0x80000000) return 0;
    if (m->spoil == INFINITY_LOST && b == infinity) return infinity - 1;
    if (m->spoil == NAN_LOST && b << 1 > 2 * infinity) return 0;
    if (b > 0x80000000) return 0x7fc00000;
    if (b == 0 || b >= infinity) return b;
    uint64_t g, t;
    parts(m, b, 23, 127, &g, &t);
    return ((uint32_t)(g >> 1) << 23) + nearest24(m, g % 2, (uint32_t)t);
}

uint64_t model64(const Model *m, uint64_t b) {
    uint64_t infinity = 0x7ff0000000000000, minus = 1ull << 63;
    if (m->spoil == SIGN_LOST && b > minus) b -= minus;
    if (m->spoil == MINUS_ZERO_LOST && b == minus) return 0;
    if (m->spoil == INFINITY_LOST && b == infinity) return infinity - 1;
    if (m->spoil == NAN_LOST && b << 1 > 2 * infinity) return 0;
    if (b > minus) return 0x7ff8000000000000;
    if (b == 0 || b >= infinity) return b;
    uint64_t g, t;
    parts(m, b, 52, 1023, &g, &t);
    return ((g >> 1) << 52) + nearest53(m, g % 2, t);
}
