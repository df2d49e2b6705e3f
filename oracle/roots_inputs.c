// Numbers of binary64 for the judge of the square roots, in classes: any, and those at which a root in whole numbers may go wrong.
#include "roots.h"

typedef unsigned __int128 wide;

// Where two are asked for, each is in a statement or a declarator of its own, so that a seed has the same inputs everywhere.
uint64_t next(uint64_t *state) {
    *state ^= *state << 13;
    *state ^= *state >> 7;
    *state ^= *state << 17;
    return *state * 0x2545f4914f6cdd1d;
}

uint64_t block_state(uint64_t seed, uint64_t block) {
    uint64_t x = (seed * 0x9e3779b97f4a7c15 + block) * 0xbf58476d1ce4e5b9 + 1;
    x = (x ^ x >> 31) * 0x94d049bb133111eb;
    return (x ^ x >> 29) | 1;
}

// From -4 to 4.
static uint64_t few(uint64_t *s) { return next(s) % 9 - 4; }

static int coin(uint64_t *s) { return (int)(next(s) >> 63); }

// The number that is these digits, 53 of them, with any exponent of that parity; the pattern is moved by a few.
static uint64_t scaled(uint64_t *s, uint64_t digits, int odd, uint64_t off) {
    uint64_t field = 2 + (next(s) >> 8) % 1023 * 2 - !odd;
    return (field << 52 | digits % LEAST) + off;
}

static uint64_t any(uint64_t *s) { return next(s); }

static uint64_t normal(uint64_t *s) {
    uint64_t digits = next(s) >> 12;
    return scaled(s, digits, coin(s), 0);
}

// The square of a whole number of at most 27 digits, and what is next to it; one in four is below the normal range.
static uint64_t square(uint64_t *s) {
    uint64_t r = next(s), q = r >> (37 + next(s) % 27) | 1;
    if (q * q >= 2 * LEAST) q >>= 1;
    uint64_t n = q * q, zeros = (uint64_t)__builtin_clzll(n), off = few(s);
    if (zeros >= 12 && next(s) % 4 == 0) return (n << 2 * (next(s) % ((zeros - 10) / 2))) + off;
    return scaled(s, n << (zeros - 11), zeros % 2 == 0, off);
}

// The square of a number of 53 digits and a half, rounded down or up, and what is next to it.
static uint64_t half(uint64_t *s) {
    uint64_t q = next(s) >> 12 | LEAST;
    wide n = (wide)q * q + q;
    int odd = (int)(n >> 105);
    return scaled(s, (uint64_t)(n >> (52 + odd)), odd, next(s) % 3 == 0 ? few(s) : next(s) >> 63);
}

// A small whole number of either sign, of any length up to 40 digits.
static uint64_t small(uint64_t *s) {
    uint64_t r = next(s), c = r >> (24 + next(s) % 40);
    return coin(s) ? c : -c;
}

// Whether n is 53 digits and zeros, as many as the parity asks for.
static int fits(wide n, int odd) { return n >> (104 + odd) == 1 && n << (76 - odd) == 0; }

// A number whose root lies as near to halfway between two neighbours as one can: q * q + q - c, for a small c, ends in so many
// zeros that it has 53 digits. Each step doubles the digits of q that are right, and those of v, the inverse of 2 * q + 1.
static uint64_t halfway(uint64_t *s) {
    for (;;) {
        uint64_t c = small(s) & ~1ull, q = next(s) >> 63, v = 1;
        int odd = coin(s);
        for (int i = 0; i < 7; i++) {
            v *= 2 - (2 * q + 1) * v;
            q -= (q * q + q - c) * v;
        }
        q = odd ? q % (2 * LEAST) : q % LEAST + LEAST;
        if (q < LEAST) q = 2 * LEAST - 1 - q;
        wide n = (wide)q * q + q - (wide)(int64_t)c;
        if (fits(n, odd)) return scaled(s, (uint64_t)(n >> (52 + odd)), odd, 0);
    }
}

// A number whose root lies as near to one of 53 digits as one can, but is none: q * q - c, where c is 1 more than a multiple of 8.
// Each step all but doubles the digits of v that are right, where v * v * c is 1.
static uint64_t beside(uint64_t *s) {
    for (;;) {
        uint64_t c = (small(s) & ~7ull) + 1, v = 1;
        int odd = coin(s);
        for (int i = 0; i < 6; i++) v *= (3 - c * v * v) / 2;
        uint64_t q = c * v;
        q = odd ? q % (2 * LEAST) : q % LEAST + LEAST;
        if (q < LEAST) q = 2 * LEAST - q;
        wide n = (wide)q * q - (wide)(int64_t)c;
        if (fits(n, odd)) return scaled(s, (uint64_t)(n >> (52 + odd)), odd, 0);
    }
}

// Below the normal range, of every length.
static uint64_t subnormal(uint64_t *s) {
    uint64_t first = 1ull << next(s) % 52;
    return first | (next(s) >> 12 & (first - 1));
}

// The first digits of each entry of the table, and what is next to them; below the first of all is the last entry's last.
static uint64_t edge(uint64_t *s) {
    uint64_t k = FIRST + next(s) % ENTRIES;
    int odd = k >= 512;
    return scaled(s, k << (44 - odd), odd, few(s));
}

// Every exponent, with digits that are all 0 or all 1.
static uint64_t plain(uint64_t *s) {
    uint64_t r = next(s);
    return (r >> 8) % 2047 << 52 | (r % 2 ? LEAST - 1 : 0);
}

// Zeros, infinities and NaNs, of either sign.
static uint64_t special(uint64_t *s) {
    uint64_t r = next(s), sign = r & 1ull << 63, digits = (r >> 8) % (LEAST / 2);
    switch (r % 4) {
    case 0: return sign;
    case 1: return sign | 0x7ff0000000000000;
    case 2: return sign | 0x7ff0000000000001 | digits;
    default: return sign | 0x7ff8000000000000 | digits;
    }
}

static uint64_t below(uint64_t *s) {
    uint64_t b = next(s) % 0x7ff0000000000000;
    return 1ull << 63 | 1 | (next(s) % 4 ? b : b >> next(s) % 52);
}

// The digits of a pattern above zero that has so many behind the point, and whether they stand for an odd power of two.
static Place placed(uint64_t b, uint64_t root, int behind, uint64_t infinity) {
    Place p = {.b = b, .above = b - 1 < infinity - 1};
    if (!p.above) return p;
    uint64_t one = 1ull << behind, field = b >> behind;
    int shift = field ? 0 : __builtin_clzll(b) - (63 - behind);
    p.digits = field ? b % one | one : b << shift;
    p.odd = (field ? field % 2 == 0 : shift % 2 != 0);
    p.k = (uint32_t)(p.digits >> (behind - 8 - p.odd));
    p.root = root % one | one;
    p.rest = ((__int128)p.digits << (behind + p.odd)) - (__int128)p.root * p.root;
    return p;
}

Place place64(uint64_t b, uint64_t root) { return placed(b, root, 52, 0x7ff0000000000000); }
Place place32(uint32_t b, uint32_t root) { return placed(b, root, 23, 0x7f800000); }

// How far what is left is from halfway, without its sign.
static __int128 from_halfway(const Place *p) {
    __int128 d = (p->rest < 0 ? -p->rest : p->rest) - p->root;
    return d < 0 ? -d : d;
}

static int near_side(const Place *p, int near) { return p->above && near ? 2 * p->odd + (p->rest < 0) : -1; }

static int sign_mark(const Place *p) { return (int)(p->b >> 63); }
static int entry_mark(const Place *p) { return p->above && p->b >= LEAST ? (int)(p->k - FIRST) : -1; }
static int exact_mark(const Place *p) { return p->above && p->rest == 0 ? 2 * p->odd + (p->b < LEAST) : -1; }
static int half_mark(const Place *p) { return near_side(p, from_halfway(p) <= (__int128)1 << (51 + p->odd)); }
static int halfway_mark(const Place *p) { return near_side(p, from_halfway(p) >> 40 == 0); }
static int beside_mark(const Place *p) { return near_side(p, p->rest != 0 && (p->rest < 0 ? -p->rest : p->rest) >> 40 == 0); }
static int length_mark(const Place *p) { return p->above && p->b < LEAST ? 63 - __builtin_clzll(p->b) : -1; }

// At an entry's first digits, above them, and below the next entry's.
static int edge_mark(const Place *p) {
    uint64_t entry = 1ull << (44 - p->odd), behind = p->digits % entry;
    if (!p->above || (behind > 4 && behind < entry - 4)) return -1;
    return 3 * (int)(p->k - FIRST) + (behind == 0 ? 0 : behind <= 4 ? 1 : 2);
}

static int plain_mark(const Place *p) {
    uint64_t digits = p->b % LEAST;
    return digits == 0 || digits == LEAST - 1 ? (int)(p->b >> 52) * 2 + (digits != 0) : -1;
}

static int special_mark(const Place *p) {
    uint64_t b = p->b << 1, kind = b == 0 ? 0 : b == 0xffe0000000000000 ? 1 : b < 0xfff0000000000000 ? 2 : 3;
    return b != 0 && b < 0xffe0000000000000 ? -1 : (int)(kind * 2 + (p->b >> 63));
}

static int below_mark(const Place *p) { return p->b >> 63 && p->b << 1 < 0xffe0000000000000 ? p->b << 1 < 2 * LEAST : -1; }

const Class classes[CLASSES] = {
    {"any patterns", any, sign_mark, 2},
    {"normal numbers, of each entry", normal, entry_mark, ENTRIES},
    {"squares of few digits, and beside them", square, exact_mark, 4},
    {"squares of 53 digits and a half, rounded, and beside them", half, half_mark, 4},
    {"as near as can be to halfway, from both sides", halfway, halfway_mark, 4},
    {"as near as can be to a root of 53 digits, from both sides", beside, beside_mark, 4},
    {"below the normal range, of each length", subnormal, length_mark, 52},
    {"the first digits of each entry, and beside them", edge, edge_mark, 3 * ENTRIES},
    {"each exponent, with digits all 0 or all 1", plain, plain_mark, 2 * 2047},
    {"zeros, infinities and NaNs", special, special_mark, 8},
    {"below zero", below, below_mark, 2},
};
