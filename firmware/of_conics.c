/* Conics: cuts by each rule, the choice of a level, halves and tests. */
#include "calls.h"
#include "cases.h"
#include "inputs.h"

uint32_t promised, turned_back;

static float src[6], out[NZ_CUT_ROOM(NZ_MAX_LEVEL) + 8], places[128 + 4];

/* The middle y, or x, moved between the ends or onto one of them, so that the promise is of it. */
static void put_between(int axis) {
    int32_t a = key(src[axis]), b = key(src[2 + axis]), c = key(src[4 + axis]);
    if ((b < a && b < c) || (b > a && b > c)) src[2 + axis] = src[one_in(2) ? axis : 4 + axis];
}

/* A conic: mostly finite, often in order, now and then with subnormal ys, whose chops are where flushing shows. */
static void conic(uint32_t i) {
    for (int k = 0; k < 6; k++) src[k] = i % 4 == 0 ? number() : finite_number();
    if (i % 3 == 0) put_between(1);
    if (i % 2 == 0) put_between(0);
    if (i % 7 == 1) {
        uint32_t r = draw(), q = draw();
        src[1] = src[3] = of_bits((r & 0x003fffffu) | 0x00100000u);
        src[5] = of_bits(q & 0x000fffffu);
    }
    if (i % 11 == 2)
        for (int k = 0; k < 6; k++) src[k] = millisecond();
}

static bool is_between(int axis) {
    int32_t a = key(src[axis]), b = key(src[2 + axis]), c = key(src[4 + axis]);
    return (a <= b && b <= c) || (a >= b && b >= c);
}

static bool is_finite(void) {
    for (int k = 0; k < 6; k++)
        if ((bits_of(src[k]) & 0x7f800000u) == 0x7f800000u) return false;
    return true;
}

/* Counts a cut of which order is promised along an axis, and whether it turned back. */
static void watch(int axis, uint32_t level) {
    bool rises = false, falls = false;
    if (!is_finite() || !is_between(axis)) return;
    promised++;
    for (uint32_t k = 1; k <= 2u << level; k++) {
        int32_t before = key(out[2 * (k - 1) + (uint32_t)axis]), after = key(out[2 * k + (uint32_t)axis]);
        rises = rises || before < after;
        falls = falls || before > after;
    }
    turned_back += rises && falls;
}

typedef uint32_t cut(const float *src, nz_len src_len, float weight, uint32_t level, float *out, nz_len out_len);

/* One cut, at a level up to one too high, with room and numbers enough in most cases. What its rule promises is watched. */
static void one_cut(cut *by_rule, bool promise_x, bool promise_y, uint32_t i) {
    uint32_t answer, level;
    conic(i);
    float weight = one_in(3) ? number() : of_bits(0x3f000000u + below(0x01000000u));
    level = below(NZ_MAX_LEVEL + 2);
    nz_len have = length_for(6), room = length_for(NZ_CUT_ROOM(level > NZ_MAX_LEVEL ? 0 : level));
    fill(out, NZ_CUT_ROOM(NZ_MAX_LEVEL) + 8);
    CALLED(answer = by_rule(src, have, weight, level, out, room));
    add_word(answer);
    add_floats(src, 6);
    add_floats(out, NZ_CUT_ROOM(NZ_MAX_LEVEL) + 8);
    if (answer == NZ_OK && promise_x) watch(0, level);
    if (answer == NZ_OK && promise_y) watch(1, level);
}

void case_nz_cut_in_order(uint32_t i) { one_cut(nz_cut_in_order, false, true, i); }
void case_nz_cut_in_order_both(uint32_t i) { one_cut(nz_cut_in_order_both, true, true, i); }
void case_nz_conic_chop_into_quads_pow2(uint32_t i) { one_cut(nz_conic_chop_into_quads_pow2, false, false, i); }

void case_nz_conic_compute_quad_pow2(uint32_t i) {
    uint32_t answer, level = 77;
    conic(i);
    float weight = number(), tolerance = one_in(2) ? number() : part();
    uint32_t ceiling = one_in(8) ? below(9) : one_in(2) ? NZ_MAX_LEVEL : NZ_MAX_CONIC_TO_QUAD_POW2;
    nz_len have = length_for(6);
    CALLED(answer = nz_conic_compute_quad_pow2(src, have, weight, tolerance, ceiling, &level));
    add_word(answer);
    add_word(level);
}

void case_nz_auto_conic_to_quads(uint32_t i) {
    uint32_t answer;
    nz_len quads = 7777777777u, have;
    conic(i);
    float weight = number();
    have = length_for(6);
    fill(places, 128 + 4);
    CALLED(answer = nz_auto_conic_to_quads(src, have, weight, places, &quads));
    add_word(answer);
    add_length(quads);
    add_floats(places, 128 + 4);
}

void case_nz_conic_chop(uint32_t i) {
    uint32_t answer;
    conic(i);
    float weight = number();
    nz_len have = length_for(6);
    fill(out, 14 + 4);
    CALLED(answer = nz_conic_chop(src, have, weight, out));
    add_word(answer);
    add_floats(out, 14 + 4);
}

void case_nz_between_product(uint32_t i) {
    bool answer;
    conic(i);
    CALLED(answer = nz_between_product(src[1], src[3], src[5]));
    add_word(answer);
}

void case_nz_between_exact(uint32_t i) {
    bool answer;
    conic(i);
    CALLED(answer = nz_between_exact(src[1], src[3], src[5]));
    add_word(answer);
}
