/* Quads and cubics, and roots. */
#include "calls.h"
#include "inputs.h"

static float src[8], out[20];

/* Numbers of a curve, with two points that coincide now and then. */
static void curve(int count, uint32_t i) {
    numbers(src, count);
    if (i % 5 == 0) src[2] = src[0], src[3] = src[1];
    if (i % 7 == 0) src[count - 4] = src[count - 2], src[count - 3] = src[count - 1];
}

/* Where a curve is asked of: inside in most cases, at an end, or anywhere. */
static float place(uint32_t i) { return i % 9 == 0 ? of_bits(i % 2 ? 0 : 0x3f800000u) : part(); }

typedef uint32_t at_place(const float *src, nz_len src_len, float t, float out[2]);

static void evaluated(at_place *call, int count, uint32_t i) {
    uint32_t answer;
    curve(count, i);
    float t = place(i);
    nz_len have = length_for((uint32_t)count);
    fill(out, 4);
    CALLED(answer = call(src, have, t, out));
    add_word(answer);
    add_floats(out, 4);
}

void case_nz_eval_quad_at(uint32_t i) { evaluated(nz_eval_quad_at, 6, i); }
void case_nz_eval_cubic_pos_at(uint32_t i) { evaluated(nz_eval_cubic_pos_at, 8, i); }
void case_nz_eval_quad_tangent_at(uint32_t i) { evaluated(nz_eval_quad_tangent_at, 6, i); }
void case_nz_eval_cubic_tangent_at(uint32_t i) { evaluated(nz_eval_cubic_tangent_at, 8, i); }

typedef uint32_t chop(const float *src, nz_len src_len, float t, float *dst, nz_len dst_len);

static void chopped(chop *call, int count, uint32_t need, uint32_t i) {
    uint32_t answer;
    curve(count, i);
    float t = place(i);
    nz_len have = length_for((uint32_t)count), room = length_for(need);
    fill(out, 20);
    CALLED(answer = call(src, have, t, out, room));
    add_word(answer);
    add_floats(out, 20);
    add_floats(src, count);
}

void case_nz_chop_quad_at(uint32_t i) { chopped(nz_chop_quad_at, 6, 10, i); }
void case_nz_chop_cubic_at2(uint32_t i) { chopped(nz_chop_cubic_at2, 8, 14, i); }

void case_nz_find_quad_max_curvature(uint32_t i) {
    uint32_t answer;
    curve(6, i);
    nz_len have = length_for(6);
    fill(out, 2);
    CALLED(answer = nz_find_quad_max_curvature(src, have, out));
    add_word(answer);
    add_floats(out, 2);
}

/* The roots of a call that gives their count, and up to two places. */
#define ROOTS(name, ...)                                                                                                       \
    void case_##name(uint32_t i) {                                                                                             \
        uint32_t count;                                                                                                        \
        curve(8, i);                                                                                                           \
        fill(out, 4);                                                                                                          \
        CALLED(count = name(__VA_ARGS__, out));                                                                                \
        add_word(count);                                                                                                       \
        add_floats(out, 4);                                                                                                    \
    }
ROOTS(nz_valid_unit_divide, src[0], src[1])
ROOTS(nz_find_unit_quad_roots, src[0], src[1], src[2])
ROOTS(nz_find_quad_extrema, src[0], src[1], src[2])
ROOTS(nz_find_cubic_extrema, src[0], src[1], src[2], src[3])

void case_nz_find_cubic_inflections(uint32_t i) {
    uint32_t answer, count = 77;
    curve(8, i);
    nz_len have = length_for(8);
    fill(out, 4);
    CALLED(answer = nz_find_cubic_inflections(src, have, out, &count));
    add_word(answer);
    add_word(count);
    add_floats(out, 4);
}
