/* Transforms: made, multiplied, undone, applied, and their kinds. */
#include "calls.h"
#include "inputs.h"

static float a[6], b[6], out[24];

/* A matrix; often without skew, move or scale, so that each kind is met. */
static void matrix(float *m, uint32_t i) {
    for (int k = 0; k < 6; k++) m[k] = i % 2 == 0 ? number() : finite_number();
    if (one_in(3)) m[1] = m[2] = of_bits(0);
    if (one_in(4)) m[0] = m[3] = of_bits(0x3f800000u);
    if (one_in(4)) m[4] = m[5] = of_bits(one_in(2) ? 0 : 0x80000000u);
}

#define MADE(name, ...)                                                                                                        \
    void case_##name(uint32_t i) {                                                                                             \
        matrix(a, i);                                                                                                          \
        fill(out, 8);                                                                                                          \
        CALLED(name(__VA_ARGS__));                                                                                             \
        add_floats(out, 8);                                                                                                    \
        add_floats(a, 6);                                                                                                      \
    }
MADE(nz_transform_identity, out)
MADE(nz_transform_from_translate, a[0], a[3], out)
MADE(nz_transform_from_scale, a[0], a[3], out)
MADE(nz_transform_from_skew, a[0], a[3], out)
MADE(nz_transform_get_scale, a, out)

#define MULTIPLIED(name, ...)                                                                                                  \
    void case_##name(uint32_t i) {                                                                                             \
        bool rounded = i % 3 == 0;                                                                                             \
        matrix(a, i);                                                                                                          \
        matrix(b, i);                                                                                                          \
        fill(out, 8);                                                                                                          \
        CALLED(name(a, __VA_ARGS__, out, &rounded));                                                                           \
        add_word(rounded);                                                                                                     \
        add_floats(out, 8);                                                                                                    \
        add_floats(a, 6);                                                                                                      \
        add_floats(b, 6);                                                                                                      \
    }
MULTIPLIED(nz_transform_pre_concat, b)
MULTIPLIED(nz_transform_post_concat, b)
MULTIPLIED(nz_transform_pre_scale, b[0], b[3])
MULTIPLIED(nz_transform_post_scale, b[0], b[3])
MULTIPLIED(nz_transform_pre_translate, b[4], b[5])
MULTIPLIED(nz_transform_post_translate, b[4], b[5])

/* In place in one of four cases. */
void case_nz_transform_invert(uint32_t i) {
    uint32_t answer;
    bool rounded = i % 3 == 0;
    matrix(a, i);
    fill(out, 8);
    CALLED(answer = nz_transform_invert(a, i % 4 == 0 ? a : out, &rounded));
    add_word(answer);
    add_word(rounded);
    add_floats(out, 8);
    add_floats(a, 6);
}

void case_nz_transform_map_point(uint32_t i) {
    matrix(a, i);
    numbers(out, 4);
    CALLED(nz_transform_map_point(a, out));
    add_floats(out, 4);
}

void case_nz_transform_map_numbers(uint32_t i) {
    uint32_t answer;
    nz_len length = below(23);
    matrix(a, i);
    numbers(out, 24);
    CALLED(answer = nz_transform_map_numbers(a, out, length));
    add_word(answer);
    add_floats(out, 24);
}

#define KIND(name)                                                                                                             \
    void case_##name(uint32_t i) {                                                                                             \
        bool answer;                                                                                                           \
        matrix(a, i);                                                                                                          \
        CALLED(answer = name(a));                                                                                              \
        add_word(answer);                                                                                                      \
    }
KIND(nz_transform_is_finite)
KIND(nz_transform_is_valid)
KIND(nz_transform_is_identity)
KIND(nz_transform_is_scale)
KIND(nz_transform_is_skew)
KIND(nz_transform_is_translate)
KIND(nz_transform_is_scale_translate)
KIND(nz_transform_has_scale)
KIND(nz_transform_has_skew)
KIND(nz_transform_has_translate)
