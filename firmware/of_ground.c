/* The float ground. */
#include "calls.h"
#include "inputs.h"

#define GROUND(name, from, input, to, add)                                                                                     \
    void case_##name(uint32_t i) {                                                                                             \
        from x = input();                                                                                                      \
        to answer;                                                                                                             \
        CALLED(answer = name(x));                                                                                              \
        add(answer);                                                                                                           \
        (void)i;                                                                                                               \
    }
GROUND(nz_is_finite_f32, float, number, bool, add_word)
GROUND(nz_is_finite_f64, double, wide, bool, add_word)
GROUND(nz_abs_f32, float, number, float, add_float)
GROUND(nz_widen, float, number, double, add_double)
GROUND(nz_narrow, double, wide, float, add_float)
GROUND(nz_sqrt_f32, float, number, float, add_float)
GROUND(nz_sqrt_f64, double, wide, double, add_double)

void case_nz_point_is_finite(uint32_t i) {
    float x = number(), y = number();
    bool answer;
    CALLED(answer = nz_point_is_finite(x, y));
    add_word(answer);
    (void)i;
}

void case_nz_narrow_told(uint32_t i) {
    double x = wide();
    float answer;
    uint32_t loss = 77;
    CALLED(answer = nz_narrow_told(x, &loss));
    add_float(answer);
    add_word(loss);
    (void)i;
}
