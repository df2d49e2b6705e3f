/* Every exported call, of which each has a case in one of the files of_*.c; `tools/header` holds this list to the library. */
#ifndef CALLS_H
#define CALLS_H

#include <stdint.h>

#define EVERY_CALL(CALL)                                                                                                       \
    CALL(nz_cut_in_order)                                                                                                      \
    CALL(nz_cut_in_order_both)                                                                                                 \
    CALL(nz_conic_chop_into_quads_pow2)                                                                                        \
    CALL(nz_conic_compute_quad_pow2)                                                                                           \
    CALL(nz_auto_conic_to_quads)                                                                                               \
    CALL(nz_conic_chop)                                                                                                        \
    CALL(nz_between_product)                                                                                                   \
    CALL(nz_between_exact)                                                                                                     \
    CALL(nz_date_table)                                                                                                        \
    CALL(nz_date_at)                                                                                                           \
    CALL(nz_date_all)                                                                                                          \
    CALL(nz_journal_read)                                                                                                      \
    CALL(nz_journal_write)                                                                                                     \
    CALL(nz_journal_end)                                                                                                       \
    CALL(nz_eval_quad_at)                                                                                                      \
    CALL(nz_eval_cubic_pos_at)                                                                                                 \
    CALL(nz_eval_quad_tangent_at)                                                                                              \
    CALL(nz_eval_cubic_tangent_at)                                                                                             \
    CALL(nz_chop_quad_at)                                                                                                      \
    CALL(nz_chop_cubic_at2)                                                                                                    \
    CALL(nz_find_quad_max_curvature)                                                                                           \
    CALL(nz_valid_unit_divide)                                                                                                 \
    CALL(nz_find_unit_quad_roots)                                                                                              \
    CALL(nz_find_quad_extrema)                                                                                                 \
    CALL(nz_find_cubic_extrema)                                                                                                \
    CALL(nz_find_cubic_inflections)                                                                                            \
    CALL(nz_transform_identity)                                                                                                \
    CALL(nz_transform_from_translate)                                                                                          \
    CALL(nz_transform_from_scale)                                                                                              \
    CALL(nz_transform_from_skew)                                                                                               \
    CALL(nz_transform_pre_concat)                                                                                              \
    CALL(nz_transform_post_concat)                                                                                             \
    CALL(nz_transform_pre_scale)                                                                                               \
    CALL(nz_transform_post_scale)                                                                                              \
    CALL(nz_transform_pre_translate)                                                                                           \
    CALL(nz_transform_post_translate)                                                                                          \
    CALL(nz_transform_invert)                                                                                                  \
    CALL(nz_transform_map_point)                                                                                               \
    CALL(nz_transform_map_numbers)                                                                                             \
    CALL(nz_transform_is_finite)                                                                                               \
    CALL(nz_transform_is_valid)                                                                                                \
    CALL(nz_transform_is_identity)                                                                                             \
    CALL(nz_transform_is_scale)                                                                                                \
    CALL(nz_transform_is_skew)                                                                                                 \
    CALL(nz_transform_is_translate)                                                                                            \
    CALL(nz_transform_is_scale_translate)                                                                                      \
    CALL(nz_transform_has_scale)                                                                                               \
    CALL(nz_transform_has_skew)                                                                                                \
    CALL(nz_transform_has_translate)                                                                                           \
    CALL(nz_transform_get_scale)                                                                                               \
    CALL(nz_is_finite_f32)                                                                                                     \
    CALL(nz_is_finite_f64)                                                                                                     \
    CALL(nz_point_is_finite)                                                                                                   \
    CALL(nz_abs_f32)                                                                                                           \
    CALL(nz_widen)                                                                                                             \
    CALL(nz_narrow)                                                                                                            \
    CALL(nz_narrow_told)                                                                                                       \
    CALL(nz_sqrt_f32)                                                                                                          \
    CALL(nz_sqrt_f64)

/* Calls it once, on the inputs of the i-th case, and sums what came out. */
#define DECLARED(name) void case_##name(uint32_t i);
EVERY_CALL(DECLARED)
#undef DECLARED

#endif
