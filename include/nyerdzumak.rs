// The library's calls for a Rust program that links it: `include!` this file, or name it by `#[path]`; it is taken by the
// editions 2021 and 2024, from Rust 1.82 on. Link with `-L native=FOLDER -l static=nyerdzumak`. What each call does, and
// what its caller owes it, stands in nyerdzumak.h. A lent slice is a pointer that is not null and its length in numbers, which
// of a journal are bytes.
pub const NZ_VERSION: &str = "0.8.0";

pub const NZ_OK: u32 = 0;
pub const NZ_LEVEL_TOO_HIGH: u32 = 1;
pub const NZ_BUFFER_TOO_SHORT: u32 = 2;
pub const NZ_POINT_NOT_FINITE: u32 = 3;
pub const NZ_BAD_TOLERANCE: u32 = 4;
pub const NZ_CURVATURE_UNDEFINED: u32 = 5;
pub const NZ_NEARLY_SINGULAR: u32 = 6;
pub const NZ_INVERSE_NOT_FINITE: u32 = 7;
pub const NZ_OUT_OF_RANGE: u32 = 8;
pub const NZ_ODD_LENGTH: u32 = 9;
pub const NZ_ENTRY_OUT_OF_RANGE: u32 = 10;
pub const NZ_TIME_OUTSIDE: u32 = 11;
pub const NZ_TABLE_FALLS: u32 = 12;
pub const NZ_BAD_LENGTH: u32 = 17;
pub const NZ_UNKNOWN_KIND: u32 = 18;

// The highest level of a cut, and the ceiling that tiny-skia-path has for the choice of a level.
pub const NZ_MAX_LEVEL: u32 = 6;
pub const NZ_MAX_CONIC_TO_QUAD_POW2: u32 = 4;

// The largest number of a date table, in milliseconds.
pub const NZ_MAX_ENTRY: u32 = 16777216;

// What a read of a journal found: a record, no byte more, or a record whose rest is not there.
pub const NZ_JOURNAL_RECORD: u32 = 0;
pub const NZ_JOURNAL_END: u32 = 1;
pub const NZ_JOURNAL_SHORT: u32 = 2;

// The kinds of a journal's records, with payloads of 7, 6 and 1 words; and the bytes of the longest.
pub const NZ_KIND_CONIC: u32 = 1;
pub const NZ_KIND_TRANSFORM: u32 = 2;
pub const NZ_KIND_CORRECTION: u32 = 3;
pub const NZ_MAX_RECORD: u32 = 34;

// What narrowing lost: nothing, what was rounded away, or a finite value that became an infinity.
pub const NZ_NARROW_EXACT: u32 = 0;
pub const NZ_NARROW_ROUNDED: u32 = 1;
pub const NZ_NARROW_TO_INFINITY: u32 = 2;

// The room in numbers that a cut at a level up to NZ_MAX_LEVEL needs.
pub const fn nz_cut_room(level: u32) -> u64 {
    2 * ((2 << level) + 1)
}

// The room in numbers that the date table of such a cut needs, which is its length in a lookup.
pub const fn nz_table_room(level: u32) -> u64 {
    2 * ((1 << level) + 1)
}

unsafe extern "C" {
    pub fn nz_cut_in_order(src: *const f32, src_len: u64, weight: f32, level: u32, out: *mut f32, out_len: u64) -> u32;
    pub fn nz_cut_in_order_both(src: *const f32, src_len: u64, weight: f32, level: u32, out: *mut f32, out_len: u64) -> u32;
    pub fn nz_conic_chop_into_quads_pow2(src: *const f32, src_len: u64, weight: f32, level: u32, out: *mut f32, out_len: u64) -> u32;
    pub fn nz_conic_compute_quad_pow2(src: *const f32, src_len: u64, weight: f32, tolerance: f32, ceiling: u32, level: *mut u32) -> u32;
    pub fn nz_auto_conic_to_quads(src: *const f32, src_len: u64, weight: f32, out: *mut [f32; 128], quads: *mut u64) -> u32;
    pub fn nz_conic_chop(src: *const f32, src_len: u64, weight: f32, halves: *mut [f32; 14]) -> u32;
    pub fn nz_between_product(a: f32, b: f32, c: f32) -> bool;
    pub fn nz_between_exact(a: f32, b: f32, c: f32) -> bool;
    pub fn nz_date_table(src: *const f32, src_len: u64, weight: f32, level: u32, table: *mut u32, table_len: u64) -> u32;
    pub fn nz_date_at(table: *const u32, table_len: u64, recorded: u32, date: *mut u32) -> u32;
    pub fn nz_date_all(table: *const u32, table_len: u64, times: *mut u32, times_len: u64, first_bad: *mut u64) -> u32;
    pub fn nz_journal_read(journal: *const u8, journal_len: u64, at: u64, what: *mut u32, kind: *mut u32, words: *mut [u32; 7], next: *mut u64) -> u32;
    pub fn nz_journal_write(journal: *mut u8, journal_len: u64, at: u64, kind: u32, words: *const [u32; 7], next: *mut u64) -> u32;
    pub fn nz_journal_end(journal: *const u8, journal_len: u64, end: *mut u64) -> u32;
    pub fn nz_eval_quad_at(src: *const f32, src_len: u64, t: f32, out: *mut [f32; 2]) -> u32;
    pub fn nz_eval_cubic_pos_at(src: *const f32, src_len: u64, t: f32, out: *mut [f32; 2]) -> u32;
    pub fn nz_eval_quad_tangent_at(src: *const f32, src_len: u64, t: f32, out: *mut [f32; 2]) -> u32;
    pub fn nz_eval_cubic_tangent_at(src: *const f32, src_len: u64, t: f32, out: *mut [f32; 2]) -> u32;
    pub fn nz_chop_quad_at(src: *const f32, src_len: u64, t: f32, dst: *mut f32, dst_len: u64) -> u32;
    pub fn nz_chop_cubic_at2(src: *const f32, src_len: u64, t: f32, dst: *mut f32, dst_len: u64) -> u32;
    pub fn nz_find_quad_max_curvature(src: *const f32, src_len: u64, t: *mut f32) -> u32;
    pub fn nz_valid_unit_divide(numer: f32, denom: f32, root: *mut f32) -> u32;
    pub fn nz_find_unit_quad_roots(a: f32, b: f32, c: f32, roots: *mut [f32; 2]) -> u32;
    pub fn nz_find_quad_extrema(a: f32, b: f32, c: f32, root: *mut f32) -> u32;
    pub fn nz_find_cubic_extrema(a: f32, b: f32, c: f32, d: f32, roots: *mut [f32; 2]) -> u32;
    pub fn nz_find_cubic_inflections(src: *const f32, src_len: u64, roots: *mut [f32; 2], count: *mut u32) -> u32;
    pub fn nz_transform_identity(out: *mut [f32; 6]);
    pub fn nz_transform_from_translate(tx: f32, ty: f32, out: *mut [f32; 6]);
    pub fn nz_transform_from_scale(sx: f32, sy: f32, out: *mut [f32; 6]);
    pub fn nz_transform_from_skew(kx: f32, ky: f32, out: *mut [f32; 6]);
    pub fn nz_transform_pre_concat(a: *const [f32; 6], b: *const [f32; 6], out: *mut [f32; 6], rounded: *mut bool);
    pub fn nz_transform_post_concat(a: *const [f32; 6], b: *const [f32; 6], out: *mut [f32; 6], rounded: *mut bool);
    pub fn nz_transform_pre_scale(m: *const [f32; 6], sx: f32, sy: f32, out: *mut [f32; 6], rounded: *mut bool);
    pub fn nz_transform_post_scale(m: *const [f32; 6], sx: f32, sy: f32, out: *mut [f32; 6], rounded: *mut bool);
    pub fn nz_transform_pre_translate(m: *const [f32; 6], tx: f32, ty: f32, out: *mut [f32; 6], rounded: *mut bool);
    pub fn nz_transform_post_translate(m: *const [f32; 6], tx: f32, ty: f32, out: *mut [f32; 6], rounded: *mut bool);
    pub fn nz_transform_invert(m: *const [f32; 6], out: *mut [f32; 6], rounded: *mut bool) -> u32;
    pub fn nz_transform_map_point(m: *const [f32; 6], point: *mut [f32; 2]);
    pub fn nz_transform_map_numbers(m: *const [f32; 6], numbers: *mut f32, numbers_len: u64) -> u32;
    pub fn nz_transform_is_finite(m: *const [f32; 6]) -> bool;
    pub fn nz_transform_is_valid(m: *const [f32; 6]) -> bool;
    pub fn nz_transform_is_identity(m: *const [f32; 6]) -> bool;
    pub fn nz_transform_is_scale(m: *const [f32; 6]) -> bool;
    pub fn nz_transform_is_skew(m: *const [f32; 6]) -> bool;
    pub fn nz_transform_is_translate(m: *const [f32; 6]) -> bool;
    pub fn nz_transform_is_scale_translate(m: *const [f32; 6]) -> bool;
    pub fn nz_transform_has_scale(m: *const [f32; 6]) -> bool;
    pub fn nz_transform_has_skew(m: *const [f32; 6]) -> bool;
    pub fn nz_transform_has_translate(m: *const [f32; 6]) -> bool;
    pub fn nz_transform_get_scale(m: *const [f32; 6], out: *mut [f32; 2]);
    pub fn nz_is_finite_f32(x: f32) -> bool;
    pub fn nz_is_finite_f64(x: f64) -> bool;
    pub fn nz_point_is_finite(x: f32, y: f32) -> bool;
    pub fn nz_abs_f32(x: f32) -> f32;
    pub fn nz_widen(x: f32) -> f64;
    pub fn nz_narrow(x: f64) -> f32;
    pub fn nz_narrow_told(x: f64, loss: *mut u32) -> f32;
    pub fn nz_sqrt_f32(x: f32) -> f32;
    pub fn nz_sqrt_f64(x: f64) -> f64;
}

// Whether floats and doubles are computed here as the proofs take them: to the nearest, with subnormal numbers kept, and with no
// more digits than their type has. Ask it before any other call: a C program that is linked with -ffast-math flushes floats to
// zero at start-up. It is that of nyerdzumak.h, which says more of it; what it computes with is read as volatile, so that no
// compiler can know the answer.
pub fn nz_float_environment_ok() -> bool {
    // of a type: 1, its neighbour and half the distance, where neighbours are 2 apart, the least normal number, and what takes
    // that to the least of all and back
    macro_rules! ok {
        ($float:ty, $half:expr, $wide:expr, $down:expr) => {{
            let kept = |x: $float| unsafe { core::ptr::read_volatile(&x) };
            let (one, next, half, wide) = (kept(1.0), kept(1.0 + $down), kept($half), kept($wide));
            let (least, down, up) = (kept(<$float>::MIN_POSITIVE), kept($down), kept(1.0 / $down));
            let product = kept(kept(least * down) * up);
            let difference = kept(kept(kept(least * next) - least) + least);
            let lost = kept((wide + one) - wide);
            kept(one + half) <= one && kept(next + half) > next && product >= least && difference > least && lost < half
        }};
    }
    ok!(f32, f32::EPSILON / 2.0, 16777216.0, f32::EPSILON) && ok!(f64, f64::EPSILON / 2.0, 9007199254740992.0, f64::EPSILON)
}
