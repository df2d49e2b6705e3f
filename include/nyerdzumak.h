/* Nyerdzumak: conics cut into quads whose points keep one direction along both axes (nz_cut_in_order_both says of which
 * conics), dates of recorded times by such cuts (nz_date_table), a journal of corrections that can be read after a power cut
 * (nz_journal_read), and the float geometry below. For C99 or newer, and C++.
 *
 * ANSWERS. Every call ends, on any bits, and reads and writes what is said here and nothing else. A call that can refuse
 * returns one of the numbers below, NZ_OK or why it did nothing; of several that apply the first in this order is given:
 * NZ_OUT_OF_RANGE, NZ_LEVEL_TOO_HIGH or, in a write, NZ_UNKNOWN_KIND, then NZ_BAD_TOLERANCE, then NZ_BUFFER_TOO_SHORT, then
 * NZ_ODD_LENGTH, then NZ_ENTRY_OUT_OF_RANGE, then NZ_TABLE_FALLS, then the others; reading a journal has an order of its own,
 * which is said there. A call that cannot refuse returns what it gives, or nothing. So every uint32_t that is called an answer
 * here is worth testing.
 *
 * OUTPUTS. An output that has no value keeps its contents: places for roots past those that were found, words past a record's
 * payload, and all outputs beside a refusal, but that nz_date_all stores *first_bad for NZ_TIME_OUTSIDE, and that reading a
 * journal stores the refused record's offset, in *next or *end, for NZ_BAD_LENGTH and NZ_UNKNOWN_KIND. A buffer that is longer
 * than needed keeps its tail, and a journal what stands before and behind a written record. No output may be NULL.
 *
 * BUFFERS. Points, and entries of date tables, are numbers, x then y. A lent buffer is a pointer and then its length in
 * numbers, not in points, entries or bytes. A journal is bytes: its length and the offsets in it are in bytes. The pointer
 * must be good for that length and must not be NULL, not even with length 0. A buffer must not overlap another argument's
 * memory. Matrices are the exception: where out is a matrix it may be the same array as m, a or b, but not overlap it
 * otherwise.
 *
 * FLOATS. What is proved is proved of IEEE 754 arithmetic: round to nearest, subnormals kept. Do not set flush-to-zero or
 * another rounding mode, neither in FPSCR nor, for interrupts, in FPDSCR; linking with -ffast-math sets flush-to-zero at
 * start-up, and then cuts of numbers near 1e-38 turn back. Ask nz_float_environment_ok, below, at boot.
 *   A zero has the sign that IEEE 754 gives it, as in tiny-skia-path. Tests, and the order of a cut, take -0 and 0 as equal.
 * Only the bits of a NaN that is computed are left open.
 *
 * docs/RULES.md has the rules in full.
 */
#ifndef NYERDZUMAK_H
#define NYERDZUMAK_H

#include <stdbool.h>
#include <stdint.h>

#if defined(__FAST_MATH__) && defined(__GNUC__)
#warning "a program that is linked with -ffast-math flushes floats to zero, and then nothing that is proved of nyerdzumak holds"
#endif

#define NZ_VERSION "0.8.0"

/* the answers */
#define NZ_OK 0u                  /* none below applies */
#define NZ_LEVEL_TOO_HIGH 1u      /* level above NZ_MAX_LEVEL; in level choice, a ceiling other than the two below */
#define NZ_BUFFER_TOO_SHORT 2u    /* a lent source or buffer is shorter than needed; in a lookup, a date table has no entry */
#define NZ_POINT_NOT_FINITE 3u    /* a point of the conic fails nz_point_is_finite, in level choice only */
#define NZ_BAD_TOLERANCE 4u       /* tolerance below 0 or not finite */
#define NZ_CURVATURE_UNDEFINED 5u /* the curvature is greatest at a quotient that is NaN */
#define NZ_NEARLY_SINGULAR 6u     /* a skewed matrix has a determinant that is nearly zero */
#define NZ_INVERSE_NOT_FINITE 7u  /* an inverse has an entry that is not finite, and 6 does not apply */
#define NZ_OUT_OF_RANGE 8u        /* t outside its range, or NaN */
#define NZ_ODD_LENGTH 9u          /* in mapping, a buffer of points as numbers has odd length; in a lookup, a date table has */
#define NZ_ENTRY_OUT_OF_RANGE 10u /* a number of a date table, before it is rounded, is not from 0 to NZ_MAX_ENTRY */
#define NZ_TIME_OUTSIDE 11u       /* a recorded time is before the first x of a date table or after the last */
#define NZ_TABLE_FALLS 12u        /* an x or a y of a date table is below that of the entry before */
#define NZ_BAD_LENGTH 17u         /* a record's length is below 2, or not that of its kind */
#define NZ_UNKNOWN_KIND 18u       /* a record's kind is none of those below */

/* the highest level of a cut, and the room in numbers that a cut at a level up to that one needs: 6, 10, 18, 34, 66, 130, 258;
 * test a level that is not yours before you use it here */
#define NZ_MAX_LEVEL 6u
#define NZ_CUT_ROOM(level) (2u * ((2u << (level)) + 1u))

/* the largest number of a date table, 4.6 hours in milliseconds: up to it a float has every whole number; and the room in
 * numbers that the table of a cut at such a level needs, which is its length in a lookup: 4, 6, 10, 18, 34, 66, 130 */
#define NZ_MAX_ENTRY 16777216u
#define NZ_TABLE_ROOM(level) (2u * ((1u << (level)) + 1u))

/* the ceiling that tiny-skia-path has for the choice of a level; nz_conic_compute_quad_pow2 takes this one or NZ_MAX_LEVEL */
#define NZ_MAX_CONIC_TO_QUAD_POW2 4u

/* what a read of a journal found: a record, no byte more, or the beginning of a record whose rest is not there */
#define NZ_JOURNAL_RECORD 0u
#define NZ_JOURNAL_END 1u
#define NZ_JOURNAL_SHORT 2u

/* the kinds of a journal's records, and the bytes of the longest, a conic, from the first of its length on */
#define NZ_KIND_CONIC 1u      /* seven words, each the bits of a float: start, middle and end, x then y, and the weight */
#define NZ_KIND_TRANSFORM 2u  /* six words, each the bits of a float: sx, ky, kx, sy, tx, ty */
#define NZ_KIND_CORRECTION 3u /* one word, the bits of an int32_t: milliseconds */
#define NZ_MAX_RECORD 34u

/* what nz_narrow_told tells */
#define NZ_NARROW_EXACT 0u       /* widening the float gives the double back, or both are NaN */
#define NZ_NARROW_ROUNDED 1u     /* the float is another finite number, also a zero */
#define NZ_NARROW_TO_INFINITY 2u /* a finite double became an infinity */

/* A length in numbers, or, of a journal, a length or an offset in bytes: 64 bits on every target, also where size_t has 32. */
typedef uint64_t nz_len;

#if defined(__cplusplus)
#define NZ_RESTRICT
extern "C" {
#else
#define NZ_RESTRICT restrict
#endif

/* ---- conics: six lent numbers, start, middle and end, and a weight ---- */

/* Cuts a conic into 2^level quads by the exact between test, the level being 0 to NZ_MAX_LEVEL. Writes 2 * 2^level + 1 points,
 * which the quads share: NZ_CUT_ROOM(level) numbers.
 *   The promise. From three points of finite coordinates whose middle y lies between the end ys or equals one of them,
 * whatever the weight, all written coordinates are finite, the first and the last point are the conic's own, and along the
 * points the ys keep one direction, rising or falling, ties allowed (falling where the last y is below the first: test that
 * if later must not become earlier). Test the middle y with nz_between_exact and each coordinate with nz_is_finite_f32: where
 * either fails, the cut is made and answered with NZ_OK all the same, and can turn back. The promise is of the ys: by this
 * call the xs can turn back, for weights below 0 and through rounding.
 *   Pinning. Where a written point fails nz_point_is_finite, every written point but the first and the last is the
 * conic's middle point, and the answer is NZ_OK. That is a test of x * y, which overflows from about 1.8e19 on: (0,0),
 * (1e20,1e20), (2e20,2e20), weight 0.7, is pinned.
 *   Answers NZ_OK, NZ_LEVEL_TOO_HIGH or NZ_BUFFER_TOO_SHORT. */
uint32_t nz_cut_in_order(const float *NZ_RESTRICT src, nz_len src_len, float weight, uint32_t level, float *NZ_RESTRICT out, nz_len out_len);

/* As nz_cut_in_order, with the xs put in order as the ys are: the cut for a table that is looked up by x.
 *   The promise. From three points of finite coordinates, whatever the weight: if along one axis the middle lies between the
 * ends or equals one of them, all written coordinates are finite, the first and the last point are the conic's own, and along
 * that axis the points keep one direction, rising or falling, ties allowed (falling where the last is below the first: test
 * x0 <= x2 if a table is to run forward). If that is so along both axes, both keep theirs. Test each coordinate with
 * nz_is_finite_f32: where one fails nothing is promised. Test the middle x and the middle y with nz_between_exact: an axis
 * that fails can turn back, and the other keeps its promise. The answer is NZ_OK all the same.
 *   Pinning, and the answers, are those of nz_cut_in_order. Which cuts are pinned can differ, since it hangs on x * y, and
 * then the ys do: (0,0), (4,0), (4,4), NaN weight, level 1, is pinned by nz_cut_in_order, whose xs are NaN, and not here. */
uint32_t nz_cut_in_order_both(const float *NZ_RESTRICT src, nz_len src_len, float weight, uint32_t level, float *NZ_RESTRICT out, nz_len out_len);

/* As nz_cut_in_order, of the ys alone, by the test of tiny-skia-path, on a product, which may overflow or underflow: there
 * is no promise on its order, and some bridges that fulfil the condition of nz_cut_in_order turn back. The same pinning and
 * answers. */
uint32_t nz_conic_chop_into_quads_pow2(const float *NZ_RESTRICT src, nz_len src_len, float weight, uint32_t level, float *NZ_RESTRICT out, nz_len out_len);

/* The least level, from 1 on, at which an estimate of the quads' distance from the conic is within the tolerance; at most the
 * ceiling, where it need not be. The ceiling is NZ_MAX_LEVEL, or NZ_MAX_CONIC_TO_QUAD_POW2 for the level of tiny-skia-path;
 * any other is refused with NZ_LEVEL_TOO_HIGH, a lower one too. (0,0), (0,1024), (0,0), weight 0, tolerance 0.25 has the level
 * 6 by the one and 4 by the other, where it is not within the tolerance; an estimate that is NaN always gives the ceiling. For
 * weights below 0 the quads can be far off all the same.
 * Answers NZ_OK, NZ_LEVEL_TOO_HIGH, NZ_BAD_TOLERANCE, NZ_BUFFER_TOO_SHORT or NZ_POINT_NOT_FINITE. */
uint32_t nz_conic_compute_quad_pow2(const float *NZ_RESTRICT src, nz_len src_len, float weight, float tolerance, uint32_t ceiling, uint32_t *level);

/* The cut of nz_conic_chop_into_quads_pow2 at the level for a tolerance of 0.25, by the ceiling NZ_MAX_CONIC_TO_QUAD_POW2: 64
 * places for points, 0 where none is written, and the number of quads, 16 at most. Answers NZ_OK, NZ_BUFFER_TOO_SHORT or
 * NZ_POINT_NOT_FINITE. */
uint32_t nz_auto_conic_to_quads(const float *NZ_RESTRICT src, nz_len src_len, float weight, float out[128], nz_len *quads);

/* Both halves of a conic as the formulas give them: three points and a weight for each, 7 numbers.
 * Answers NZ_OK or NZ_BUFFER_TOO_SHORT. */
uint32_t nz_conic_chop(const float *NZ_RESTRICT src, nz_len src_len, float weight, float halves[14]);

/* The between tests: (a - b) * (c - b) <= 0 as it is computed, and a <= b <= c or a >= b >= c, -0 and 0 being equal. */
bool nz_between_product(float a, float b, float c);
bool nz_between_exact(float a, float b, float c);

/* ---- dates: tables of whole milliseconds, for each entry x, a recorded time, and y, its date ---- */

/* Proved: of two recorded times that one table dates, the later never gets the earlier date, whatever the table. And a
 * bridge whose points have every coordinate from 0 to NZ_MAX_ENTRY and rise from start to middle to end in x and in y, ties
 * allowed, is never refused with NZ_ENTRY_OUT_OF_RANGE or NZ_TABLE_FALLS, whatever the weight; the first and the last entry of
 * its table are its ends rounded down, and every time from the first x to the last is dated. Nothing has to be tested before:
 * what makes no table is refused. Between two tables order is the caller's: the second has to start where the first ends, or
 * later. */

/* Makes the date table of a conic. It is cut as by nz_cut_in_order_both, and every second point from the first on, an end of
 * a quad, is an entry, its x and its y rounded down: 2^level + 1 entries, NZ_TABLE_ROOM(level) numbers from table[0] on. What
 * is behind these keeps its contents, and so does all of it beside a refusal.
 *   Answers NZ_OK; NZ_LEVEL_TOO_HIGH; NZ_BUFFER_TOO_SHORT for fewer than NZ_TABLE_ROOM(level) numbers of room or six of a
 * source; NZ_ENTRY_OUT_OF_RANGE where a coordinate that is taken is not finite, below 0 or above NZ_MAX_ENTRY before it is
 * rounded (-0 is not below 0); NZ_TABLE_FALLS where, once rounded, an x or a y is below that of the entry before. */
uint32_t nz_date_table(const float *NZ_RESTRICT src, nz_len src_len, float weight, uint32_t level, uint32_t *NZ_RESTRICT table, nz_len table_len);

/* The date of a recorded time by a table, which is tested first. At the last x it is the last y. Before that it is counted
 * from the last entry whose x is not above the time: its y and (recorded - x) * (next y - y) / (next x - x), rounded down.
 * Entries may share their x; the time of that x then has the date of the last of them.
 *   Lend it the table and nothing behind it: table_len is NZ_TABLE_ROOM(level) of the level that the table was made at, not
 * the length of a longer buffer. A tail would be taken for entries, and where these happen to rise it is not refused.
 *   Answers NZ_OK; NZ_BUFFER_TOO_SHORT for length 0; NZ_ODD_LENGTH for half an entry, so for length 1 too;
 * NZ_ENTRY_OUT_OF_RANGE for a number above NZ_MAX_ENTRY; NZ_TABLE_FALLS; NZ_TIME_OUTSIDE. *date is stored for NZ_OK alone. */
uint32_t nz_date_at(const uint32_t *NZ_RESTRICT table, nz_len table_len, uint32_t recorded, uint32_t *date);

/* The same of many recorded times, in any order, by one test of the table: each date is stored over its time.
 *   Answers as nz_date_at does; with no times the table is tested all the same. Beside a refusal the times are as they stood.
 * For NZ_TIME_OUTSIDE, and for that alone, *first_bad is stored: the place, counted from 0, of the first time outside. */
uint32_t nz_date_all(const uint32_t *NZ_RESTRICT table, nz_len table_len, uint32_t *NZ_RESTRICT times, nz_len times_len, nz_len *first_bad);

/* ---- the journal: records one behind the other, as bytes, little-endian on every target ---- */

/* A record is a length of four bytes, which counts the bytes that follow it, a kind of two bytes, and the payload, words of
 * four bytes. A conic has the length 30, a transform 26, a correction 6; that of -250 milliseconds is the ten bytes
 * 06 00 00 00 03 00 06 FF FF FF. Words are bits: bring floats into them and back by memcpy, so that the bits of a NaN survive,
 * and an int32_t in the same way.
 *   Proved: whatever byte a journal of good records is cut at, reading it gives exactly the records that are whole before the
 * cut, and then NZ_JOURNAL_END at a boundary and NZ_JOURNAL_SHORT elsewhere. What was written is read as it was, every bit of
 * its words. Writing again what was read from an uncut journal restores the same bytes. A journal that is written on at its end
 * reads as the whole records that were there and the new one.
 *
 * AFTER A POWER CUT write on at the *end of nz_journal_end. The journal's length is then the *next of nz_journal_write and no
 * more: a torn tail can be longer than the record that is written over it, and what is left of it would be taken for the next
 * record. So cut the tail off, or keep the length yourself.
 *   Lend the bytes that were written and no others. Nothing tells flash that was never written from damage: FF FF FF FF is a
 * length that no kind has, so that erased bytes are refused with NZ_UNKNOWN_KIND or NZ_BAD_LENGTH, and fewer than six of them
 * are a torn tail.
 *   A written record is in your buffer and not yet on the medium. Bring it there from its first byte to its last, and count
 * only bytes that are there: no sum guards a payload, and erased bytes where it should be are read as one. */

/* Reads the record at an offset. The first that applies is what comes of it: no byte left, also where the offset is past the
 * end, NZ_JOURNAL_END; one to three, NZ_JOURNAL_SHORT; a length below 2, NZ_BAD_LENGTH; fewer than six bytes left,
 * NZ_JOURNAL_SHORT; a kind that is none, NZ_UNKNOWN_KIND; another length than its kind's, NZ_BAD_LENGTH; a payload that is not
 * all there, NZ_JOURNAL_SHORT; else NZ_JOURNAL_RECORD. So no length, however large, leads past the end.
 *   Answers NZ_OK, NZ_BAD_LENGTH or NZ_UNKNOWN_KIND. *what is stored for NZ_OK alone; *kind, and as many words as the payload
 * has, 7, 6 or 1, where there is a record. *next is always stored: the offset behind the record, and where there is none `at`
 * itself, which beside a refusal is the bad record's offset. Test the answer, and then *what: the end is no refusal. */
uint32_t nz_journal_read(const uint8_t *NZ_RESTRICT journal, nz_len journal_len, nz_len at, uint32_t *what, uint32_t *kind, uint32_t words[7], nz_len *next);

/* Writes a record of a kind at an offset. Of the seven words that are lent as many are taken as its payload has. journal_len
 * is the room of the buffer and not the length of what was written so far; NZ_MAX_RECORD bytes from the offset on are enough
 * for any kind. The bytes before the record and behind it keep their contents.
 *   Answers NZ_OK; NZ_UNKNOWN_KIND; NZ_BUFFER_TOO_SHORT where the record does not fit, also for an offset past the end. *next,
 * the offset behind the record, is stored for NZ_OK alone. */
uint32_t nz_journal_write(uint8_t *NZ_RESTRICT journal, nz_len journal_len, nz_len at, uint32_t kind, const uint32_t words[7], nz_len *next);

/* Reads a journal from its first byte on, and gives the offset behind its last whole record: the place to write on at, where
 * it ends at a boundary and where its tail is torn.
 *   Answers NZ_OK; or NZ_BAD_LENGTH or NZ_UNKNOWN_KIND of the first bad record, whose offset is then stored in *end. What is
 * before it are whole records, and what to do with the rest is yours to decide. */
uint32_t nz_journal_end(const uint8_t *NZ_RESTRICT journal, nz_len journal_len, nz_len *end);

/* ---- quads and cubics: six and eight lent numbers ---- */

/* The point at t, 0 <= t <= 1. Answers NZ_OK, NZ_OUT_OF_RANGE or NZ_BUFFER_TOO_SHORT. */
uint32_t nz_eval_quad_at(const float *NZ_RESTRICT src, nz_len src_len, float t, float out[2]);
uint32_t nz_eval_cubic_pos_at(const float *NZ_RESTRICT src, nz_len src_len, float t, float out[2]);

/* The tangent at t, 0 <= t <= 1: of a quad as long as the derivative, of a cubic a third as long. At an end whose control
 * point coincides with it, a quad's is the chord, and a cubic's goes by the next control point, or else is the chord.
 * The same answers. */
uint32_t nz_eval_quad_tangent_at(const float *NZ_RESTRICT src, nz_len src_len, float t, float out[2]);
uint32_t nz_eval_cubic_tangent_at(const float *NZ_RESTRICT src, nz_len src_len, float t, float out[2]);

/* Cuts at t, 0 < t < 1, into two that share a point: 10 numbers for quads, 14 for cubics. The same answers. */
uint32_t nz_chop_quad_at(const float *NZ_RESTRICT src, nz_len src_len, float t, float *NZ_RESTRICT dst, nz_len dst_len);
uint32_t nz_chop_cubic_at2(const float *NZ_RESTRICT src, nz_len src_len, float t, float *NZ_RESTRICT dst, nz_len dst_len);

/* Where a quad's curvature is greatest: 0, 1 or between. Answers NZ_OK, NZ_BUFFER_TOO_SHORT or NZ_CURVATURE_UNDEFINED. */
uint32_t nz_find_quad_max_curvature(const float *NZ_RESTRICT src, nz_len src_len, float *t);

/* ---- roots, each strictly between 0 and 1, rising; these return a count and no answer, but for nz_find_cubic_inflections ---- */

/* numer / denom, if it lies strictly between 0 and 1. Returns how many there are, 0 or 1. */
uint32_t nz_valid_unit_divide(float numer, float denom, float *root);

/* The roots of a * t^2 + b * t + c. Returns how many there are, 0 to 2. */
uint32_t nz_find_unit_quad_roots(float a, float b, float c, float roots[2]);

/* Where a quad's or a cubic's derivative is zero along an axis on which its points are a, b, c (and d). Returns in how many
 * places. */
uint32_t nz_find_quad_extrema(float a, float b, float c, float *root);
uint32_t nz_find_cubic_extrema(float a, float b, float c, float d, float roots[2]);

/* Where a cubic's curvature is zero, and in how many places. Answers NZ_OK or NZ_BUFFER_TOO_SHORT. */
uint32_t nz_find_cubic_inflections(const float *NZ_RESTRICT src, nz_len src_len, float roots[2], uint32_t *count);

/* ---- transforms: six numbers sx, ky, kx, sy, tx, ty; (x, y) goes to (sx*x + kx*y + tx, ky*x + sy*y + ty) ---- */

/* The matrices that do nothing, move, scale and skew. */
void nz_transform_identity(float out[6]);
void nz_transform_from_translate(float tx, float ty, float out[6]);
void nz_transform_from_scale(float sx, float sy, float out[6]);
void nz_transform_from_skew(float kx, float ky, float out[6]);

/* What b does and then a; what a does and then b.
 *   *rounded is set to true exactly where some double was narrowed to a float and not kept: of the six sums of two products,
 * before tx or ty is added, where a or b skews. Where neither skews, or one does nothing, no double is narrowed, and it is
 * false. It says nothing of the rounding inside float or double arithmetic. */
void nz_transform_pre_concat(const float a[6], const float b[6], float out[6], bool *rounded);
void nz_transform_post_concat(const float a[6], const float b[6], float out[6], bool *rounded);

/* The same where one of the two scales, or moves: before m does what it does, or after. By nz_transform_post_translate *rounded
 * is always false: each of its sums is a number of m, or NaN. */
void nz_transform_pre_scale(const float m[6], float sx, float sy, float out[6], bool *rounded);
void nz_transform_post_scale(const float m[6], float sx, float sy, float out[6], bool *rounded);
void nz_transform_pre_translate(const float m[6], float tx, float ty, float out[6], bool *rounded);
void nz_transform_post_translate(const float m[6], float tx, float ty, float out[6], bool *rounded);

/* The matrix that undoes m. What is given is finite in all six numbers; an inverse that is not is refused, as that of a scale of
 * 0, or of a move by an infinity. A matrix that does nothing is given as it is.
 *   *rounded is set as by a product: of a matrix that skews its determinant is narrowed, for its test, and then the six entries
 * of the inverse; else nothing is narrowed, and it is false. Beside a refusal it keeps its contents, as out does.
 *   Answers NZ_OK, NZ_NEARLY_SINGULAR, which only a matrix that skews has, and before the other, or NZ_INVERSE_NOT_FINITE. */
uint32_t nz_transform_invert(const float m[6], float out[6], bool *rounded);

/* Maps one point where it stands. */
void nz_transform_map_point(const float m[6], float point[2]);

/* Maps each point of a buffer where it stands. Answers NZ_OK or NZ_ODD_LENGTH. */
uint32_t nz_transform_map_numbers(const float m[6], float *NZ_RESTRICT numbers, nz_len numbers_len);

/* What kind of matrix it is: `is_scale`, `is_skew` and `is_translate` ask that it does nothing else; `is_scale_translate`
 * that it does either or both and does not skew; `is_valid` that it is finite and that both numbers of get_scale are above
 * 2^-23. */
bool nz_transform_is_finite(const float m[6]);
bool nz_transform_is_valid(const float m[6]);
bool nz_transform_is_identity(const float m[6]);
bool nz_transform_is_scale(const float m[6]);
bool nz_transform_is_skew(const float m[6]);
bool nz_transform_is_translate(const float m[6]);
bool nz_transform_is_scale_translate(const float m[6]);
bool nz_transform_has_scale(const float m[6]);
bool nz_transform_has_skew(const float m[6]);
bool nz_transform_has_translate(const float m[6]);

/* The lengths of (sx, kx) and (ky, sy), as roots of sums of squares in float: 1e20 squared is infinite, 1e-30 squared is 0. */
void nz_transform_get_scale(const float m[6], float out[2]);

/* ---- the float ground ---- */

/* Neither NaN nor an infinity; of a point, that the product of its coordinates is neither. */
bool nz_is_finite_f32(float x);
bool nz_is_finite_f64(double x);
bool nz_point_is_finite(float x, float y);

/* The absolute value, 0 for -0; the same number as a double; the nearest float, ties to even, its sign kept: of a negative
 * too small for a float it is -0. */
float nz_abs_f32(float x);
double nz_widen(float x);
float nz_narrow(double x);

/* The float of nz_narrow, and in *loss one of the NZ_NARROW_ numbers: what became of the value. An infinity and a NaN that are
 * given are kept. */
float nz_narrow_told(double x, uint32_t *loss);

/* The nearest number to the square root; of -0 it is -0, below zero NaN. */
float nz_sqrt_f32(float x);
double nz_sqrt_f64(double x);

/* ---- the float environment ---- */

/* What nz_float_environment_ok asks of floats. All numbers are volatile, so that no compiler can know what comes of them. */
static inline bool nz_floats_ok(void) {
    volatile float one = 1.0f, next = 1.00000011920928955078125f;  /* neighbours */
    volatile float half = 5.9604644775390625e-8f;                  /* the distance between them, halved */
    volatile float wide = 16777216.0f;                             /* from here on neighbours are 2 apart */
    volatile float least = 1.17549435e-38f;                        /* of the normal floats */
    volatile float down = 1.1920928955078125e-7f, up = 8388608.0f; /* by 2^-23 it becomes the least of all, and back */
    volatile float down_to_even = one + half, up_to_even = next + half;
    volatile float product = least * down, difference = least * next;
    volatile float lost = (wide + one) - wide; /* what is not stored on the way has no more digits all the same */
    product = product * up;
    difference = difference - least;
    difference = difference + least;
    return down_to_even <= one && up_to_even > next && product >= least && difference > least && lost < half;
}

/* The same of doubles. */
static inline bool nz_doubles_ok(void) {
    volatile double one = 1.0, next = 1.0000000000000002220446049250313;
    volatile double half = 1.1102230246251565e-16;
    volatile double wide = 9007199254740992.0;
    volatile double least = 2.2250738585072014e-308;
    volatile double down = 2.220446049250313e-16, up = 4503599627370496.0;
    volatile double down_to_even = one + half, up_to_even = next + half;
    volatile double product = least * down, difference = least * next;
    volatile double lost = (wide + one) - wide;
    product = product * up;
    difference = difference - least;
    difference = difference + least;
    return down_to_even <= one && up_to_even > next && product >= least && difference > least && lost < half;
}

/* Whether floats and doubles are computed here as the proofs take them: to the nearest, ties to even, with subnormal numbers
 * kept, as inputs and as results, and with no more digits than their type has. Where it is false nothing that is proved holds:
 * call nothing else of the library there. Ask it at boot, and wherever floats can be set otherwise: in an interrupt, which on a
 * Cortex-M takes its settings from FPDSCR, and on each thread. It is compiled with the program that asks, and sets the flags
 * of IEEE 754 for inexact and underflow. */
static inline bool nz_float_environment_ok(void) {
    return nz_floats_ok() && nz_doubles_ok();
}

#ifdef __cplusplus
}
#endif

#endif
