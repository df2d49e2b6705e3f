// Inputs by hand for the list: inverses that are refused since an entry is not finite, each entry in its turn, and what is next to
// them. Inputs from a seed hardly ever have an entry alone that is not finite.
use crate::calls::{Case, CALLS};
use crate::inverse::{entries, inverse, not_finite};
use crate::lone_losses::{case, INVERSE, LARGE, NOTHING};
use crate::of_transforms::matrix;

const INF: f32 = f32::INFINITY;
const NAN: f32 = f32::NAN;
const MAX: f32 = f32::MAX;
const SMALL: f32 = f32::from_bits(0x0d80_0000); // 2^-100
const P18: f32 = f32::from_bits(0x3680_0000); // 2^-18
const P30: f32 = f32::from_bits(0x3080_0000); // 2^-30
// The least number; 2^-128, the largest whose inverse overflows; and the next one.
const LEAST: f32 = f32::from_bits(1);
const TOO_SMALL: f32 = f32::from_bits(0x0020_0000);
const SMALLEST: f32 = f32::from_bits(0x0020_0001);

// Each a matrix, the number that has to answer it, and the entries that are not finite in the inverse that is computed.
const CASES: &[([f32; 6], u32, &[usize])] = &[
    // a scale
    ([0.0, 0.0, 0.0, 2.0, 3.0, 5.0], 7, &[0, 4]),
    ([2.0, 0.0, 0.0, 0.0, 3.0, 5.0], 7, &[3, 5]),
    ([-0.0, 0.0, 0.0, 2.0, 3.0, 5.0], 7, &[0, 4]),
    ([2.0, 0.0, 0.0, -0.0, 3.0, 5.0], 7, &[3, 5]),
    ([TOO_SMALL, 0.0, 0.0, 1.0, 0.0, 0.0], 7, &[0, 4]),
    ([1.0, 0.0, 0.0, -TOO_SMALL, 0.0, 0.0], 7, &[3, 5]),
    ([-LEAST, 0.0, 0.0, 1.0, 0.0, 0.0], 7, &[0, 4]),
    ([1.0, 0.0, 0.0, LEAST, 0.0, 0.0], 7, &[3, 5]),
    ([NAN, 0.0, 0.0, 1.0, 0.0, 0.0], 7, &[0, 4]),
    ([1.0, 0.0, 0.0, NAN, 0.0, 0.0], 7, &[3, 5]),
    // a scale, and a move that alone is too large over it, or an infinity times a 0
    ([SMALL, 0.0, 0.0, 1.0, LARGE, 0.0], 7, &[4]),
    ([1.0, 0.0, 0.0, SMALL, 0.0, LARGE], 7, &[5]),
    ([INF, 0.0, 0.0, 2.0, INF, 0.0], 7, &[4]),
    ([2.0, 0.0, 0.0, -INF, 0.0, INF], 7, &[5]),
    // all zeros, which is no skewed matrix, and so not 6
    ([0.0; 6], 7, &[0, 3, 4, 5]),
    ([-0.0; 6], 7, &[0, 3, 4, 5]),
    // a move
    ([1.0, 0.0, 0.0, 1.0, INF, 0.0], 7, &[4]),
    ([1.0, 0.0, 0.0, 1.0, 0.0, -INF], 7, &[5]),
    ([1.0, 0.0, 0.0, 1.0, NAN, 5.0], 7, &[4]),
    ([1.0, 0.0, 0.0, 1.0, 5.0, NAN], 7, &[5]),
    // a skew, with a determinant of 2^-30
    ([0.0, -1.0, P30, LARGE, 0.0, 0.0], 7, &[0]),
    ([P30, LARGE, 0.0, 1.0, 0.0, 0.0], 7, &[1]),
    ([P30, 0.0, LARGE, 1.0, 0.0, 0.0], 7, &[2]),
    ([LARGE, -1.0, P30, 0.0, 0.0, 0.0], 7, &[3]),
    ([P30, 0.0, 1.0, 1.0, LARGE, 0.0], 7, &[4]),
    ([1.0, 1.0, 0.0, P30, 0.0, LARGE], 7, &[5]),
    // a skew, and an infinity that is moved by; or a determinant that is one, or a NaN
    ([1.0, 2.0, 3.0, 4.0, INF, 0.0], 7, &[4, 5]),
    ([INF, 1.0, 1.0, 1.0, 0.0, 0.0], 7, &[3, 5]),
    ([INF, 1.0, 1.0, 0.0, 0.0, 0.0], 7, &[0, 1, 2, 3, 4, 5]),
    // a skew with a determinant of 0 or of 2^-36, where 6 comes first
    ([1.0, 2.0, 2.0, 4.0, INF, 0.0], 6, &[0, 1, 2, 3, 4, 5]),
    ([P18, 0.0, 1.0, P18, 0.0, NAN], 6, &[4, 5]),
    ([P18, 0.0, LARGE, P18, 0.0, 0.0], 6, &[2]),
    // what is given: what does nothing, the smallest scale, an infinite one, the largest move
    ([1.0, -0.0, -0.0, 1.0, -0.0, -0.0], 0, &[]),
    ([1.0, 0.0, -0.0, 1.0, -0.0, 0.0], 0, &[]),
    ([SMALLEST, 0.0, 0.0, SMALLEST, 0.0, 0.0], 0, &[]),
    ([INF, 0.0, 0.0, -INF, 3.0, 5.0], 0, &[]),
    ([1.0, 0.0, 0.0, 1.0, MAX, -MAX], 0, &[]),
];

pub const TITLE: &str = "inverses that are not finite, and what is next to them";

// The inputs, with the call's place in the table. Each has to show what it is for.
pub fn cases() -> Vec<(usize, Case)> {
    let call = CALLS.iter().position(|c| c.name == INVERSE).expect("a call of the table");
    for (m, number, places) in CASES {
        let (t, bits) = (matrix(m), |m: &[f32; 6]| m.map(f32::to_bits));
        let answer = inverse(&t);
        assert_eq!((answer.err().unwrap_or(0), &not_finite(&t)[..]), (*number, *places), "{m:?}");
        assert!(!t.is_identity() || answer.is_ok_and(|r| bits(&entries(&r)) == bits(m)), "{m:?}");
    }
    CASES.iter().map(|(m, ..)| (call, case(*m, NOTHING))).collect()
}
