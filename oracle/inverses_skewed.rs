// Skewed matrices for the judge of inverses, in the order of from_row: sx, ky, kx, sy, tx, ty.
use crate::flags_calls::Given;
use crate::flags_classes::*;
use crate::flags_inverses::{self as inverses, number_of, outside};
use crate::inputs::Inputs;
use crate::inverses_classes::{about, either, mirrored, special};

fn with_one(i: &mut Inputs, number: fn(&mut Inputs) -> f32) -> Given {
    let mut m = row(i, |i| wide(i, -3, 3));
    m[i.below(6) as usize] = number(i);
    inverse_of(m)
}

pub fn one_special(i: &mut Inputs) -> Given {
    with_one(i, special)
}

pub fn one_not_finite(i: &mut Inputs) -> Given {
    with_one(i, infinity_or_nan)
}

pub fn all_special(i: &mut Inputs) -> Given {
    loop {
        let m = row(i, special);
        if skews(&m) {
            return inverse_of(m);
        }
    }
}

// An infinity that is a factor of one product or of both, the other factor a 0 or not; or a NaN.
pub fn no_determinant(i: &mut Inputs) -> Given {
    let mut m = row(i, |i| wide(i, -3, 3));
    let infinity = |i: &mut Inputs| sign(i) * f32::INFINITY;
    match i.below(4) {
        0 => m[0] = infinity(i),
        1 => (m[0], m[3]) = (infinity(i), i.zero()),
        2 => (m[0], m[1 + i.below(2) as usize]) = (infinity(i), infinity(i)),
        _ => m[i.below(2) as usize] = f32::NAN,
    }
    // the skews take the place of the scales, or not
    if i.chance(2) {
        m = [m[1], m[0], m[3], m[2], m[4], m[5]];
    }
    inverse_of(either(i, m))
}

// The move across alone is too large: by what it is over a small scale, or by a large skew.
fn move_too_large(i: &mut Inputs) -> [f32; 6] {
    if i.chance(2) {
        [power(i, -20, -10), i.zero(), wide(i, -5, 5), power(i, -5, 5), wide(i, 120, 127), wide(i, -5, 5)]
    } else {
        [power(i, 0, 3), i.zero(), wide(i, 100, 120), power(i, 0, 3), wide(i, -5, 5), wide(i, 60, 70)]
    }
}

// The number of an entry of the first four has no part in the determinant, which is 2^2e, and over it is 2^128 or more.
fn entry_too_large(i: &mut Inputs, e: i32) -> [f32; 6] {
    let (k, number) = (i.below(4) as usize, wide(i, 128 + 2 * e, 127));
    outside(i, k, number, e)
}

pub fn one_too_large(i: &mut Inputs) -> Given {
    let (k, e) = (i.below(3), exponent(i, -17, -1));
    let m = if k == 0 { move_too_large(i) } else { entry_too_large(i, e) };
    inverse_of(either(i, m))
}

// The number of entry k over the determinant is a few units about the largest float, and is rounded.
fn entry_about_largest(i: &mut Inputs, k: usize) -> [f32; 6] {
    let e = exponent(i, -17, -1);
    let mut m = outside(i, k, 1.0, e);
    let [place, partner] = number_of(k);
    let factors: Vec<usize> = (0..4).filter(|j| *j != place && *j != partner).collect();
    m[factors[0]] = wide(i, e, e);
    let det = m[factors[0]] as f64 * m[factors[1]] as f64;
    m[place] = sign(i) * about(i, (f32::MAX as f64 * det.abs()) as f32);
    m
}

fn move_about_largest(i: &mut Inputs) -> [f32; 6] {
    let x = wide(i, -15, -1);
    let by = sign(i) * about(i, f32::MAX * x.abs());
    [x, i.zero(), wide(i, -5, 5), power(i, 0, 3), by, i.zero()]
}

pub fn one_about_largest(i: &mut Inputs) -> Given {
    let k = i.below(6) as usize;
    inverse_of(match k {
        4 => move_about_largest(i),
        5 => mirrored(move_about_largest(i)),
        _ => entry_about_largest(i, k),
    })
}

fn with_move_not_finite(i: &mut Inputs, mut g: Given) -> Given {
    g.m[4 + i.below(2) as usize] = infinity_or_nan(i);
    g
}

// A move that is not finite; a determinant of 0, over which nothing is finite; and one over which an entry is too large.
pub fn nearly_singular(i: &mut Inputs) -> Given {
    match i.below(3) {
        0 => {
            let g = inverses::nearly_singular(i);
            with_move_not_finite(i, g)
        }
        1 => {
            let (mut m, p) = (row(i, |i| wide(i, -5, 5)), power(i, -5, 5));
            (m[1], m[3]) = (m[0] * p, m[2] * p);
            inverse_of(m)
        }
        _ => {
            let e = exponent(i, -60, -19);
            inverse_of(entry_too_large(i, e))
        }
    }
}

// A move that is not finite, and an entry that is too large over a determinant next above 2^-36.
pub fn not_quite_singular(i: &mut Inputs) -> Given {
    if i.chance(2) {
        let g = inverses::not_quite_singular(i);
        return with_move_not_finite(i, g);
    }
    let above = 1.0 + (1 + i.below(4)) as f32 * f32::EPSILON;
    let m = [two_to(-18) * above, i.zero(), wide(i, 93, 127), two_to(-18), wide(i, -5, 5), i.zero()];
    inverse_of(either(i, m))
}

pub fn about_singular(i: &mut Inputs) -> Given {
    let g = if i.chance(2) { inverses::nearly_singular(i) } else { inverses::not_quite_singular(i) };
    with_move_not_finite(i, g)
}
