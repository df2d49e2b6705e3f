// Products made for their flag. Sum k of the six is of row k % 2 of the matrix that is last to act and column k / 2 of the other.
use crate::flags_calls::{Call, Given};
use crate::flags_classes::*;
use crate::inputs::Inputs;

// The product that does b first and then a, by one call or the other.
fn pair(i: &mut Inputs, a: [f32; 6], b: [f32; 6]) -> Given {
    if i.chance(2) { Given { call: Call::PreConcat, m: a, other: b } } else { Given { call: Call::PostConcat, m: b, other: a } }
}

fn scale(x: f32, y: f32) -> [f32; 6] {
    [x, 0.0, 0.0, y, 0.0, 0.0]
}

fn translate(x: f32, y: f32) -> [f32; 6] {
    [1.0, 0.0, 0.0, 1.0, x, y]
}

// Two matrices of whole numbers whose sums are below 2^23, the second of them skewed; a quarter of the other numbers is 0.
fn whole_pair(i: &mut Inputs) -> ([f32; 6], [f32; 6]) {
    let number = |i: &mut Inputs| if i.chance(4) { i.zero() } else { whole(i, 2000) };
    let (a, mut b) = (row(i, number), row(i, number));
    b[1] = whole(i, 2000);
    (a, b)
}

pub fn whole_numbers(i: &mut Inputs) -> Given {
    let (a, b) = whole_pair(i);
    pair(i, a, b)
}

// The two parts of a sum differ by 2^10 at most, so that it has eleven digits.
pub fn powers_of_two(i: &mut Inputs) -> Given {
    let (e, f) = (exponent(i, -55, 55), exponent(i, -55, 55));
    let (a, b) = (row(i, |i| power(i, e, e + 5)), row(i, |i| power(i, f, f + 5)));
    pair(i, a, b)
}

// Two matrices of which sum k has these two factors, and beside them two powers of two of the same sign, or with `lone` 0; in
// every other sum one factor is a power of two or 0.
fn with_one(i: &mut Inputs, k: usize, factors: [f32; 2], lone: bool) -> ([f32; 6], [f32; 6]) {
    let (r, c) = (k % 2, k / 2);
    loop {
        let (mut a, mut b) = ([0.0; 6], [0.0; 6]);
        for r in 0..2 {
            a[2 * i.below(2) as usize + r] = power(i, -2, 2);
        }
        for c in 0..3 {
            b[2 * c + i.below(2) as usize] = power(i, -2, 2);
        }
        let t = i.below(2) as usize;
        let beside = if lone || i.chance(2) { [0.0, power(i, -2, 2)] } else { [power(i, -2, 2), power(i, -2, 2)] };
        let same = (factors[0] < 0.0) ^ (factors[1] < 0.0) ^ (beside[0] < 0.0) ^ (beside[1] < 0.0);
        (a[2 * t + r], a[2 * (1 - t) + r]) = (factors[0], beside[0]);
        (b[2 * c + t], b[2 * c + 1 - t]) = (factors[1], if same { -beside[1] } else { beside[1] });
        (a[4], a[5]) = (wide(i, -10, 10), wide(i, -10, 10));
        if skews(&a) || skews(&b) {
            return (a, b);
        }
    }
}

// The same with all of a matrix 2^e as large.
fn times(m: [f32; 6], e: i32) -> [f32; 6] {
    m.map(|x| x * two_to(e))
}

fn one_rounded_pair(i: &mut Inputs) -> ([f32; 6], [f32; 6]) {
    let (k, factors) = (i.below(6) as usize, [wide(i, -1, 1), wide(i, -1, 1)]);
    let (a, b) = with_one(i, k, factors, false);
    let (e, f) = (exponent(i, -40, 40), exponent(i, -40, 40));
    (times(a, e), times(b, f))
}

pub fn one_rounded(i: &mut Inputs) -> Given {
    let (a, b) = one_rounded_pair(i);
    pair(i, a, b)
}

pub fn one_to_infinity(i: &mut Inputs) -> Given {
    let (k, e) = (i.below(6) as usize, exponent(i, 40, 88));
    let factors = if i.chance(2) { [power(i, e, e), power(i, 128 - e, 110)] } else { [wide(i, e, e), wide(i, 128 - e, 110)] };
    let (a, b) = with_one(i, k, factors, false);
    pair(i, a, b)
}

// A power of two from 2^-150 down, which leaves a zero, or digits that reach below 2^-149.
pub fn one_tiny(i: &mut Inputs) -> Given {
    let (k, e) = (i.below(6) as usize, exponent(i, -80, -60));
    let factors = if i.chance(2) { [power(i, e, e), power(i, -120, -150 - e)] } else { [wide(i, e, e), power(i, -120, -127 - e)] };
    let (a, b) = with_one(i, k, factors, true);
    pair(i, a, b)
}

// Whole numbers times 2^-149.
pub fn tiny_kept(i: &mut Inputs) -> Given {
    let e = exponent(i, -100, -49);
    let (a, b) = whole_pair(i);
    pair(i, times(a, e), times(b, -149 - e))
}

// Whole numbers times 2^-150 or less, the first of them odd.
pub fn tiny_rounded(i: &mut Inputs) -> Given {
    let (e, down) = (exponent(i, -105, -85), exponent(i, 0, 60));
    let (mut a, mut b) = whole_pair(i);
    (a[0], a[2]) = (2.0 * whole(i, 900) + 1.0, 2.0 * whole(i, 900));
    b[0] = 2.0 * whole(i, 900) + 1.0;
    pair(i, times(a, e), times(b, -150 - down - e))
}

// Up to three numbers of a pair become infinities or NaN.
fn made_not_finite(i: &mut Inputs, a: &mut [f32; 6], b: &mut [f32; 6]) {
    for _ in 0..1 + i.below(3) {
        let (k, x) = (i.below(6) as usize, infinity_or_nan(i));
        if i.chance(2) { a[k] = x } else { b[k] = x }
    }
}

pub fn not_finite(i: &mut Inputs) -> Given {
    let (mut a, mut b) = whole_pair(i);
    made_not_finite(i, &mut a, &mut b);
    pair(i, a, b)
}

// One that is added behind the narrowing, and a column that has no part in the rounded sum: both leave it as it is.
pub fn not_finite_one_rounded(i: &mut Inputs) -> Given {
    let (k, factors) = (i.below(6) as usize, [wide(i, -1, 1), wide(i, -1, 1)]);
    let (mut a, mut b) = with_one(i, k, factors, false);
    a[4 + i.below(2) as usize] = infinity_or_nan(i);
    let c = (k / 2 + 1 + i.below(2) as usize) % 3;
    b[2 * c + i.below(2) as usize] = infinity_or_nan(i);
    pair(i, a, b)
}

pub fn plain(i: &mut Inputs) -> Given {
    let number = |i: &mut Inputs| wide(i, -5, 5);
    let (a, b) = (row(i, number), row(i, number));
    pair(i, a, b)
}

pub fn any(i: &mut Inputs) -> Given {
    i.begin();
    let (a, b) = (i.matrix(), i.matrix());
    pair(i, a, b)
}

// The sums are whole numbers, and what is added to them has digits far below 1.
pub fn addition_rounded(i: &mut Inputs) -> Given {
    let (mut a, b) = whole_pair(i);
    (a[4], a[5]) = (wide(i, -60, -20), wide(i, -60, -20));
    pair(i, a, b)
}

pub fn neither_skews(i: &mut Inputs) -> Given {
    let number = |i: &mut Inputs| [i.zero(), i.zero(), wide(i, -80, 80), wide(i, -80, 80)];
    let ([p, q, x, y], [r, s, z, w]) = (number(i), number(i));
    let (a, b) = ([x, p, q, y, wide(i, -80, 80), wide(i, -80, 80)], [z, r, s, w, wide(i, -80, 80), wide(i, -80, 80)]);
    match i.below(6) {
        0 => Given { call: Call::PreScale, m: a, other: scale(z, w) },
        1 => Given { call: Call::PostScale, m: a, other: scale(z, w) },
        2 => Given { call: Call::PreTranslate, m: a, other: translate(z, w) },
        3 => Given { call: Call::PostTranslate, m: a, other: translate(z, w) },
        _ => pair(i, a, b),
    }
}

pub fn one_does_nothing(i: &mut Inputs) -> Given {
    let (one, wild) = (identity(i), i.chance(2));
    let m = row(i, |i| if wild { i.any() } else { wide(i, -100, 100) });
    match i.below(6) {
        0 => Given { call: Call::PreScale, m, other: scale(1.0, 1.0) },
        1 => Given { call: Call::PostScale, m, other: scale(1.0, 1.0) },
        2 => Given { call: Call::PreTranslate, m, other: translate(0.0, -0.0) },
        3 => Given { call: Call::PostTranslate, m, other: translate(-0.0, 0.0) },
        4 => pair(i, one, m),
        _ => pair(i, m, one),
    }
}

fn scaled(before: bool, m: [f32; 6], x: f32, y: f32) -> Given {
    Given { call: if before { Call::PreScale } else { Call::PostScale }, m, other: scale(x, y) }
}

pub fn scaled_by_powers(i: &mut Inputs) -> Given {
    let (before, m) = (i.chance(2), row(i, |i| wide(i, -30, 30)));
    let (x, y) = (power(i, -30, 30), power(i, -30, 30));
    scaled(before, m, x, y)
}

// A wide number scales one column, or one row, in which one number is wide, and the others are powers of two.
pub fn scaled_one_rounded(i: &mut Inputs) -> Given {
    let before = i.chance(2);
    let k = i.below(if before { 4 } else { 6 }) as usize;
    let line = |k: usize| if before { k / 2 } else { k % 2 };
    let mut m = row(i, |i| wide(i, -20, 20));
    for other in (0..6).filter(|other| *other != k && line(*other) == line(k)) {
        m[other] = power(i, -20, 20);
    }
    let mut by = [power(i, -20, 20), power(i, -20, 20)];
    by[line(k)] = wide(i, -20, 20);
    scaled(before, m, by[0], by[1])
}

pub fn moved_one_rounded(i: &mut Inputs) -> Given {
    let (k, factors) = (4 + i.below(2) as usize, [wide(i, -1, 1), wide(i, -1, 1)]);
    loop {
        let (m, b) = with_one(i, k, factors, false);
        if skews(&m) {
            return Given { call: Call::PreTranslate, m, other: translate(b[4], b[5]) };
        }
    }
}

// No sum is rounded by a move behind a matrix: each is one of its numbers, times 1.
pub fn moved_after(i: &mut Inputs) -> Given {
    let (m, x, y) = (row(i, |i| wide(i, -60, 60)), wide(i, -60, 60), wide(i, -60, 60));
    Given { call: Call::PostTranslate, m, other: translate(x, y) }
}

pub fn any_scale_or_move(i: &mut Inputs) -> Given {
    i.begin();
    let (m, x, y) = (i.matrix(), i.value(), i.value());
    match i.below(4) {
        0 => scaled(true, m, x, y),
        1 => scaled(false, m, x, y),
        2 => Given { call: Call::PreTranslate, m, other: translate(x, y) },
        _ => Given { call: Call::PostTranslate, m, other: translate(x, y) },
    }
}
