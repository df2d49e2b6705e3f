// Inverses made for their flag, from matrices in the order of from_row: sx, ky, kx, sy, tx, ty.
use crate::flags_calls::Given;
use crate::flags_classes::*;
use crate::inputs::Inputs;

// A skewed matrix of whole numbers, times 2^e, whose determinant is p * q times 2^2e, and so a power of two; and a move by whole
// numbers. The inverse is of whole numbers below 2^24, over powers of two.
fn of_power_determinant(i: &mut Inputs, e: i32) -> [f32; 6] {
    let (p, q) = (power(i, 0, 4), power(i, 0, 4));
    let (b, c) = (whole(i, 100), if i.chance(4) { 0.0 } else { whole(i, 100) });
    let [sx, ky, kx, sy] = [p, c * p, b, c * b + q].map(|x| x * two_to(e));
    let mut by = || if i.chance(4) { i.zero() } else { whole(i, 1000) };
    [sx, ky, kx, sy, by(), by()]
}

pub fn power_of_two(i: &mut Inputs) -> Given {
    let e = exponent(i, -15, 55);
    inverse_of(of_power_determinant(i, e))
}

// The determinant is 2^128 or more.
pub fn determinant_to_infinity(i: &mut Inputs) -> Given {
    let e = exponent(i, 64, 100);
    inverse_of(of_power_determinant(i, e))
}

// Found by search: multiples of 7 or of 13 whose determinant is 7 or 13 times a power of two but for a few units in its last
// digit as an f64; over that, each comes out as what it is the multiple of, over a power of two.
const FOUND: [[f32; 4]; 8] = [
    [4322120192.0, 3761342.0, -4322474.0, 866930688.0],
    [6845676032.0, 3669926.0, -4771026.0, 547349504.0],
    [4595666432.0, 6564369.0, -2071349.0, 439022080.0],
    [5357323776.0, 3835118.0, -2215787.0, 376606720.0],
    [4739850752.0, 6271772.0, -2779933.0, 790526464.0],
    [4581810688.0, 4276174.0, -1006957.0, 440351744.0],
    [5760814592.0, 4612738.0, -4547478.0, 650424320.0],
    [4189635072.0, 6869975.0, -656131.0, 481571328.0],
];

// One of these, each row and each column of it times a power of two, the rows exchanged or not, and moved along one axis.
pub fn determinant_rounded(i: &mut Inputs) -> Given {
    let [sx, ky, kx, sy] = FOUND[i.below(8) as usize];
    let [r, s, u, v] = std::array::from_fn(|_| power(i, -20, 15));
    let [sx, ky, kx, sy] = [sx * r * u, ky * s * u, kx * r * v, sy * s * v];
    let mut by = [i.zero(), i.zero()];
    by[i.below(2) as usize] = if i.chance(4) { i.zero() } else { power(i, -20, 20) };
    inverse_of(if i.chance(2) { [sx, ky, kx, sy, by[0], by[1]] } else { [ky, sx, sy, kx, by[0], by[1]] })
}

// The number of which entry k of an inverse is made, of the first four, and the other one on its diagonal.
pub fn number_of(k: usize) -> [usize; 2] {
    [[3, 0], [1, 2], [2, 1], [0, 3]][k]
}

// A move along the axis on which that number has no part.
fn move_beside(i: &mut Inputs, m: &mut [f32; 6], k: usize) {
    (m[4], m[5]) = (i.zero(), i.zero());
    m[if k < 2 { 5 } else { 4 }] = if i.chance(4) { i.zero() } else { power(i, -8, 8) };
}

// Entry k alone: its number is no multiple of 3, 5 or 7, and the other three are, and the determinant.
fn no_multiple(i: &mut Inputs, k: usize) -> [f32; 6] {
    let (odd, c, d) = ([3.0, 5.0, 7.0][i.below(3) as usize], whole(i, 300), whole(i, 300));
    let mut m = [odd * c, odd * c, odd * d, odd * d, 0.0, 0.0];
    let [number, partner] = number_of(k);
    (m[number], m[partner]) = (power(i, 0, 10) + odd * c * d, odd);
    let e = exponent(i, -10, 30);
    m = m.map(|x| x * two_to(e));
    move_beside(i, &mut m, k);
    m
}

// The number of entry k has no part in the determinant, which is 2^2e or that below 0.
pub fn outside(i: &mut Inputs, k: usize, number: f32, e: i32) -> [f32; 6] {
    let mut m = std::array::from_fn(|_| power(i, e, e));
    let [place, partner] = number_of(k);
    (m[place], m[partner]) = (number, i.zero());
    move_beside(i, &mut m, k);
    m
}

// Entry k alone, one of the first four: its digits reach below 2^-149.
fn too_small(i: &mut Inputs, k: usize) -> [f32; 6] {
    let e = exponent(i, 40, 63);
    let number = wide(i, 2 * e - 157, 2 * e - 127);
    outside(i, k, number, e)
}

// Entry k alone, one of the last two: a wide number that a wide skew moves.
fn wide_move(i: &mut Inputs, k: usize) -> [f32; 6] {
    let (sx, sy, skew, by) = (power(i, -8, 8), power(i, -8, 8), wide(i, -8, 8), wide(i, -8, 8));
    if k == 4 { [sx, i.zero(), skew, sy, i.zero(), by] } else { [sx, skew, i.zero(), sy, by, i.zero()] }
}

pub fn one_rounded(i: &mut Inputs) -> Given {
    let k = i.below(6) as usize;
    inverse_of(match (k, i.below(2)) {
        (4 | 5, _) => wide_move(i, k),
        (_, 0) => no_multiple(i, k),
        _ => too_small(i, k),
    })
}

// One entry is a whole number times 2^-149.
pub fn subnormal_kept(i: &mut Inputs) -> Given {
    let (k, e) = (i.below(4) as usize, exponent(i, 40, 63));
    let number = whole(i, 1 << 22) * two_to(2 * e - 149);
    inverse_of(outside(i, k, number, e))
}

pub fn plain(i: &mut Inputs) -> Given {
    inverse_of(row(i, |i| wide(i, -3, 3)))
}

// One of the skews at least is not 0.
pub fn small_whole_numbers(i: &mut Inputs) -> Given {
    loop {
        let m = row(i, |i| i.below(9) as f32 - 4.0);
        if skews(&m) {
            return inverse_of(m);
        }
    }
}

// A determinant of 0; of about 2^-37 or less; of 2^-36; and of somewhat more, which is rounded to that.
pub fn nearly_singular(i: &mut Inputs) -> Given {
    let (mut m, p) = (row(i, |i| wide(i, -5, 5)), power(i, -5, 5));
    match i.below(4) {
        0 => (m[1], m[3]) = (m[0] * p, m[2] * p),
        1 => m = row(i, |i| wide(i, -40, -20)),
        2 => (m[0], m[1], m[3]) = (power(i, -18, -18), i.zero(), power(i, -18, -18)),
        _ => (m[0], m[1], m[2], m[3]) = (two_to(-18), two_to(-30), -two_to(exponent(i, -36, -30)), two_to(-18)),
    }
    inverse_of(m)
}

// A determinant that is the next float above 2^-36 or one of those behind it, or is rounded to it.
pub fn not_quite_singular(i: &mut Inputs) -> Given {
    let mut m = row(i, |i| wide(i, -5, 5));
    let above = 1.0 + (2 * i.below(4) + 1) as f32 * f32::EPSILON;
    if i.chance(2) {
        (m[0], m[1], m[3]) = (two_to(-18) * above, i.zero(), power(i, -18, -18));
    } else {
        (m[0], m[1], m[2], m[3]) = (two_to(-18), two_to(-30), -two_to(-30) * above, two_to(-18));
    }
    inverse_of(m)
}

// An entry, or the move, that is too large; and what was not finite before.
pub fn not_finite(i: &mut Inputs) -> Given {
    let mut m = row(i, |i| wide(i, -5, 5));
    match i.below(3) {
        0 => m = [i.zero(), power(i, -17, -15), power(i, -17, -15), wide(i, 105, 127), m[4], m[5]],
        1 => m = [power(i, -16, -10), i.zero(), m[2], power(i, -5, 5), wide(i, 120, 127), m[5]],
        _ => m[i.below(6) as usize] = infinity_or_nan(i),
    }
    inverse_of(m)
}

// A move, and mostly a scale.
fn unskewed(i: &mut Inputs) -> [f32; 6] {
    let number = |i: &mut Inputs| [wide(i, -60, 60), 1.0, wide(i, -60, 60)][i.below(3) as usize];
    let (x, y) = (number(i), number(i));
    [x, i.zero(), i.zero(), y, wide(i, -60, 60), wide(i, -60, 60)]
}

pub fn no_skew(i: &mut Inputs) -> Given {
    inverse_of(unskewed(i))
}

// A scale of 0 or one whose inverse is too large, a move that is too large over its scale, and a move that was not finite before.
pub fn no_skew_not_finite(i: &mut Inputs) -> Given {
    let (mut m, k) = (unskewed(i), i.below(2) as usize);
    match i.below(4) {
        0 => m[3 * k] = i.zero(),
        1 => m[3 * k] = sign(i) * f32::from_bits(1 + i.below(0x20_0000) as u32),
        2 => (m[3 * k], m[4 + k]) = (wide(i, -60, -20), wide(i, 110, 127)),
        _ => m[4 + k] = infinity_or_nan(i),
    }
    inverse_of(m)
}

pub fn nothing(i: &mut Inputs) -> Given {
    inverse_of(identity(i))
}

pub fn any(i: &mut Inputs) -> Given {
    i.begin();
    inverse_of(i.matrix())
}
