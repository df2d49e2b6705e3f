// Matrices without skew for the judge of inverses, in the order of from_row: sx, ky, kx, sy, tx, ty.
use crate::flags_calls::{transform, Given};
use crate::flags_classes::*;
use crate::inputs::Inputs;
use crate::inverses_classes::{about, either, signed, special};

// What does nothing, with one place one unit off.
pub fn one_bit(i: &mut Inputs) -> Given {
    let (mut m, k) = (identity(i), i.below(6) as usize);
    let bits = m[k].to_bits();
    m[k] = f32::from_bits(if m[k] == 1.0 && i.chance(2) { bits - 1 } else { bits + 1 });
    inverse_of(m)
}

pub fn one_place(i: &mut Inputs) -> Given {
    let mut m = identity(i);
    m[i.below(6) as usize] = special(i);
    inverse_of(m)
}

pub fn one_not_finite(i: &mut Inputs) -> Given {
    let mut m = identity(i);
    m[i.below(6) as usize] = infinity_or_nan(i);
    inverse_of(m)
}

fn moved(i: &mut Inputs, by: [f32; 2]) -> Given {
    inverse_of([1.0, i.zero(), i.zero(), 1.0, by[0], by[1]])
}

pub fn plain_move(i: &mut Inputs) -> Given {
    let by = [wide(i, -120, 127), if i.chance(4) { i.zero() } else { wide(i, -120, 127) }];
    moved(i, by)
}

fn move_with(i: &mut Inputs, number: fn(&mut Inputs) -> f32) -> Given {
    let mut by = [wide(i, -60, 60), wide(i, -60, 60)];
    by[i.below(2) as usize] = number(i);
    moved(i, by)
}

pub fn special_move(i: &mut Inputs) -> Given {
    move_with(i, special)
}

pub fn move_not_finite(i: &mut Inputs) -> Given {
    move_with(i, infinity_or_nan)
}

pub fn special_moves(i: &mut Inputs) -> Given {
    loop {
        let by = [special(i), special(i)];
        if by != [0.0; 2] {
            return moved(i, by);
        }
    }
}

// A scale that is not 1, and a move or none.
fn plain(i: &mut Inputs) -> [f32; 6] {
    let (x, y) = (wide(i, -60, 60), wide(i, -60, 60));
    let mut by = || if i.chance(4) { i.zero() } else { wide(i, -60, 60) };
    let (tx, ty) = (by(), by());
    [x, i.zero(), i.zero(), y, tx, ty]
}

pub fn plain_scale(i: &mut Inputs) -> Given {
    inverse_of(plain(i))
}

pub fn special_scale(i: &mut Inputs) -> Given {
    let mut m = plain(i);
    m[[0, 3, 4, 5][i.below(4) as usize]] = special(i);
    inverse_of(m)
}

pub fn special_scales(i: &mut Inputs) -> Given {
    loop {
        let m = [special(i), i.zero(), i.zero(), special(i), special(i), special(i)];
        if transform(&m).has_scale() {
            return inverse_of(m);
        }
    }
}

pub fn zeros(i: &mut Inputs) -> Given {
    inverse_of(row(i, |i| i.zero()))
}

// One scale or both of 0, or so near to it that the inverse is an infinity; and any move.
pub fn too_small(i: &mut Inputs) -> Given {
    let small = |i: &mut Inputs| {
        let bits = i.below(0x20_0001) as u32;
        if i.chance(3) { i.zero() } else { signed(i, bits) }
    };
    let mut m = plain(i);
    m[0] = small(i);
    m[3] = if i.chance(3) { small(i) } else { m[3] };
    if i.chance(2) {
        (m[4], m[5]) = (special(i), special(i));
    }
    inverse_of(either(i, m))
}

// On both sides of 2^-128, the inverse of the next number being finite; and a move that stays so.
pub fn about_smallest(i: &mut Inputs) -> Given {
    let scale = |i: &mut Inputs| sign(i) * about(i, two_to(-128));
    let (x, y) = (scale(i), if i.chance(2) { wide(i, -3, 3) } else { scale(i) });
    let by = |i: &mut Inputs| if i.chance(2) { i.zero() } else { wide(i, -60, -2) };
    let m = [x, i.zero(), i.zero(), y, by(i), by(i)];
    inverse_of(either(i, m))
}

// The inverse scale is a zero, over which every finite number is moved to one.
pub fn infinite_scale(i: &mut Inputs) -> Given {
    let mut m = plain(i);
    m[0] = sign(i) * f32::INFINITY;
    m[3] = if i.chance(3) { sign(i) * f32::INFINITY } else { m[3] };
    m[4] = if i.chance(2) { special(i) } else { m[4] };
    inverse_of(either(i, m))
}

pub fn move_too_large(i: &mut Inputs) -> Given {
    let (mut m, e) = (plain(i), exponent(i, 2, 126));
    (m[0], m[4]) = (wide(i, -e, -e), wide(i, 129 - e, 127));
    inverse_of(either(i, m))
}

// The product with the inverse scale is a few units about the largest float, and is rounded.
pub fn move_about_largest(i: &mut Inputs) -> Given {
    let mut m = plain(i);
    m[0] = wide(i, -126, -1);
    let by = (f32::MAX / (1.0 / m[0])).abs();
    m[4] = sign(i) * about(i, by);
    inverse_of(either(i, m))
}
