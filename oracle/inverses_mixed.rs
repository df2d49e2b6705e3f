// Matrices of every way for the judge of inverses, in the order of from_row: sx, ky, kx, sy, tx, ty.
use crate::flags_calls::Given;
use crate::flags_classes::*;
use crate::inputs::Inputs;
use crate::inverses_classes::special;

// Such numbers in all places; or no skew; or a move alone; or nothing.
fn of_each_way(i: &mut Inputs, number: fn(&mut Inputs) -> f32) -> Given {
    let (mut m, left) = (row(i, number), i.below(4));
    if left < 3 {
        (m[1], m[2]) = (i.zero(), i.zero());
    }
    if left < 2 {
        (m[0], m[3]) = (1.0, 1.0);
    }
    if left < 1 {
        (m[4], m[5]) = (i.zero(), i.zero());
    }
    inverse_of(m)
}

pub fn specials(i: &mut Inputs) -> Given {
    of_each_way(i, special)
}

pub fn bits_and_specials(i: &mut Inputs) -> Given {
    of_each_way(i, |i| if i.chance(2) { special(i) } else { i.any() })
}

pub fn bits(i: &mut Inputs) -> Given {
    of_each_way(i, |i| i.any())
}

pub fn ones_and_zeros(i: &mut Inputs) -> Given {
    inverse_of(row(i, |i| [i.zero(), 1.0, -1.0][i.below(3) as usize]))
}
