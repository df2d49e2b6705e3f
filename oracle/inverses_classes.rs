// The classes of matrices whose inverses are judged, each made for the answers that it must have; and the numbers that they are
// made of.
use crate::flags_calls::Given;
use crate::flags_inverses as inverses;
use crate::inputs::Inputs;
use crate::inverses_mixed as mixed;
use crate::inverses_skewed as skewed;
use crate::inverses_unskewed as unskewed;
use original::Transform;

// The ways that the original goes, by its own tests: of what does nothing, of a move alone, of a scale with or without a move, and
// of what skews.
#[derive(Clone, Copy, PartialEq, Debug)]
pub enum Way {
    Nothing,
    Move,
    Scale,
    Skew,
}

use Way::*;

pub const WAYS: [(Way, &str); 4] = [(Nothing, "does nothing"), (Move, "move"), (Scale, "scale"), (Skew, "skewed")];

pub fn way(t: &Transform) -> Way {
    if t.is_identity() {
        Nothing
    } else if t.has_skew() {
        Skew
    } else if t.has_scale() {
        Scale
    } else {
        Move
    }
}

#[derive(Clone, Copy, PartialEq, Debug)]
pub enum Answer {
    Inverse,
    Six,
    Seven,
}

use Answer::*;

pub const ANSWERS: [(Answer, &str); 3] = [(Inverse, "given"), (Six, "refused with 6"), (Seven, "refused with 7")];

// What is asked beside the answers, of each input: that of the inverse that is computed one entry alone is not finite, or one at
// least. Or that so many patterns of signs are met.
#[derive(Clone, Copy, PartialEq)]
pub enum Beside {
    Nothing,
    Alone,
    NotFinite,
    Signs(u32),
}

// Each of these ways and answers has to be met, and no other may be, unless the class is of any numbers.
pub struct Class {
    pub name: &'static str,
    pub make: fn(&mut Inputs) -> Given,
    pub must: &'static [(Way, Answer)],
    pub beside: Beside,
    pub any: bool,
}

const fn class(name: &'static str, make: fn(&mut Inputs) -> Given, must: &'static [(Way, Answer)]) -> Class {
    Class { name, make, must, beside: Beside::Nothing, any: false }
}

impl Class {
    const fn beside(self, beside: Beside) -> Class {
        Class { beside, ..self }
    }
}

const ALL: &[(Way, Answer)] = &[
    (Nothing, Inverse), (Move, Inverse), (Move, Seven), (Scale, Inverse), (Scale, Seven), (Skew, Inverse), (Skew, Six),
    (Skew, Seven),
];
const MANY: &[(Way, Answer)] = &[
    (Nothing, Inverse), (Move, Inverse), (Scale, Inverse), (Skew, Inverse), (Skew, Six), (Skew, Seven),
];
const ONE_PLACE: &[(Way, Answer)] = &[
    (Nothing, Inverse), (Move, Inverse), (Move, Seven), (Scale, Inverse), (Scale, Seven), (Skew, Inverse), (Skew, Seven),
];
const ONE_NOT_FINITE: &[(Way, Answer)] = &[(Move, Seven), (Scale, Inverse), (Scale, Seven), (Skew, Seven)];
const ONES: &[(Way, Answer)] = &[(Scale, Inverse), (Scale, Seven), (Skew, Inverse), (Skew, Six)];
const MOVES: &[(Way, Answer)] = &[(Move, Inverse), (Move, Seven)];
const SCALES: &[(Way, Answer)] = &[(Scale, Inverse), (Scale, Seven)];
const SKEWS: &[(Way, Answer)] = &[(Skew, Inverse), (Skew, Seven)];
const SKEWS_AND_SIX: &[(Way, Answer)] = &[(Skew, Inverse), (Skew, Six), (Skew, Seven)];
const REFUSED: &[(Way, Answer)] = &[(Skew, Six), (Skew, Seven)];

pub const CLASSES: [Class; 34] = [
    class("does nothing", inverses::nothing, &[(Nothing, Inverse)]).beside(Beside::Signs(16)),
    class("does nothing but for one bit", unskewed::one_bit, &[(Move, Inverse), (Scale, Inverse), (Skew, Inverse)]),
    class("does nothing but for one place", unskewed::one_place, ONE_PLACE),
    class("does nothing but for an infinity or a NaN", unskewed::one_not_finite, ONE_NOT_FINITE),
    class("move: plain numbers", unskewed::plain_move, &[(Move, Inverse)]),
    class("move: a special number in one place", unskewed::special_move, MOVES),
    class("move: special numbers in both places", unskewed::special_moves, MOVES),
    class("move: one number alone not finite", unskewed::move_not_finite, &[(Move, Seven)]).beside(Beside::Alone),
    class("scale: plain numbers", unskewed::plain_scale, &[(Scale, Inverse)]),
    class("scale: a special number in one place", unskewed::special_scale, SCALES),
    class("scale: special numbers in all four places", unskewed::special_scales, SCALES),
    class("scale: zeros in all places", unskewed::zeros, &[(Scale, Seven)]).beside(Beside::Signs(64)),
    class("scale: of 0, or too small for an inverse", unskewed::too_small, &[(Scale, Seven)]).beside(Beside::NotFinite),
    class("scale: about the smallest that has an inverse", unskewed::about_smallest, SCALES),
    class("scale: infinite", unskewed::infinite_scale, SCALES),
    class("scale: the move alone too large", unskewed::move_too_large, &[(Scale, Seven)]).beside(Beside::Alone),
    class("scale: the move about the largest", unskewed::move_about_largest, SCALES),
    class("skewed: plain numbers", inverses::plain, &[(Skew, Inverse)]),
    class("skewed: a special number in one place", skewed::one_special, SKEWS),
    class("skewed: special numbers in all places", skewed::all_special, SKEWS_AND_SIX),
    class("skewed: an infinity or a NaN in one place", skewed::one_not_finite, &[(Skew, Seven)]).beside(Beside::NotFinite),
    class("skewed: the determinant an infinity or a NaN", skewed::no_determinant, &[(Skew, Seven)]).beside(Beside::NotFinite),
    class("skewed: one entry alone too large", skewed::one_too_large, &[(Skew, Seven)]).beside(Beside::Alone),
    class("skewed: one entry about the largest", skewed::one_about_largest, SKEWS),
    class("skewed: nearly singular", inverses::nearly_singular, &[(Skew, Six)]),
    class("skewed: nearly singular, and not finite", skewed::nearly_singular, &[(Skew, Six)]).beside(Beside::NotFinite),
    class("skewed: not quite singular", inverses::not_quite_singular, &[(Skew, Inverse)]),
    class("skewed: not quite singular, and not finite", skewed::not_quite_singular, &[(Skew, Seven)]).beside(Beside::NotFinite),
    class("skewed: about singular, the move not finite", skewed::about_singular, REFUSED).beside(Beside::NotFinite),
    Class { any: true, ..class("1, −1 and zeros everywhere", mixed::ones_and_zeros, ONES) },
    class("special numbers everywhere", mixed::specials, ALL),
    class("any bits and special numbers", mixed::bits_and_specials, ALL),
    Class { any: true, ..class("any bits", mixed::bits, MANY) },
    Class { any: true, ..class("any numbers", inverses::any, MANY) },
];

// 0; the least subnormal number; 2^-128, where the inverse begins to overflow, and what is beside it; 2^-127; the largest subnormal
// and the least normal number; 2^-36 and 2^-18, for determinants; 1 and what is beside it; 2^64, 2^127, the largest; an infinity
// and two NaN.
const SPECIAL: [u32; 19] = [
    0, 1, 0x001f_ffff, 0x0020_0000, 0x0020_0001, 0x0040_0000, 0x007f_ffff, 0x0080_0000, 0x2d80_0000, 0x3680_0000, 0x3f7f_ffff,
    0x3f80_0000, 0x3f80_0001, 0x5f80_0000, 0x7f00_0000, 0x7f7f_ffff, 0x7f80_0000, 0x7fc0_0000, 0x7f80_0001,
];

// The bits of a number above 0, with either sign.
pub fn signed(i: &mut Inputs, bits: u32) -> f32 {
    f32::from_bits(bits | (i.below(2) as u32) << 31)
}

pub fn subnormal(i: &mut Inputs) -> f32 {
    let bits = 1 + i.below(0x7f_ffff) as u32;
    signed(i, bits)
}

// One of the special numbers with either sign, or any subnormal one.
pub fn special(i: &mut Inputs) -> f32 {
    let bits = SPECIAL[i.below(19) as usize];
    if i.chance(8) { subnormal(i) } else { signed(i, bits) }
}

// So near to a number that few lie between.
pub fn about(i: &mut Inputs, x: f32) -> f32 {
    f32::from_bits(x.to_bits() + i.below(9) as u32 - 4)
}

// The same with x for y.
pub fn mirrored(m: [f32; 6]) -> [f32; 6] {
    [m[3], m[2], m[1], m[0], m[5], m[4]]
}

// A matrix or the same with x for y.
pub fn either(i: &mut Inputs, m: [f32; 6]) -> [f32; 6] {
    if i.chance(2) { m } else { mirrored(m) }
}
