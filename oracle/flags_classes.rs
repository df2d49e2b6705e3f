// The classes of inputs that are judged, each made for the flag that it must have; and the numbers that they are made of.
use crate::flags_calls::{Call, Given};
use crate::flags_inverses as inverses;
use crate::flags_products as products;
use crate::inputs::Inputs;

// What the judge has for an input: the flag, or a refusal.
#[derive(Clone, Copy, PartialEq, Debug)]
pub enum Outcome {
    Set,
    Clear,
    Refused6,
    Refused7,
}

use Outcome::*;

pub const OUTCOMES: [(Outcome, &str); 4] = [(Set, "set"), (Clear, "clear"), (Refused6, "refused with 6"), (Refused7, "refused with 7")];

// What is asked beside the outcomes: that of the narrowed numbers one alone is lost, in each input; or that some inputs are rounded
// in float arithmetic, of which the flag says nothing.
#[derive(Clone, Copy, PartialEq)]
pub enum Beside {
    Nothing,
    Alone,
    Floats,
}

// Each of these outcomes has to be met, and no other may be.
pub struct Class {
    pub name: &'static str,
    pub make: fn(&mut Inputs) -> Given,
    pub must: &'static [Outcome],
    pub beside: Beside,
}

const fn class(name: &'static str, make: fn(&mut Inputs) -> Given, must: &'static [Outcome]) -> Class {
    Class { name, make, must, beside: Beside::Nothing }
}

const fn alone(name: &'static str, make: fn(&mut Inputs) -> Given) -> Class {
    Class { name, make, must: &[Set], beside: Beside::Alone }
}

const fn floats(name: &'static str, make: fn(&mut Inputs) -> Given) -> Class {
    Class { name, make, must: &[Clear], beside: Beside::Floats }
}

pub const CLASSES: [Class; 33] = [
    class("whole numbers", products::whole_numbers, &[Clear]),
    class("powers of two", products::powers_of_two, &[Clear]),
    alone("one sum rounded", products::one_rounded),
    alone("one sum gone to infinity", products::one_to_infinity),
    alone("one sum rounded to a subnormal number or to zero", products::one_tiny),
    class("all sums subnormal or zero, kept", products::tiny_kept, &[Clear]),
    class("all sums too small, one at least rounded", products::tiny_rounded, &[Set]),
    class("infinities and NaN given, else whole numbers", products::not_finite, &[Clear]),
    alone("infinities and NaN given, and one sum rounded", products::not_finite_one_rounded),
    class("plain numbers", products::plain, &[Set]),
    class("any numbers", products::any, &[Set, Clear]),
    floats("whole numbers, and the addition behind them rounded", products::addition_rounded),
    floats("neither skews", products::neither_skews),
    class("one does nothing", products::one_does_nothing, &[Clear]),
    class("a scale by powers of two", products::scaled_by_powers, &[Clear]),
    alone("a scale, one sum rounded", products::scaled_one_rounded),
    alone("a move before, one sum rounded", products::moved_one_rounded),
    floats("a move after", products::moved_after),
    class("a scale or a move of any numbers", products::any_scale_or_move, &[Set, Clear]),
    class("inverse: the determinant a power of two", inverses::power_of_two, &[Clear]),
    alone("inverse: the determinant alone, gone to infinity", inverses::determinant_to_infinity),
    alone("inverse: the determinant alone, rounded", inverses::determinant_rounded),
    alone("inverse: one entry rounded", inverses::one_rounded),
    class("inverse: one entry subnormal, kept", inverses::subnormal_kept, &[Clear]),
    class("inverse: plain numbers", inverses::plain, &[Set]),
    class("inverse: small whole numbers", inverses::small_whole_numbers, &[Set, Clear, Refused6]),
    class("inverse: nearly singular", inverses::nearly_singular, &[Refused6]),
    class("inverse: not quite singular", inverses::not_quite_singular, &[Set]),
    class("inverse: not finite", inverses::not_finite, &[Refused7]),
    floats("inverse: no skew", inverses::no_skew),
    class("inverse: no skew, not finite", inverses::no_skew_not_finite, &[Refused7]),
    class("inverse: of what does nothing", inverses::nothing, &[Clear]),
    class("inverse: any numbers", inverses::any, &[Set, Clear, Refused6, Refused7]),
];

pub fn inverse_of(m: [f32; 6]) -> Given {
    Given { call: Call::Invert, m, other: [0.0; 6] }
}

// Any exponent from one to another.
pub fn exponent(i: &mut Inputs, from: i32, to: i32) -> i32 {
    from + i.below((to - from + 1) as u64) as i32
}

// 2^e, also where that is subnormal.
pub fn two_to(e: i32) -> f32 {
    2f64.powi(e) as f32
}

pub fn power(i: &mut Inputs, from: i32, to: i32) -> f32 {
    sign(i) * two_to(exponent(i, from, to))
}

pub fn sign(i: &mut Inputs) -> f32 {
    if i.chance(2) { 1.0 } else { -1.0 }
}

// A whole number of either sign from 1 up to the limit.
pub fn whole(i: &mut Inputs, limit: u64) -> f32 {
    sign(i) * (1 + i.below(limit)) as f32
}

// From 2^e up to 2^(e + 1), with 24 digits, of which the last is 1: no float is the product of two such numbers.
pub fn wide(i: &mut Inputs, from: i32, to: i32) -> f32 {
    let e = exponent(i, from, to);
    sign(i) * f32::from_bits((e + 127) as u32 * 0x80_0000 + (i.below(1 << 22) as u32 * 2 + 1))
}

pub fn row(i: &mut Inputs, number: impl Fn(&mut Inputs) -> f32) -> [f32; 6] {
    std::array::from_fn(|_| number(i))
}

pub fn skews(m: &[f32; 6]) -> bool {
    m[1] != 0.0 || m[2] != 0.0
}

// What does nothing, with zeros of either sign.
pub fn identity(i: &mut Inputs) -> [f32; 6] {
    [1.0, i.zero(), i.zero(), 1.0, i.zero(), i.zero()]
}

pub fn infinity_or_nan(i: &mut Inputs) -> f32 {
    [f32::INFINITY, f32::NEG_INFINITY, f32::NAN][i.below(3) as usize]
}
