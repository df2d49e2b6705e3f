// Inputs by hand for the list: a −0 that goes into a chop, a cut, a mapping and an inverse, and is there in what is computed.
use crate::calls::Case;
use crate::of_conics::room;

pub struct Through {
    pub title: &'static str,
    // the call's name in the table of calls.rs, and what it is given
    pub cases: &'static [(&'static str, Case)],
}

// The smallest number below zero: a quarter of it is rounded to −0.
const LEAST: f32 = f32::from_bits(0x8000_0001);

// Six or eight numbers of a curve, and the parameter of a chop.
const fn curve(p: [f32; 8], numbers: usize, written: usize, t: f32) -> Case {
    Case { f: [p[0], p[1], p[2], p[3], p[4], p[5], p[6], p[7], t, 0.0, 0.0, 0.0], x: 0.0, len: [numbers, written], level: 0 }
}

const fn conic(p: [f32; 6], weight: f32, level: u32) -> Case {
    Case { f: [p[0], p[1], p[2], p[3], p[4], p[5], weight, 0.25, 0.0, 0.0, 0.0, 0.0], x: 0.0, len: [6, room(level)], level }
}

// A matrix, and the three points that it maps.
const fn matrix(m: [f32; 6]) -> Case {
    Case { f: [m[0], m[1], m[2], m[3], m[4], m[5], -0.0, -0.0, -0.0, 2.0, 0.0, -0.0], x: 0.0, len: [6, 0], level: 0 }
}

const FLAT_START: [f32; 6] = [-0.0, -0.0, -0.0, -0.0, 4.0, 4.0];
const FLAT_END: [f32; 6] = [-4.0, 4.0, -0.0, -0.0, -0.0, -0.0];
// With a weight below 0 the first control's x is put at the start, and is −0 by that alone.
const TURNING: [f32; 6] = [-0.0, 5.0, 1.0, 6.0, 4.0, 9.0];

pub const THROUGH: &[Through] = &[
    Through { title: "minus zero through a chop", cases: &[
        ("conic_chop", conic(FLAT_START, 1.0, 0)),
        ("conic_chop", conic(FLAT_END, 0.5, 0)),
        ("chop_quad_at", curve([-0.0, -0.0, LEAST, LEAST, 4.0, 4.0, 0.0, 0.0], 6, 10, 0.25)),
        ("chop_cubic_at2", curve([-0.0, -0.0, LEAST, LEAST, 4.0, 4.0, 5.0, 6.0], 8, 14, 0.25)),
    ] },
    Through { title: "minus zero through a cut", cases: &[
        ("conic_chop_into_quads_pow2", conic(FLAT_START, 1.0, 1)),
        ("conic_chop_into_quads_pow2", conic(FLAT_END, 0.5, 4)),
        ("cut_in_order", conic(FLAT_START, 1.0, 1)),
        ("cut_in_order", conic(FLAT_END, 0.5, 4)),
        ("cut_in_order_both", conic(FLAT_END, 0.5, 4)),
        ("cut_in_order_both", conic(TURNING, -0.5, 1)),
        ("auto_conic_to_quads", conic(FLAT_START, 1.0, 1)),
    ] },
    Through { title: "minus zero through a mapping", cases: &[
        ("transform: map_point", matrix([1.0, 0.0, 0.0, 1.0, -0.0, 5.0])),
        ("transform: map_point", matrix([2.0, 0.0, 0.0, 4.0, -0.0, -0.0])),
        ("transform: map_point", matrix([2.0, 1.0, 1.0, 3.0, -0.0, -0.0])),
        ("transform: map_numbers", matrix([1.0, 0.0, 0.0, 1.0, -0.0, 5.0])),
        ("transform: map_numbers", matrix([2.0, 0.0, 0.0, 4.0, -0.0, -0.0])),
        ("transform: map_numbers", matrix([2.0, 1.0, 1.0, 3.0, -0.0, -0.0])),
    ] },
    Through { title: "minus zero through an inverse", cases: &[
        ("transform: invert", matrix([-2.0, 0.0, 0.0, 4.0, -0.0, 8.0])),
        ("transform: invert", matrix([2.0, 1.0, -0.0, -4.0, -0.0, 3.0])),
    ] },
];
