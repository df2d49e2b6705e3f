// The root of the original, in the place of its lib.rs: the modules that are compared, the point cut out of
// lib.rs, and stand-ins for two types of modules that are left out.
#![allow(dead_code, missing_docs, unused_imports)]
extern crate alloc;

pub mod f32x2_t;
pub mod floating_point;
pub mod path_geometry;
pub mod point;
pub mod scalar;
pub mod transform;

pub use f32x2_t::f32x2;
pub use floating_point::*;
pub use point::*;
pub use scalar::*;
pub use transform::*;

pub mod path_builder {
    #[derive(Copy, Clone, PartialEq, Debug)]
    pub enum PathDirection {
        CW,
        CCW,
    }
}

// Only `from_bbox` names it, which is left out.
pub struct NonZeroRect;

impl NonZeroRect {
    pub fn x(&self) -> f32 {
        0.0
    }
    pub fn y(&self) -> f32 {
        0.0
    }
    pub fn width(&self) -> f32 {
        1.0
    }
    pub fn height(&self) -> f32 {
        1.0
    }
}
