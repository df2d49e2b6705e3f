// The rule of nz_transform_invert, which the judges of inverses share: the original's inverse; but one with an entry that is not
// finite is refused, where the original gives it of a matrix without skew.
use original::transform::{compute_inv, dcross, inv_determinant, invert};
use original::Transform;

// The numbers of the two refusals in docs/RULES.md.
pub const NEARLY_SINGULAR: u32 = 6;
pub const NOT_FINITE: u32 = 7;

// The six entries in the order of from_row.
pub fn entries(t: &Transform) -> [f32; 6] {
    [t.sx, t.ky, t.kx, t.sy, t.tx, t.ty]
}

// The inverse, or the number of the refusal.
pub fn inverse(t: &Transform) -> Result<Transform, u32> {
    match t.invert() {
        Some(r) if entries(&r).iter().all(|x| x.is_finite()) => Ok(r),
        None if inv_determinant(t).is_none() => Err(NEARLY_SINGULAR),
        _ => Err(NOT_FINITE),
    }
}

// What the original computes before any test, also of a matrix that is nearly singular.
pub fn computed(t: &Transform) -> Transform {
    if t.is_identity() {
        *t
    } else if t.has_skew() {
        compute_inv(t, 1.0 / dcross(t.sx as f64, t.sy as f64, t.kx as f64, t.ky as f64))
    } else {
        invert(t).expect("without skew nothing is tested")
    }
}

// The entries of that which are not finite.
pub fn not_finite(t: &Transform) -> Vec<usize> {
    let xs = entries(&computed(t));
    (0..6).filter(|k| !xs[*k].is_finite()).collect()
}
