// The flag that a product or an inverse has to give, from the formulas of the original's transform.rs: the f64 numbers that it
// narrows, in its order, and whether one of them is not kept. Which way a matrix goes is asked of the original's own tests.
use original::Transform;

// Whether narrowing does not keep the value. A NaN stays one.
pub fn lost(x: f64) -> bool {
    !(x.is_nan() || (x as f32) as f64 == x)
}

// What narrowing lost: 0 for nothing, 1 where it was rounded, 2 where a finite value became an infinity.
pub fn loss(x: f64) -> u32 {
    if !lost(x) {
        0
    } else if (x as f32).is_infinite() {
        2
    } else {
        1
    }
}

fn mul_add_mul(a: f32, b: f32, c: f32, d: f32) -> f64 {
    f64::from(a) * f64::from(b) + f64::from(c) * f64::from(d)
}

fn dcross(a: f32, b: f32, c: f32, d: f32) -> f64 {
    a as f64 * b as f64 - c as f64 * d as f64
}

// The six sums of the product that does b first and then a, or nothing where none is narrowed. What is added to the last two is
// added in f32, behind the narrowing.
pub fn of_product(a: &Transform, b: &Transform) -> Option<[f64; 6]> {
    if a.is_identity() || b.is_identity() || !a.has_skew() && !b.has_skew() {
        return None;
    }
    Some([
        mul_add_mul(a.sx, b.sx, a.kx, b.ky),
        mul_add_mul(a.ky, b.sx, a.sy, b.ky),
        mul_add_mul(a.sx, b.kx, a.kx, b.sy),
        mul_add_mul(a.ky, b.kx, a.sy, b.sy),
        mul_add_mul(a.sx, b.tx, a.kx, b.ty),
        mul_add_mul(a.ky, b.tx, a.sy, b.ty),
    ])
}

// The determinant, which is narrowed for its test, and the six entries of the inverse, or nothing where none is narrowed.
pub fn of_inverse(t: &Transform) -> Option<[f64; 7]> {
    if t.is_identity() || t.is_scale_translate() {
        return None;
    }
    let det = dcross(t.sx, t.sy, t.kx, t.ky);
    let inv_det = 1.0 / det;
    Some([
        det,
        t.sy as f64 * inv_det,
        -t.ky as f64 * inv_det,
        -t.kx as f64 * inv_det,
        t.sx as f64 * inv_det,
        dcross(t.kx, t.ty, t.sy, t.tx) * inv_det,
        dcross(t.ky, t.tx, t.sx, t.ty) * inv_det,
    ])
}

pub fn some_lost<const N: usize>(narrowed: Option<[f64; N]>) -> bool {
    narrowed.is_some_and(|xs| xs.into_iter().any(lost))
}
