// Roots, quads and cubics: how an input is made, what the library leaves, and what the original does.
use crate::calls::*;
use crate::inputs::Inputs;
use crate::outputs::{buffer, Output};
use original::path_geometry as pg;
use original::{NormalizedF32, NormalizedF32Exclusive, Point};

pub fn roots(c: &Case, out: &mut Output, call: unsafe fn(&Case, *mut [f32; 2]) -> u32) {
    let mut roots = buffer::<2>();
    out.number(unsafe { call(c, &mut roots) });
    out.computed(&roots);
}

pub fn root(c: &Case, out: &mut Output, call: unsafe fn(&Case, *mut f32) -> u32) {
    let mut root = buffer::<1>();
    out.number(unsafe { call(c, &mut root[0]) });
    out.computed(&root);
}

pub fn inflections(c: &Case, out: &mut Output) {
    let (mut roots, mut count) = (buffer::<2>(), 77);
    out.number(unsafe { nz_find_cubic_inflections(c.f.as_ptr(), c.lent(0), &mut roots, &mut count) });
    out.number(count);
    out.computed(&roots);
}

pub fn found(out: &mut Output, ts: &[NormalizedF32Exclusive], places: usize) {
    out.number(ts.len() as u32);
    for t in ts {
        out.computed(&[t.get()]);
    }
    out.untouched(ts.len(), places);
}

pub fn found_one(out: &mut Output, t: Option<NormalizedF32Exclusive>) {
    match t {
        Some(t) => found(out, &[t], 1),
        None => found(out, &[], 1),
    }
}

pub fn quad(i: &mut Inputs, c: &mut Case) {
    curve(i, c, 3, 10)
}

pub fn cubic(i: &mut Inputs, c: &mut Case) {
    curve(i, c, 4, 14)
}

pub fn curve(i: &mut Inputs, c: &mut Case, n: usize, room: usize) {
    i.begin();
    let (xs, t) = i.curve(n);
    c.f[..8].copy_from_slice(&xs);
    c.f[8] = t;
    c.len = [i.length(2 * n).min(11), i.length(room)];
}

pub fn evaluated(c: &Case, out: &mut Output, call: unsafe extern "C" fn(*const f32, u64, f32, *mut [f32; 2]) -> u32) {
    let mut p = buffer::<2>();
    out.number(unsafe { call(c.f.as_ptr(), c.lent(0), c.f[8], &mut p) });
    out.computed(&p);
}

pub fn evaluation(c: &Case, out: &mut Output, need: usize, at: impl Fn(NormalizedF32) -> Point) {
    let refused = match NormalizedF32::new(c.f[8]) {
        None => 8,
        Some(_) if c.len[0] < need => 2,
        Some(t) => {
            out.number(0);
            return out.computed(&numbers(at(t)));
        }
    };
    out.number(refused);
    out.untouched(0, 2);
}

pub fn chopped(c: &Case, out: &mut Output, call: unsafe extern "C" fn(*const f32, u64, f32, *mut f32, u64) -> u32) {
    let mut dst = buffer::<20>();
    out.number(unsafe { call(c.f.as_ptr(), c.lent(0), c.f[8], dst.as_mut_ptr(), c.lent(1)) });
    out.computed(&dst);
}

pub fn chop<const N: usize>(c: &Case, out: &mut Output, need: usize, cut: impl Fn(NormalizedF32Exclusive, &mut [Point; N])) {
    let refused = match NormalizedF32Exclusive::new(c.f[8]) {
        None => 8,
        Some(_) if c.len[0] < need || c.len[1] < 2 * N => 2,
        Some(t) => {
            let mut dst = [Point::zero(); N];
            cut(t, &mut dst);
            out.number(0);
            out.copied(&numbers(dst[0]));
            for p in &dst[1..N - 1] {
                out.computed(&numbers(*p));
            }
            out.copied(&numbers(dst[N - 1]));
            return out.untouched(2 * N, 20);
        }
    };
    out.number(refused);
    out.untouched(0, 20);
}

pub fn curvature(c: &Case, out: &mut Output) {
    let p = points::<3>(&c.f);
    let refused = if c.len[0] < 6 {
        2
    } else {
        match std::panic::catch_unwind(|| pg::find_quad_max_curvature(&p)) {
            Ok(t) => {
                out.number(0);
                return out.computed(&[t.get()]);
            }
            Err(_) => 5,
        }
    };
    out.number(refused);
    out.untouched(0, 1);
}
