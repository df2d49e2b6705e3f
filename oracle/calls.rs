// Every exported call beside the original's, but for dates and journals, which it does not have: how an input is made, what the
// library gives, and what it has to give. Where the original would panic or has no such input, the numbers of docs/RULES.md
// stand here.
use crate::flags;
use crate::inputs::Inputs;
use crate::inverse::inverse;
use crate::of_conics::*;
use crate::of_curves::*;
use crate::of_transforms::*;
use crate::outputs::{buffer, Output};
use original::path_geometry as pg;
use original::{Point, Transform};

include!("../include/nyerdzumak.rs");

// The level is a ceiling where a level is chosen.
#[derive(Clone)]
pub struct Case {
    pub f: [f32; 12],
    pub x: f64,
    pub len: [usize; 2],
    pub level: u32,
}

impl Case {
    pub fn lent(&self, k: usize) -> u64 {
        self.len[k] as u64
    }
}

pub struct Call {
    pub name: &'static str,
    pub share: usize,
    pub listed: usize,
    pub make: fn(&mut Inputs, &mut Case),
    pub ours: fn(&Case, &mut Output),
    pub theirs: fn(&Case, &mut Output),
}

pub fn points<const N: usize>(xs: &[f32]) -> [Point; N] {
    std::array::from_fn(|k| Point::from_xy(xs[2 * k], xs[2 * k + 1]))
}

pub fn numbers(p: Point) -> [f32; 2] {
    [p.x, p.y]
}

pub fn values(i: &mut Inputs, c: &mut Case) {
    i.begin();
    for x in c.f.iter_mut() {
        *x = i.value();
    }
}

pub fn one_double(i: &mut Inputs, c: &mut Case) {
    c.x = i.double();
}

pub const CALLS: &[Call] = &[
    Call { name: "is_finite_f32, abs_f32, widen, sqrt_f32", share: 4, listed: 1500, make: values, ours: |c, o| unsafe {
        o.flag(nz_is_finite_f32(c.f[0]));
        o.computed(&[nz_abs_f32(c.f[0])]);
        o.double(nz_widen(c.f[0]));
        o.computed(&[nz_sqrt_f32(c.f[0])]);
    }, theirs: |c, o| {
        o.flag(c.f[0].is_finite());
        o.computed(&[c.f[0].abs()]);
        o.double(c.f[0] as f64);
        o.computed(&[c.f[0].sqrt()]);
    } },
    Call { name: "is_finite_f64, narrow, narrow_told, sqrt_f64", share: 4, listed: 1500, make: one_double, ours: |c, o| unsafe {
        o.flag(nz_is_finite_f64(c.x));
        o.computed(&[nz_narrow(c.x)]);
        let mut loss = 77;
        o.computed(&[nz_narrow_told(c.x, &mut loss)]);
        o.number(loss);
        o.double(nz_sqrt_f64(c.x));
    }, theirs: |c, o| {
        o.flag(c.x.is_finite());
        o.computed(&[c.x as f32, c.x as f32]);
        o.number(flags::loss(c.x));
        o.double(c.x.sqrt());
    } },
    Call { name: "point_is_finite, between_product, between_exact", share: 4, listed: 1500, make: values, ours: |c, o| unsafe {
        o.flag(nz_point_is_finite(c.f[0], c.f[1]));
        o.flag(nz_between_product(c.f[0], c.f[1], c.f[2]));
        o.flag(nz_between_exact(c.f[0], c.f[1], c.f[2]));
    }, theirs: |c, o| {
        o.flag(Point::from_xy(c.f[0], c.f[1]).is_finite());
        o.flag(pg::between(c.f[0], c.f[1], c.f[2]));
        o.flag(exact::path_geometry::between(c.f[0], c.f[1], c.f[2]));
    } },
    Call { name: "valid_unit_divide", share: 4, listed: 1500, make: values,
        ours: |c, o| root(c, o, |c, r| unsafe { nz_valid_unit_divide(c.f[0], c.f[1], r) }),
        theirs: |c, o| found_one(o, pg::valid_unit_divide(c.f[0], c.f[1])) },
    Call { name: "find_unit_quad_roots", share: 6, listed: 1500, make: values,
        ours: |c, o| roots(c, o, |c, r| unsafe { nz_find_unit_quad_roots(c.f[0], c.f[1], c.f[2], r) }),
        theirs: |c, o| {
            let mut ts = pg::new_t_values();
            let n = pg::find_unit_quad_roots(c.f[0], c.f[1], c.f[2], &mut ts);
            found(o, &ts[..n], 2);
        } },
    Call { name: "find_quad_extrema", share: 3, listed: 1500, make: values,
        ours: |c, o| root(c, o, |c, r| unsafe { nz_find_quad_extrema(c.f[0], c.f[1], c.f[2], r) }),
        theirs: |c, o| found_one(o, pg::find_quad_extrema(c.f[0], c.f[1], c.f[2])) },
    Call { name: "find_cubic_extrema", share: 4, listed: 1500, make: values,
        ours: |c, o| roots(c, o, |c, r| unsafe { nz_find_cubic_extrema(c.f[0], c.f[1], c.f[2], c.f[3], r) }),
        theirs: |c, o| {
            let mut ts = pg::new_t_values();
            let n = pg::find_cubic_extrema(c.f[0], c.f[1], c.f[2], c.f[3], &mut ts);
            found(o, &ts[..n], 2);
        } },
    Call { name: "find_cubic_inflections", share: 4, listed: 1500, make: cubic,
        ours: inflections,
        theirs: |c, o| {
            if c.len[0] < 8 {
                o.number(2);
                o.number(77);
                return o.untouched(0, 2);
            }
            let mut ts = pg::new_t_values();
            let ts = pg::find_cubic_inflections(&points(&c.f), &mut ts);
            o.number(0);
            found(o, ts, 2);
        } },
    Call { name: "eval_quad_at", share: 4, listed: 1500, make: quad, ours: |c, o| evaluated(c, o, nz_eval_quad_at),
        theirs: |c, o| evaluation(c, o, 6, |t| pg::eval_quad_at(&points(&c.f), t)) },
    Call { name: "eval_quad_tangent_at", share: 4, listed: 1500, make: quad, ours: |c, o| evaluated(c, o, nz_eval_quad_tangent_at),
        theirs: |c, o| evaluation(c, o, 6, |t| pg::eval_quad_tangent_at(&points(&c.f), t)) },
    Call { name: "eval_cubic_pos_at", share: 4, listed: 1500, make: cubic, ours: |c, o| evaluated(c, o, nz_eval_cubic_pos_at),
        theirs: |c, o| evaluation(c, o, 8, |t| pg::eval_cubic_pos_at(&points(&c.f), t)) },
    Call { name: "eval_cubic_tangent_at", share: 4, listed: 1500, make: cubic, ours: |c, o| evaluated(c, o, nz_eval_cubic_tangent_at),
        theirs: |c, o| evaluation(c, o, 8, |t| pg::eval_cubic_tangent_at(&points(&c.f), t)) },
    Call { name: "chop_quad_at", share: 4, listed: 1500, make: quad, ours: |c, o| chopped(c, o, nz_chop_quad_at),
        theirs: |c, o| chop::<5>(c, o, 6, |t, dst| pg::chop_quad_at(&points::<3>(&c.f), t, dst)) },
    Call { name: "chop_cubic_at2", share: 4, listed: 1500, make: cubic, ours: |c, o| chopped(c, o, nz_chop_cubic_at2),
        theirs: |c, o| chop::<7>(c, o, 8, |t, dst| pg::chop_cubic_at2(&points::<4>(&c.f), t, dst)) },
    Call { name: "find_quad_max_curvature", share: 2, listed: 1500, make: quad, ours: |c, o| {
        let mut t = buffer::<1>();
        o.number(unsafe { nz_find_quad_max_curvature(c.f.as_ptr(), c.lent(0), &mut t[0]) });
        o.computed(&t);
    }, theirs: curvature },
    Call { name: "conic_chop", share: 4, listed: 1500, make: conic, ours: |c, o| {
        let mut h = buffer::<14>();
        o.number(unsafe { nz_conic_chop(c.f.as_ptr(), c.lent(0), c.f[6], &mut h) });
        o.computed(&h);
    }, theirs: halves },
    Call { name: "conic_compute_quad_pow2", share: 5, listed: 7000, make: conic_and_ceiling, ours: |c, o| {
        let mut n = 77;
        o.number(unsafe { nz_conic_compute_quad_pow2(c.f.as_ptr(), c.lent(0), c.f[6], c.f[7], c.level, &mut n) });
        o.number(n);
    }, theirs: level },
    Call { name: "conic_chop_into_quads_pow2", share: 8, listed: 8500, make: conic, ours: |c, o| cut(c, o, nz_conic_chop_into_quads_pow2), theirs: by_product },
    Call { name: "cut_in_order", share: 8, listed: 8500, make: conic, ours: |c, o| cut(c, o, nz_cut_in_order), theirs: by_exact },
    Call { name: "auto_conic_to_quads", share: 4, listed: 6500, make: conic, ours: |c, o| {
        let (mut p, mut n) = (buffer::<128>(), 77);
        o.number(unsafe { nz_auto_conic_to_quads(c.f.as_ptr(), c.lent(0), c.f[6], &mut p, &mut n) });
        o.number(n as u32);
        o.computed(&p);
    }, theirs: automatic },
    Call { name: "transform: the ten kinds and get_scale", share: 4, listed: 5500, make: matrices, ours: kinds, theirs: their_kinds },
    Call { name: "transform: identity, from_translate, from_scale, from_skew", share: 1, listed: 1500, make: values, ours: |c, o| unsafe {
        given(o, |m| nz_transform_identity(m));
        given(o, |m| nz_transform_from_translate(c.f[0], c.f[1], m));
        given(o, |m| nz_transform_from_scale(c.f[0], c.f[1], m));
        given(o, |m| nz_transform_from_skew(c.f[0], c.f[1], m));
    }, theirs: |c, o| {
        row(o, Transform::identity(), true);
        row(o, Transform::from_translate(c.f[0], c.f[1]), true);
        row(o, Transform::from_scale(c.f[0], c.f[1]), true);
        row(o, Transform::from_skew(c.f[0], c.f[1]), true);
    } },
    Call { name: "transform: pre_concat and post_concat", share: 5, listed: 5500, make: matrices, ours: |c, o| unsafe {
        void(o, first(c), |a, m, rounded| nz_transform_pre_concat(a, second(c), m, rounded));
        void(o, first(c), |a, m, rounded| nz_transform_post_concat(a, second(c), m, rounded));
    }, theirs: |c, o| {
        let (a, b) = (matrix(&c.f), matrix(&c.f[6..]));
        product(o, a.pre_concat(b), a, b);
        product(o, a.post_concat(b), b, a);
    } },
    Call { name: "transform: pre_scale, post_scale, pre_translate, post_translate", share: 4, listed: 1500, make: matrices, ours: |c, o| unsafe {
        let (x, y) = (c.f[6], c.f[7]);
        void(o, first(c), |a, m, rounded| nz_transform_pre_scale(a, x, y, m, rounded));
        void(o, first(c), |a, m, rounded| nz_transform_post_scale(a, x, y, m, rounded));
        void(o, first(c), |a, m, rounded| nz_transform_pre_translate(a, x, y, m, rounded));
        void(o, first(c), |a, m, rounded| nz_transform_post_translate(a, x, y, m, rounded));
    }, theirs: |c, o| {
        let (t, x, y) = (matrix(&c.f), c.f[6], c.f[7]);
        let (scale, translate) = (Transform::from_scale(x, y), Transform::from_translate(x, y));
        product(o, t.pre_scale(x, y), t, scale);
        product(o, t.post_scale(x, y), scale, t);
        product(o, t.pre_translate(x, y), t, translate);
        product(o, t.post_translate(x, y), translate, t);
    } },
    Call { name: "transform: invert", share: 5, listed: 5500, make: matrices, ours: |c, o| {
        let number = changed(o, first(c), |a, m, rounded| unsafe { nz_transform_invert(a, m, rounded) });
        o.number(number);
    }, theirs: |c, o| {
        let t = matrix(&c.f);
        match inverse(&t) {
            Ok(r) => {
                row(o, r, t.is_identity());
                o.flag(flags::some_lost(flags::of_inverse(&t)));
                o.number(0);
            }
            Err(number) => {
                o.untouched(0, 6);
                o.flag(FLAG_STOOD);
                o.number(number);
            }
        }
    } },
    Call { name: "transform: map_point", share: 4, listed: 1500, make: matrices, ours: |c, o| {
        let mut p = [c.f[6], c.f[7]];
        unsafe { nz_transform_map_point(first(c), &mut p) };
        o.computed(&p);
    }, theirs: |c, o| {
        let (t, mut p) = (matrix(&c.f), Point::from_xy(c.f[6], c.f[7]));
        t.map_point(&mut p);
        if t.is_identity() { o.copied(&numbers(p)) } else { o.computed(&numbers(p)) }
    } },
    Call { name: "transform: map_numbers", share: 5, listed: 9000, make: matrices, ours: mapped, theirs: their_mapped },
    Call { name: "cut_in_order_both", share: 8, listed: 3000, make: conic_of_axes, ours: |c, o| cut(c, o, nz_cut_in_order_both), theirs: by_both_axes },
];
