// Transforms: how an input is made, what the library leaves, and what the original does.
use crate::calls::*;
use crate::flags;
use crate::inputs::Inputs;
use crate::inverse::entries;
use crate::outputs::{buffer, Output};
use original::{Point, Transform};

pub fn matrices(i: &mut Inputs, c: &mut Case) {
    i.begin();
    c.f[..6].copy_from_slice(&i.matrix());
    if i.chance(2) {
        let m = i.matrix();
        c.f[6..].copy_from_slice(&m);
    } else {
        for x in c.f[6..].iter_mut() {
            *x = i.value();
        }
    }
    c.len[0] = i.below(7) as usize;
}

pub fn first(c: &Case) -> &[f32; 6] {
    c.f[..6].try_into().unwrap()
}

pub fn second(c: &Case) -> &[f32; 6] {
    c.f[6..].try_into().unwrap()
}

pub fn matrix(m: &[f32]) -> Transform {
    Transform::from_row(m[0], m[1], m[2], m[3], m[4], m[5])
}

// What a call leaves that gives a matrix.
pub fn given(out: &mut Output, call: impl Fn(*mut [f32; 6])) {
    let mut m = buffer::<6>();
    call(&mut m);
    out.computed(&m);
}

// What stands in a lent flag before a call, and before the same call in place: both contents are tried.
pub const FLAG_STOOD: bool = true;
const FLAG_STOOD_IN_PLACE: bool = false;

// The same of a call that is lent a matrix, with the flag behind the numbers: the library may be given one array for both, and
// must leave the same. The flag is lent as a byte, so that one that is no bool is seen.
pub fn changed(out: &mut Output, from: &[f32; 6], call: impl Fn(*const [f32; 6], *mut [f32; 6], *mut bool) -> u32) -> u32 {
    let (mut m, mut flag) = (buffer::<6>(), FLAG_STOOD as u8);
    let number = call(from, &mut m, (&raw mut flag).cast());
    let (mut same, mut same_flag) = (*from, FLAG_STOOD_IN_PLACE as u8);
    let place: *mut [f32; 6] = &mut same;
    let again = call(place, place, (&raw mut same_flag).cast());
    let expected = if number == 0 { (m, flag) } else { (*from, FLAG_STOOD_IN_PLACE as u8) };
    if again != number || same.map(f32::to_bits) != expected.0.map(f32::to_bits) || same_flag != expected.1 {
        out.number(u32::MAX); // in place it is something else: the judge has no such word
    }
    out.computed(&m);
    out.number(flag as u32);
    number
}

// The same of a call that cannot refuse.
pub fn void(out: &mut Output, from: &[f32; 6], call: impl Fn(*const [f32; 6], *mut [f32; 6], *mut bool)) {
    changed(out, from, |a, m, rounded| {
        call(a, m, rounded);
        0
    });
}

pub fn row(out: &mut Output, t: Transform, copied: bool) {
    let m = entries(&t);
    if copied { out.copied(&m) } else { out.computed(&m) }
}

// The original's product, which does b first and then a, and the flag. Where one does nothing, the other is copied.
pub fn product(out: &mut Output, t: Transform, a: Transform, b: Transform) {
    row(out, t, a.is_identity() || b.is_identity());
    out.flag(flags::some_lost(flags::of_product(&a, &b)));
}

pub fn kinds(c: &Case, out: &mut Output) {
    let m = first(c);
    unsafe {
        for k in [
            nz_transform_is_finite, nz_transform_is_valid, nz_transform_is_identity, nz_transform_is_scale, nz_transform_is_skew,
            nz_transform_is_translate, nz_transform_is_scale_translate, nz_transform_has_scale, nz_transform_has_skew, nz_transform_has_translate,
        ] {
            out.flag(k(m));
        }
        let mut scale = buffer::<2>();
        nz_transform_get_scale(m, &mut scale);
        out.computed(&scale);
    }
}

pub fn their_kinds(c: &Case, out: &mut Output) {
    let t = matrix(&c.f);
    for b in [
        t.is_finite(), t.is_valid(), t.is_identity(), t.is_scale(), t.is_skew(), t.is_translate(), t.is_scale_translate(), t.has_scale(), t.has_skew(),
        t.has_translate(),
    ] {
        out.flag(b);
    }
    let (x, y) = t.get_scale();
    out.computed(&[x, y]);
}

pub fn mapped(c: &Case, out: &mut Output) {
    let mut numbers = buffer::<8>();
    numbers[..c.len[0]].copy_from_slice(&c.f[6..6 + c.len[0]]);
    out.number(unsafe { nz_transform_map_numbers(first(c), numbers.as_mut_ptr(), c.lent(0)) });
    out.computed(&numbers);
}

pub fn their_mapped(c: &Case, out: &mut Output) {
    let (t, n) = (matrix(&c.f), c.len[0]);
    if n % 2 == 1 {
        out.number(9);
        out.copied(&c.f[6..6 + n]);
    } else {
        let mut p: Vec<Point> = c.f[6..6 + n].chunks(2).map(|p| Point::from_xy(p[0], p[1])).collect();
        t.map_points(&mut p);
        out.number(0);
        for p in p {
            if t.is_identity() { out.copied(&numbers(p)) } else { out.computed(&numbers(p)) }
        }
    }
    out.untouched(n, 8);
}
