// Conics: how an input is made, what the library leaves, and what the original does.
use crate::calls::*;
use crate::inputs::Inputs;
use crate::outputs::{buffer, Output};
use original::path_geometry::{AutoConicToQuads, Conic};

// The highest level of a cut.
pub const HIGHEST: u32 = 6;

// The ceilings of a level choice: the original's own, and the highest level of a cut.
pub const CEILINGS: [u32; 2] = [4, HIGHEST];

// The buffer of a cut: room for the first level that is refused, and some places more.
pub const LENT: usize = room(HIGHEST + 1) + 6;

pub fn conic(i: &mut Inputs, c: &mut Case) {
    i.begin();
    c.f[..6].copy_from_slice(&i.conic());
    c.f[6] = i.weight();
    c.f[7] = i.tolerance();
    c.level = match i.below(60) {
        0 => HIGHEST + 1,
        1 => u32::MAX,
        2 => i.next() as u32 >> i.below(32),
        _ => i.below(HIGHEST as u64 + 1) as u32,
    };
    c.len = [i.length(6).min(11), i.length(room(c.level.min(HIGHEST + 1)))];
}

// The same, with a ceiling in the place of the level: mostly one of the two that there are.
pub fn conic_and_ceiling(i: &mut Inputs, c: &mut Case) {
    conic(i, c);
    c.level = match i.below(16) {
        0 => i.below(9) as u32,
        1 => i.next() as u32 >> i.below(32),
        n => CEILINGS[n as usize % 2],
    };
}

// The same, most of them with room; and each axis for itself is put in order or out of it, so that the axes differ often.
pub fn conic_of_axes(i: &mut Inputs, c: &mut Case) {
    conic(i, c);
    if !i.chance(6) {
        c.level = c.level.min(HIGHEST);
        c.len = [6, room(c.level)];
    }
    for k in 0..2 {
        [c.f[k], c.f[k + 2], c.f[k + 4]] = i.axis([c.f[k], c.f[k + 2], c.f[k + 4]]);
    }
}

pub const fn room(level: u32) -> usize {
    2 * (2 * (1 << level) + 1)
}

pub fn cut(c: &Case, out: &mut Output, call: unsafe extern "C" fn(*const f32, u64, f32, u32, *mut f32, u64) -> u32) {
    let mut buf = buffer::<LENT>();
    out.number(unsafe { call(c.f.as_ptr(), c.lent(0), c.f[6], c.level, buf.as_mut_ptr(), c.lent(1)) });
    out.computed(&buf);
}

// What a cut has to leave: the refusal that comes first, or the points that `made` writes, and the tail as it stood.
pub fn judged(c: &Case, out: &mut Output, made: impl Fn(&mut [f32; room(HIGHEST)])) {
    let refused = match c.level {
        0..=HIGHEST if c.len[0] < 6 || c.len[1] < room(c.level) => 2,
        0..=HIGHEST => {
            let mut all = [0.0; room(HIGHEST)];
            made(&mut all);
            let end = room(c.level);
            out.number(0);
            out.copied(&all[..2]);
            // pinned points are copies of the middle one, or else computed
            let middle = [c.f[2].to_bits(), c.f[3].to_bits()];
            let copies = all[2..end - 2].chunks(2).all(|p| [p[0].to_bits(), p[1].to_bits()] == middle);
            if copies { out.copied(&all[2..end - 2]) } else { out.computed(&all[2..end - 2]) }
            out.copied(&all[end - 2..end]);
            return out.untouched(end, LENT);
        }
        _ => 1,
    };
    out.number(refused);
    out.untouched(0, LENT);
}

// A cut by the judge of one rule. The judges are crates of their own, whose points are types of their own.
macro_rules! judge {
    ($name:ident, $judge:ident) => {
        pub fn $name(c: &Case, out: &mut Output) {
            judged(c, out, |all| {
                let at = |k: usize| $judge::Point::from_xy(c.f[2 * k], c.f[2 * k + 1]);
                let mut made = [$judge::Point::zero(); room(HIGHEST) / 2];
                $judge::path_geometry::Conic::new(at(0), at(1), at(2), c.f[6]).chop_into_quads_pow2(c.level as u8, &mut made);
                for (k, p) in made.iter().enumerate() {
                    all[2 * k..2 * k + 2].copy_from_slice(&[p.x, p.y]);
                }
            });
        }
    };
}

judge!(by_product, original);
judge!(by_exact, exact);
judge!(by_both_axes, both);

// What the original's level choice gives, by its own ceiling, and what it gives with 6 in the place of that.
macro_rules! chosen {
    ($judge:ident, $c:ident) => {{
        let at = |k: usize| $judge::Point::from_xy($c.f[2 * k], $c.f[2 * k + 1]);
        $judge::path_geometry::Conic::new(at(0), at(1), at(2), $c.f[6]).compute_quad_pow2($c.f[7])
    }};
}

pub fn level(c: &Case, out: &mut Output) {
    let t = c.f[7];
    let chosen = match CEILINGS.iter().position(|n| *n == c.level) {
        Some(0) => Some(chosen!(original, c)),
        Some(_) => Some(chosen!(six, c)),
        None => None,
    };
    let refused = match chosen {
        None => 1,
        _ if t < 0.0 || !t.is_finite() => 4,
        _ if c.len[0] < 6 => 2,
        Some(Some(n)) => {
            out.number(0);
            return out.number(n as u32);
        }
        Some(None) => 3,
    };
    out.number(refused);
    out.number(77);
}

pub fn halves(c: &Case, out: &mut Output) {
    if c.len[0] < 6 {
        out.number(2);
        return out.untouched(0, 14);
    }
    let p = points::<3>(&c.f);
    let (a, b) = Conic::new(p[0], p[1], p[2], c.f[6]).chop();
    out.number(0);
    for (h, end) in [(a, 0), (b, 2)] {
        for (k, p) in h.points.iter().enumerate() {
            if k == end { out.copied(&numbers(*p)) } else { out.computed(&numbers(*p)) }
        }
        out.computed(&[h.weight]);
    }
}

pub fn automatic(c: &Case, out: &mut Output) {
    let p = points::<3>(&c.f);
    let refused = if c.len[0] < 6 {
        2
    } else if let Some(a) = AutoConicToQuads::compute(p[0], p[1], p[2], c.f[6]) {
        out.number(0);
        out.number(a.len as u32);
        let last = 2 * a.len as usize;
        for (k, p) in a.points.iter().enumerate() {
            if k == 0 || k >= last { out.copied(&numbers(*p)) } else { out.computed(&numbers(*p)) }
        }
        return;
    } else {
        3
    };
    out.number(refused);
    out.number(77);
    out.untouched(0, 128);
}
